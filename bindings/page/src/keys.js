// Keys: the arrows walk the lines of a tree, and `/` leads to the search.

function listenToKeys() {
    for (const id of ["tree", "found"]) $(id).addEventListener("keydown", walkTree);
    document.addEventListener("keydown", (event) => {
        const isTyped = event.target.matches?.("input, select, textarea");
        if (event.key !== "/" || isTyped || hasModifier(event) || $("values").hidden) return;
        event.preventDefault();
        $("text").focus();
    });
}

const hasModifier = ({ altKey, ctrlKey, metaKey }) => altKey || ctrlKey || metaKey;

function walkTree(event) {
    const line = event.target;
    if (hasModifier(event) || !line.matches("summary, .leaf")) return;
    const step = { ArrowDown: 1, ArrowUp: -1 }[event.key];
    const details = line.matches("summary") ? line.parentElement : null;
    if (step !== undefined) focusBeside(event.currentTarget, line, step);
    else if (event.key === "ArrowRight" && details !== null && !details.open) details.open = true;
    else if (event.key === "ArrowRight" && details !== null) focusBeside(event.currentTarget, line, 1);
    else if (event.key === "ArrowLeft" && details?.open) details.open = false;
    else if (event.key === "ArrowLeft") (details ?? line).parentElement.closest("details")?.firstChild.focus();
    else return;
    event.preventDefault();
}

function focusBeside(tree, line, step) {
    const lines = [...tree.querySelectorAll("summary, .leaf")].filter(isSeen);
    lines[lines.indexOf(line) + step]?.focus();
}

/** Whether all that a line stands in is open. */
function isSeen(line) {
    const outer = line.matches("summary") ? line.parentElement.parentElement : line.parentElement;
    return outer.closest("details:not([open])") === null;
}
