// The files that were dropped together: a list, of which one is shown.

let listed = [];

const OUTCOMES = { whole: "a whole gob stream", refused: "refused", stopped: "stopped", failed: "can't be read" };

/** Lists the files where they are several, and shows the first. */
function showFiles(files) {
    if (files.length === 0) return;
    listed = files;
    $("list").replaceChildren(...files.map(fileEntry));
    $("files").hidden = files.length === 1;
    show(files[0]);
}

function fileEntry(file) {
    const button = make("button", "", unquoted(file.name));
    button.type = "button";
    button.addEventListener("click", () => show(file));
    return make("li", "", button, " ", make("span", "note", sized(file.size)));
}

/** Says beside a file of the list what it is, and that it is the one that is shown. */
function markFile(file, state) {
    const place = listed.indexOf(file);
    for (const other of $("list").querySelectorAll("[aria-current]")) other.removeAttribute("aria-current");
    const entry = $("list").children[place];
    if (entry === undefined) return;
    entry.querySelector("button").setAttribute("aria-current", "true");
    entry.querySelector(".note").textContent = `${sized(file.size)}, ${OUTCOMES[state] ?? state}`;
}
