// What is found in the file that is shown: the values that have a text, a value, an item, or the item around a byte.

function listenToSearch() {
    $("finder").addEventListener("submit", (event) => {
        event.preventDefault();
        if ($("text").value !== "") find($("text").value, 0);
    });
    $("jumper").addEventListener("submit", (event) => {
        event.preventDefault();
        jump($("unit").value, $("place").value);
    });
}

/** Shows what a call finds, unless another file is shown by then. */
async function showFound(what, call, words, made) {
    const mine = turn, { told } = shown;
    try {
        const found = await working(what, told.end, call, ...words);
        if (mine === turn) $("found").replaceChildren(...made(found, told));
    } catch (error) {
        if (mine === turn) $("found").replaceChildren(make("p", "note", `Not found: ${error.message}`));
    }
}

/** Finds the values from one on that have the text. */
function find(text, first) {
    return showFound(`Looking for ${quoted(text)}`, "find", [text, first], ({ found, next }, told) => {
        const list = make("ul", "", ...found.map((some) => valueEntry(some, told.all)));
        const more = next === null ? "" : ", and more may follow";
        const said = make("p", "note", `${counted(found.length, "value")} with ${quoted(text)}${more}.`);
        return next === null ? [said, list] : [said, list, goOn(text, next)];
    });
}

function goOn(text, next) {
    const button = make("button", "", `Look on from #${grouped.format(next)}`);
    button.type = "button";
    button.addEventListener("click", () => find(text, next));
    return button;
}

/** Goes to a value or an item by its number, from 0, or to the item around a byte. */
function jump(unit, text) {
    const number = Number(text.replace(/[#,\s]/g, "")), { told } = shown;
    const most = { value: told.values, item: told.items, byte: told.end }[unit];
    if (text.trim() === "" || !Number.isInteger(number) || number < 0 || number >= most) {
        const all = most === 0 ? "there is none" : `there are 0 to ${grouped.format(most - 1)}`;
        return void $("found").replaceChildren(make("p", "note", `No such ${unit}: ${all}.`));
    }
    if (unit !== "value") return showFound("Going there", "item", [unit, number], itemText);
    return showFound("Going there", "some", [number, 1], ([some], { all }) => [openEntry(valueEntry(some, all))]);
}

function itemText(item, told) {
    if (item === null) return [make("p", "note", "This byte is behind the items that were read.")];
    const what = item.defined === undefined ? "a value" : `the definition of type ${item.defined}`;
    const name = item.defined === undefined ? "" : `, ${goName(item.defined, told.all)}`;
    const where = `Item ${grouped.format(item.item)} has the bytes ${item.begin} to ${item.end - 1}`;
    const said = make("p", "note", `${where}: ${what}${name}.`);
    const rows = byteRows({ ...item, seen: item.place + 1 });
    return item.defined === undefined ? [said, rows, openEntry(valueEntry(item, told.all))] : [said, rows];
}

/** The entry alone in a list, open where it opens. */
function openEntry(entry) {
    entry.querySelector("details")?.setAttribute("open", "");
    return make("ul", "", entry);
}
