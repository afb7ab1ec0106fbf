// The page: a file is dropped or chosen, and what is in it is shown.

const EXAMPLES = [];

const $ = (id) => document.getElementById(id);
const bytesOf = (base64) => Uint8Array.from(atob(base64), (character) => character.charCodeAt(0));
const scriptOf = (id) => $(id).textContent;

/** The reading of streams: in a worker, so that the page stays alive, or where there can be none in the page itself. */
class Readings {
    constructor() {
        this.calls = new Map();
        this.number = 0;
    }

    async start() {
        try {
            await this.startWorker();
        } catch {
            const server = new Server((message) => this.hear(message));
            this.post = (message) => server.answer(message);
            await this.call("load", bytesOf(scriptOf("module")));
        }
    }

    async startWorker() {
        const script = new Blob([scriptOf("shared"), "\nserve();\n"], { type: "text/javascript" });
        const worker = new Worker(URL.createObjectURL(script));
        worker.onmessage = ({ data }) => this.hear(data);
        worker.onerror = () => this.fail("the worker ended");
        this.post = (message) => worker.postMessage(message);
        await this.call("load", bytesOf(scriptOf("module")));
    }

    fail(error) {
        for (const call of this.calls.values()) call.reject(new Error(error));
        this.calls.clear();
    }

    hear({ number, progress, result, error }) {
        const call = this.calls.get(number);
        if (call === undefined) return;
        if (progress !== undefined) return void call.progress(progress);
        this.calls.delete(number);
        if (error === undefined) call.resolve(result);
        else call.reject(new Error(error));
    }

    call(call, ...words) {
        return this.follow(() => {}, call, ...words);
    }

    /** Calls, and hears how far it is. */
    follow(progress, call, ...words) {
        const number = ++this.number;
        return new Promise((resolve, reject) => {
            this.calls.set(number, { progress, resolve, reject });
            this.post({ number, call, words });
        });
    }
}

const readings = new Readings();
let known = null; // what knows opaque values, once the page is ready
const ready = Promise.all([readings.start(), knowing()]);
let shown = { file: null, told: null };
let turn = 0;

async function knowing() {
    known = await Known.open(await WebAssembly.compile(bytesOf(scriptOf("module"))));
}

const setState = (state) => void (document.body.dataset.state = state);

/** Shows what is in a file. */
async function show(file) {
    const mine = ++turn;
    setState("reading");
    clear();
    try {
        await ready;
        const told = await working(`Reading ${unquoted(file.name)}`, file.size, "read", file);
        if (mine === turn) showTold(file, told);
    } catch (error) {
        if (mine === turn) showFailure(error);
    }
    if (mine === turn) markFile(file, document.body.dataset.state);
}

/** Calls while the progress is shown. */
async function working(what, size, call, ...words) {
    const mine = turn;
    const progress = (at) => mine === turn && showProgress(what, size, at);
    const wait = setTimeout(() => progress(0), 200);
    try {
        return await readings.follow(progress, call, ...words);
    } finally {
        clearTimeout(wait);
        if (mine === turn) $("progress").hidden = true;
    }
}

function showProgress(what, size, at) {
    $("progress").hidden = false;
    $("bar").max = size;
    $("bar").value = at;
    $("far").textContent = `${what}: ${sized(at)} of ${sized(size)}`;
}

function clear() {
    for (const id of ["progress", "refusal", "saving", "types", "values"]) $(id).hidden = true;
    $("outcome").removeAttribute("class"); // it is never hidden, so that what it says is read out
    for (const id of ["said", "why", "source", "saved", "found", "tree"]) $(id).replaceChildren();
}

function showTold(file, told) {
    shown = { file, told };
    document.title = `${unquoted(file.name)} - what is in it`;
    showOutcome(file.name, told);
    if (told.status === REFUSED) showRefusal(told.refusal);
    if (told.types.size > 0) showTypes(told);
    if (told.items > 0) showValues(told);
    offerSaving(told);
    setState(["whole", "refused", "failed"][told.status] ?? told.status);
}

function showOutcome(name, told) {
    const held = `${counted(told.values, "value")}, ${counted(told.types.size, "type")}`;
    const before = told.items === 0 ? "Nothing stands before that." : `${held} before that.`;
    const [kind, head, text] = {
        [OK]: ["whole", "A whole gob stream", told.size > 0 ? `${held}, ${sized(told.size)}.` : "The file is empty."],
        [REFUSED]: ["refused", `Refused at byte ${grouped.format(told.refusal?.place ?? 0)}`,
            `${told.refusal?.what} ${before}`],
        [NO_MEMORY]: ["refused", "An item is too large for a page",
            `The browser has no memory for it. The program gob reads it. ${before}`],
        [STOPPED]: ["stopped", `Stopped at ${sized(told.end)} of ${sized(told.size)}`, `${held} so far.`],
    }[told.status];
    $("outcome").className = kind;
    $("said").append(make("strong", "", head), make("span", "file", unquoted(name)), make("span", "", text));
}

function showFailure(error) {
    $("outcome").className = "refused";
    $("said").append(make("strong", "", "This can't be read"), make("span", "", error.message));
    setState("failed");
}

/** Why the bytes are refused: where, what is due there and what stands there, what is behind it, and what to do. */
function showRefusal(refusal) {
    const { said, place, line, isFirst } = refusal;
    const parts = said === null ? { where: `byte ${place}` } : partsOf(said);
    const rows = [
        ["Where", parts.where],
        ["Expected", parts.expected],
        ["Found", parts.found],
        ["Cause", parts.cause],
        ["What to do", said === null ? "The program gob says more of a file so large." : stepOf(parts, isFirst)],
        ["The program says", make("code", "", line)],
    ];
    const list = make("dl");
    for (const [term, text] of rows) {
        if (text !== undefined) list.append(make("dt", "", term), make("dd", "", text));
    }
    $("why").append(list, byteRows(refusal), make("p", "note", marksText(refusal)));
    $("refusal").hidden = false;
}

function marksText({ bytes, from, place, seen }) {
    if (place >= from + bytes.length) return "Nothing follows, and that is refused.";
    const first = `The refused byte is ${HEX[bytes[place - from]]}, at ${place}.`;
    return seen > place + 1 ? `${first} It takes the marked bytes up to ${seen - 1} to show it.` : first;
}

function showTypes(told) {
    $("source").textContent = told.source ?? "The browser has no memory for them.";
    $("types").hidden = false;
}

function showValues(told) {
    $("values-head").textContent = counted(told.values, "value");
    const mine = turn;
    const some = async (first) => {
        const list = make("ul");
        const found = await readings.call("some", first, Math.min(SOME, told.values - first));
        if (mine !== turn) return list;
        for (const some of found) list.append(valueEntry(some, told.all));
        return list;
    };
    $("values").hidden = false;
    Promise.resolve(told.values === 0 ? make("p", "note", "Only types are defined.") : ranges(told.values, some))
        .then((list) => mine === turn && showTree(list));
}

/** A value that was read, as an entry of a list; `path` says where in it something was found. */
function valueEntry({ value, id, heads, nodes, pool, path = "" }, types) {
    const part = partAt(new Batch(heads, nodes, pool), 0, id, types);
    return partEntry(`#${grouped.format(value)}${path && ` at ${path}`}`, part);
}

/** Shows the tree; the first of a few values is open at once. */
function showTree(list) {
    $("tree").append(list);
    if (list.children.length <= 5) list.querySelector("details")?.setAttribute("open", "");
}

/** The lines of all items, as `gob show --go` or `gob values` prints them. */
async function linesOf(kind) {
    return working("Writing lines", shown.told.end, "lines", kind);
}

// what can be saved: its words, and how the file's name ends
const SAVED = {
    values: ["the values, as plain JSON", ".values.jsonl"],
    show: ["all items, as exact JSON lines", ".jsonl"],
    types: ["the types, as Go source", ".go"],
    before: ["the whole items before the refused one, as a gob file", ".before.gob"],
    rest: ["the rest, from the refused item on", ".rest.gob"],
};

/** Offers to save what there is. */
function offerSaving({ values, items, types, source, refusal }) {
    const isCut = refusal?.begin > 0;
    const has = { values: values > 0, show: items > 0, types: source !== null && types.size > 0, before: isCut, rest: isCut };
    const kinds = Object.keys(SAVED).filter((kind) => has[kind]);
    $("kind").replaceChildren(...kinds.map((kind) => new Option(SAVED[kind][0], kind)));
    $("saving").hidden = kinds.length === 0;
}

async function save(kind) {
    $("saved").textContent = "";
    try {
        const { name } = shown.file;
        download(await blobOf(kind), name + SAVED[kind][1]);
    } catch (error) {
        $("saved").textContent = `Not saved: ${error.message}`;
    }
}

async function blobOf(kind) {
    const { file, told } = shown;
    switch (kind) {
    case "types": return new Blob([told.source]);
    case "before": return file.slice(0, told.refusal.begin);
    case "rest": return file.slice(told.refusal.begin);
    default: return linesOf(kind);
    }
}

function download(blob, name) {
    const link = make("a");
    link.href = URL.createObjectURL(blob);
    link.download = name;
    link.click();
    setTimeout(() => URL.revokeObjectURL(link.href), 60000);
    $("saved").textContent = `${sized(blob.size)} saved as ${unquoted(name)}`;
}

function listen() {
    const drop = $("drop");
    const isOver = (is) => drop.classList.toggle("over", is);
    document.addEventListener("dragover", (event) => (event.preventDefault(), isOver(true)));
    document.addEventListener("dragleave", (event) => event.relatedTarget === null && isOver(false));
    document.addEventListener("drop", (event) => {
        event.preventDefault();
        isOver(false);
        showFiles([...event.dataTransfer.files]);
    });
    $("pick").addEventListener("change", ({ target }) => {
        showFiles([...target.files]);
        target.value = "";
    });
    $("stop").addEventListener("click", () => readings.call("stop"));
    $("save").addEventListener("click", () => save($("kind").value));
    listenToSearch();
    listenToKeys();
    for (const [title, name, data] of EXAMPLES) {
        const button = make("button", "", title);
        button.type = "button";
        button.addEventListener("click", () => showFiles([new File([bytesOf(data)], name)]));
        $("examples").append(button);
    }
}

listen();
ready.then(() => setState("ready"), showFailure);
