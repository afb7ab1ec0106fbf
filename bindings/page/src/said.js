// What the library says of bytes in memory, in the words of the program gob.

const TEXT_ROOM = 1 << 16;
// of a file of more bytes than these up to its refused item, the page doesn't say what is behind a refusal
const MOST_SAID = 1 << 28;

/** The text that one of the library's calls gives of these bytes; null where there is no memory for it. */
function textBy(calls, call, bytes) {
    const count = BigInt(bytes.length), at = calls.malloc(count);
    if (at === 0n) return null;
    new Uint8Array(calls.memory.buffer, Number(at), bytes.length).set(bytes);
    const told = put(calls, (room, size) => call(at, count, room, size));
    calls.free(at);
    return told;
}

/** The text that is put into room for it, which is made larger where it was cut. */
function put(calls, call, size = TEXT_ROOM) {
    const room = calls.malloc(BigInt(size));
    if (room === 0n) return null;
    const length = Number(call(room, BigInt(size)));
    const isWhole = length < size;
    const text = isWhole && length >= 0 ? utf8.decode(new Uint8Array(calls.memory.buffer, Number(room), length)) : null;
    calls.free(room);
    return isWhole ? text : put(calls, call, length + 1);
}

/** What `gob why` says of these bytes, under the standard limits. */
function whyOf(calls, bytes) {
    return textBy(calls, (at, count, room, size) => calls.gob_why_text(at, count, 0n, 0n, room, size), bytes);
}

/** What `gob types` prints of these bytes, under the limits at a pointer, or the standard ones. */
function sourceOf(calls, bytes, limits = 0n) {
    return textBy(calls, (at, count, room, size) => calls.gob_types_text(at, count, limits, room, size), bytes);
}

/** The lines that `gob values` prints of these bytes, likewise. */
function valuesOf(calls, bytes, limits = 0n) {
    return textBy(calls, (at, count, room, size) => calls.gob_values_text(at, count, limits, room, size), bytes);
}

/** The lines about a refusal behind its first, by their words: what, where, expected, found, cause, next. */
function partsOf(said) {
    return Object.fromEntries(said.split("\n").slice(1, -1).map((line) => {
        const end = line.indexOf(": ");
        return [line.slice(0, end), line.slice(end + 2)];
    }));
}

/** What to do, for people who have no shell: what the program says to type has IN for the file. */
function stepOf({ next }, isFirst) {
    if (!/\bIN\b/.test(next)) return next;
    const [instead, ...typed] = next.split(", or ");
    if (typed.length > 0) return `${instead}.`;
    if (/--(item|depth) /.test(next)) return "If it is meant to be so large, or so deep, the program gob reads it.";
    if (isFirst) return "Unpack the file, or take out of it what it holds, and drop that here.";
    return "Save the whole items before this one, and the rest from it on, and drop here what is saved.";
}

/** Knows the items of a stream in which types are defined, or fill an interface under a name that they had none before. A
 * stream of these alone has the same source of its types. */
class Telling {
    constructor() {
        this.names = new Set();
        this.hasInterfaces = false;
    }

    /** Whether the next item is one; `type` is what it defines, or null. */
    has(batch, item, type) {
        if (type !== null) {
            this.hasInterfaces ||= namesInterface(type);
            return true;
        }
        return (this.hasInterfaces || batch.id(item) === INTERFACE) && this.hasNewName(batch, item);
    }

    hasNewName(batch, item) {
        const base = batch.base(item), first = batch.node(item), before = this.names.size;
        for (let node = first; node < first + batch.nodes(item); node++) {
            if (batch.kind(node) !== HELD) continue;
            const name = hexOf(batch.bytesAt(batch.nameOfHeld(node), base));
            this.names.add(`${batch.length(node)} ${name}`);
        }
        return this.names.size > before;
    }
}

/** Whether the type names the one of interfaces. */
function namesInterface({ elem, key, fields = [] }) {
    return elem === INTERFACE || key === INTERFACE || fields.some((field) => field.type === INTERFACE);
}
