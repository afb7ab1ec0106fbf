// The values as a tree that opens part by part: what isn't open has no elements.

const SOME = 100; // so many parts are shown at once
const ROOM = 100; // so many characters of a part are shown beside it
const LEAST_ROOM = 12; // and of a leaf that is shown at all
const MOST_SHOWN = 100000; // so many bytes of a text at the most

function make(tag, name, ...parts) {
    const element = document.createElement(tag);
    if (name) element.className = name;
    element.append(...parts);
    return element;
}

/** One part of a value: its node, in the batch of its item, and its type. */
class Part {
    constructor(batch, node, id, types) {
        this.batch = batch;
        this.node = node;
        this.id = id;
        this.types = types;
        this.kind = batch.kind(node);
    }

    get count() {
        return this.batch.low(this.node);
    }

    get hasParts() {
        return this.kind >= LIST && this.kind <= STRUCT;
    }

    get type() {
        return this.types.get(this.id);
    }

    at(node, id) {
        return partAt(this.batch, node, id, this.types);
    }

    /** Where the parts begin, at each of these steps: keys and elements of maps go together. */
    places(step) {
        const { batch, kind } = this, end = batch.after(this.node), places = [];
        for (let at = this.node + 1, index = 0; at < end; index++) {
            if (index % step === 0) places.push(at);
            at = batch.after(kind === MAP ? batch.after(at) : at);
        }
        return places;
    }

    /** So many parts from the one at a place on, each with its label. */
    *parts(place, first, count) {
        const { batch, kind, type } = this, end = batch.after(this.node);
        for (let at = place, index = first; at < end && index < first + count; index++) {
            if (kind === LIST) yield [`${index}`, this.at(at, type.elem)];
            if (kind === STRUCT) {
                const field = type.fields[batch.number(at)];
                yield [shownName(field.name), this.at(at, field.type)];
            }
            if (kind === MAP) {
                const key = this.at(at, type.key);
                at = batch.after(at);
                yield [key.brief(40), this.at(at, type.elem), key.hasParts ? key : undefined];
            }
            at = batch.after(at);
        }
    }

    /** The part in one line of so many characters or so. */
    brief(room) {
        return this.hasParts ? this.briefParts(room) : this.briefLeaf(Math.max(LEAST_ROOM, room));
    }

    briefLeaf(room) {
        const { batch, node } = this;
        switch (this.kind) {
        case 1: return batch.low(node) === 1 ? "true" : "false";
        case 2: return batch.integer(node);
        case 3: return batch.unsigned(node);
        case 4: return shownFloat(batch.real(node, 0));
        case 5: return cut(spaced(batch.bytesAt(node, 0), room), room);
        case 6: return this.briefText(room);
        case 7: return `${shownFloat(batch.real(node, 0))} and ${shownFloat(batch.real(node, 1))}i`;
        case 8: return "nil";
        default: return cut(opaqueText(this.type, beginningOf(batch.bytesAt(node, 0)), room), room);
        }
    }

    briefText(room) {
        const bytes = this.batch.bytesAt(this.node, 0), text = textOf(bytes);
        if (text === null) return "no UTF-8: " + cut(spaced(bytes, room), room);
        return cut(quoted(text.slice(0, 4 * room)), room);
    }

    briefParts(room) {
        const [open, close] = this.kind === LIST ? "[]" : "{}";
        let out = open, comma = "";
        for (const [label, part] of this.parts(this.node + 1, 0, SOME)) {
            if (out.length >= room) return `${out}${comma}..${close}`;
            out += comma + (this.kind === LIST ? "" : `${label}: `);
            out += part.brief(room - out.length);
            comma = ", ";
        }
        return out + (this.count > SOME ? `${comma}..` : "") + close;
    }
}

/** The part at a node: an interface is shown as what it holds, with the type of that. */
function partAt(batch, node, id, types) {
    while (batch.kind(node) === HELD) [node, id] = [batch.nameOfHeld(node) + 1, batch.length(node)];
    return new Part(batch, node, id, types);
}

function cut(text, room) {
    return text.length > room ? text.slice(0, room) + ".." : text;
}

function spaced(bytes, room) {
    if (bytes.length === 0) return "no bytes";
    const some = bytes.subarray(0, room);
    return hexOf(some).match(/../g).join(" ") + (some.length < bytes.length ? " .." : "");
}

/** What a type wrote of itself: as `gob values` shows it where something is known of it, else the bytes. */
function opaqueText(type, bytes, room) {
    const { digits, text } = known.of(type, bytes);
    if (digits !== null) return digits;
    return text === null ? spaced(bytes, room) : quoted(text.slice(0, 4 * room));
}

const STYLES = ["", "number", "number", "number", "number", "raw", "text", "number", "nil"];

/** The line of a part: its label, its type, and what it is in one line; a leaf's type stands last. */
function partLine(label, part) {
    const named = make("span", "label", cut(label, SOME));
    const own = cut(goName(part.id, part.types), SOME);
    const type = make("span", "type", part.hasParts ? `${own}, ${countOf(part)}` : own);
    const style = STYLES[part.kind] ?? (part.kind === OPAQUE ? "raw" : "brief");
    const brief = make("span", style, part.brief(ROOM));
    return part.hasParts ? [named, " ", type, " ", brief] : [named, " ", brief, " ", type];
}

function countOf(part) {
    if (part.kind === LIST) return counted(part.count, "element");
    if (part.kind === MAP) return counted(part.count, "pair");
    const all = part.type.fields.length;
    return part.count === all ? counted(all, "field") : `${part.count} of ${counted(all, "field")}`;
}

/** A part as an entry of a list: what has parts, or is long, can be opened. */
function partEntry(label, part, key) {
    const entry = make("li");
    if (part.hasParts && part.count + (key === undefined ? 0 : 1) > 0) {
        entry.append(opening(partLine(label, part), () => partList(part, key)));
    } else if (isLong(part)) {
        entry.append(opening(partLine(label, part), () => make("pre", "whole-text", wholeText(part))));
    } else {
        const leaf = make("div", "leaf", ...partLine(label, part));
        leaf.tabIndex = -1; // the arrows reach it
        entry.append(leaf);
    }
    return entry;
}

function isLong(part) {
    const isBytes = part.kind === 5 || part.kind === 6 || part.kind === OPAQUE;
    return isBytes && part.batch.length(part.node) > (part.kind === 6 ? ROOM : ROOM / 3);
}

/** All of a long text, or the bytes of a part; of very long ones the beginning. */
function wholeText(part) {
    const all = part.batch.bytesAt(part.node, 0), bytes = beginningOf(all);
    const rest = all.length > bytes.length ? `\n.. ${counted(all.length - bytes.length, "more byte")}` : "";
    const text = part.kind === 6 ? textOf(bytes) : part.kind === OPAQUE ? known.of(part.type, bytes).text : null;
    return (text === null ? spaced(bytes, bytes.length) : withoutControls(text)) + rest;
}

/** So many bytes as are shown at the most, without a character that is cut. */
const beginningOf = (bytes) => bytes.subarray(0, wholeUpTo(bytes, MOST_SHOWN));

/** The place, or one before it, where no character of UTF-8 is cut. */
function wholeUpTo(bytes, place) {
    while (place > 0 && (bytes[place] & 0xc0) === 0x80) place--;
    return place;
}

/** What shows a line, and more when it is opened. `fill` gives that, now or later. */
function opening(line, fill, isOpen = false) {
    const element = make("details", "", make("summary", "", ...line));
    const open = async () => {
        element.removeEventListener("toggle", open);
        const waiting = make("p", "waiting", "reading ..");
        element.append(waiting);
        try {
            waiting.replaceWith(await fill());
        } catch (error) {
            waiting.textContent = `This can't be read any more: ${error.message}`;
        }
    };
    element.addEventListener("toggle", open);
    element.open = isOpen;
    return element;
}

/** The parts of a part: all of a few, and of many by ranges. */
function partList(part, key) {
    const list = make("ul");
    if (key !== undefined) list.append(partEntry("key", key));
    const places = part.places(SOME);
    const some = (first) => {
        const shown = make("ul");
        for (const entry of part.parts(places[first / SOME], first, SOME)) shown.append(partEntry(...entry));
        return shown;
    };
    list.append(...ranges(part.count, some).childNodes);
    return list;
}

/** A list of so many entries: all of a few, else ranges that open into smaller ones. `some` gives those from one on. */
function ranges(count, some, first = 0) {
    if (count <= SOME) return some(first);
    let size = SOME;
    while (size * SOME < count) size *= SOME;
    const list = make("ul");
    for (let at = first; at < first + count; at += size) {
        const here = Math.min(size, first + count - at);
        const line = [make("span", "range", `${grouped.format(at)} to ${grouped.format(at + here - 1)}`)];
        list.append(make("li", "", opening(line, () => ranges(here, some, at), at === 0)));
    }
    return list;
}
