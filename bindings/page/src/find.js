// What is looked for in a stream: a text, in the values and in the names of their types and fields, or a place.

/** The text as it is looked for: capital letters count as small ones. */
function folded(text) {
    return text.toLowerCase();
}

/** Looks for a text in the parts of values. */
class Finder {
    constructor(types, text, known) {
        this.types = types;
        this.known = known;
        this.wanted = folded(text);
        this.named = new Map();
    }

    has(text) {
        return text !== null && folded(text).includes(this.wanted);
    }

    hasName(name) {
        return this.has(name.text === null ? "0x" + name.hex : name.text);
    }

    /** The path of the first part of an item that has the text, in its own text or in its name; null where none has. */
    pathIn(batch, item) {
        this.batch = batch;
        this.base = batch.base(item);
        const id = batch.id(item);
        return this.hasTypeName(id) ? "" : this.pathOf(batch.node(item), id, "");
    }

    hasTypeName(id) {
        let has = this.named.get(id);
        if (has === undefined) this.named.set(id, has = this.has(goName(id, this.types)));
        return has;
    }

    pathOf(node, id, path) {
        const { batch } = this, type = this.types.get(id);
        switch (batch.kind(node)) {
        case 6: return this.has(batch.textAt(node, this.base)) ? path : null;
        case OPAQUE: return this.has(this.opaque(type, batch.bytesAt(node, this.base))) ? path : null;
        case LIST: return this.pathOfElement(node, type.elem, path);
        case MAP: return this.pathOfPair(node, type, path);
        case STRUCT: return this.pathOfField(node, type.fields, path);
        case HELD: return this.pathOfHeld(node, path);
        default: return null;
        }
    }

    opaque(type, bytes) {
        const { digits, text } = this.known.of(type, bytes);
        return digits ?? text;
    }

    pathOfHeld(node, path) {
        const { batch } = this, name = batch.nameOfHeld(node);
        return this.pathOf(name, 6, path) ?? this.pathOf(name + 1, batch.length(node), path);
    }

    pathOfElement(node, elem, path) {
        const { batch } = this, end = batch.after(node);
        if (elem < 6 || elem === 7) return null; // numbers have no text
        for (let at = node + 1, index = 0; at < end; at = batch.after(at), index++) {
            const found = this.pathOf(at, elem, `${path}[${index}]`);
            if (found !== null) return found;
        }
        return null;
    }

    pathOfPair(node, type, path) {
        const { batch } = this, end = batch.after(node);
        for (let at = node + 1, index = 0; at < end; index++) {
            const element = batch.after(at);
            const found = this.pathOf(at, type.key, `${path}{key ${index}}`) ??
                this.pathOf(element, type.elem, `${path}{element ${index}}`);
            if (found !== null) return found;
            at = batch.after(element);
        }
        return null;
    }

    pathOfField(node, fields, path) {
        const { batch } = this, end = batch.after(node);
        for (let at = node + 1; at < end; at = batch.after(at)) {
            const field = fields[batch.number(at)], here = `${path}.${shownName(field.name)}`;
            const found = this.hasName(field.name) ? here : this.pathOf(at, field.type, here);
            if (found !== null) return found;
        }
        return null;
    }
}
