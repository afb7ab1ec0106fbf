// Items as lines of text: those of `gob show --go` and those of `gob values`, byte for byte.

const jsonName = (name) => name.text === null ? `{"hex":"${name.hex}"}` : JSON.stringify(name.text);
const areDistinct = (names) => new Set(names).size === names.length;
const pattern = (bits) => `"${bits.toString(16).padStart(16, "0")}"`;

/** What the lines of both commands share: walks over the parts of a value. */
class Lines {
    constructor(types) {
        this.types = types;
        this.batch = null;
        this.base = 0;
    }

    /** The line of an item; "" where the command prints none. */
    line(batch, item) {
        this.batch = batch;
        this.base = batch.base(item);
        const id = batch.id(item);
        return batch.isDefinition(item) ? this.defined(this.types.get(id)) : this.valued(id, batch.node(item));
    }

    part(node, id) {
        const batch = this.batch;
        switch (batch.kind(node)) {
        case 1: return batch.low(node) === 1 ? "true" : "false";
        case 2: return batch.integer(node);
        case 3: return batch.unsigned(node);
        case 4: return this.float(node, 0);
        case 5: return this.bytes(batch.bytesAt(node, this.base));
        case 6: return this.text(node);
        case 7: return `[${this.float(node, 0)},${this.float(node, 1)}]`;
        case 8: return "null";
        case LIST: return this.list(node, this.types.get(id).elem);
        case MAP: return this.map(node, this.types.get(id));
        case STRUCT: return this.struct(node, this.types.get(id).fields);
        case HELD: return this.held(node);
        default: return this.opaque(batch.bytesAt(node, this.base), this.types.get(id));
        }
    }

    list(node, elem) {
        const batch = this.batch, end = batch.after(node);
        let out = "[", comma = "";
        for (let at = node + 1; at < end; at = batch.after(at), comma = ",") out += comma + this.part(at, elem);
        return out + "]";
    }

    pairs(node, type) {
        const batch = this.batch, end = batch.after(node);
        let out = "[", comma = "[";
        for (let at = node + 1; at < end; comma = ",[") {
            const element = batch.after(at);
            out += comma + this.part(at, type.key) + "," + this.part(element, type.elem) + "]";
            at = batch.after(element);
        }
        return out + "]";
    }

    text(node) {
        const text = this.batch.textAt(node, this.base);
        return text === null ? `{"hex":"${hexOf(this.batch.bytesAt(node, this.base))}"}` : JSON.stringify(text);
    }
}

/** The lines of `gob show --go`. */
class ShowLines extends Lines {
    defined(type) {
        const kind = type.kind === "opaque" ? type.marshal : type.kind;
        const fields = type.fields?.map((field) => `[${jsonName(field.name)},${field.type}]`);
        return `{"define":${type.id}` +
            (type.kind !== "struct" && type.elem !== undefined ? `,"elem":${type.elem}` : "") +
            (fields !== undefined ? `,"fields":[${fields}]` : "") +
            (type.key !== undefined ? `,"key":${type.key}` : "") +
            `,"kind":"${kind}"` +
            (type.len !== undefined ? `,"len":${type.len}` : "") +
            `,"name":${jsonName(type.name)}}\n`;
    }

    valued(id, node) {
        return `{"type":${id},"value":${this.part(node, id)}}\n`;
    }

    held(node) {
        const name = this.batch.nameOfHeld(node), type = this.batch.length(node);
        return `{"interface":{"name":${this.text(name)},"type":${type},"value":${this.part(name + 1, type)}}}`;
    }

    float(node, which) {
        return pattern(this.batch.bits(node, which));
    }

    bytes(bytes) {
        return `"${hexOf(bytes)}"`;
    }

    opaque(bytes) {
        return `{"opaque":"${hexOf(bytes)}"}`;
    }

    map(node, type) {
        return this.pairs(node, type);
    }

    struct(node, fields) {
        const batch = this.batch, end = batch.after(node);
        let out = "[", comma = "";
        for (let at = node + 1; at < end; at = batch.after(at), comma = ",") {
            const number = batch.number(at), field = fields[number];
            out += `${comma}[${number},${jsonName(field.name)},${this.part(at, field.type)}]`;
        }
        return out + "]";
    }
}

/** The lines of `gob values`; `known` knows opaque values. */
class PlainLines extends Lines {
    constructor(types, known) {
        super(types);
        this.known = known;
    }

    defined() {
        return "";
    }

    valued(id, node) {
        return withoutControls(this.part(node, id)) + "\n";
    }

    float(node, which) {
        const real = this.batch.real(node, which);
        if (Number.isFinite(real)) return decimalOf(real);
        return Number.isNaN(real) ? '"NaN"' : real < 0 ? '"-Infinity"' : '"Infinity"';
    }

    held(node) {
        return this.part(this.batch.nameOfHeld(node) + 1, this.batch.length(node));
    }

    bytes(bytes) {
        return `"${base64Of(bytes)}"`;
    }

    opaque(bytes, type) {
        return this.known.json(type, bytes);
    }

    // a map whose keys give names to members is an object
    map(node, type) {
        const names = type.key === 8 ? this.heldNames(node, type) : this.names(node, type);
        if (names === null) return this.pairs(node, type);
        const batch = this.batch, end = batch.after(node);
        let out = "{", count = 0;
        for (let at = node + 1; at < end;) {
            const element = batch.after(at);
            out += `${count > 0 ? "," : ""}${names[count++]}:${this.part(element, type.elem)}`;
            at = batch.after(element);
        }
        return out + "}";
    }

    // the names that keys give: where one isn't UTF-8, its name may be that of another
    names(node, type) {
        if (type.key !== 2 && type.key !== 3 && type.key !== 6) return null;
        const batch = this.batch, end = batch.after(node), names = [];
        let areTexts = true;
        for (let at = node + 1; at < end; at = batch.after(batch.after(at))) {
            names.push(this.key(at));
            areTexts &&= batch.kind(at) !== 6 || batch.textAt(at, this.base) !== null;
        }
        return areTexts || areDistinct(names) ? names : null;
    }

    // the texts that interfaces hold as keys, where no element has parts
    heldNames(node, type) {
        const batch = this.batch, end = batch.after(node), names = [];
        for (let at = node + 1; at < end;) {
            const element = batch.after(at), kind = batch.kind(element);
            if (kind === LIST || kind === MAP || kind === STRUCT) return null;
            const name = this.part(at, type.key);
            if (name[0] !== '"') return null;
            names.push(name);
            at = batch.after(element);
        }
        return areDistinct(names) ? names : null;
    }

    key(node) {
        if (this.batch.kind(node) === 2) return `"${this.batch.integer(node)}"`;
        if (this.batch.kind(node) === 3) return `"${this.batch.unsigned(node)}"`;
        const text = this.batch.textAt(node, this.base);
        return text === null ? `"0x${hexOf(this.batch.bytesAt(node, this.base))}"` : JSON.stringify(text);
    }

    struct(node, fields) {
        const batch = this.batch, end = batch.after(node);
        let out = "{", comma = "";
        for (let at = node + 1; at < end; at = batch.after(at), comma = ",") {
            const { name, type } = fields[batch.number(at)];
            const member = JSON.stringify(name.text === null ? "0x" + name.hex : name.text);
            out += `${comma}${member}:${this.part(at, type)}`;
        }
        return out + "}";
    }
}
