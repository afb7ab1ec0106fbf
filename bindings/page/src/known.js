// What is known of an opaque value by its type: what the library shows of it, alone in a stream that is made for it.

// the field of a description by which a type encodes itself: docs/FORMAT.md, wireType
const ENCODED_BY = { gob: 5, binary: 6, text: 7 };
// answers are kept for so many values, of no more bytes than these
const KEPT_ANSWERS = 4096, KEPT_BYTES = 64;
// no name of which something is known is so long
const NAME_ROOM = 99;
const LETTER = Uint8Array.of(97);
const NO_LIMIT = 0x7fffffffffffffffn;

/** An unsigned number as it is spelled in a stream. */
function spelled(number) {
    if (number < 128) return [number];
    const bytes = [];
    for (let rest = number; rest > 0; rest = Math.floor(rest / 256)) bytes.unshift(rest % 256);
    return [256 - bytes.length, ...bytes];
}

const withLength = (bytes) => [...spelled(bytes.length), ...bytes];

/** A stream of one value: the definition of its type, as type 65, and an item with the value's bytes. */
function streamOf(name, marshal, bytes) {
    const letters = new TextEncoder().encode(name);
    const common = letters.length > 0 ? [1, ...withLength(letters), 1] : [2];
    const definition = withLength([255, 129, ENCODED_BY[marshal], 1, ...common, 255, 130, 0, 0, 0]);
    const head = [255, 130, 0, ...spelled(bytes.length)];
    const front = [...definition, ...spelled(head.length + bytes.length), ...head];
    const stream = new Uint8Array(front.length + bytes.length);
    stream.set(front);
    stream.set(bytes, front.length);
    return stream;
}

/** Asks the library what opaque values are, in a memory that no reader has. */
class Known {
    static async open(module) {
        const { exports } = await WebAssembly.instantiate(module, {});
        return new Known(exports);
    }

    constructor(calls) {
        this.calls = calls;
        this.answers = new Map();
        this.limits = calls.malloc(32n);
        const words = new BigUint64Array(calls.memory.buffer, Number(this.limits), 4);
        if (this.limits !== 0n) words.set([NO_LIMIT, 1000n, 10000n, NO_LIMIT]);
    }

    /** The JSON that `gob values` shows it as. */
    json({ name, marshal }, bytes) {
        const called = (name.text ?? "0x" + name.hex).slice(0, NAME_ROOM);
        if (bytes.length > KEPT_BYTES) return this.answer(called, marshal, bytes);
        const key = `${marshal} ${hexOf(bytes)} ${called}`;
        let json = this.answers.get(key);
        if (json !== undefined) return json;
        if (this.answers.size === KEPT_ANSWERS) this.answers.clear();
        this.answers.set(key, json = this.answer(called, marshal, bytes));
        return json;
    }

    answer(name, marshal, bytes) {
        const line = valuesOf(this.calls, streamOf(name, marshal, bytes), this.limits);
        if (line === null) throw new RangeError("a value has no room in memory");
        return line.slice(0, -1);
    }

    /** The digits of the whole number that it is, or the text; both null where nothing but its bytes is known. */
    of(type, bytes) {
        const json = this.json(type, bytes);
        if (json[0] !== '"') return { digits: json, text: null };
        const text = JSON.parse(json);
        return { digits: null, text: this.isBase64(type, bytes, text) ? null : text };
    }

    // of no bytes both the text and the base64 are empty: then it is asked of a letter
    isBase64(type, bytes, text) {
        return bytes.length > 0 ? text === base64Of(bytes) : this.json(type, LETTER) !== '"a"';
    }
}
