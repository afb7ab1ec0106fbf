// The types of a stream as Go source, which the library makes of the items that tell of them.

import { instance, letGo } from "./instances.js";
import { Reading } from "./reading.js";
import { judge } from "./refused.js";
import { Reader, Telling, sourceOf } from "./shared.js";
import { piecesOf } from "./sources.js";

/** The bytes of a source on their way, kept from an offset on. */
class Passing {
    constructor(source) {
        this.source = source;
        this.pieces = [];
        this.begin = 0;
    }

    async *[Symbol.asyncIterator]() {
        for await (const piece of piecesOf(this.source)) {
            // (whoever gives pieces may use their memory again)
            this.pieces.push(piece.slice());
            yield piece;
        }
    }

    /** A copy of the bytes from one offset up to another. */
    bytes(begin, end) {
        if (this.pieces.length > 1) this.pieces = [joined(this.pieces)];
        return this.pieces[0].slice(begin - this.begin, end - this.begin);
    }

    /** Lets the pieces go that end by this offset. */
    letGo(offset) {
        while (this.pieces.length > 0 && this.begin + this.pieces[0].length <= offset) {
            this.begin += this.pieces.shift().length;
        }
    }
}

function joined(parts) {
    const all = new Uint8Array(parts.reduce((size, part) => size + part.length, 0));
    let at = 0;
    for (const part of parts) {
        all.set(part, at);
        at += part.length;
    }
    return all;
}

/** The items of a stream that tell of its types. */
export class TellingItems {
    static async open(source, options) {
        return new TellingItems(await Reading.open(options), source, options);
    }

    constructor(reading, source, { limits } = {}) {
        Object.assign(this, { reading, limits, items: [], end: 0, telling: new Telling() });
        this.passing = new Passing(source);
    }

    /** Goes through the source. Where it is refused, the items before tell of their types all the same. */
    async pass() {
        const { reading, passing } = this;
        for await (const batch of reading.batches(passing)) {
            for (const item of reading.items(batch)) this.keep(batch, item);
            passing.letGo(batch.end(batch.items - 1));
        }
    }

    keep(batch, item) {
        const type = batch.isDefinition(item) ? this.reading.types.get(batch.id(item)) : null;
        // (a definition in a value has the place of the value's item)
        if (!this.telling.has(batch, item, type) || batch.end(item) === this.end) return;
        this.end = batch.end(item);
        this.items.push(this.passing.bytes(batch.begin(item), this.end));
    }

    /** The types that they define, as `gob types` prints them. */
    async text() {
        const reader = new Reader(await instance(), this.limits);
        judge(reader);
        // (no piece stands yet where the limits do)
        const text = sourceOf(reader.calls, joined(this.items), reader.piece);
        letGo(reader);
        if (text === null) throw new RangeError("the source of the types has no room in memory");
        return text;
    }
}
