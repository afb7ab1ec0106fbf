// A stream that is read, piece by piece: its items, and the types that are known by then.

import { instance, letGo } from "./instances.js";
import { demandOptions } from "./options.js";
import { judge } from "./refused.js";
import { BASIC, Reader, typeOf, wholeOf } from "./shared.js";
import { piecesOf } from "./sources.js";
import { memberName } from "./values.js";

// the types of which descriptions are made
const BASE = [16, 17, 18, 19, 20, 21, 22, 23, 24];

export class Reading {
    static async open(options = {}) {
        demandOptions(options);
        const calls = await instance();
        return new Reading(new Reader(calls, options.limits, options.exact ? calls.gob_open_exact : calls.gob_open));
    }

    /** A reading that has gone through a source, and kept its types alone. */
    static async through(source, options) {
        const reading = await Reading.open(options);
        await reading.pass(source);
        return reading;
    }

    constructor(reader) {
        this.reader = reader;
        judge(reader);
        this.base = new Map(BASE.map((id) => [id, reader.type(id)]));
        this.definitions = new Map();
        this.types = new Map(this.base);
        this.shown = new Map();
    }

    /** Each batch of items; it stands until the next is asked for. */
    async *batches(source) {
        for await (const piece of piecesOf(source)) {
            this.reader.feed(piece);
            yield* this.reader.batches();
            judge(this.reader);
        }
        this.reader.finish();
        judge(this.reader);
        letGo(this.reader);
    }

    /** The items of a batch, by their places. Of each definition the type is known then. */
    *items(batch) {
        for (let item = 0; item < batch.items; item++) {
            if (batch.isDefinition(item)) this.define(batch, item);
            yield item;
        }
    }

    /** Goes through a source, and keeps its types alone. */
    async pass(source) {
        for await (const batch of this.batches(source)) {
            for (const item of this.items(batch)) void item;
        }
    }

    /** Those items that are values. */
    *values(batch) {
        for (const item of this.items(batch)) if (!batch.isDefinition(item)) yield item;
    }

    define(batch, item) {
        const id = batch.id(item), type = typeOf(id, batch, batch.node(item), batch.nodes(item), batch.base(item));
        this.definitions.set(id, type);
        this.types.set(id, type);
    }

    /** A type as it is given to callers. */
    type(id) {
        if (!this.shown.has(id)) this.shown.set(id, shownType(id, this.types.get(id)));
        return this.shown.get(id);
    }
}

function shownType(id, type) {
    if (type === undefined) return { id, name: BASIC[id], kind: "basic" };
    const named = (one) => ({ ...one, name: memberName(one.name) });
    const shown = named(type);
    if (shown.len !== undefined) shown.len = wholeOf(shown.len);
    if (shown.fields !== undefined) shown.fields = shown.fields.map(named);
    return shown;
}
