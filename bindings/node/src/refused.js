// What is thrown where bytes are no gob stream, and where they can't be read.

import { letGo } from "./instances.js";
import { OK, REFUSED, NO_MEMORY, SPEAKS_OF_ID } from "./shared.js";

export class Refused extends Error {
    /** Of the fault that the library told. */
    constructor({ reason, name, what, id, place, seen, begin }) {
        const type = SPEAKS_OF_ID.has(reason) ? id : undefined;
        super(`refused ${reason} ${name}${type === undefined ? "" : `(${type})`} at ${place} seen ${seen}`);
        Object.assign(this, { number: reason, reason: name, what, type, place, seen, begin });
    }

    get name() {
        return "Refused";
    }
}

/** Throws what a reader or a check met, if anything. */
export function judge(reader) {
    const { status, ...fault } = reader.fault;
    if (status === OK) return;
    if (status === REFUSED) {
        letGo(reader);
        throw new Refused(fault);
    }
    if (status === NO_MEMORY) throw new RangeError("an item has no room in memory: limits.item refuses such");
    throw new RangeError("a stream has no such limits");
}
