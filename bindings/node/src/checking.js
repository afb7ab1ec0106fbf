// A stream that is counted, piece by piece, of which nothing is kept.

import { instance, letGo } from "./instances.js";
import { demandOptions } from "./options.js";
import { judge } from "./refused.js";
import { Reader, wholeOf } from "./shared.js";
import { piecesOf } from "./sources.js";

// how far behind a fault the counts are told: a fault has 40 bytes
const COUNTS = 64;

/** The check of gob.h, fed as a reader is. */
class Checker extends Reader {
    get counts() { return this.told + BigInt(COUNTS); }

    pass(count) { this.calls.gob_check_feed(this.handle, this.piece, count, this.counts, this.told); }
    end() { this.calls.gob_check_finish(this.handle, this.counts, this.told); }
    close() { this.calls.gob_check_close(this.handle); }

    /** What there is in the items that are whole. */
    counted() {
        const counts = new BigUint64Array(this.calls.memory.buffer, Number(this.counts), 4);
        const [items, types, values, bytes] = Array.from(counts, wholeOf);
        return { items, types, values, bytes };
    }
}

export async function check(source, options = {}) {
    demandOptions(options);
    const calls = await instance(), open = options.exact ? calls.gob_check_open_exact : calls.gob_check_open;
    const checker = new Checker(calls, options.limits, open);
    judge(checker);
    for await (const piece of piecesOf(source)) {
        checker.feed(piece);
        judge(checker);
    }
    checker.finish();
    judge(checker);
    const counted = checker.counted();
    letGo(checker);
    return counted;
}
