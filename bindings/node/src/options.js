// Options are judged before anything is read, so that a slip in a name doesn't go unseen.

const OPTIONS = ["bigint", "exact", "held", "limits", "opaque", "zeros"];
const LIMITS = ["item", "depth", "types", "stream"];

function demandNames(given, names, what) {
    const other = Object.keys(given).find((name) => !names.includes(name));
    if (other !== undefined) throw new TypeError(`there is no ${what} ${other}: there are ${names.join(", ")}`);
}

/** Throws where these are no options, or where a limit is no whole number of 64 bits. */
export function demandOptions(options) {
    const { limits = {} } = options;
    demandNames(options, OPTIONS, "option");
    demandNames(limits, LIMITS, "limit");
    for (const [name, limit] of Object.entries(limits)) {
        const wide = BigInt(limit);
        if (BigInt.asUintN(64, wide) !== wide) throw new RangeError(`the limit ${name} can't be ${limit}`);
    }
}
