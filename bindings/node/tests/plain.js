// Whether a value is what a line of `gob values` shows.

/** The line's value, with each number as its text behind a #, so that no digit of it is lost. */
export function parsed(line) {
    const marked = line.replace(/"(?:[^"\\]|\\.)*"|-?\d[\d.eE+-]*/g, (word) => word[0] === '"' ? word : `"#${word}"`);
    return JSON.parse(marked);
}

const isNumber = (plain, number) => typeof plain === "string" && Object.is(Number(plain.replace(/^#/, "")), number);

function isList(plain, list, isSame) {
    return Array.isArray(plain) && plain.length === list.length && list.every((part, at) => isSame(plain[at], part));
}

const areBytes = (plain, bytes) => plain === bytes.toString("base64") || plain.hex === bytes.toString("hex");

const isPair = (plain, pair) => isList(plain, pair, isPlain);

/** Objects of a line show names; two that are the same there are one member here. */
function isObject(plain, members) {
    return Object.keys(plain).length === members.length && members.every(([name, part]) => isPlain(plain[name], part));
}

function isMap(plain, map) {
    const pairs = [...map];
    return Array.isArray(plain) ? isList(plain, pairs, isPair)
        : isObject(plain, pairs.map(([key, element]) => [String(key), element]));
}

/** Whether the value is what the plain JSON shows. */
export function isPlain(plain, value) {
    if (value === null || typeof value === "boolean" || typeof value === "string") return plain === value;
    if (typeof value === "number") return isNumber(plain, value);
    if (typeof value === "bigint") return plain === `#${value}`;
    if (value instanceof Uint8Array) return areBytes(plain, Buffer.from(value));
    if (value instanceof Date) return plain === value.text;
    if (value instanceof Map) return isMap(plain, value);
    if (Array.isArray(value)) return isList(plain, value, isPlain);
    if (value.data instanceof Uint8Array) return isPlain(plain, value.data);
    if (Array.isArray(plain)) return isList(plain, [value.re, value.im], isPlain);
    return isObject(plain, Object.entries(value));
}
