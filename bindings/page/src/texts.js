// Bytes as text, and texts and numbers as they are shown and saved.

const utf8 = new TextDecoder("utf-8", { fatal: true, ignoreBOM: true });
const HEX = Array.from({ length: 256 }, (_, byte) => byte.toString(16).padStart(2, "0"));

function hexOf(bytes) {
    let out = "";
    for (const byte of bytes) out += HEX[byte];
    return out;
}

/** The text that these bytes are, or null where they are no UTF-8. */
function textOf(bytes) {
    try {
        return utf8.decode(bytes);
    } catch {
        return null;
    }
}

// The characters that control how a text is shown: those that `gob values` escapes.
const CONTROLS = /[\u007f-\u009f\u061c\u200b-\u200f\u2028-\u202e\u2066-\u2069\ufeff]/g;
const escaped = (character) => "\\u" + character.charCodeAt(0).toString(16).padStart(4, "0");

/** JSON text in which no character controls how it is shown. */
function withoutControls(json) {
    return json.replace(CONTROLS, escaped);
}

/** A text or name of a file as the page shows it: in quotes, and no character of it changes how the rest is shown. */
function quoted(text) {
    return withoutControls(JSON.stringify(text));
}

/** The same without quotes, for names. */
function unquoted(text) {
    return quoted(text).slice(1, -1).replace(/\\"/g, '"').replace(/\\\\/g, "\\");
}

/** A name: its bytes, and its text where they are UTF-8. */
function nameOf(bytes) {
    return { hex: hexOf(bytes), text: textOf(bytes) };
}

function shownName(name) {
    if (name.text === "") return '""'; // so that it is seen
    return name.text === null ? "0x" + name.hex : unquoted(name.text);
}

const ALPHABET = "ABCDEFGHIJKLMNOPQRSTUVWXYZabcdefghijklmnopqrstuvwxyz0123456789+/";

function base64Of(bytes) {
    let out = "", at = 0;
    for (; at + 2 < bytes.length; at += 3) {
        const word = bytes[at] << 16 | bytes[at + 1] << 8 | bytes[at + 2];
        out += ALPHABET[word >> 18] + ALPHABET[word >> 12 & 63] + ALPHABET[word >> 6 & 63] + ALPHABET[word & 63];
    }
    if (bytes.length - at === 1) out += ALPHABET[bytes[at] >> 2] + ALPHABET[(bytes[at] & 3) << 4] + "==";
    if (bytes.length - at === 2) {
        const word = bytes[at] << 8 | bytes[at + 1];
        out += ALPHABET[word >> 10] + ALPHABET[word >> 4 & 63] + ALPHABET[(word & 15) << 2] + "=";
    }
    return out;
}

/** A float in decimal, with a point or an exponent, in the layout of `gob values`; it isn't NaN or an infinity. */
function decimalOf(real) {
    const [, sign, digits, exponent] = /^(-?)([\d.]+)e([+-]\d+)$/.exec(real.toExponential());
    const minus = Object.is(real, -0) ? "-" : sign;
    const all = digits.replace(".", ""), point = Number(exponent) + 1;
    if (real === 0) return minus + "0.0";
    if (point > 16 || point < -4) return minus + digits + "e" + (point - 1);
    if (point <= 0) return minus + "0." + "0".repeat(-point) + all;
    return minus + all.slice(0, point).padEnd(point, "0") + "." + (all.slice(point) || "0");
}

/** A float as people read it. */
function shownFloat(real) {
    if (Number.isNaN(real)) return "NaN";
    return Number.isFinite(real) ? decimalOf(real) : real < 0 ? "-Inf" : "+Inf";
}

/** The number that this unsigned one spells. */
function signedOf(number) {
    return BigInt.asIntN(64, number & 1n ? ~(number >> 1n) : number >> 1n);
}

/** A whole number: a number where that has all its digits, else a bigint. */
function wholeOf(wide) {
    const number = Number(wide);
    return Number.isSafeInteger(number) ? number : wide;
}

const grouped = new Intl.NumberFormat("en-US");

/** A count with its noun: 1,234 bytes. */
function counted(count, noun) {
    return `${grouped.format(count)} ${noun}${Number(count) === 1 ? "" : "s"}`;
}

function sized(bytes) {
    if (bytes < 10000) return counted(bytes, "byte");
    const [unit, size] = bytes < 1e6 ? ["KB", 1e3] : bytes < 1e9 ? ["MB", 1e6] : ["GB", 1e9];
    return `${(bytes / size).toFixed(bytes < 10 * size ? 1 : 0)} ${unit}`;
}
