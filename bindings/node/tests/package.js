// What the tests share: the package, which GOBSTREAM names, the repository, and pieces of bytes.

import { readdirSync, readFileSync } from "node:fs";
import { join, resolve } from "node:path";
import { pathToFileURL } from "node:url";

export const ROOT = resolve(import.meta.dirname, "../../..");
export const PACKAGE = resolve(process.env.GOBSTREAM);
export const gob = await import(pathToFileURL(join(PACKAGE, "index.js")));

export const bytesOf = (hex) => Buffer.from(hex.replaceAll(" ", ""), "hex");

/** The paths of the streams of Go's encoder. */
export function streams() {
    const folders = ["interop/streams", "interop/filled/streams", "interop/plain", "examples"];
    return folders.flatMap((folder) => readdirSync(join(ROOT, folder)).map((name) => join(ROOT, folder, name)))
        .filter((path) => path.endsWith(".gob"));
}

export function* pieces(bytes, size) {
    for (let at = 0; at < bytes.length; at += size) yield bytes.subarray(at, at + size);
}

/** What iterating gives, and the error that it ends in; null where it ends well. */
export async function gathered(iterable) {
    const found = [];
    try {
        for await (const one of iterable) found.push(one);
    } catch (error) {
        return { found, error };
    }
    return { found, error: null };
}

/** The text of the lines, with the line of the fault behind them. */
export async function textOf(source, options) {
    const { found, error } = await gathered(gob.lines(source, options));
    if (error !== null && !(error instanceof gob.Refused)) throw error;
    return [...found, ...(error === null ? [] : [`gob: ${error.message}`])].map((line) => line + "\n").join("");
}

export const read = (path) => readFileSync(path);
