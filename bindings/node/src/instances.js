// Instances of the library, each with a memory of its own.

import { module } from "./module.js";
import { Known } from "./shared.js";

// to give an instance its first memory takes longer than to read a small stream
const idle = [];
const MOST_IDLE = 8, LITTLE_MEMORY = 1 << 23;
let compiled, built, knowledge;

// (an iterator over the text would leave a heap of characters)
function binary() {
    const text = atob(module), bytes = new Uint8Array(text.length);
    for (let at = 0; at < text.length; at++) bytes[at] = text.charCodeAt(at);
    return bytes;
}

/** The calls of the library, over a memory that no other reading has. */
export async function instance() {
    if (idle.length > 0) return idle.pop();
    compiled ??= WebAssembly.compile(binary());
    built = await compiled;
    return (await WebAssembly.instantiate(built, {})).exports;
}

/** What knows opaque values. It has an instance of its own, since one that asks can't wait. */
export function knowing() {
    built ??= new WebAssembly.Module(binary());
    return knowledge ??= new Known(new WebAssembly.Instance(built, {}).exports);
}

/** Lets a reader or a check go whose stream has ended, and keeps its instance where that has little memory. */
export function letGo(reader) {
    const { calls, told, piece } = reader;
    reader.close();
    calls.free(told);
    calls.free(piece);
    if (idle.length < MOST_IDLE && calls.memory.buffer.byteLength <= LITTLE_MEMORY) idle.push(calls);
}
