// Where bytes come from: paths, bytes, blobs, and streams of any kind.

import { PIECE } from "./shared.js";

/** The bytes of a source, in pieces of at most PIECE bytes. */
export async function* piecesOf(source) {
    for await (const chunk of chunksOf(source)) {
        const bytes = bytesOf(chunk);
        for (let at = 0; at < bytes.length; at += PIECE) yield bytes.subarray(at, at + PIECE);
    }
}

function isBytes(chunk) {
    return chunk instanceof ArrayBuffer || ArrayBuffer.isView(chunk);
}

function bytesOf(chunk) {
    if (!isBytes(chunk)) throw new TypeError(`a source gives bytes, and not a ${typeof chunk}`);
    return chunk instanceof ArrayBuffer ? new Uint8Array(chunk)
        : new Uint8Array(chunk.buffer, chunk.byteOffset, chunk.byteLength);
}

function chunksOf(source) {
    if (typeof source === "string" || source instanceof URL) return fileOf(source);
    if (isBytes(source)) return [source];
    if (source instanceof Blob) return chunksOf(source.stream());
    if (source?.[Symbol.asyncIterator] || source?.[Symbol.iterator]) return source;
    if (source?.getReader) return chunksOfStream(source);
    throw new TypeError("a source is a path, bytes, a blob, or what gives bytes one after another");
}

/** A file, in Node; a browser has none. */
function fileOf(path) {
    const files = globalThis.process?.getBuiltinModule?.("node:fs");
    if (files === undefined) throw new TypeError("a path is read by Node alone: give bytes, a blob or a stream");
    return files.createReadStream(path, { highWaterMark: PIECE });
}

/** A web stream where it can't be iterated, as in some browsers. */
async function* chunksOfStream(stream) {
    const reader = stream.getReader();
    try {
        for (let part = await reader.read(); !part.done; part = await reader.read()) yield part.value;
    } finally {
        await reader.cancel();
    }
}
