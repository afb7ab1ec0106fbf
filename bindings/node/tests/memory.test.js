// How much memory a long stream takes, and many readings at once.

import assert from "node:assert/strict";
import process from "node:process";
import test from "node:test";
import { setFlagsFromString } from "node:v8";
import { runInNewContext } from "node:vm";
import { bytesOf, gob } from "./package.js";

const MB = 1 << 20;
setFlagsFromString("--expose-gc");
const collect = runInNewContext("gc");

// What is held: objects, and behind them buffers and the memory of WebAssembly. (Of what the process has beside these,
// the collector decides by the machine's pace.)
function held() {
    collect();
    const { heapUsed, external } = process.memoryUsage();
    return heapUsed + external;
}

// a string of a thousand bytes, as an item
const item = Buffer.concat([bytesOf("fe 03 ed 0c 00 fe 03 e8"), Buffer.alloc(1000, "text ")]);
const piece = Buffer.concat(Array.from({ length: 1000 }, () => item));

test("a stream of 30 MB takes no more than its largest item asks", async () => {
    function* source() {
        for (let count = 0; count < 30; count++) yield piece;
    }
    let values = 0, before = 0, most = 0;
    for await (const { value } of gob.read(source())) {
        // (an assertion for each would take memory of its own)
        if (value.length === 1000) values++;
        if (values === 5000) before = held();
        if (values % 5000 === 0) most = Math.max(most, held());
    }
    assert.equal(values, 30000);
    assert.deepEqual(await gob.check(source()), { items: 30000, types: 0, values: 30000, bytes: 30 * piece.length });
    assert.ok(most - before < 2 * MB, `${(most - before) / MB} MB more`);
});

test("100 readings at once, and 1,000 one after another", async () => {
    const bytes = piece.subarray(0, item.length);
    const all = await Promise.all(Array.from({ length: 100 }, () => gob.load(bytes)));
    assert.ok(all.every(([text]) => text.length === 1000));
    for (let count = 0; count < 1000; count++) assert.equal((await gob.load(bytes)).length, 1);
});

test("a value that is kept keeps no other", async () => {
    const kept = [], before = held();
    let place = 0;
    for await (const { value } of gob.read(Array(40).fill(piece))) if (place++ % 1000 === 0) kept.push(value);
    assert.equal(kept.length, 40);
    const more = held() - before;
    assert.ok(more < 5 * MB, `${more / MB} MB more`);
});
