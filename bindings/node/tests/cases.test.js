// Streams with what is due of each, as tools/cases.py prints them: CASES names the file.

import assert from "node:assert/strict";
import test from "node:test";
import { bytesOf, gathered, gob, pieces, read, textOf } from "./package.js";

const SIZES = [1, 2, 5, 17, 1000];
const cases = String(read(process.env.CASES)).split("\n\n").slice(0, -1).map(caseOf);
const countOf = (text, front) => text.split("\n").filter((line) => line.startsWith(front)).length;

function caseOf(text) {
    const [head, ...due] = text.split("\n"), [how, item, depth, types, stream, hex] = head.split(" ");
    const limits = { item: BigInt(item), depth: BigInt(depth), types: BigInt(types), stream: BigInt(stream) };
    const lines = due.map((line) => line + "\n").join("");
    return { bytes: bytesOf(hex), options: { exact: how === "exact", limits }, due: lines };
}

test(`${cases.length} streams give the lines and the refusals that are due`, async () => {
    for (const [number, { bytes, options, due }] of cases.entries()) {
        const source = pieces(bytes, SIZES[number % SIZES.length]);
        assert.equal(await textOf(source, { as: "show", ...options }), due, bytes.toString("hex"));
    }
});

test("their values are as many, and what is thrown says what the line of the refusal says", async () => {
    for (const { bytes, options, due } of cases) {
        const { found, error } = await gathered(gob.read(bytes, options)), hex = bytes.toString("hex");
        const [, number, reason, type, place, seen] =
            /^gob: refused (\d+) (\w+)(?:\((\d+)\))? at (\d+) seen (\d+)$/m.exec(due) ?? [];
        assert.equal(found.length, countOf(due, '{"type"'), hex);
        assert.equal(error === null, number === undefined, hex);
        const source = pieces(bytes, SIZES[found.length % SIZES.length]);
        const checked = await gob.check(source, options).catch((fault) => fault);
        if (error === null) assert.deepEqual([checked.values, checked.bytes], [found.length, bytes.length], hex);
        if (error === null) continue;
        assert.deepEqual(checked, error, hex);
        const told = [error.number, error.reason, error.type, error.place, error.seen];
        assert.deepEqual(told.map(String), [number, reason, type, place, seen].map(String), hex);
        const { values, bytes: whole } = await gob.check(bytes.subarray(0, error.begin), options);
        assert.deepEqual([values, whole], [found.length, error.begin], hex);
    }
});
