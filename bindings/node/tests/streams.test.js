// The streams of Go's encoder: what is due of them stands beside them, and is what the program prints; GOB names it.

import assert from "node:assert/strict";
import { spawnSync } from "node:child_process";
import { join, relative } from "node:path";
import test from "node:test";
import { gathered, gob, PACKAGE, pieces, read, ROOT, streams, textOf } from "./package.js";
import { isPlain, parsed } from "./plain.js";

const GOB = process.env.GOB;
const SIZES = [1, 3, 64, 65536];

/** What a command prints of these words, but for the line in which the program names the file behind a refusal. */
function printed(command, ...words) {
    const ran = spawnSync(command, words, { encoding: "utf8", maxBuffer: 1 << 30 });
    return { ...ran, stderr: ran.stderr.replace(/^gob: in .*\n/m, "") };
}

for (const path of streams()) {
    const name = relative(ROOT, path), bytes = read(path);
    const values = printed(GOB, "values", path), show = printed(GOB, "show", "--go", path);

    test(`${name}: its lines, whole and in pieces`, async () => {
        for (const source of [path, ...SIZES.map((size) => pieces(bytes, size))]) {
            assert.equal(await textOf(source), values.stdout + values.stderr);
        }
        for (const source of [bytes, pieces(bytes, 7)]) {
            assert.equal(await textOf(source, { as: "show" }), show.stdout + show.stderr);
        }
    });

    test(`${name}: its values are those of its lines`, async () => {
        const { found } = await gathered(gob.read(bytes)), lines = values.stdout.split("\n").slice(0, -1);
        assert.equal(found.length, lines.length);
        found.forEach(({ value }, place) => assert.ok(isPlain(parsed(lines[place]), value), lines[place]));
    });

    test(`${name}: with zeros, in the order of the fields`, async () => {
        const due = printed(GOB, "values", "--zeros", path).stdout.split("\n").slice(0, -1);
        const { found } = await gathered(gob.read(bytes, { zeros: true }));
        found.forEach(({ value }, place) => assert.ok(isPlain(parsed(due[place]), value), due[place]));
    });

    test(`${name}: the source of its types`, async () => {
        const due = printed(GOB, "types", path), whole = due.status === 0;
        for (const size of [7, 1 << 18]) {
            const { found, error } = await gathered([gob.typesSource(pieces(bytes, size))]);
            assert.equal(error === null, whole);
            if (whole) assert.deepEqual(found, [due.stdout]);
        }
    });

    test(`${name}: it is read by the documented format`, async () => {
        const due = printed(GOB, "show", path);
        assert.equal(await textOf(bytes, { as: "show", exact: true }), due.stdout + due.stderr);
    });
}

const FILES = ["examples/logins.gob", "examples/damaged.gob", "interop/filled/streams/session.gob", "no/such.gob"];

for (const path of FILES) {
    test(`the command prints what the program prints of ${path}`, () => {
        for (const words of [["values"], ["show", "--go"], ["types"], ["check", "--go"]]) {
            const due = printed(GOB, ...words, join(ROOT, path));
            const made = printed(process.execPath, join(PACKAGE, "command.js"), words[0], join(ROOT, path));
            assert.equal(made.status, due.status, words[0]);
            assert.equal(made.stdout, due.stdout, words[0]);
            assert.equal(made.stderr === due.stderr || due.status === 2, true, made.stderr);
        }
    });
}

test("the command reads standard input, and says what it takes", () => {
    const command = join(PACKAGE, "command.js"), input = read(join(ROOT, "examples/logins.gob"));
    for (const words of [["values"], ["values", "-"]]) {
        const made = spawnSync(process.execPath, [command, ...words], { input, encoding: "utf8" });
        assert.equal(made.stdout.split("\n").length, 3);
    }
    for (const [words, status] of [[["help"], 0], [[], 2], [["value", "x"], 2], [["values", "x", "y"], 2]]) {
        const made = printed(process.execPath, command, ...words);
        assert.equal(made.status, status);
        assert.match(made.stdout + made.stderr, /^gobstream values \[FILE\]/);
    }
});
