// The calls of the package, over streams that were worked out by hand.

import assert from "node:assert/strict";
import { join } from "node:path";
import { Readable } from "node:stream";
import test from "node:test";
import { pathToFileURL } from "node:url";
import { bytesOf, gathered, gob, PACKAGE, pieces, ROOT } from "./package.js";

const TYPE = {
    point: "1f ff 81 03 01 01 05 50 6f 69 6e 74 01 ff 82 00 01 02 01 01 58 01 04 00 01 01 59 01 04 00 00 00",
    array: "0e ff 81 01 01 02 ff 82 00 01 04 01 04 00 00",
    slice: "0c ff 83 02 01 02 ff 84 00 01 04 00 00",
    ints: "0e ff 81 04 01 02 ff 82 00 01 04 01 0c 00 00",
    texts: "0e ff 81 04 01 02 ff 82 00 01 0c 01 04 00 00",
    floats: "0e ff 81 04 01 02 ff 82 00 01 08 01 04 00 00",
    time: "10 ff 81 05 01 01 04 54 69 6d 65 01 ff 82 00 00 00",
    int: "0f ff 81 05 01 01 03 49 6e 74 01 ff 82 00 00 00",
    float: "11 ff 81 05 01 01 05 46 6c 6f 61 74 01 ff 82 00 00 00",
    rat: "0f ff 81 05 01 01 03 52 61 74 01 ff 82 00 00 00",
    own: "0d ff 81 05 01 01 01 54 01 ff 82 00 00 00",
    nameless: "0a ff 81 05 01 02 ff 82 00 00 00",
    text: "0d ff 81 07 01 01 01 54 01 ff 82 00 00 00",
};
const points = bytesOf(`${TYPE.point} 07 ff 82 01 2c 01 42 00 05 ff 82 02 42 00`);
const due = [{ X: 22, Y: 33 }, { Y: 33 }];

// each value beside its stream
const VALUES = [
    ["03 02 00 01", true],
    ["03 04 00 06", 3],
    ["03 04 00 05", -3],
    ["0b 04 00 f8 ff ff ff ff ff ff ff ff", -9223372036854775808n],
    ["0a 04 00 f9 3f ff ff ff ff ff fe", Number.MAX_SAFE_INTEGER],
    ["0a 04 00 f9 40 00 00 00 00 00 00", 9007199254740992n],
    ["0b 06 00 f8 ff ff ff ff ff ff ff ff", 18446744073709551615n],
    ["05 08 00 fe 31 40", 17],
    ["04 08 00 ff 80", -0],
    ["0b 08 00 f8 01 00 00 00 00 00 f8 7f", NaN],
    ["05 08 00 fe f0 ff", -Infinity],
    ["06 0e 00 fe 31 40 00", { re: 17, im: 0 }],
    ["05 0a 00 02 00 ff", new Uint8Array([0, 255])],
    ["05 0c 00 02 c3 a9", "\u00e9"],
    ["04 0c 00 01 ff", new Uint8Array([255])],
    ["03 10 00 00", null],
    ["0a 10 00 03 69 6e 74 04 02 00 0a", 5],
    [`${TYPE.array} 06 ff 82 00 02 02 04`, [1, 2]],
    [`${TYPE.slice} 05 ff 84 00 01 02`, [1]],
    [`${TYPE.texts} 07 ff 82 00 01 01 61 02`, { a: 1 }],
    [`${TYPE.texts} 0a ff 82 00 02 01 61 02 01 61 04`, gob.Pairs.from([["a", 1], ["a", 2]])],
    [`${TYPE.texts} 07 ff 82 00 01 01 ff 02`, { "0xff": 1 }],
    [`${TYPE.ints} 0a ff 82 00 02 02 01 61 04 01 62`, new Map([[1, "a"], [2, "b"]])],
    [`${TYPE.floats} 09 ff 82 00 02 00 02 ff 80 04`, gob.Pairs.from([[0, 1], [-0, 2]])],
    [`${TYPE.int} 06 ff 82 00 02 03 05`, -5n],
    [`${TYPE.time} 06 ff 82 00 02 0a 0b`, new gob.Opaque("Time", "gob", new Uint8Array([10, 11]))],
    [`${TYPE.float} 16 ff 82 00 12 01 0a 00 00 00 35 00 00 00 01 c0 00 00 00 00 00 00 00`, "1.5"],
    [`${TYPE.rat} 0b ff 82 00 07 02 00 00 00 01 03 02`, "3/2"],
    [`${TYPE.own} 04 ff 82 00 00`, new gob.Opaque("T", "gob", new Uint8Array(0))],
    [`${TYPE.nameless} 06 ff 82 00 02 03 05`, -5n],
    [`${TYPE.text} 04 ff 82 00 00`, ""],
    [`${TYPE.text} 08 ff 82 00 04 41 6a 3d 3d`, "Aj=="],
    [`${TYPE.text} 05 ff 82 00 01 ff`, new gob.Opaque("T", "text", new Uint8Array([255]))],
];

test("each kind of value", async () => {
    for (const [stream, value] of VALUES) assert.deepEqual(await gob.load(bytesOf(stream)), [value], stream);
});

test("a time has milliseconds, and a text with all digits and its offset", async () => {
    const stream = bytesOf(`${TYPE.time} 13 ff 82 00 0f 01 00 00 00 0e bb 4a ea 8d 1d cd 65 01 01 4a`);
    const [time] = await gob.load(stream);
    assert.ok(time instanceof Date && time instanceof gob.Time);
    assert.equal(time.toISOString(), "2006-01-02T09:34:05.500Z");
    assert.equal(JSON.stringify([time]), '["2006-01-02T15:04:05.500000001+05:30"]');
    const [opaque] = await gob.load(stream, { opaque: (it) => it });
    assert.deepEqual([opaque.type, opaque.marshal, opaque.data.length], ["Time", "gob", 15]);
    assert.deepEqual(gob.known(opaque), time);
});

test("a name of a field or a key is a member, whatever it is", async () => {
    // of a struct with the fields __proto__ and A twice, and of a map with the key __proto__
    const fields = "09 5f 5f 70 72 6f 74 6f 5f 5f 01 04 00 01 01 41 01 04 00 01 01 41 01 04 00 00 00";
    const type = `26 ff 81 03 01 02 ff 82 00 01 03 01 ${fields}`;
    const [struct] = await gob.load(bytesOf(`${type} 09 ff 82 01 02 01 04 01 06 00`));
    assert.deepEqual(Object.entries(struct), [["__proto__", 1], ["A", 2], ["A#2", 3]]);
    const [map] = await gob.load(bytesOf(`${TYPE.texts} 0f ff 82 00 01 09 5f 5f 70 72 6f 74 6f 5f 5f 02`));
    assert.deepEqual(Object.entries(map), [["__proto__", 1]]);
    assert.equal(Object.getPrototypeOf(map), Object.prototype);
});

test("options make other values", async () => {
    assert.deepEqual(await gob.load(points, { bigint: true }), [{ X: 22n, Y: 33n }, { Y: 33n }]);
    assert.deepEqual(await gob.load(points, { bigint: true, zeros: true }), [{ X: 22n, Y: 33n }, { X: 0n, Y: 33n }]);
    const held = await gob.load(bytesOf("0a 10 00 03 69 6e 74 04 02 00 0a"), { held: (it) => it });
    assert.deepEqual(held, [{ name: "int", type: 2, value: 5 }]);
});

test("each kind of source", async () => {
    const path = join(ROOT, "examples/logins.gob"), logins = await gob.load(path);
    assert.deepEqual(logins.map((login) => login.User), ["ann", "bob"]);
    assert.deepEqual(await gob.load(pathToFileURL(path)), logins);
    const buffer = new ArrayBuffer(points.length + 3), view = new Uint8Array(buffer, 3);
    view.set(points);
    const web = () => new Blob([points]).stream();
    const bare = { getReader: () => web().getReader() };
    const sources = [points, Buffer.from(points), buffer.slice(3), new DataView(buffer, 3), new Blob([points]), web(),
        bare, Readable.from(pieces(points, 2)), pieces(points, 1), [points.subarray(0, 7), points.subarray(7)]];
    for (const source of sources) assert.deepEqual(await gob.load(source), due);
    assert.deepEqual(await gob.load([]), []);
});

test("what is no source is told so", async () => {
    for (const source of [undefined, null, 7, {}, [1, 2], ["text"], Readable.from(["text"])]) {
        await assert.rejects(gob.load(source), TypeError);
    }
    await assert.rejects(gob.load("no/such/file.gob"), { code: "ENOENT" });
});

test("a source is let go where the reading ends early", async () => {
    let isOpen = true;
    async function* source() {
        try {
            yield points.subarray(0, 40);
            yield points.subarray(40);
        } finally {
            isOpen = false;
        }
    }
    for await (const { value } of gob.read(source())) {
        assert.deepEqual(value, due[0]);
        break;
    }
    assert.equal(isOpen, false);
});

test("values come as soon as they are whole", async () => {
    const asked = [];
    function* source() {
        for (const piece of pieces(points, 8)) {
            asked.push(piece);
            yield piece;
        }
    }
    for await (const { value } of gob.read(source())) {
        assert.deepEqual([value, asked.length], [due[0], 5]);
        break;
    }
});

test("types, their source, and what there is", async () => {
    const point = { id: 65, name: "Point", kind: "struct", fields: [{ name: "X", type: 2 }, { name: "Y", type: 2 }] };
    assert.deepEqual(await gob.types(points), new Map([[65, point]]));
    const { found } = await gathered(gob.read(points));
    assert.deepEqual(found[0].type, point);
    assert.equal(found[0].type, found[1].type);
    const source = "package types\n\n// type 65\ntype Point struct {\n\tX int\n\tY int\n}\n";
    assert.equal(await gob.typesSource(points), source);
    assert.deepEqual(await gob.check(points), { items: 3, types: 1, values: 2, bytes: 46 });
    const [{ type }] = (await gathered(gob.read(bytesOf(`${TYPE.array} 06 ff 82 00 02 02 04`)))).found;
    assert.deepEqual(type, { id: 65, name: "", kind: "array", elem: 2, len: 2 });
    const [{ type: int }] = (await gathered(gob.read(bytesOf("03 04 00 06")))).found;
    assert.deepEqual(int, { id: 2, name: "int", kind: "basic" });
});

test("a refusal says why, where, and what stands before", async () => {
    const cut = points.subarray(0, 45);
    const refused = { name: "Refused", message: "refused 22 Ended at 45 seen 45", reason: "Ended", number: 22,
        what: "The bytes end within an item.", type: undefined, place: 45, seen: 45, begin: 40, values: [due[0]] };
    const error = await gob.load(cut).catch((error) => error);
    assert.ok(error instanceof gob.Refused && error instanceof Error);
    for (const [name, told] of Object.entries(refused)) if (name !== "what") assert.deepEqual(error[name], told, name);
    assert.match(error.what, /^[A-Z].*\.$/);
    await assert.rejects(gob.check(bytesOf("03 ff 86 00")), { reason: "UndefinedType", type: 67 });
    const far = bytesOf("09 f9 40 00 00 00 00 00 02 00"); // beyond 2 ** 53, and odd
    await assert.rejects(gob.check(far), { reason: "UndefinedType", type: 9007199254740993n });
    await assert.rejects(gob.typesSource(cut), gob.Refused);
    await assert.rejects(gob.types(cut), gob.Refused);
});

test("what is fed in one go is refused where the first fault is", async () => {
    const at = (name) => import(pathToFileURL(join(PACKAGE, name)));
    const [{ PIECE, Reader }, { instance }] = await Promise.all([at("shared.js"), at("instances.js")]);
    const reader = new Reader(await instance()), bytes = new Uint8Array(3 * PIECE);
    bytes.set(bytesOf("03 ff 86 00"));
    assert.equal(reader.feed(bytes), false);
    const { name, id, place, seen } = reader.fault;
    assert.deepEqual({ name, id, place, seen }, { name: "UndefinedType", id: 67, place: 1, seen: 3 });
    assert.equal(reader.feed(new Uint8Array(0)), false);
});

test("limits and the documented format are heeded", async () => {
    for (const [limits, reason] of [[{ item: 30 }, "ItemTooLong"], [{ types: 0n }, "TooManyTypes"],
        [{ depth: 1 }, "TooDeep"], [{ stream: 40 }, "StreamTooLong"]]) {
        await assert.rejects(gob.load(points, { limits }), { reason }, reason);
    }
    assert.deepEqual(await gob.load(points, { limits: { item: 31, depth: 5, types: 1, stream: 46 } }), due);
    const held = bytesOf("0a 10 00 03 69 6e 74 04 02 00 0a");
    await assert.rejects(gob.load(held, { exact: true }), { reason: "InterfaceValue" });
    for (const limits of [{ depth: 0 }, { item: -1 }, { stream: 2n ** 63n }, { item: 0.5 }]) {
        await assert.rejects(gob.load(points, { limits }), RangeError);
    }
    for (const options of [{ zero: true }, { limits: { items: 3 } }]) {
        await assert.rejects(gob.load(points, options), TypeError);
    }
    await assert.rejects(gob.lines(points, { as: "json" }).next(), TypeError);
});
