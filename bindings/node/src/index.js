// Streams of Go's encoding/gob as JavaScript values. index.d.ts says what each name is for.

import { check } from "./checking.js";
import { knowing } from "./instances.js";
import { Reading } from "./reading.js";
import { Refused } from "./refused.js";
import { PlainLines, ShowLines } from "./shared.js";
import { TellingItems } from "./telling.js";
import { Values } from "./values.js";

export { known, Opaque, Pairs, Time } from "./values.js";
export { check, Refused };

export async function* read(source, options = {}) {
    const reading = await Reading.open(options), values = new Values(reading.types, options);
    for await (const batch of reading.batches(source)) {
        for (const item of reading.values(batch)) {
            yield { type: reading.type(batch.id(item)), value: values.of(batch, item) };
        }
    }
}

export async function load(source, options) {
    const values = [];
    try {
        for await (const { value } of read(source, options)) values.push(value);
    } catch (error) {
        throw error instanceof Refused ? Object.assign(error, { values }) : error;
    }
    return values;
}

export async function* lines(source, { as = "values", ...options } = {}) {
    const makers = { values: PlainLines, show: ShowLines };
    if (!Object.hasOwn(makers, as)) throw new TypeError(`lines are as "values" or as "show", not as ${as}`);
    const reading = await Reading.open(options), maker = new makers[as](reading.types, knowing());
    for await (const batch of reading.batches(source)) {
        for (const item of reading.items(batch)) {
            const line = maker.line(batch, item);
            if (line !== "") yield line.slice(0, -1);
        }
    }
}

export async function types(source, options) {
    const reading = await Reading.through(source, options);
    return new Map([...reading.definitions.keys()].map((id) => [id, reading.type(id)]));
}

export async function typesSource(source, options) {
    const telling = await TellingItems.open(source, options);
    await telling.pass();
    return telling.text();
}
