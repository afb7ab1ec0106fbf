#!/usr/bin/env node
// The command: what `gob values`, `gob show --go`, `gob types` and `gob check --go` print of a file.

import { once } from "node:events";
import process from "node:process";
import { check } from "./checking.js";
import { knowing } from "./instances.js";
import { Reading } from "./reading.js";
import { Refused } from "./refused.js";
import { PlainLines, ShowLines, unquoted } from "./shared.js";
import { TellingItems } from "./telling.js";

const USAGE = `gobstream values [FILE]   each value as plain JSON, a line each
gobstream show [FILE]     each item as JSON, exactly
gobstream types [FILE]    the types as Go source
gobstream check [FILE]    how many items, types and bytes there are

Without FILE each reads standard input. The exit status is 0 for a whole stream, 1 for one that is refused, and else 2.
`;

const COMMANDS = {
    values: (source) => linesText(source, PlainLines),
    show: (source) => linesText(source, ShowLines),
    types: typesText,
    check: checkText,
};

async function* linesText(source, Lines) {
    const reading = await Reading.open(), lines = new Lines(reading.types, knowing());
    for await (const batch of reading.batches(source)) {
        let text = "";
        for (const item of reading.items(batch)) text += lines.line(batch, item);
        yield text;
    }
}

/** The types, also those before a fault. */
async function* typesText(source) {
    const telling = await TellingItems.open(source);
    try {
        await telling.pass();
    } catch (error) {
        if (error instanceof Refused) yield await telling.text();
        throw error;
    }
    yield await telling.text();
}

async function* checkText(source) {
    const { items, types, bytes } = await check(source);
    yield `ok: ${items} items, ${types} types, ${bytes} bytes\n`;
}

async function write(texts) {
    for await (const text of texts) if (!process.stdout.write(text)) await once(process.stdout, "drain");
}

/** Says what went wrong, and gives the exit status. */
function complain(error) {
    const isRefused = error instanceof Refused;
    process.stderr.write(isRefused ? `gob: ${error.message}\n` : `gobstream: ${unquoted(error.message)}\n`);
    return isRefused ? 1 : 2;
}

async function run([command = "", file = "-", ...others]) {
    if (command === "help") return void process.stdout.write(USAGE);
    if (!Object.hasOwn(COMMANDS, command) || others.length > 0) {
        process.stderr.write(USAGE);
        process.exitCode = 2;
        return;
    }
    await write(COMMANDS[command](file === "-" ? process.stdin : file));
}

// a pipe that is closed, as by `| head`
process.stdout.on("error", () => process.exit(2));
run(process.argv.slice(2)).catch((error) => void (process.exitCode = complain(error)));
