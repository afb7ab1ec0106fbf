// A file that is read: what is in it, any of its values, and its lines. Little is kept besides the types: a file is
// read in pieces, and each value that is asked for is read again from the last mark before it.

const STOPPED = "stopped";
const MOST_FOUND = 100; // so many values are found at once

/** Ends a reading that isn't wanted any more, at an offset. */
class Stopped extends Error {
    constructor(at) {
        super(STOPPED);
        this.at = at;
    }
}

class Stream {
    constructor(module, file) {
        this.module = module;
        this.file = file;
        this.types = new Map();
        this.base = new Map();
        this.items = 0;
        this.values = 0;
        this.marks = [];
        this.definitions = []; // the items that have some
        this.telling = new Telling();
        this.tellingItems = []; // where they begin and end
        this.begin = { item: -1, definition: -1 }; // of the last of each
        this.end = file.size;
        this.stops = 0;
    }

    /** Stops what is being read. */
    stop() {
        this.stops++;
    }

    async bytes(from, to) {
        return new Uint8Array(await this.file.slice(from, to).arrayBuffer());
    }

    /** Feeds the file from an offset on, and gives each batch of items; `progress` is called at each piece. */
    async *batches(reader, from, progress) {
        const { stops } = this;
        for (let at = from; at < this.end && reader.fault.status === OK; at += PIECE) {
            const piece = await this.bytes(at, Math.min(at + PIECE, this.end));
            if (this.stops !== stops) throw new Stopped(at);
            progress(at);
            reader.feed(piece);
            yield* reader.batches();
        }
        if (reader.fault.status === OK && this.end === this.file.size) reader.finish();
    }

    /** Reads all of the file, and tells what is in it. */
    async read(progress) {
        const reader = await Reader.open(this.module);
        if (reader.fault.status === OK) this.knowBase(reader);
        try {
            for await (const batch of this.batches(reader, 0, progress)) this.keep(batch);
            this.fault = reader.fault;
        } catch (error) {
            this.stopAt(error);
        }
        return this.told();
    }

    // what was read up to here stands
    stopAt(error) {
        if (!(error instanceof Stopped)) throw error;
        this.fault = { status: STOPPED };
        this.end = error.at;
    }

    knowBase(reader) {
        for (const id of [16, 17, 18, 19, 20, 21, 22, 23, 24]) this.base.set(id, reader.type(id));
    }

    // what of these items is kept: types, how many values there are, and now and then where one begins
    keep(batch) {
        this.mark(batch.begin(0));
        for (let item = 0; item < batch.items; item++) {
            const begin = batch.begin(item);
            // (the definitions in a value are handed out in front of it, and are no items)
            if (begin !== this.begin.item) this.items++;
            this.begin.item = begin;
            if (batch.isDefinition(item)) this.keepDefinition(batch, item);
            else this.keepValue(batch, item);
        }
    }

    mark(start) {
        const isFar = this.marks.length === 0 || start >= this.marks.at(-1).start + PIECE;
        if (!isFar || start === this.begin.item) return;
        this.marks.push({ start, items: this.items, values: this.values, definitions: this.definitions.length });
    }

    keepDefinition(batch, item) {
        const id = batch.id(item), begin = batch.begin(item);
        const type = typeOf(id, batch, batch.node(item), batch.nodes(item), batch.base(item));
        this.types.set(id, type);
        this.keepTelling(batch, item, type);
        if (begin !== this.begin.definition) this.definitions.push(this.file.slice(begin, batch.end(item)));
        this.begin.definition = begin;
    }

    keepValue(batch, item) {
        this.values++;
        this.keepTelling(batch, item, null);
    }

    keepTelling(batch, item, type) {
        if (!this.telling.has(batch, item, type)) return;
        const begin = batch.begin(item), end = batch.end(item), last = this.tellingItems.at(-1);
        // (a definition in a value has the place of the value's item)
        if (begin <= last?.end) last.end = end;
        else this.tellingItems.push({ begin, end });
    }

    async told() {
        const { fault, file, items, values, types } = this;
        const told = { status: fault.status, size: file.size, end: this.end, items, values, types, all: this.all() };
        told.source = await this.source();
        if (fault.status === REFUSED) told.refusal = await this.refusal(fault);
        return told;
    }

    /** The types as Go source; null where there is no memory for it. */
    async source() {
        const parts = new Blob(this.tellingItems.map(({ begin, end }) => this.file.slice(begin, end)));
        const { exports } = await WebAssembly.instantiate(this.module, {});
        return sourceOf(exports, new Uint8Array(await parts.arrayBuffer()));
    }

    /** A refusal for people: its line, its reason, what is said of it, and the bytes around it. */
    async refusal(fault) {
        const from = Math.max(0, fault.place - (fault.place & 15) - 32);
        return {
            ...fault, line: lineOfFault(fault), said: await this.said(fault), isFirst: this.items === 0,
            from, bytes: await this.bytes(from, Math.max(fault.place, fault.seen) + 40),
        };
    }

    /** What `gob why` says of a refusal; null where it stands too far on for the page. It looks no further than the piece
     * that shows it. */
    async said({ seen }) {
        if (seen > MOST_SAID) return null;
        const { exports } = await WebAssembly.instantiate(this.module, {});
        return whyOf(exports, await this.bytes(0, seen + PIECE));
    }

    /** Each batch behind a mark, with its values: their numbers in the stream and in the batch. */
    async *numbered(mark, progress) {
        const reader = await Reader.open(this.module);
        reader.shift = mark.start - await this.define(reader, mark.definitions);
        let value = mark.values;
        for await (const batch of this.batches(reader, mark.start, progress)) {
            const values = [];
            for (let item = 0; item < batch.items; item++) {
                if (!batch.isDefinition(item)) values.push([value++, item]);
            }
            yield [batch, values];
        }
    }

    markOf(value) {
        return this.marks.findLast((some) => some.values <= value);
    }

    /** So many values from one on, each as a batch of its own. */
    async some(first, count) {
        const found = [];
        for await (const [batch, values] of this.numbered(this.markOf(first), () => {})) {
            for (const [value, item] of values) {
                if (value >= first && found.length < count) found.push({ value, ...batch.copied(item) });
            }
            if (found.length === count) break;
        }
        return found;
    }

    /** Some values from one on that have a text, each with the path of it, and the number of the value to look on from:
     * null where there is none. */
    async find(text, first, progress) {
        const finder = new Finder(this.all(), text, await Known.open(this.module)), found = [];
        let next = first;
        try {
            for await (const [batch, values] of this.numbered(this.markOf(first), progress)) {
                for (const [value, item] of values) {
                    if (value < next) continue;
                    next = value + 1;
                    const path = finder.pathIn(batch, item);
                    if (path !== null) found.push({ value, path, ...batch.copied(item) });
                    if (found.length === MOST_FOUND) return { found, next };
                }
            }
        } catch (error) {
            if (error instanceof Stopped) return { found, next };
            throw error;
        }
        return { found, next: null };
    }

    /** The item of a number, or the item around a byte; null where none was read there. */
    async item(unit, wanted) {
        const numbered = (mark) => unit === "byte" ? mark.start : mark.items;
        const mark = this.marks.findLast((some) => numbered(some) <= wanted) ?? this.marks[0];
        let number = mark.items - 1, last = -1, found = null;
        for await (const [batch, values] of this.numbered(mark, () => {})) {
            for (let item = 0; item < batch.items; item++) {
                const begin = batch.begin(item);
                if (begin !== last && found !== null) return this.withBytes(found);
                if (begin !== last) number++;
                last = begin;
                const isHere = unit === "byte" ? begin <= wanted && wanted < batch.end(item) : number === wanted;
                // (a value behind the definitions in it takes their place)
                if (isHere) found = this.itemAt(batch, item, number, values, unit === "byte" ? wanted : begin);
            }
        }
        return found === null ? null : this.withBytes(found);
    }

    itemAt(batch, item, number, values, place) {
        const value = values.find(([, other]) => other === item)?.[0];
        const held = value === undefined ? { defined: batch.id(item) } : { value, ...batch.copied(item) };
        return { item: number, begin: batch.begin(item), end: batch.end(item), place, ...held };
    }

    /** An item with the bytes around a place of it. */
    async withBytes(item) {
        const from = Math.max(0, item.place - (item.place & 15) - 32);
        return { ...item, from, bytes: await this.bytes(from, item.place + 40) };
    }

    /** Gives a reader the first items of the file that have definitions. The answer is how many bytes they are. */
    async define(reader, count) {
        const items = new Blob(this.definitions.slice(0, count));
        for (let at = 0; at < items.size; at += PIECE) {
            reader.feed(new Uint8Array(await items.slice(at, at + PIECE).arrayBuffer()));
            for (const batch of reader.batches()) void batch;
        }
        return items.size;
    }

    /** The lines of `gob show --go` or of `gob values`, as a file. */
    async lines(kind, progress) {
        const lines = kind === "show" ? new ShowLines(this.all()) : await this.plainLines();
        const reader = await Reader.open(this.module);
        const parts = [], encoder = new TextEncoder();
        for await (const batch of this.batches(reader, 0, progress)) {
            let text = "";
            for (let item = 0; item < batch.items; item++) {
                text += lines.line(batch, item);
                if (text.length < 1 << 20) continue;
                parts.push(encoder.encode(text));
                text = "";
            }
            parts.push(encoder.encode(text));
        }
        if (reader.fault.status === NO_MEMORY) throw new Error("the page has no memory for these items");
        return new Blob(parts, { type: "application/jsonl" });
    }

    async plainLines() {
        return new PlainLines(this.all(), await Known.open(this.module));
    }

    all() {
        return new Map([...this.base, ...this.types]);
    }
}

/** Serves the calls of a page about one stream at a time; `send` gives it answers. Both a worker and a page can. */
class Server {
    constructor(send) {
        this.send = send;
        this.stream = null;
        this.module = null;
    }

    async answer({ number, call, words }) {
        const progress = (at) => this.tell({ number, progress: at });
        try {
            this.send({ number, result: await this[call](progress, ...words) });
        } catch (error) {
            this.send({ number, error: error instanceof Stopped ? STOPPED : String(error) });
        }
    }

    // not more often than the page can show it
    tell(message) {
        const now = performance.now();
        if (now - (this.last ?? 0) < 100) return;
        this.last = now;
        this.send(message);
    }

    async load(progress, bytes) {
        this.module = await WebAssembly.compile(bytes);
    }

    read(progress, file) {
        this.stream?.stop();
        this.stream = new Stream(this.module, file);
        return this.stream.read(progress);
    }

    stop() {
        this.stream?.stop();
    }

    some(progress, first, count) {
        return this.stream.some(first, count);
    }

    find(progress, text, first) {
        return this.stream.find(text, first, progress);
    }

    item(progress, unit, number) {
        return this.stream.item(unit, number);
    }

    lines(progress, kind) {
        return this.stream.lines(kind, progress);
    }
}

/** Makes a worker of this script answer a page. */
function serve() {
    const server = new Server((message) => self.postMessage(message));
    self.onmessage = ({ data }) => server.answer(data);
}
