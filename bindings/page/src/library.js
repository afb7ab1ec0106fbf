// The C library, translated for browsers: the calls of gob.h, over a memory of their own. Pointers are numbers of 64
// bits in its calls, and never above 2^32.

const OK = 0, REFUSED = 1, NO_MEMORY = 2;
const PIECE = 1 << 18;
// so many bytes a head of an item, a node and a fault have, and what a call tells: a batch at the most, of 48
const HEAD = 64, NODE = 24, FAULT = 40, TOLD = 128;

/** Items that the library handed out: their heads, their nodes and their bytes, as gob.h lays them out. */
class Batch {
    constructor(heads, nodes, bytes, shift = 0) {
        this.heads = new Uint32Array(heads.buffer, heads.byteOffset, heads.length / 4);
        this.words = new Uint32Array(nodes.buffer, nodes.byteOffset, nodes.length / 4);
        this.wides = new BigUint64Array(nodes.buffer, nodes.byteOffset, nodes.length / 8);
        this.reals = new Float64Array(nodes.buffer, nodes.byteOffset, nodes.length / 8);
        this.pool = bytes;
        this.shift = shift;
        this.items = heads.length / HEAD;
        this.ascii = undefined;
    }

    // of an item
    id(item) { return this.heads[16 * item]; }
    node(item) { return this.heads[16 * item + 2]; }
    nodes(item) { return this.heads[16 * item + 4]; }
    base(item) { return this.heads[16 * item + 6]; }
    size(item) { return this.heads[16 * item + 8]; }
    isDefinition(item) { return this.heads[16 * item + 10] === 1; }
    // where it begins in the file, and the offset behind it: a definition in a value has those of the value's item
    begin(item) { return this.offset(16 * item + 12); }
    end(item) { return this.offset(16 * item + 14); }
    offset(word) { return this.shift + 0x100000000 * this.heads[word + 1] + this.heads[word]; }

    // of a node
    kind(node) { return this.words[6 * node + 5] & 0xffff; }
    number(node) { return this.words[6 * node + 4]; }
    low(node) { return this.words[6 * node]; }
    high(node) { return this.words[6 * node + 1]; }
    bits(node, which) { return this.wides[3 * node + which]; }
    real(node, which) { return this.reals[3 * node + which]; }
    length(node) { return this.words[6 * node + 2]; }

    /** The node behind this part and all that is in it. */
    after(node) {
        const kind = this.kind(node);
        return node + (kind >= LIST && kind <= STRUCT ? this.length(node) : 1);
    }

    /** The number of an int in decimal; small ones are told without numbers of 64 bits, which are slow. */
    integer(node) {
        const low = this.low(node);
        if (this.high(node) !== 0) return signedOf(this.bits(node, 0)).toString();
        return String(low & 1 ? -(low >>> 1) - 1 : low >>> 1);
    }

    unsigned(node) {
        return this.high(node) === 0 ? String(this.low(node)) : this.bits(node, 0).toString();
    }

    /** Where the name stands of what an interface holds; behind it stands what it holds, of the type `length`. */
    nameOfHeld(node) { return node + this.low(node); }

    bytesAt(node, base) {
        const at = base + this.low(node);
        return this.pool.subarray(at, at + this.length(node));
    }

    /** The text of a part; null where its bytes are no UTF-8. Most pools are ASCII, and are made a text once. */
    textAt(node, base) {
        if (this.ascii === undefined) this.ascii = asciiOf(this.pool);
        if (this.ascii === null) return textOf(this.bytesAt(node, base));
        const at = base + this.low(node);
        return this.ascii.slice(at, at + this.length(node));
    }

    /** An item alone, with its type. */
    copied(item) {
        return { id: this.id(item), ...this.copy(item, item + 1) };
    }

    /** These items alone, in memory of their own. */
    copy(from, to) {
        const node = this.node(from), base = this.base(from), last = to - 1;
        const heads = this.heads.slice(16 * from, 16 * to);
        const words = this.words.slice(6 * node, 6 * (this.node(last) + this.nodes(last)));
        const pool = this.pool.slice(base, this.base(last) + this.size(last));
        for (let item = 0; item < to - from; item++) {
            heads[16 * item + 2] -= node;
            heads[16 * item + 6] -= base;
        }
        return { heads: new Uint8Array(heads.buffer), nodes: new Uint8Array(words.buffer), pool };
    }
}

function asciiOf(pool) {
    for (const byte of pool) if (byte > 127) return null;
    return utf8.decode(pool);
}

/** The reasons that speak of a type's id. */
const SPEAKS_OF_ID = new Set([7, 8, 10, 11]);

/** The line that the program prints of a refusal. */
function lineOfFault({ reason, name, id, place, seen }) {
    return `gob: refused ${reason} ${name}${SPEAKS_OF_ID.has(reason) ? `(${id})` : ""} at ${place} seen ${seen}`;
}

/** A reader of one stream. */
class Reader {
    /** A new reader. `module` is the compiled library. */
    static async open(module) {
        const { exports } = await WebAssembly.instantiate(module, {});
        return new Reader(exports);
    }

    /** Limits that aren't given are the standard ones; `open` is gob_open or its like. */
    constructor(calls, limits = {}, open = calls.gob_open) {
        this.calls = calls;
        this.shift = 0; // how much further on in the file stands what is fed
        this.told = calls.malloc(BigInt(TOLD));
        this.piece = calls.malloc(BigInt(PIECE));
        this.fault = { status: NO_MEMORY };
        if (this.told === 0n || this.piece === 0n) return;
        this.ask(limits);
        this.handle = open(this.piece, this.told);
        this.hear();
    }

    // the limits, as gob_limits, where a piece will stand
    ask({ item = 67108864, depth = 1000, types = 10000, stream = 68719476736 }) {
        const words = new BigUint64Array(this.calls.memory.buffer, Number(this.piece), 4);
        words.set([item, depth, types, stream].map(BigInt));
    }

    at(pointer, size) {
        return new Uint8Array(this.calls.memory.buffer, Number(pointer), size);
    }

    // what the last call told of how it ended
    hear() {
        const told = new DataView(this.calls.memory.buffer, Number(this.told), FAULT);
        const wide = (at) => wholeOf(told.getBigUint64(at, true));
        const [status, reason] = [told.getUint32(0, true), told.getUint32(4, true)];
        this.fault = { status, reason, id: wide(8), place: wide(16), seen: wide(24), begin: wide(32) };
        if (status === REFUSED) {
            this.fault.name = this.text(this.calls.gob_reason_name(reason));
            this.fault.what = this.text(this.calls.gob_reason_text(reason));
        }
        return status === OK;
    }

    /** A text of the library, which ends with a 0. */
    text(pointer) {
        const rest = new Uint8Array(this.calls.memory.buffer, Number(pointer));
        return utf8.decode(rest.subarray(0, rest.indexOf(0)));
    }

    /** Takes the next bytes, up to the piece of PIECE bytes in which they are refused. */
    feed(bytes) {
        for (let at = 0; at < bytes.length; at += PIECE) {
            const piece = bytes.subarray(at, at + PIECE);
            this.at(this.piece, piece.length).set(piece);
            this.pass(BigInt(piece.length));
            if (!this.hear()) return false;
        }
        return this.fault.status === OK;
    }

    /** Says that no byte follows. */
    finish() {
        this.end();
        return this.hear();
    }

    // the calls of a reader, in whose place a check has its own
    pass(count) { this.calls.gob_feed(this.handle, this.piece, count, this.told); }
    end() { this.calls.gob_finish(this.handle, this.told); }
    close() { this.calls.gob_close(this.handle); }

    /** The next items that are whole; null where there is none. A batch stands until the next call. */
    take() {
        const took = this.calls.gob_take(this.handle, this.told);
        if (took < 0) this.fault = { status: NO_MEMORY };
        if (took !== 1) return null;
        const told = new Uint32Array(this.calls.memory.buffer, Number(this.told), 12);
        const [heads, , nodes, , bytes, , items, , count, , size] = told;
        const nodesAt = this.at(nodes, NODE * count);
        return new Batch(this.at(heads, HEAD * items), nodesAt, this.at(bytes, size), this.shift);
    }

    /** Each batch that waits. */
    *batches() {
        for (let batch = this.take(); batch !== null; batch = this.take()) yield batch;
    }

    /** A type that is known from the start: 16 to 23. */
    type(id) {
        const item = Number(this.calls.gob_type(this.handle, id));
        const [, , nodes, , count, , bytes, , size] = new Uint32Array(this.calls.memory.buffer, item, 10);
        const batch = new Batch(new Uint8Array(0), this.at(nodes, NODE * count), this.at(bytes, size));
        return typeOf(id, batch, 0, count, 0);
    }
}
