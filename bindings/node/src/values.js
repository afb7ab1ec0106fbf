// JavaScript values of nodes.

import { knowing } from "./instances.js";
import { HELD, LIST, MAP, STRUCT, hexOf, signedOf, utf8, wholeOf } from "./shared.js";

const STRING = 6;
// V8 keeps all of a text while it keeps a part of so many characters or more
const SHORT = 12;
// how the text of a time begins, of what is marshalled as gob
const TIME = /^\d{4}-\d\d-\d\dT/;
const YEAR_1_TO_1970 = 62135596800n; // in seconds

/** What a type that encodes itself wrote. */
export class Opaque {
    constructor(type, marshal, data) {
        Object.assign(this, { type, marshal, data });
    }
}

/** The keys and elements of a map of which two keys are equal in JavaScript. */
export class Pairs extends Array {}

/** A time.Time: a Date, to the millisecond, with its text in RFC 3339, which has all digits and the offset. */
export class Time extends Date {
    constructor(milliseconds, text) {
        super(milliseconds);
        this.text = text;
    }

    toJSON() {
        return this.text;
    }
}

/** The value that is known of an opaque one by the name of its type, else the opaque one itself. */
export function known(opaque) {
    const { type, marshal, data } = opaque;
    const { digits, text } = knowing().of({ name: { text: type }, marshal }, data);
    if (digits !== null) return BigInt(digits);
    if (text === null) return opaque;
    return marshal === "gob" && TIME.test(text) ? new Time(millisecondsOf(data), text) : text;
}

/** When a time was, since 1970 UTC: behind its version stand its seconds and the nanoseconds behind them. (Its text
 * leaves out the seconds of its offset.) */
function millisecondsOf(data) {
    const time = new DataView(data.buffer, data.byteOffset, data.length);
    return 1000 * Number(time.getBigInt64(1) - YEAR_1_TO_1970) + Math.floor(time.getUint32(9) / 1e6);
}

/** A name of a type or of a field. */
export function memberName(name) {
    return name.text ?? "0x" + name.hex;
}

/** Sets a member, whatever its name is. */
function setMember(object, name, value) {
    if (name !== "__proto__") object[name] = value;
    else Object.defineProperty(object, name, { value, writable: true, enumerable: true, configurable: true });
}

/** The names of a struct's fields: of two fields of one name the later has its number behind it. */
function fieldNames(fields) {
    const seen = new Set();
    return fields.map((field, number) => {
        const name = memberName(field.name), own = seen.has(name) ? `${name}#${number}` : name;
        seen.add(own);
        return own;
    });
}

/** Makes the values of a stream whose types are in the map. */
export class Values {
    constructor(types, { bigint = false, held = ({ value }) => value, opaque = known, zeros = false }) {
        Object.assign(this, { types, bigint, held, opaque, zeros, structs: new Map() });
    }

    /** The value that an item of a batch gives. */
    of(batch, item) {
        this.batch = batch;
        this.base = batch.base(item);
        return this.part(batch.node(item), batch.id(item));
    }

    part(node, id) {
        const { batch } = this;
        switch (batch.kind(node)) {
        case 1: return batch.low(node) === 1;
        case 2: return this.signed(node);
        case 3: return this.unsigned(node);
        case 4: return batch.real(node, 0);
        case 5: return this.bytes(node);
        case STRING: return this.text(node);
        case 7: return { re: batch.real(node, 0), im: batch.real(node, 1) };
        case 8: return null;
        case LIST: return this.list(node, this.types.get(id).elem);
        case MAP: return this.map(node, this.types.get(id));
        case STRUCT: return this.struct(node, id);
        case HELD: return this.filling(node);
        default: return this.own(node, this.types.get(id));
        }
    }

    // small ones are made without numbers of 64 bits, which are slow
    signed(node) {
        const { batch } = this, low = batch.low(node);
        if (batch.high(node) === 0 && !this.bigint) return low & 1 ? -(low >>> 1) - 1 : low >>> 1;
        return this.wide(signedOf(batch.bits(node, 0)));
    }

    unsigned(node) {
        const { batch } = this;
        return batch.high(node) === 0 && !this.bigint ? batch.low(node) : this.wide(batch.bits(node, 0));
    }

    wide(number) {
        return this.bigint ? number : wholeOf(number);
    }

    bytes(node) {
        return this.batch.bytesAt(node, this.base).slice();
    }

    /** A text, or its bytes where they are no UTF-8. */
    text(node) {
        const { batch, base } = this;
        if (batch.length(node) <= SHORT) return batch.textAt(node, base) ?? this.bytes(node);
        try {
            return utf8.decode(batch.bytesAt(node, base));
        } catch {
            return this.bytes(node);
        }
    }

    list(node, elem) {
        const { batch } = this, end = batch.after(node), out = [];
        for (let at = node + 1; at < end; at = batch.after(at)) out.push(this.part(at, elem));
        return out;
    }

    map(node, type) {
        const { batch } = this, end = batch.after(node), pairs = new Pairs();
        for (let at = node + 1; at < end;) {
            const element = batch.after(at);
            pairs.push([this.part(at, type.key), this.part(element, type.elem)]);
            at = batch.after(element);
        }
        return type.key === STRING ? objectOf(pairs) : mapOf(pairs);
    }

    struct(node, id) {
        const { batch } = this, end = batch.after(node), struct = this.structOf(id), out = {};
        let next = 0;
        for (let at = node + 1; at < end; at = batch.after(at)) {
            const number = batch.number(at);
            this.addZeros(out, struct, next, number);
            setMember(out, struct.names[number], this.part(at, struct.fields[number].type));
            next = number + 1;
        }
        this.addZeros(out, struct, next, struct.fields.length);
        return out;
    }

    structOf(id) {
        let struct = this.structs.get(id);
        if (struct === undefined) {
            const { fields } = this.types.get(id);
            this.structs.set(id, struct = { fields, names: fieldNames(fields) });
        }
        return struct;
    }

    /** The absent fields of some numbers, where zeros are wanted. */
    addZeros(out, { fields, names }, from, to) {
        for (let number = from; this.zeros && number < to; number++) {
            const zero = this.zero(fields[number].type);
            if (zero !== undefined) setMember(out, names[number], zero);
        }
    }

    /** What Go left out as a zero of the type, where `gob values --zeros` shows one. */
    zero(id) {
        const none = this.bigint ? 0n : 0;
        switch (id) {
        case 1: return false;
        case 2: return none;
        case 3: return none;
        case 4: return 0;
        case 5: return new Uint8Array(0);
        case STRING: return "";
        case 7: return { re: 0, im: 0 };
        default: return this.types.get(id)?.kind === "slice" ? [] : undefined;
        }
    }

    /** What stands in an interface. */
    filling(node) {
        const { batch } = this, name = batch.nameOfHeld(node), type = batch.length(node);
        return this.held({ name: this.text(name), type, value: this.part(name + 1, type) });
    }

    own(node, type) {
        return this.opaque(new Opaque(memberName(type.name), type.marshal, this.bytes(node)));
    }
}

/** A map whose keys are texts; one that is no UTF-8 is its bytes in hexadecimal. */
function objectOf(pairs) {
    const out = {};
    for (const [key, element] of pairs) {
        const name = typeof key === "string" ? key : "0x" + hexOf(key);
        if (Object.hasOwn(out, name)) return pairs;
        setMember(out, name, element);
    }
    return out;
}

function mapOf(pairs) {
    const out = new Map(pairs);
    return out.size === pairs.length ? out : pairs;
}
