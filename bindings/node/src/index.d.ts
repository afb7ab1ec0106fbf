/** A path or file URL, in Node alone; the bytes themselves; a Blob or File; or what gives bytes one after another. */
export type Source = string | URL | ArrayBuffer | ArrayBufferView | Blob | ReadableStream<Uint8Array>
    | AsyncIterable<ArrayBuffer | ArrayBufferView> | Iterable<ArrayBuffer | ArrayBufferView>;

/** What a stream may have. What goes beyond is refused. */
export interface Limits {
    /** Bytes of an item; 67108864 where it isn't given. A server that reads what others send sets it. */
    item?: number | bigint;
    /** How deep a value may be: 1 to 1000, which is what it is where it isn't given; with `exact` up to 65536. */
    depth?: number | bigint;
    /** How many types may be defined; 10000 where it isn't given. */
    types?: number | bigint;
    /** Bytes of the stream, at most 2 ** 63 - 1; 68719476736 where it isn't given. */
    stream?: number | bigint;
}

/** How a stream is read. Another name throws a TypeError. */
export interface ReadOptions {
    limits?: Limits;
    /** Read the format that Go documents alone, in which interfaces hold nothing. */
    exact?: boolean;
}

/** How values are made. */
export interface Options extends ReadOptions {
    /** Each int and uint is a bigint; else those are that a number can't hold. */
    bigint?: boolean;
    /** Fields that Go left out as zeros are there, where `gob values --zeros` shows them. */
    zeros?: boolean;
    /** Makes a value of what a type that encodes itself wrote; `known` where it isn't given. */
    opaque?: (opaque: Opaque) => unknown;
    /** Makes a value of what an interface holds; that itself where it isn't given. */
    held?: (held: Held) => unknown;
}

/** A value of which the type isn't told: see README.md for what each Go type becomes. */
export type Value = unknown;

/** What a type is. It names others by their ids, of which 1 to 8 are Go's basic types. */
export interface GoType {
    id: number;
    /** Its bytes in hexadecimal behind 0x, where they are no UTF-8; so are the names of fields. */
    name: string;
    kind: "basic" | "slice" | "array" | "map" | "struct" | "opaque";
    /** Of slices, arrays and maps. */
    elem?: number;
    /** Of maps. */
    key?: number;
    /** Of arrays: how many elements they have. */
    len?: number | bigint;
    /** Of structs, in the order of the type. */
    fields?: { name: string; type: number }[];
    /** Of types that encode themselves: by GobEncode, MarshalBinary or MarshalText. */
    marshal?: "gob" | "binary" | "text";
}

/** What an interface holds: the name under which its type was registered, the id of the type, and the value. */
export interface Held {
    name: string | Uint8Array;
    type: number;
    value: Value;
}

/** What a type that encodes itself wrote. Only the Go type explains the bytes. */
export class Opaque {
    constructor(type: string, marshal: "gob" | "binary" | "text", data: Uint8Array);
    readonly type: string;
    readonly marshal: "gob" | "binary" | "text";
    readonly data: Uint8Array;
}

/** The keys and elements of a map of which two keys are equal in JavaScript. */
export class Pairs extends Array<[key: Value, element: Value]> {}

/** A time.Time: a Date, which has milliseconds, and its text in RFC 3339, which has all digits and the offset. */
export class Time extends Date {
    constructor(milliseconds: number, text: string);
    readonly text: string;
    /** The text. */
    toJSON(): string;
}

/** A Time, the bigint of a big.Int, or the text of a url.URL or of what MarshalText wrote: by the name of the type, and
 * only where the bytes are what Go's own type writes; else the opaque value itself. */
export function known(opaque: Opaque): Time | bigint | string | Opaque;

/** The bytes are no gob stream. The message is that of the program: refused 15 FieldNumber at 131 seen 132. Offsets are
 * those of the stream, in bytes from 0. */
export class Refused extends Error {
    /** Why, as FieldNumber, and the number of that. */
    readonly reason: string;
    readonly number: number;
    /** The same in a sentence. */
    readonly what: string;
    /** The id of the type that the reason speaks of. */
    readonly type?: number | bigint;
    /** The first refused byte. */
    readonly place: number;
    /** How many bytes of the stream show it. */
    readonly seen: number;
    /** Where the refused item begins: so many bytes are whole items. */
    readonly begin: number;
    /** What was read before; of `load` alone. */
    values?: Value[];
}

/** Each value of a stream beside its type, one by one, in little memory however long the stream is. It throws Refused,
 * behind the values before, where the bytes are no gob stream; RangeError where an item has no room in memory, where
 * the limits are none, or where a value is deeper than the call stack allows; and what the source throws. */
export function read(source: Source, options?: Options): AsyncGenerator<{ type: GoType; value: Value }, void, void>;

/** All values of a stream. It throws as `read` does. */
export function load(source: Source, options?: Options): Promise<Value[]>;

/** The lines of `gob values`, or of `gob show --go`, one by one, without their ends. It throws as `read` does. */
export function lines(source: Source, options?: ReadOptions & { as?: "values" | "show" }):
    AsyncGenerator<string, void, void>;

/** The types that a whole stream defines, by their ids, in its order; no values are made. It throws as `read` does. */
export function types(source: Source, options?: ReadOptions): Promise<Map<number, GoType>>;

/** These types as Go source, as `gob types` prints it. It throws as `read` does. */
export function typesSource(source: Source, options?: ReadOptions): Promise<string>;

/** What is in a whole stream: items, types, values and bytes; no values are made. It throws as `read` does. */
export function check(source: Source, options?: ReadOptions):
    Promise<{ items: number; types: number; values: number; bytes: number }>;
