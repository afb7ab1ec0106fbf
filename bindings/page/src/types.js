// The types of a stream, from the nodes of their definitions, as gob.h says.

const BASIC = ["", "bool", "int", "uint", "float64", "[]byte", "string", "complex128", "interface{}"];
const MARSHAL = ["", "gob", "binary", "text"];
const INTERFACE = 8, LIST = 9, MAP = 10, STRUCT = 11, OPAQUE = 12, ARRAY = 13, HELD = 15;

/** The type that a definition gives: the node of the type itself, and those of the types that it names. */
function typeOf(id, batch, node, count, base) {
    const name = nameOf(batch.bytesAt(node, base));
    const named = (behind) => batch.number(node + behind);
    switch (batch.kind(node)) {
    case LIST: return { id, name, kind: "slice", elem: named(1) };
    case ARRAY: return { id, name, kind: "array", elem: named(1), len: batch.bits(node + 1, 0) };
    case MAP: return { id, name, kind: "map", key: named(1), elem: named(2) };
    case OPAQUE: return { id, name, kind: "opaque", marshal: MARSHAL[named(0)] };
    default: return { id, name, kind: "struct", fields: fieldsOf(batch, node, count, base) };
    }
}

function fieldsOf(batch, node, count, base) {
    const fields = [];
    for (let at = node + 1; at < node + count; at++) {
        fields.push({ name: nameOf(batch.bytesAt(at, base)), type: batch.number(at) });
    }
    return fields;
}

/** How Go names a type, in the page: by its name, or by its parts some levels down. */
function goName(id, types, levels = 3) {
    if (id <= 8) return BASIC[id];
    const type = types.get(id);
    if (type === undefined) return `type ${id}`;
    const own = type.name.text === null || type.name.text === "" ? "" : shownName(type.name);
    if (type.kind === "struct" || type.kind === "opaque" || levels === 0) return own || `type ${id}`;
    const elem = goName(type.elem, types, levels - 1);
    if (type.kind === "map") return `map[${goName(type.key, types, levels - 1)}]${elem}`;
    return type.kind === "array" ? `[${type.len}]${elem}` : `[]${elem}`;
}
