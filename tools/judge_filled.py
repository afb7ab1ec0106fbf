#!/usr/bin/env python3
"""A plain judge of the profile that takes all that Go's encoder writes.

    tools/judge_filled.py [STREAM]

It prints the lines of the items of the stream, or of standard input, and the line of the refusal where there is one.

It follows docs/FORMAT.md, What Go's encoder writes beyond its documentation, and shares nothing with the library or
with tools/judge, the judge of the strict format. It works on whole bytes and by recursion. It reads one byte after
another, and refuses as soon as it must: so `seen` is always how many bytes it has read.
"""
import sys
from collections import namedtuple

# FORMAT, Items and streams, Limits
Limits = namedtuple("Limits", "item depth types stream")
STANDARD = Limits(67108864, 1000, 10000, 68719476736)

# FORMAT, Refusals: the reasons by their numbers
NAMES = (
    "", "BadHead", "NotMinimal", "ItemTooLong", "StreamTooLong", "Short", "Extra", "ReservedType", "DefinedTwice",
    "TooManyTypes", "UndefinedType", "Bottomless", "SingleTag", "Bool", "ArrayCount", "FieldNumber", "InterfaceValue",
    "TooDeep", "KindCount", "WrongId", "BadReference", "BadLength", "Ended",
)
REASONS = range(1, 23)
(
    BAD_HEAD, NOT_MINIMAL, ITEM_TOO_LONG, STREAM_TOO_LONG, SHORT, EXTRA, RESERVED_TYPE, DEFINED_TWICE,
    TOO_MANY_TYPES, UNDEFINED_TYPE, BOTTOMLESS, SINGLE_TAG, BOOL_ABOVE_1, ARRAY_COUNT, FIELD_NUMBER, _,
    TOO_DEEP, KIND_COUNT, WRONG_ID, BAD_REFERENCE, BAD_LENGTH, ENDED,
) = REASONS

# A type: its kind, its name, and what it names. `parts` are the ids of key and element, or the id of the element and
# the length, or the fields, each a name and an id.
Type = namedtuple("Type", "kind name parts")
# The base table. The numbers 1 to 8 are kinds of their own.
BOOL, INT, UINT, FLOAT, BYTES, STRING, COMPLEX, INTERFACE = range(1, 9)
WIRE_TYPE, ARRAY_TYPE, COMMON_TYPE, SLICE_TYPE, STRUCT_TYPE = range(16, 21)
FIELD_TYPE, FIELD_TYPES, MAP_TYPE, ENCODER_TYPE = range(21, 25)
KINDS = ("array", "slice", "struct", "map", "gob", "binary", "text")
OPAQUE = KINDS[4:]


def _base_struct(*fields):
    return Type("struct", b"", tuple((name.encode(), id) for name, id in fields))


BASE = {id: Type(id, b"", ()) for id in range(1, 9)} | {
    WIRE_TYPE: _base_struct(
        ("ArrayT", ARRAY_TYPE), ("SliceT", SLICE_TYPE), ("StructT", STRUCT_TYPE), ("MapT", MAP_TYPE),
        ("GobEncoderT", ENCODER_TYPE), ("BinaryMarshalerT", ENCODER_TYPE), ("TextMarshalerT", ENCODER_TYPE),
    ),
    ARRAY_TYPE: _base_struct(("CommonType", COMMON_TYPE), ("Elem", INT), ("Len", INT)),
    COMMON_TYPE: _base_struct(("Name", STRING), ("Id", INT)),
    SLICE_TYPE: _base_struct(("CommonType", COMMON_TYPE), ("Elem", INT)),
    STRUCT_TYPE: _base_struct(("CommonType", COMMON_TYPE), ("Field", FIELD_TYPES)),
    FIELD_TYPE: _base_struct(("Name", STRING), ("Id", INT)),
    FIELD_TYPES: Type("slice", b"", (FIELD_TYPE,)),
    MAP_TYPE: _base_struct(("CommonType", COMMON_TYPE), ("Key", INT), ("Elem", INT)),
    ENCODER_TYPE: _base_struct(("CommonType", COMMON_TYPE)),
}

# What is read. A value is what Python has for it: bool, int, bytes, the pattern of a float, a pair of patterns, None
# for nil, a list of elements, of pairs or of present fields (number, value); and what a filled interface value holds:
Held = namedtuple("Held", "name definitions id value")
# An item: a type with its id and its description, or a value with its type's id.
Definition = namedtuple("Definition", "id type description")
Put = namedtuple("Put", "id value")


class Refused(Exception):
    def __init__(self, reason, place, seen, id=None):
        super().__init__(reason)
        self.reason, self.place, self.seen, self.id = reason, place, seen, id


class Judge:
    """The bytes of a stream, as far as they are read."""

    def __init__(self, stream, limits=STANDARD):
        self.stream = stream
        self.limits = limits
        self.at = 0
        # where the innermost open segment ends, and the one around it; None where there is none
        self.end = None
        self.around = None
        # what is left of the limit of an item for its further segments
        self.left = 0
        self.types = dict(BASE)
        self.ready = set(range(1, 9))

    def refuse(self, reason, place, id=None):
        raise Refused(reason, place, self.at, id)

    # Numbers

    def need(self):
        """Refuses where no byte comes any more: the segment has no further one, or else the input."""
        self.refuse(SHORT if self.at == self.end else ENDED, self.at)

    def byte(self):
        if self.at == self.end or self.at == len(self.stream):
            self.need()
        self.at += 1
        return self.stream[self.at - 1]

    def unsigned(self):
        place = self.at
        head = self.byte()
        if head < 0x80:
            return head
        if head < 0xF8:
            self.refuse(BAD_HEAD, place)
        number = self.byte()
        if number < 0x80 and head == 0xFF or number == 0 and head < 0xFF:
            self.refuse(NOT_MINIMAL, place)
        for _ in range(255 - head):
            number = number << 8 | self.byte()
        return number

    def at_most(self, greatest, reason):
        place = self.at
        number = self.unsigned()
        if number > greatest:
            self.refuse(reason, place)
        return number

    def signed(self):
        number = self.unsigned()
        return ~(number >> 1) if number & 1 else number >> 1

    def pattern(self):
        return int.from_bytes(self.unsigned().to_bytes(8, "little"), "big")

    def raw(self, count):
        start = self.at
        self.at = min(start + count, len(self.stream), len(self.stream) if self.end is None else self.end)
        if self.at < start + count:
            self.need()
        return self.stream[start : self.at]

    # Values

    def top(self, id, depth):
        if self.types[id].kind != "struct":
            self.at_most(0, SINGLE_TAG)
        value = self.part(id, depth)
        self.complete()
        return value

    def complete(self):
        """What is complete must be the whole rest of its segment."""
        if self.at < self.end:
            self.refuse(EXTRA, self.at)

    def part(self, id, depth):
        if depth > self.limits.depth:
            self.refuse(TOO_DEEP, self.at)
        kind, _, parts = self.types[id]
        if kind == INT:
            return self.signed()
        if kind == UINT:
            return self.unsigned()
        if kind in (STRING, BYTES) or kind in OPAQUE:
            return self.raw(self.unsigned())
        if kind == BOOL:
            return self.at_most(1, BOOL_ABOVE_1) == 1
        if kind == FLOAT:
            return self.pattern()
        if kind == COMPLEX:
            return self.pattern(), self.pattern()
        if kind == INTERFACE:
            return self.interface(depth)
        if kind == "struct":
            return self.fields(parts, depth + 1)
        place = self.at
        count = self.unsigned()
        if kind == "array" and count != parts[1]:
            self.refuse(ARRAY_COUNT, place)
        if kind == "map":
            return many(count, lambda: (self.part(parts[0], depth + 1), self.part(parts[1], depth + 1)))
        return many(count, lambda: self.part(parts[0], depth + 1))

    def fields(self, fields, depth):
        """The field number starts at -1, so what is kept is one more than it."""
        present = []
        passed = 0
        while delta := self.at_most(len(fields) - passed, FIELD_NUMBER):
            passed += delta
            present.append((passed - 1, self.part(fields[passed - 1][1], depth)))
        return present

    # What Go's encoder writes beyond its documentation: Fillings and segments

    def segment(self, around):
        """Begins the segment whose count comes next, in the one that ends at `around`: None for those of an item."""
        self.end = around
        place = self.at
        count = self.unsigned()
        if around is None:
            if count > self.left:
                self.refuse(ITEM_TOO_LONG, place)
            if self.at + count > self.limits.stream:
                self.refuse(STREAM_TOO_LONG, place)
            self.left -= count
        elif self.at + count > around:
            self.refuse(ITEM_TOO_LONG, place)
        self.end = self.at + count

    def interface(self, depth):
        count = self.unsigned()
        if count == 0:
            return None
        name = self.raw(count)
        definitions = []
        while True:
            place = self.at
            number = self.signed()
            if number >= 0:
                break
            definitions.append(self.definition(-number, place))
            self.segment(self.around)
        self.demand_ready(number, place)
        before = self.around, self.end
        self.around = self.end
        self.segment(self.around)
        value = self.top(number, depth + 1)
        self.around, self.end = before
        return Held(name, definitions, number, value)

    # Descriptions

    def definition(self, id, place):
        """Behind its type number, which stands at the place."""
        if not 64 <= id <= 2147483647:
            self.refuse(RESERVED_TYPE, place, id)
        if id in self.types:
            self.refuse(DEFINED_TWICE, place, id)
        if len(self.types) - len(BASE) >= self.limits.types:
            self.refuse(TOO_MANY_TYPES, place)
        start = self.at
        description = self.part(WIRE_TYPE, 1)
        self.complete()
        self.types[id] = self.described(id, description, start)
        return Definition(id, self.types[id], description)

    def described(self, id, description, place):
        if len(description) != 1:
            self.refuse(KIND_COUNT, place)
        number, wire = description[0]
        kind, wire = KINDS[number], dict(wire)
        common = dict(wire.get(0, ()))
        said = common.get(1, 0)
        if said != id and not (kind in OPAQUE and id < said <= 2147483647):
            self.refuse(WRONG_ID, place)
        if kind in OPAQUE:
            parts = ()
        elif kind == "struct":
            named = [dict(field) for field in wire.get(1, ())]
            parts = tuple((field.get(0, b""), field.get(1, 0)) for field in named)
        else:
            parts = tuple(wire.get(at, 0) for at in ((1, 2) if kind in ("map", "array") else (1,)))
        type = Type(kind, common.get(0, b""), parts)
        if any(not 1 <= each <= 2147483647 or each == 24 for each in references(type)):
            self.refuse(BAD_REFERENCE, place)
        if kind == "array" and parts[1] < 0:
            self.refuse(BAD_LENGTH, place)
        return type

    # Readiness

    def demand_ready(self, id, place):
        """Refuses a type that isn't ready, whose type number stands at the place. A ready type stays so."""
        if id in self.ready:
            return
        if id in (0, 24):
            self.refuse(UNDEFINED_TYPE, place, id)
        reached, due = set(), [id]
        while due:
            each = due.pop()
            if each not in reached:
                reached.add(each)
                due.extend(references(self.types[each]) if each in self.types else ())
        undefined = reached - set(self.types)
        if undefined:
            self.refuse(UNDEFINED_TYPE, place, min(undefined))
        bottomless = [each for each in reached if not self.is_grounded(each)]
        if bottomless:
            self.refuse(BOTTOMLESS, place, min(bottomless))
        self.ready |= reached

    def is_grounded(self, id):
        """Whether arrays of a length above 0 lead from it to something else."""
        passed = set()
        while id not in passed:
            passed.add(id)
            type = self.types[id]
            if type.kind != "array" or type.parts[1] == 0:
                return True
            id = type.parts[0]
        return False

    # Items and streams

    def item(self):
        self.left = self.limits.item
        self.around = None
        self.segment(None)
        place = self.at
        number = self.signed()
        if number < 0:
            return self.definition(-number, place)
        self.demand_ready(number, place)
        return Put(number, self.top(number, 1))

    def items(self):
        """Yields the items, and raises Refused where there is a refusal."""
        while self.at < len(self.stream):
            yield self.item()


def many(count, part):
    """So many parts: a count may be any, and is far above what there is of them."""
    parts = []
    while len(parts) < count:
        parts.append(part())
    return parts


def references(type):
    """The ids that a shape names."""
    if type.kind == "struct":
        return [id for _, id in type.parts]
    return type.parts[:1] if type.kind == "array" else type.parts


# The JSON lines, and In lines


def text(raw):
    try:
        raw.decode()
    except UnicodeDecodeError:
        return f'{{"hex":"{raw.hex()}"}}'
    marks = {0x22: b'\\"', 0x5C: b"\\\\", 8: b"\\b", 9: b"\\t", 10: b"\\n", 12: b"\\f", 13: b"\\r"}
    spelled = b"".join(marks.get(byte, bytes([byte]) if byte >= 32 else b"\\u%04x" % byte) for byte in raw)
    return f'"{spelled.decode()}"'


def definition_line(definition):
    id, (kind, name, parts), _ = definition
    before = ""
    after = ""
    if kind == "struct":
        before = '"fields":[' + ",".join(f"[{text(field)},{type}]" for field, type in parts) + "],"
    elif kind == "map":
        before = f'"elem":{parts[1]},"key":{parts[0]},'
    elif kind not in OPAQUE:
        before = f'"elem":{parts[0]},'
        after = f'"len":{parts[1]},' if kind == "array" else ""
    return f'{{"define":{id},{before}"kind":"{kind}",{after}"name":{text(name)}}}\n'


def shown(types, id, value, inner):
    """A value as it stands in a line. The definitions in it go to the inner ones."""
    kind, _, parts = types[id]
    if kind == BOOL:
        return "true" if value else "false"
    if kind in (INT, UINT):
        return str(value)
    if kind == FLOAT:
        return f'"{value:016x}"'
    if kind == COMPLEX:
        return f'["{value[0]:016x}","{value[1]:016x}"]'
    if kind == BYTES:
        return f'"{value.hex()}"'
    if kind == STRING:
        return text(value)
    if kind in OPAQUE:
        return f'{{"opaque":"{value.hex()}"}}'
    if kind == INTERFACE:
        return held_shown(types, value, inner)
    if kind == "struct":
        each = (f"[{at},{text(parts[at][0])},{shown(types, parts[at][1], part, inner)}]" for at, part in value)
    elif kind == "map":
        each = (f"[{shown(types, parts[0], a, inner)},{shown(types, parts[1], b, inner)}]" for a, b in value)
    else:
        each = (shown(types, parts[0], element, inner) for element in value)
    return f"[{','.join(each)}]"


def held_shown(types, held, inner):
    if held is None:
        return "null"
    inner.extend(held.definitions)
    value = shown(types, held.id, held.value, inner)
    return f'{{"interface":{{"name":{text(held.name)},"type":{held.id},"value":{value}}}}}'


def item_lines(types, item):
    if isinstance(item, Definition):
        return definition_line(item)
    inner = []
    line = f'{{"type":{item.id},"value":{shown(types, item.id, item.value, inner)}}}\n'
    return "".join(map(definition_line, inner)) + line


def refusal_line(refused):
    id = "" if refused.id is None else f"({refused.id})"
    return f"gob: refused {refused.reason} {NAMES[refused.reason]}{id} at {refused.place} seen {refused.seen}\n"


def judged(stream, limits=STANDARD):
    """Returns the items of these bytes, the refusal or None, and the types behind the items."""
    judge = Judge(stream, limits)
    items = []
    try:
        for item in judge.items():
            items.append(item)
    except Refused as refused:
        return items, refused, judge.types
    return items, None, judge.types


def without_definitions(value, inner):
    """The value without the definitions in it, which go to the inner ones."""
    if isinstance(value, Held):
        inner.extend(value.definitions)
        return value._replace(definitions=[], value=without_definitions(value.value, inner))
    if isinstance(value, (list, tuple)):
        return type(value)(without_definitions(part, inner) for part in value)
    return value


def hoisted(items):
    """Returns the items, where each definition in a value is an item of its own before it."""
    out = []
    for item in items:
        value = None if isinstance(item, Definition) else without_definitions(item.value, out)
        out.append(item if isinstance(item, Definition) else item._replace(value=value))
    return out


def outcome(stream, limits=STANDARD):
    """Returns the lines that these bytes give, those of the items and that of the refusal."""
    items, refused, types = judged(stream, limits)
    return "".join(item_lines(types, item) for item in items) + (refusal_line(refused) if refused else "")


# so deep values as the limit `depth` allows
sys.setrecursionlimit(20000)

if __name__ == "__main__":
    with open(sys.argv[1], "rb") if len(sys.argv) > 1 else sys.stdin.buffer as file:
        sys.stdout.write(outcome(file.read()))
