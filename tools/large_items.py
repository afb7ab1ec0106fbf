"""Streams of one large item each, whose interfaces hold thousands of values or hundreds of levels, with what is due of
them by `gob values` and `gob types`. Both are made here element by element, from docs/FORMAT.md.
"""
import base64
import sys
from collections import namedtuple

from judge_filled import STANDARD
from rows import ROOT

sys.path.append(f"{ROOT}/interop")

from wrong import item, spelled  # noqa: E402

HEX = bytes.fromhex
ELEMENTS = 3000
# a list of interfaces, of type 65, and the structs `Held`, of A int and S string, and `Last`, of B int, defined in its value
LIST = item(HEX("ff81 02 01 02 ff82 00 01 10 00 00"))
HELD = HEX("ff83 03 01 01 04 48656c64 01 ff84 00 01 02 01 01 41 01 04 00 01 01 53 01 0c 00 00 00")
LAST = HEX("ff85 03 01 01 04 4c617374 01 ff86 00 01 01 01 01 42 01 04 00 00 00")
TYPES = """package types

// type 65
// registered as []interface {}
type T65 []interface{}

// type 66
// registered as main.Held
type Held struct {
\tA int
\tS string
}

// type 67
// registered as main.Last
type Last struct {
\tB int
}
"""

# a name, the stream, the limits under which it is read, and what `gob values` and `gob types` print of it
Large = namedtuple("Large", "name stream limits values types")
# an element: the name of what it holds, the definition before that or b"", its type, its value, and this in plain JSON
Element = namedtuple("Element", "name definition type value json")


def named(name):
    return spelled(len(name)) + name.encode()


def element(number, raw):
    """Returns the element with this number, of the four kinds that come in turn, given the bytes that one of them holds."""
    # (a number above 0 is spelled twice as high where it is signed)
    spelling = spelled(2 * number)
    if number % 4 == 1:
        definition = HELD if number == 1 else b""
        value = b"\1" + spelling + b"\1" + named(f"text {number}") + b"\0"
        return Element("main.Held", definition, HEX("ff84"), value, f'{{"A":{number},"S":"text {number}"}}')
    if number % 4 == 2:
        return Element("int", b"", HEX("04"), b"\0" + spelling, f"{number}")
    if number % 4 == 3:
        # a list of an int and nil
        held = named("int") + HEX("04") + spelled(len(spelling) + 1) + b"\0" + spelling
        return Element("[]interface {}", b"", HEX("ff82"), b"\0\2" + held + b"\0", f"[{number},null]")
    return Element("[]uint8", b"", HEX("0a"), b"\0" + spelled(len(raw)) + raw, f'"{base64.b64encode(raw).decode()}"')


def large(name, length):
    """Returns a stream of a list that holds byte strings of this length. Behind each definition in its value stands a cut."""
    elements = [element(number, bytes(range(50)) * (length // 50)) for number in range(1, ELEMENTS)]
    elements.append(Element("main.Last", LAST, HEX("ff86"), b"\1\2\0", '{"B":1}'))
    segments = [bytearray(HEX("ff82 00") + spelled(ELEMENTS))]
    for each in elements:
        segments[-1] += named(each.name) + each.definition
        if each.definition:
            segments.append(bytearray())
        segments[-1] += each.type + spelled(len(each.value)) + each.value
    values = ",".join(each.json for each in elements)
    return Large(name, LIST + b"".join(map(item, segments)), STANDARD, f"[{values}]\n", TYPES)


def nested(name, levels, length):
    """Returns a stream of lists that hold one another, each but the innermost beside a text of this length."""
    text = "a" * length
    value, json = b"\0\0", "[]"
    for _ in range(levels):
        beside = named("string") + HEX("0c") + spelled(1 + len(named(text))) + b"\0" + named(text)
        value = b"\0\2" + beside + named("[]interface {}") + HEX("ff82") + spelled(len(value)) + value
        json = f'["{text}",{json}]'
    return Large(name, LIST + item(HEX("ff82") + value), STANDARD, f"{json}\n", TYPES.partition("\n// type 66")[0])


def large_items():
    return [
        large("an item of 100 KB", 50),
        large("an item of 3 MB", 4000),
        nested("an item of 1 MB in as many levels as it may have", 499, 2000),
    ]
