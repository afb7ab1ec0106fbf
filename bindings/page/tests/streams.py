"""Streams that are made for tests of the page, spelled as docs/FORMAT.md says."""
import struct


def uint(number):
    if number < 128:
        return bytes([number])
    digits = number.to_bytes((number.bit_length() + 7) // 8, "big")
    return bytes([256 - len(digits)]) + digits


def sint(number):
    return uint(2 * number if number >= 0 else 2 * ~number + 1)


def raw(data):
    return uint(len(data)) + data


def item(body):
    return uint(len(body)) + body


def named(kind, id, name, rest):
    """A definition: the field of wireType, the type's name, and what else the description has."""
    common = (b"\1" + raw(name) + b"\1" if name else b"\2") + sint(id) + b"\0"
    return item(sint(-id) + bytes([kind, 1]) + common + rest + b"\0\0")


def struct_type(id, name, fields):
    rest = b"".join(b"\1" + raw(field) + b"\1" + sint(type) + b"\0" for field, type in fields)
    return named(3, id, name, (b"\1" + uint(len(fields)) + rest) if fields else b"")


def slice_type(id, name, elem):
    return named(2, id, name, b"\1" + sint(elem))


def map_type(id, name, key, elem):
    return named(4, id, name, b"\1" + sint(key) + b"\1" + sint(elem))


def opaque_type(id, name):
    return named(5, id, name, b"")


def value(id, spelling, is_struct=False):
    return item(sint(id) + (b"" if is_struct else b"\0") + spelling)


def filling(name, id, spelling, is_struct=False):
    """What an interface holds, in a value that needs no definition for it."""
    return raw(name) + sint(id) + item((b"" if is_struct else b"\0") + spelling)


def pattern(number):
    return struct.unpack(">Q", struct.pack(">d", number))[0]


def floats(dice, count):
    """Floats by chance, and some at the ends of their range."""
    some = [0, 1, 2, 0x000FFFFFFFFFFFFF, 0x0010000000000000, 0x7FEFFFFFFFFFFFFF, 0x7FF0000000000000, 0x7FF8000000000001]
    some += map(pattern, (1e15, 1e16, 1e17, 123456789012345680.0, 1e-4, 1e-5, 1e-7))
    some += [it | 1 << 63 for it in some] + [dice.getrandbits(64) for _ in range(count)]
    some += [pattern(dice.randrange(10**6) / 10**dice.randrange(1, 9)) for _ in range(count)]
    flipped = [int.from_bytes(it.to_bytes(8, "little"), "big") for it in some]
    return slice_type(65, b"", 4) + value(65, uint(len(some)) + b"".join(map(uint, flipped)))


MARKUP = b"</script></pre><img src=x onerror=\"window.hit=1\"><svg onload=window.hit=1><b>'`${window.hit=1}"
TURNS = "‮gnp.exe‏⁦x⁩\u0085\x1b[31m\x00\r\n".encode()
TEXTS = [MARKUP, TURNS, b"__proto__", b"constructor", b"toString", b"hasOwnProperty", b"", b"\xff\xfe<b>",
         b"javascript:alert(1)", "é 漢字 \U0001f600 a\u0301".encode(), b"\\u003cb\\u003e", b"&lt;b&gt;&amp;",
         b"a" * 5000 + MARKUP]


def hostile():
    """Streams whose names and texts are markup, or turn the text that stands around them, each with its name."""
    fields = [(text, 6) for text in TEXTS]
    strings = b"".join(b"\1" + raw(text) for text in TEXTS) + b"\0"
    yield "fields", struct_type(65, MARKUP, fields) + value(65, strings, True)
    keys = uint(len(TEXTS)) + b"".join(raw(text) + raw(text) for text in TEXTS)
    yield "keys", map_type(65, TURNS, 6, 6) + value(65, keys)
    own = struct_type(66, b"__proto__", [(b"__proto__", 66), (b"constructor", 67)])
    own += map_type(67, b"constructor", 66, 6)
    yield "types", own + value(66, b"\1\1\1\0\0\0", True) + value(67, b"\1\0" + raw(MARKUP))
    yield "opaque", opaque_type(65, MARKUP) + b"".join(value(65, raw(text)) for text in TEXTS)
    named = b"".join(filling(text or b"none", 6, raw(text)) for text in TEXTS)
    yield "names in interfaces", slice_type(65, b"", 8) + value(65, uint(len(TEXTS)) + named)
    in_own = filling(b"__proto__", 66, b"\1\1\0\0", True)
    yield "types in interfaces", own + value(8, in_own) + value(8, filling(TURNS, 8, in_own))
    refused = map_type(65, MARKUP, 6, 66) + struct_type(66, TURNS, [(MARKUP, 1), (TURNS, 1)])
    yield "a refused key", refused + value(65, b"\1" + raw(MARKUP) + b"\1\2\0")
    yield "a refused field", refused + value(66, b"\1\1\1\2\0", True)
    yield "all of it", b"".join([struct_type(65, MARKUP, fields), value(65, strings, True), b"\xf7"])


def explained():
    """Streams that are refused, each with what is told of that."""
    inner = struct_type(66, b"S", [(b"Ok", 1), (b"List", 67)]) + slice_type(67, b"", 1)
    outer = map_type(65, b"Named", 6, 66) + inner
    bad = outer + value(65, b"\1" + raw(b"k") + b"\2\2\1\2\0")
    yield bad, ["item 3, Named[0].List[1]: a value of type 65, Named", "a bool: 0 or 1", "02, at byte 79"]
    yield outer + value(65, b"\1" + raw(b"k") + b"\1\1\2\0"), ["item 3, Named[0]: a value", "0 for the end of the struct, or how far on"]
    yield outer + value(65, b"\1\5ab"), ["item 3, Named[0] key: a value", "a text: how many bytes it has", "the end of the item, at byte 77"]
    yield outer + b"\x7f\xff\x82", ["the end of the input", "cut off", "the file ends here", "Get the whole file.",
                                     "What stands before this item is whole"]
    held = filling(b"main.S", 66, b"\2\2\1\2\0", True)
    yield outer + value(8, held), ["interface{}.(S).List[1]: a value of type 8", "a bool: 0 or 1"]
    yield outer + value(8, raw(b"main.S")), ["item 3, interface{}: a value", "a type: the id of a defined one"]
    defined = struct_type(66, b"S", [(b"Ok", 1)])[1:]  # (behind its count, which is a byte)
    first = item(sint(8) + b"\0" + raw(b"main.S") + defined)
    yield first + item(sint(66) + raw(b"\1\2\0")), ["item 0, interface{}.(S).Ok: a value", "a bool: 0 or 1", "Get the file once more."]
    yield first + item(sint(66) + raw(b"\1\1\1\1\0")), ["item 0, interface{}.(S): a value", "0 for the end of the struct"]
    yield outer + value(65, b"\0\0"), ["the end of the item"]
    yield value(66, b"\0"), ["the id of a defined one", "The beginning of the stream is missing", "from its first byte on"]
    yield inner + inner, ["Another encoder's stream begins with this item", "the rest from it on, and drop here"]
    yield named(2, 65, b"", b""), ["the definition of type 65"]
    yield b"\x1f\x8b\x08\0", ["it begins as gzip does", "Unpack the file"]


def deep(count):
    """So many lists, one in the other."""
    return slice_type(65, b"", 65) + value(65, b"\1" * (count - 1) + b"\0")


def holding(count):
    """Structs whose interfaces hold a value: so many behind each of two that define the type of that in themselves."""
    out = [struct_type(65, b"Row", [(b"N", 2), (b"Any", 8)])]
    point, texts = struct_type(66, b"Point", [(b"X", 2)]), slice_type(67, b"", 6)
    for definition, id, held in ((point, 66, b"\1\x2c\0"), (texts, 67, uint(1) + raw(b"midway"))):
        # (a definition is told of behind its count, which is a byte)
        out.append(item(sint(65) + b"\2" + raw(b"Held") + definition[1:]))
        out.append(item(sint(id) + raw((b"" if id == 66 else b"\0") + held) + b"\0"))
        row = b"\2" + filling(b"Held", id, held, id == 66) + b"\0"
        out.append(value(65, row, True) * count)
    return b"".join(out)


def numbers(count):
    """A list of so many numbers, in one item."""
    return slice_type(65, b"[]int", 2) + value(65, uint(count) + b"".join(sint(it % 1000 - 500) for it in range(count)))


def write_large(path, size):
    """Writes a stream of so many bytes or more, of values of some 100 bytes. Says how many values it has."""
    head = struct_type(65, b"Visit", [(b"Number", 2), (b"Who", 6), (b"Seconds", 4), (b"Tags", 66)])
    head += slice_type(66, b"[]string", 6)
    count = 0
    with open(path, "wb") as file:
        size -= file.write(head)
        while size > 0:
            text = b"".join(visit(count + it) for it in range(1000))
            size -= file.write(text)
            count += 1000
    return count


def visit(number):
    who = f"somebody number {number}, who came by and stayed for a while".encode()
    tags = uint(2) + raw(b"a tag") + raw(b"another tag %d" % (number % 7))
    return value(65, b"\1" + sint(number) + b"\1" + raw(who) + b"\1" + uint(0x3140) + b"\1" + tags + b"\0", True)
