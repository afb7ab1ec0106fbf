#!/usr/bin/env python3
"""Streams that are refused, each for another reason or by another cause, and what `gob why` says of each.

    interop/wrong.py FOLDER      writes each into the folder as NAME.gob, and what is due of it as NAME.why

tools/test-why compares. What is due was worked out by hand from docs/FORMAT.md, Refusals and Why.
"""
import base64
import bz2
import gzip
import io
import lzma
import sys
import zipfile
from typing import NamedTuple


class Row(NamedTuple):
    name: str
    data: bytes
    due: str
    options: tuple = ()
    # what is due of its file, where that is read once more as one of several encoders, and is whole
    of_file: str = ""
    # where its file is refused without what defines types again, and how many bytes that has
    without_again: tuple = ()


def spelled(number):
    """An unsigned number as a stream spells it."""
    if number < 128:
        return bytes([number])
    size = (number.bit_length() + 7) // 8
    return bytes([256 - size]) + number.to_bytes(size, "big")


def item(*parts):
    body = b"".join(parts)
    return spelled(len(body)) + body


HEX = bytes.fromhex
# the documented example: Point, a struct of X and Y, and a value of it
POINT = HEX("1fff81030101 05506f696e74 01ff8200 0102 0101580104 00 0101590104 00 00 00".replace(" ", ""))
VALUE = HEX("07ff82012c014200")
GOB = POINT + VALUE
# a slice of ints, type 66, and one without elements
INTS = HEX("0cff83020102ff840001040000 04ff840000".replace(" ", ""))
# an array of 2 ints, and one of itself; a struct of itself; a type that encodes itself, under two numbers
ARRAY = HEX("0eff81010102ff82000104010400 00".replace(" ", ""))
LOOP = HEX("0fff81010102ff820001ff8201020000")
NODE = item(HEX("ff81 03 01 01 04 4e6f6465 01 ff82 00 01 01 01 04 4e657874 01 ff82 00 00 00".replace(" ", "")))
TWO_NUMBERS = HEX("10ff8105010104 54696d65 01ff84000000".replace(" ", ""))
# a big.Int in an interface, whose type is defined within the value
BIG = HEX("151000082a6269672e496e74ff81050102ff8400000007ff82040002 0205".replace(" ", ""))


def of_several(whole, encoders, places, left_out):
    """What is due of a file to which so many encoders wrote, which has this without what defines types again."""
    return (f"ok: {whole}\nencoders: {encoders}, seen to begin anew at byte {places}; {left_out} bytes that define types "
            "again aren't counted\n")


CHANGED = "These bytes were changed, or something else stands in the file from here on."
FIRST = "This is no gob stream, or these bytes were changed."
WRITER = "Go's encoder doesn't write this. Either these bytes were changed, or another program wrote the file."
FETCH = "Get the file once more from where it comes from, in binary, and compare its size or checksum."
SALVAGE = ("Get the file once more from where it comes from, or read what isn't damaged: "
           "gob values --salvage IN")

COUNT = "how many bytes the next item has"
TYPE = "a type: the id of a defined one, or below 0 the id that is defined here"
TAG = "the byte 0, as before each value that is no struct"
SEGMENT = "how many bytes come up to the next cut of the value, or to its end"
WHOLE = "the end of the item, since what it holds is complete"
DESCRIPTION = "the description of one type, with its own number"
FIELDS = "0 for the end of the struct, or how far on the next field stands: of X, Y"
INT = "a whole number"
VALUE_OF_POINT = "a value of type 65, Point, which begins at byte 32"


NO_STREAM = "This is no gob stream: no item begins as it does."


def begins_as(form):
    return f"This is no gob stream: it begins as {form} does."


def shortened(path):
    """A path of more than 200 characters, without its middle."""
    return f"{path[:98]} .. {path[-98:]}"


def behind(begin):
    """The cause and what to do where something stands behind the last item."""
    return f"Something stands behind the last item, at byte {begin}.", f"head -c {begin} IN | gob why"


def due(line, what, where, expected, found, cause, step):
    return (f"refused {line}\nwhat: {what}\nwhere: {where}\nexpected: {expected}\nfound: {found}\ncause: {cause}\n"
            f"next: {step}\n")


def definitions(count):
    """So many definitions, each of a slice of bools."""
    return b"".join(item(spelled(2 * (64 + place) + 1), HEX("02 01 02".replace(" ", "")), spelled(2 * (65 + place)),
                         HEX("00 01 02 00 00".replace(" ", ""))) for place in range(count))


# each reason, with its number
REASONS = [
    Row("bad_head", POINT + HEX("07ff820180014200"), due(
        "1 BadHead at 36 seen 37", "No number begins with this byte.", f"item 1, Point.X: {VALUE_OF_POINT}", INT,
        "80, at byte 36", CHANGED, SALVAGE)),
    Row("not_minimal", POINT + HEX("08ff8201ff2c014200"), due(
        "2 NotMinimal at 36 seen 38", "This number is spelled in more bytes than it needs.",
        f"item 1, Point.X: {VALUE_OF_POINT}", INT, "ff 2c, at byte 36", WRITER, SALVAGE)),
    Row("item_too_long", POINT + HEX("fc04000001ff82"), due(
        "3 ItemTooLong at 32 seen 37", "More bytes are announced here than the limit allows, or what is around them.",
        "item 1, which begins at byte 32", COUNT, "fc 04 00 00 01, at byte 32",
        "The item has 67108865 bytes, and the limit is 67108864.", "gob why --item 67108865 IN")),
    Row("item_of_no_type", POINT + HEX("fc04000001fe0400"), due(
        "3 ItemTooLong at 32 seen 37", "More bytes are announced here than the limit allows, or what is around them.",
        "item 1, which begins at byte 32", COUNT, "fc 04 00 00 01, at byte 32", *behind(32))),
    Row("stream_too_long", HEX("fb2000000000"), due(
        "4 StreamTooLong at 0 seen 6", "The stream would be longer than 64 GiB.", "item 0, which begins at byte 0",
        COUNT, "fb 20 00 00 00 00, at byte 0", NO_STREAM, "file IN"), ("--item", "18446744073709551615")),
    Row("short", POINT + HEX("03ff8201"), due(
        "5 Short at 36 seen 36", "The item ends here, and its value isn't complete.",
        f"item 1, Point.X: {VALUE_OF_POINT}", INT, "the end of the item, at byte 36", CHANGED, SALVAGE)),
    Row("extra", POINT + HEX("08ff82012c01420007"), due(
        "6 Extra at 40 seen 40", "The value is complete here, and its item goes on.",
        f"item 1, Point: {VALUE_OF_POINT}", WHOLE, "07, at byte 40", CHANGED, SALVAGE)),
    Row("extra_at_the_end", HEX("04040006"), due(
        "6 Extra at 4 seen 4", "The value is complete here, and its item goes on.",
        "item 0, int: a value of type 2, int, which begins at byte 0", WHOLE, "no byte that was read, at byte 4",
        FIRST, FETCH)),
    Row("reserved_type", POINT + HEX("037d0100"), due(
        "7 ReservedType(63) at 33 seen 34", "A type is defined under a number that no type may have.",
        "item 1, which begins at byte 32", TYPE, "7d, at byte 33", *behind(32))),
    Row("defined_twice", POINT + POINT, due(
        "8 DefinedTwice(65) at 33 seen 35", "A type is defined under a number that has one already.",
        "item 1, which begins at byte 32", TYPE, "ff 81, at byte 33",
        "Another encoder's stream begins with this item: it defines type 65 once more, in the same way.",
        "gob values --salvage IN"), of_file=of_several("1 items, 1 types, 32 bytes", "2", "32", 32)),
    Row("too_many_types", definitions(10001), due(
        "9 TooManyTypes at 149874 seen 149877", "More than 10,000 types are defined.",
        "item 10000, which begins at byte 149873", TYPE, "fe 4e a1, at byte 149874", CHANGED, SALVAGE)),
    Row("undefined_type", POINT + HEX("03ff8400"), due(
        "10 UndefinedType(66) at 33 seen 35", "A value has a type that isn't defined, or leads to one that isn't.",
        "item 1, which begins at byte 32", TYPE, "ff 84, at byte 33",
        "A definition before this value is missing: definitions come first, and once only.",
        "Get the file from its first byte on.")),
    Row("bottomless", LOOP + HEX("04ff820001"), due(
        "11 Bottomless(65) at 17 seen 19",
        "A value has a type of arrays that hold themselves, of which there is no value.",
        "item 1, which begins at byte 16", TYPE, "ff 82, at byte 17", WRITER, SALVAGE)),
    Row("single_tag", HEX("03040106"), due(
        "12 SingleTag at 2 seen 3", "Before a value that is no struct a byte other than 0 stands.",
        "item 0, int: a value of type 2, int, which begins at byte 0", TAG, "01, at byte 2", NO_STREAM, "file IN")),
    Row("bool", HEX("03020002"), due(
        "13 Bool at 3 seen 4", "A bool is neither 0 nor 1.",
        "item 0, bool: a value of type 1, bool, which begins at byte 0", "a bool: 0 or 1", "02, at byte 3", FIRST,
        FETCH)),
    Row("array_count", ARRAY + HEX("06ff8200030202"), due(
        "14 ArrayCount at 19 seen 20", "An array has another length than its type says.",
        "item 1, type 65: a value of type 65, which begins at byte 15", "the array's length, which is 2",
        "03, at byte 19", CHANGED, SALVAGE)),
    Row("field_number", POINT + HEX("07ff82012c024200"), due(
        "15 FieldNumber at 37 seen 38", "A struct has no such field.", f"item 1, Point: {VALUE_OF_POINT}", FIELDS,
        "02, at byte 37", CHANGED, SALVAGE)),
    Row("too_deep", NODE + item(HEX("ff82"), b"\1" * 5, bytes(6)), due(
        "17 TooDeep at 37 seen 37", "Parts lie in one another deeper than the limit allows.",
        "item 1, Node.Next.Next.Next.Next.Next: a value of type 65, Node, which begins at byte 29",
        "nothing: parts lie in one another as deep here as the limit allows", "00, at byte 37",
        "The value has the depth 6, and the limit is 5.", "gob why --depth 6 IN"), ("--depth", "5")),
    Row("deeper_than_any_view", NODE + item(HEX("ff82"), b"\1" * 1200, bytes(1201)), due(
        "17 TooDeep at 1034 seen 1034", "Parts lie in one another deeper than the limit allows.",
        f"item 1, {shortened('Node' + '.Next' * 1000)}: a value of type 65, Node, which begins at byte 29",
        "nothing: parts lie in one another as deep here as the limit allows", "01, at byte 1034",
        "Either the value is deep, as a long linked list is, or these bytes were changed.",
        "If the values are meant to be so deep, type: gob check --depth 65536 IN")),
    Row("kind_count", HEX("03ff8100"), due(
        "18 KindCount at 3 seen 4", "A definition gives no kind of type, or more than one.",
        "item 0, wireType: the definition of type 65, which begins at byte 0", DESCRIPTION, "00, at byte 3", WRITER,
        FETCH)),
    Row("wrong_id", HEX("0aff81050102ff80000000"), due(
        "19 WrongId at 3 seen 11", "A definition names another number than the type that it defines.",
        "item 0, wireType: the definition of type 65, which begins at byte 0", DESCRIPTION,
        "05 01 02 ff 80 00 00 00, at byte 3", WRITER, FETCH)),
    Row("bad_reference", HEX("0eff81010102ff82000130010400 00".replace(" ", "")), due(
        "20 BadReference at 3 seen 15", "A definition leads to a number that no type can have.",
        "item 0, wireType: the definition of type 65, which begins at byte 0", DESCRIPTION,
        "01 01 02 ff 82 00 01 30 01 04 00 00, at byte 3", WRITER, FETCH)),
    Row("bad_length", HEX("0eff81010102ff82000104010100 00".replace(" ", "")), due(
        "21 BadLength at 3 seen 15", "A definition gives an array a length below 0.",
        "item 0, wireType: the definition of type 65, which begins at byte 0", DESCRIPTION,
        "01 01 02 ff 82 00 01 04 01 01 00 00, at byte 3", WRITER, FETCH)),
    Row("ended", POINT + HEX("07ff8201"), due(
        "22 Ended at 36 seen 36", "The file ends within an item.", f"item 1, Point.X: {VALUE_OF_POINT}", INT,
        "the end of the input, at byte 36",
        "The file was cut off, or isn't all written yet. What stands before this item is whole.",
        "Get the whole file.")),
]


def in_interface(line, what, path, expected, found, cause=FIRST, step=FETCH):
    return due(line, what, f"item 0, interface{{}}{path}: a value of type 8, interface{{}}, which begins at byte 0",
               expected, found, cause, step)


# within what an interface holds
HELD = [
    Row("short_name", HEX("05100003696e"), in_interface(
        "5 Short at 6 seen 6", "The item ends here, and its value isn't complete.", "",
        "the bytes of the name of what the interface holds", "the end of the item, at byte 6")),
    Row("no_type_of_what_is_held", HEX("06100003696e74"), in_interface(
        "5 Short at 7 seen 7", "The item ends here, and its value isn't complete.", "", TYPE,
        "the end of the item, at byte 7")),
    Row("reserved_type_of_what_is_held", HEX("0a100003696e747d02000a"), in_interface(
        "7 ReservedType(63) at 7 seen 8", "A type is defined under a number that no type may have.", "", TYPE,
        "7d, at byte 7")),
    Row("segment_too_long", HEX("0a100003696e740403000a"), in_interface(
        "3 ItemTooLong at 8 seen 9", "More bytes are announced here than the limit allows, or what is around them.", "",
        SEGMENT, "03, at byte 8")),
    Row("tag_of_what_is_held", HEX("0a100003696e740402010a"), in_interface(
        "12 SingleTag at 9 seen 10", "Before a value that is no struct a byte other than 0 stands.", ".(int)", TAG,
        "01, at byte 9")),
    Row("ended_between_segments", BIG[:22], in_interface(
        "22 Ended at 22 seen 22", "The file ends within an item.", "", SEGMENT, "the end of the input, at byte 22",
        "The file was cut off, or isn't all written yet. What stands before this item is whole.",
        "Get the whole file.")),
]


def zipped(data):
    file = io.BytesIO()
    with zipfile.ZipFile(file, "w") as archive:
        archive.writestr(zipfile.ZipInfo("a.gob"), data)
    return file.getvalue()


def at_front(line, what, found, cause, step, expected=TYPE):
    return due(line, what, "item 0, which begins at byte 0", expected, found, cause, step)


BAD_HEAD = "No number begins with this byte."
UNDEFINED = "A value has a type that isn't defined, or leads to one that isn't."
RESERVED = "A type is defined under a number that no type may have."
SHORT = "The item ends here, and its value isn't complete."

CAUSES = [
    Row("gzip", gzip.compress(GOB, mtime=0), at_front(
        "1 BadHead at 1 seen 2", BAD_HEAD, "8b, at byte 1", begins_as("gzip"),
        "gunzip -c IN | gob why")),
    Row("zstd", HEX("28b52ffd2028") + GOB, at_front(
        "1 BadHead at 1 seen 2", BAD_HEAD, "b5, at byte 1", begins_as("zstd"),
        "zstd -dc IN | gob why")),
    Row("bzip2", bz2.compress(GOB), at_front(
        "10 UndefinedType(45) at 1 seen 2", UNDEFINED, "5a, at byte 1", begins_as("bzip2"),
        "bunzip2 -c IN | gob why")),
    Row("xz", lzma.compress(GOB), at_front(
        "10 UndefinedType(45) at 4 seen 5", UNDEFINED, "5a, at byte 4", begins_as("xz"),
        "xz -dc IN | gob why")),
    Row("zip", zipped(GOB), at_front(
        "7 ReservedType(38) at 1 seen 2", RESERVED, "4b, at byte 1", begins_as("zip"),
        "unzip -p IN | gob why")),
    Row("json", b'{"X": 22, "Y": 33}\n', due(
        "15 FieldNumber at 2 seen 3", "A struct has no such field.",
        "item 0, arrayType: a value of type 17, arrayType, which begins at byte 0",
        "0 for the end of the struct, or how far on the next field stands: of CommonType, Elem, Len", "58, at byte 2",
        "The file begins as JSON does: it is text, and no gob stream.", "jq . IN")),
    Row("text", b"Hello, gobs\n", at_front(
        "7 ReservedType(51) at 1 seen 2", RESERVED, "65, at byte 1", "The file is text, and no gob stream.",
        "head IN")),
    Row("base64", base64.encodebytes(GOB), at_front(
        "7 ReservedType(24) at 1 seen 2", RESERVED, "2f, at byte 1",
        "The file is base64, and what it holds is a gob stream.", "base64 -di IN | gob why")),
    Row("base64_for_urls", base64.urlsafe_b64encode(GOB), at_front(
        "7 ReservedType(48) at 1 seen 2", RESERVED, "5f, at byte 1",
        "The file is base64, and what it holds is a gob stream.", "tr -- '-_' '+/' <IN | base64 -di | gob why")),
    Row("length_of_4_high_first", HEX("00000028") + GOB, at_front(
        "5 Short at 1 seen 1", SHORT, "the end of the item, at byte 1",
        "Before the stream stands its length, in 4 bytes, the high one first.", "tail -c +5 IN | gob why")),
    Row("length_of_4_low_first", HEX("28000000") + GOB, at_front(
        "10 UndefinedType(0) at 1 seen 2", UNDEFINED, "00, at byte 1",
        "Before the stream stands its length, in 4 bytes, the low one first.", "tail -c +5 IN | gob why")),
    Row("length_of_8_high_first", HEX("0000000000000028") + GOB, at_front(
        "5 Short at 1 seen 1", SHORT, "the end of the item, at byte 1",
        "Before the stream stands its length, in 8 bytes, the high one first.", "tail -c +9 IN | gob why")),
    Row("length_of_8_low_first", HEX("2800000000000000") + GOB, at_front(
        "10 UndefinedType(0) at 1 seen 2", UNDEFINED, "00, at byte 1",
        "Before the stream stands its length, in 8 bytes, the low one first.", "tail -c +9 IN | gob why")),
    Row("lengths", (HEX("00000028") + GOB) * 3, at_front(
        "5 Short at 1 seen 1", SHORT, "the end of the item, at byte 1",
        "Before the stream stands its length, in 4 bytes, the high one first.", "tail -c +5 IN | gob why")),
    Row("length_of_much", HEX("44190100" "03040006") + 8000 * (HEX("080c0005") + b"hello"), at_front(
        "7 ReservedType(13) at 1 seen 2", RESERVED, "19, at byte 1",
        "Before the stream stands its length, in 4 bytes, the low one first.", "tail -c +5 IN | gob why")),
    Row("prefix", b"GOB1\n" + GOB, at_front(
        "7 ReservedType(40) at 1 seen 2", RESERVED, "4f, at byte 1",
        "5 bytes stand before the stream: whole items follow.", "tail -c +6 IN | gob why")),
    Row("prefix_of_1", HEX("00") + GOB, at_front(
        "5 Short at 1 seen 1", SHORT, "the end of the item, at byte 1",
        "1 byte stands before the stream: whole items follow.", "tail -c +2 IN | gob why")),
    Row("byte_order_mark", HEX("efbbbf") + GOB, at_front(
        "1 BadHead at 0 seen 1", BAD_HEAD, "ef, at byte 0", "Before it stands the byte order mark of UTF-8: ef bb bf.",
        "tail -c +4 IN | gob why", COUNT)),
    Row("returns", (POINT + HEX("07ff82010a014200")).replace(b"\n", b"\r\n"), due(
        "15 FieldNumber at 37 seen 38", "A struct has no such field.", f"item 1, Point: {VALUE_OF_POINT}", FIELDS,
        "0a, at byte 37",
        "Line feeds became a carriage return and a line feed: without the returns this item is whole.",
        "Get the file once more in binary, or type: LC_ALL=C sed 's/\\r$//' IN | gob why")),
    Row("replaced", GOB.decode("utf-8", errors="replace").encode(), at_front(
        "1 BadHead at 1 seen 2", BAD_HEAD, "ef, at byte 1",
        "U+FFFD, ef bf bd, stands in place of bytes that are no text. They are lost.",
        "Get the file once more, and send it as bytes: nothing on its way may take it for text.")),
    Row("another_stream", GOB + GOB, due(
        "8 DefinedTwice(65) at 41 seen 43", "A type is defined under a number that has one already.",
        "item 2, which begins at byte 40", TYPE, "ff 81, at byte 41",
        "Another encoder's stream begins with this item: it defines type 65 once more, in the same way.",
        "gob values --salvage IN"), of_file=of_several("3 items, 1 types, 48 bytes\n2 values of type 65, Point", "2", "40", 32)),
    Row("encoders_fifteen", GOB * 15, due(
        "8 DefinedTwice(65) at 41 seen 43", "A type is defined under a number that has one already.",
        "item 2, which begins at byte 40", TYPE, "ff 81, at byte 41",
        "Another encoder's stream begins with this item: it defines type 65 once more, in the same way.",
        "gob values --salvage IN"), of_file=of_several(
            "16 items, 1 types, 152 bytes\n15 values of type 65, Point", "15",
            "40, 80, 120, 160, 200, 240, 280, 320, 360, 400 and 4 more", 448)),
    # the second encoder says its second definition later than the first one
    Row("encoders_three", GOB + INTS + GOB + INTS + GOB, due(
        "8 DefinedTwice(65) at 59 seen 61", "A type is defined under a number that has one already.",
        "item 4, which begins at byte 58", TYPE, "ff 81, at byte 59",
        "Another encoder's stream begins with this item: it defines type 65 once more, in the same way.",
        "gob values --salvage IN"), of_file=of_several(
            "7 items, 2 types, 79 bytes\n3 values of type 65, Point\n2 values of type 66", "3", "58, 116", 77)),
    Row("encoders_and_damage", GOB + GOB + HEX("07ff82032c014200"), due(
        "8 DefinedTwice(65) at 41 seen 43", "A type is defined under a number that has one already.",
        "item 2, which begins at byte 40", TYPE, "ff 81, at byte 41",
        "Another encoder's stream begins with this item: it defines type 65 once more, in the same way.",
        "gob values --salvage IN"), without_again=("refused 15 FieldNumber at 83 seen 84", 32)),
    Row("another_type", GOB + ARRAY, due(
        "8 DefinedTwice(65) at 41 seen 43", "A type is defined under a number that has one already.",
        "item 2, which begins at byte 40", TYPE, "ff 81, at byte 41",
        "Another encoder's stream begins with this item: it defines type 65 once more, in another way.",
        "gob values --salvage IN")),
    Row("no_stream_of_its_own", GOB + HEX("05ff81020000"), due(
        "8 DefinedTwice(65) at 41 seen 43", "A type is defined under a number that has one already.",
        "item 2, which begins at byte 40", TYPE, "ff 81, at byte 41", CHANGED, SALVAGE)),
    Row("zeros_at_the_end", GOB + bytes(100), due(
        "5 Short at 41 seen 41", SHORT, "item 2, which begins at byte 40", TYPE, "the end of the item, at byte 41",
        "From here on there are only zeros, as far as was read: room that was never written.",
        "head -c 40 IN | gob why")),
    Row("hole", GOB + bytes(16) + VALUE, due(
        "5 Short at 41 seen 41", SHORT, "item 2, which begins at byte 40", TYPE, "the end of the item, at byte 41",
        "16 zeros stand here, and other bytes behind them: a piece of the file is lost, or was never written.",
        SALVAGE)),
    Row("zeros_in_front", bytes(16) + GOB, at_front(
        "5 Short at 1 seen 1", SHORT, "the end of the item, at byte 1",
        "16 bytes stand before the stream: whole items follow.", "tail -c +17 IN | gob why")),
    Row("zeros_between", GOB + bytes(16) + GOB, due(
        "5 Short at 41 seen 41", SHORT, "item 2, which begins at byte 40", TYPE, "the end of the item, at byte 41",
        "16 bytes stand here that are no item, and another encoder's stream begins at byte 56.",
        "head -c 40 IN | gob why; tail -c +57 IN | gob why")),
    Row("line_feed_between", GOB + b"\n" + GOB, due(
        "7 ReservedType(16) at 41 seen 42", RESERVED, "item 2, which begins at byte 40", TYPE, "1f, at byte 41",
        "1 byte stands here that is no item, and another encoder's stream begins at byte 41.",
        "head -c 40 IN | gob why; tail -c +42 IN | gob why")),
    Row("quoted_base64", b'"' + base64.b64encode(GOB) + b'"\n', at_front(
        "10 UndefinedType(36) at 1 seen 2", UNDEFINED, "48, at byte 1",
        "The file is JSON, and a string in it is base64 of a gob stream.",
        """jq -r '.. | strings | select(startswith("H/+BAwEB"))' IN | head -n 1 | base64 -d | gob why""")),
    Row("line_feed", GOB + b"\n", due(
        "22 Ended at 41 seen 41", "The file ends within an item.", "item 2, which begins at byte 40", TYPE,
        "the end of the input, at byte 41", "A line feed stands behind the last item.", "head -c 40 IN | gob why")),
    Row("no_beginning", VALUE, at_front(
        "10 UndefinedType(65) at 1 seen 3", UNDEFINED, "ff 82, at byte 1",
        "The beginning of the stream is missing: the first item is a value, and nothing defines its type.",
        "Get the file from its first byte on.")),
]

WHOLES = [
    Row("whole", GOB + VALUE, "ok: 3 items, 1 types, 48 bytes\n2 values of type 65, Point\n"),
    Row("nothing", b"", "ok: 0 items, 0 types, 0 bytes\n"),
    Row("basics", HEX("0304000603020001") + HEX("03040008"),
        "ok: 3 items, 0 types, 12 bytes\n1 value of type 1, bool\n2 values of type 2, int\n"),
    Row("two_numbers", TWO_NUMBERS, "ok: 1 items, 1 types, 17 bytes\n"),
    Row("held", HEX("0a100003696e740402000a") + BIG,
        "ok: 2 items, 1 types, 41 bytes\n2 values of type 8, interface{}\n"),
]

ROWS = REASONS + HELD + CAUSES + WHOLES


def main():
    folder, = sys.argv[1:]
    for row in ROWS:
        with open(f"{folder}/{row.name}.gob", "wb") as file:
            file.write(row.data)
        with open(f"{folder}/{row.name}.why", "w", encoding="utf-8") as file:
            file.write(row.due)


if __name__ == "__main__":
    main()
