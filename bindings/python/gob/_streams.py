"""Streams that are made of bytes in memory: of lines, and of the values of another."""
from __future__ import annotations

import ctypes
import json
import re
from typing import Any, Callable, Iterable, Mapping, Union

from ._errors import BadLine, BadTypes, Clash, LeftOut as LeftOutFault
from ._library import Conversion, LeftOut, Limits, WriterFault, library
from ._texts import Held
from ._writer import Types, given, named

# the text of lines, or each line: as text, or as json.loads gives it
Lines = Union[str, Iterable[Union[str, Mapping[str, Any]]]]
# fields that have another name in a stream: the names there and the wanted ones, or words such as "Old=New"
Renames = Union[Mapping[str, str], Iterable[str], None]
# so many bytes of room there are at first, and as many as the call is given
_ROOM = 65536
# and for the line of what values left out
_LINE_ROOM = 4096
# (words may be cut)
_LINE = re.compile(r"gob: line (\d+)(?:, column (\d+))?(?:, at (.*?))?(?:: (.*))?", re.S)
_CLASH = re.compile(r"gob: clash \d+ (\w+) at (.*)", re.S)
_MET = re.compile(r"(.*): (?:in value (\d+)|value (\d+) has an? (.*) there, and an? (.*) is wanted)", re.S)
_LEFT = re.compile(r"gob: value (\d+) has (.*), which isn't wanted", re.S)


def _made_by(call: Callable[..., int], size: int, *words: Any) -> tuple[bytes, str | None]:
    """The stream that a call makes, and what it says where something is refused. Raises MemoryError, or ValueError
    where the limits are none."""
    fault = WriterFault()
    while True:
        room = ctypes.create_string_buffer(size)
        length = call(*words, room, size, ctypes.byref(fault))
        if length == -2:
            raise MemoryError
        if length < 0:
            raise ValueError("these are no limits")
        if length <= size:
            return room.raw[:length], fault.text.decode("utf-8", "replace") if fault.status else None
        size = length


def from_lines(lines: Lines) -> bytes:
    """The stream that the lines say. Raises `BadLine`."""
    text = _joined(lines).encode()
    data, words = _made_by(library.gob_lines_stream, _ROOM + len(text), text, len(text))
    if words is not None:
        found = _LINE.fullmatch(words)
        line, column, path, what = found.groups("") if found else ("", "", "", words)
        raise BadLine(what, int(line or 0), int(column or 0), path, data)
    return data


def _joined(lines: Lines) -> str:
    if isinstance(lines, str):
        return lines
    return "\n".join(line if isinstance(line, str) else json.dumps(line, allow_nan=False) for line in lines)


def convert(held: Held, limits: Limits | None, types: Types, type: str | None, renames: Renames, all: bool,
            left_out: Callable[[str], Any] | None) -> tuple[bytes, str | None]:
    """The stream of the values as those of the type, up to a refusal, whose line is given then. Raises `BadTypes`,
    `Clash` or `LeftOut`."""
    is_source, data = given(types)
    asked = Conversion(name=named(type), all=all)
    if limits is not None:
        asked.limits = ctypes.pointer(limits)
    if is_source:
        asked.source, asked.source_count = data, len(data)
    else:
        asked.stream, asked.stream_count = data, len(data)
    said = _renames(renames)
    asked.renames, asked.rename_count = (ctypes.c_char_p * len(said))(*said), len(said)
    left = _Left()
    made, words = _made_by(left.around(library.gob_convert_with), _ROOM + held[1], *held, ctypes.byref(asked))
    if left.line and left_out is not None:
        left_out(left.line)
    _raise_unmade(words, made)
    return made, words


class _Left:
    """The line of what values left out, behind a call that tells it."""

    line = ""

    def around(self, call: Callable[..., int]) -> Callable[..., int]:
        """The call, with as much room for the line as it takes."""
        def called(*words: Any) -> int:
            *asked, fault = words
            size = _LINE_ROOM
            while True:
                room = ctypes.create_string_buffer(size)
                left = LeftOut(ctypes.addressof(room), size)
                answer = call(*asked, ctypes.byref(left), fault)
                if left.length < size:
                    self.line = room.raw[:left.length].decode()[len("gob: "):]
                    return answer
                size = left.length + 1
        return called


def _renames(renames: Renames) -> list[bytes]:
    """The words of renames, as C takes them."""
    if isinstance(renames, (str, bytes)):
        raise TypeError("renames are a mapping, or some words")
    words = [f"{old}={new}" for old, new in renames.items()] if isinstance(renames, Mapping) else list(renames or ())
    for word in words:
        if "\0" in word:
            raise BadTypes("a name with a NUL, by which no field is found")
    return [word.encode("utf-8", "surrogateescape") for word in words]


def _raise_unmade(words: str | None, made: bytes) -> None:
    """Raises what the words say, but for a refusal of the bytes."""
    words = words or ""
    clash, left = _CLASH.fullmatch(words), _LEFT.fullmatch(words)
    if clash:
        raise _clash(clash[1], clash[2], made)
    if left:
        raise LeftOutFault(left[2], int(left[1]) - 1, made)
    if words.startswith(("gob: types:", "gob: wanted:", "gob: refused 35 ", "gob: rename ", "gob: a rename ")):
        raise BadTypes(words[len("gob: "):])


def _clash(reason: str, rest: str, made: bytes) -> Clash:
    """The clash for the reason, by what is told behind it: the path alone, where the words are cut."""
    met = _MET.fullmatch(rest)
    if met is None:
        return Clash(reason, rest, made)
    path, alone, number, found, wanted = met.groups("")
    return Clash(reason, path, made, int(alone or number) - 1, found, wanted)
