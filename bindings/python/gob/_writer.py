"""Streams, written."""
from __future__ import annotations

import ctypes
import io
import os
import re
from threading import RLock
from typing import Any, BinaryIO, Iterable, Union

from ._annotations import go_source
from ._encode import json_of
from ._errors import BadTypes, BadValue
from ._library import WriterFault, library

# Go source of types, the path of a file of it (`.go`) or of a stream, the bytes of a stream, or an annotated class
Types = Union[str, "os.PathLike[str]", bytes, bytearray, memoryview, type[Any]]
_WORDS = re.compile(r"gob: (?:column \d+(?:, at (?P<path>.*?))?: )?(?P<what>.*)", re.S)


class Writer:
    """Writes a stream of values of one type: `put` writes a value.

        with gob.Writer("logins.gob", types="type Login struct { User string; Tries int }") as writer:
            writer.put({"User": "ann", "Tries": 3})

    `types` is Go source, the path of a file of Go source, whose name ends in `.go`, or of a gob stream, the bytes of a
    stream, or a dataclass, a NamedTuple or a TypedDict, of which `go_source` makes Go source; a path is an os.PathLike,
    such as pathlib.Path. The values are of the type of the name `type`, or else of the first that the source declares,
    the class itself, or that of the stream's first value. Raises `BadTypes` where there is none.

    The file is a path, or a binary file, which stays open. The definitions are written at once, and each value as soon
    as it is put. What was written is a whole stream at any time.
    """

    _handle: int | None = None

    def __init__(self, file: Union[str, "os.PathLike[str]", BinaryIO], types: Types, type: str | None = None):
        self._lock, self._count = RLock(), 0
        self._fault = WriterFault()
        is_source, data = given(types)
        opened = library.gob_writer_open if is_source else library.gob_writer_open_like
        self._handle = opened(data, len(data), named(type), ctypes.byref(self._fault))
        if not self._handle:
            _raise_memory(self._fault)
            raise BadTypes(_words(self._fault)[1])
        self._own: BinaryIO | None = None
        if isinstance(file, (str, os.PathLike)):
            file = self._own = open(file, "wb")
        self._file = file
        self._send()

    def put(self, value: Any) -> None:
        """Writes a value: a dict, a dataclass instance or a named tuple for a struct, a list, a number, a str, bytes, a
        datetime, None for a zero. A field that is absent or None is zero.

        Raises `BadValue`, or TypeError or ValueError where Python's value has no JSON, or RecursionError where it is
        deeper than Python's recursion limit allows: then nothing is written, and the writer goes on. Without memory,
        and where the file takes no more, the writer is closed.
        """
        text = json_of(value)
        with self._lock:
            if not self._handle:
                raise ValueError("the writer is closed")
            status = library.gob_writer_put_json(self._handle, text, len(text), ctypes.byref(self._fault))
            if status == 1:
                path, what = _words(self._fault)
                raise BadValue(what, path, self._count, value)
            if status != 0:
                self.close()
                raise MemoryError
            self._count += 1
            self._send()

    def _send(self) -> None:
        """Sends what is written. Where that fails the rest of the stream is lost, so no more is written."""
        at, count = ctypes.c_void_p(), ctypes.c_size_t()
        try:
            some = library.gob_writer_take(self._handle, ctypes.byref(at), ctypes.byref(count))
            if some < 0:
                raise MemoryError
            if some and at.value is not None:
                _write_all(self._file, ctypes.string_at(at.value, count.value))
        except BaseException:
            self.close()
            raise

    def close(self) -> None:
        """Lets the writer go, and closes the file where it was given by its path. It can be called again."""
        with self._lock:
            self._let_go()
            own, self._own = self._own, None
            if own is not None:
                own.close()

    def _let_go(self) -> None:
        handle, self._handle = self._handle, None
        if handle:
            library.gob_writer_close(handle)

    __del__ = _let_go

    def __enter__(self) -> Writer:
        return self

    def __exit__(self, *_: object) -> None:
        self.close()


def _write_all(file: BinaryIO, data: bytes) -> None:
    """Writes all of it, also to a file without a buffer, which may take less at a time."""
    view = memoryview(data)
    while len(view):
        count = file.write(view)
        if count is None and isinstance(file, io.RawIOBase):
            raise BlockingIOError("the file takes no bytes yet")
        view = view[len(view) if count is None else count:]


def named(type: str | None) -> bytes | None:
    """The name of a type, as C takes it."""
    if type is not None and "\0" in type:
        # (C would take what stands before it for the name)
        raise BadTypes("a name with a NUL, by which no type is found")
    return None if type is None else type.encode("utf-8", "surrogateescape")


def given(types: Types) -> tuple[bool, bytes]:
    """Whether the types are Go source, and the bytes of it or of a stream."""
    if isinstance(types, type):
        types = go_source(types)
    if isinstance(types, str):
        return True, types.encode("utf-8", "surrogateescape")
    if isinstance(types, os.PathLike):
        with open(types, "rb") as file:
            return os.fspath(types).endswith(".go"), file.read()
    return False, bytes(types)


def _words(fault: WriterFault) -> tuple[str, str]:
    """The path in the value and what is wrong there."""
    found = _WORDS.fullmatch(fault.text.decode("utf-8", "replace"))
    return (found["path"] or "", found["what"]) if found else ("", "")


def _raise_memory(fault: WriterFault) -> None:
    if fault.status != 1:
        raise MemoryError


def dump(values: Iterable[Any], file: Union[str, "os.PathLike[str]", BinaryIO], types: Types,
         type: str | None = None) -> None:
    """Writes the stream of the values, one behind another, to a path or a binary file; see `Writer`.

    Where a value isn't written, those before it are.
    """
    with Writer(file, types, type) as writer:
        for value in values:
            writer.put(value)


def dumps(values: Iterable[Any], types: Types, type: str | None = None) -> bytes:
    """The stream of the values, one behind another; see `Writer`."""
    made = io.BytesIO()
    dump(values, made, types, type)
    return made.getvalue()
