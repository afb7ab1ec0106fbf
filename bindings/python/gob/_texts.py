"""Texts that the library makes of a stream that is held in memory."""
from __future__ import annotations

import ctypes
import mmap
import os
from typing import Any, Callable

from ._library import Fault, Limits, library

# so many bytes of room there are at first
_ROOM = 65536
# bytes as ctypes takes them, and how many there are
Held = tuple[Any, int]


def mapped(path: Any) -> Held | None:
    """The bytes of a file, which take no memory of their own; None where it can't be mapped, as a pipe. They are let go
    when nobody holds them any more."""
    with open(path, "rb") as file:
        size = os.fstat(file.fileno()).st_size
        try:
            # (ctypes takes none that is only read)
            return (ctypes.c_char * size).from_buffer(mmap.mmap(file.fileno(), size, access=mmap.ACCESS_COPY)), size
        except (OSError, ValueError):
            return None


def text_by(call: Callable[..., int], held: Held, limits: Limits | None, *words: bytes | None) -> str:
    """The text that a call gives of these bytes. Raises MemoryError, or ValueError where the limits are none."""
    size = _ROOM
    while True:
        room = ctypes.create_string_buffer(size)
        length = call(*held, None if limits is None else ctypes.byref(limits), *words, room, size)
        if length < 0:
            raise MemoryError if length == -2 else ValueError("these are no limits")
        if length < size:
            return room.raw[:length].decode()
        size = length + 1


def why(held: Held, limits: Limits | None, name: bytes | None) -> str:
    """What `gob why` says of them."""
    return text_by(library.gob_why_text, held, limits, name)


def source(held: Held, limits: Limits | None) -> tuple[str, Fault]:
    """What `gob types` prints of them, and how they end."""
    return _checked(library.gob_types_text, held, limits)


def lines(held: Held, limits: Limits | None) -> tuple[str, Fault]:
    """What `gob show --go` prints of them, and how they end."""
    return _checked(library.gob_lines_text, held, limits)


def _checked(call: Callable[..., int], held: Held, limits: Limits | None) -> tuple[str, Fault]:
    text, fault = text_by(call, held, limits), Fault()
    library.gob_check(*held, None if limits is None else ctypes.byref(limits), None, ctypes.byref(fault))
    return text, fault
