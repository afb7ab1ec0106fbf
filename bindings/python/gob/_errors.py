"""What this package raises."""
from __future__ import annotations

from typing import Any


class Error(ValueError):
    """A fault of a stream, or of what is to be written as one."""


class BadTypes(Error):
    """There is no such type to write values of; the text says why, of Go source with the line and the column."""


class BadLine(Error):
    """A line says no item of a stream.

    `what` says why, `line` which line it is, from 1, `column` at which of its bytes, from 1, or 0 for the whole line,
    `path` where in its value, and `data` is the stream of the lines before.
    """

    def __init__(self, what: str, line: int, column: int = 0, path: str = "", data: bytes = b""):
        place = f"line {line}{f', column {column}' if column else ''}{f', at {path}' if path else ''}"
        super().__init__(f"{place}: {what}")
        self.what, self.line, self.column, self.path, self.data = what, line, column, path, data

    def __reduce__(self) -> tuple[Any, ...]:
        return BadLine, (self.what, self.line, self.column, self.path, self.data)


class Clash(Error):
    """The type of a value doesn't match the wanted one.

    `reason` says why, as `DifferentKind`, `path` where in the types, as `.Tries`, `[]` for an element, `{}` for a key
    or `top` for the types themselves, and `data` is the stream of the values before. `index` is how many values there
    are before it, and None behind a very long path. `found` and `wanted` say what the value has there and what it
    should, as `string` and `int`, where these differ.
    """

    def __init__(self, reason: str, path: str, data: bytes = b"", index: int | None = None, found: str = "",
                 wanted: str = ""):
        value = "" if index is None else f" in value {index}"
        kinds = f": {found}, where {wanted} is wanted" if found else ""
        super().__init__(f"{reason} at {path}{value}{kinds}")
        self.reason, self.path, self.data, self.index, self.found, self.wanted = (reason, path, data, index, found,
                                                                                  wanted)

    def __reduce__(self) -> tuple[Any, ...]:
        return Clash, (self.reason, self.path, self.data, self.index, self.found, self.wanted)


class LeftOut(Error):
    """A value has a field that the wanted type lacks, where all are to be kept.

    `path` says where in the value, as `.Tries`, `index` how many values there are before it, and `data` is the stream
    of these.
    """

    def __init__(self, path: str, index: int = 0, data: bytes = b""):
        super().__init__(f"value {index} has {path}, which isn't wanted")
        self.path, self.index, self.data = path, index, data

    def __reduce__(self) -> tuple[Any, ...]:
        return LeftOut, (self.path, self.index, self.data)


class BadValue(Error):
    """A value isn't one of the writer's type, and isn't written.

    `what` says why, `path` where in the value, as `.Tries` or `[2].User`, empty at the value itself, `index` how many
    values were written before, and `value` is the one that isn't.
    """

    def __init__(self, what: str, path: str = "", index: int = 0, value: Any = None):
        super().__init__(f"value {index}{f', at {path}' if path else ''}: {what}")
        self.what, self.path, self.index, self.value = what, path, index, value

    def __reduce__(self) -> tuple[Any, ...]:
        return BadValue, (self.what, self.path, self.index, self.value)
