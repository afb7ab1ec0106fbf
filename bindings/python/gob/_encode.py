"""Values of Python as plain JSON, which the library's writer reads."""
from __future__ import annotations

import base64
import dataclasses
import ipaddress
import json
import math
import uuid
from datetime import datetime, timedelta
from enum import Enum
from fractions import Fraction
from typing import Any, Callable, Mapping

from . import go
from ._decode import Opaque, Pairs

_TEXTS = (Fraction, ipaddress.IPv4Address, uuid.UUID)


def json_of(value: Any) -> bytes:
    """The plain JSON of a value. Raises TypeError or ValueError where there is none."""
    return json.dumps(_plain(value), ensure_ascii=False, allow_nan=False, separators=(",", ":")).encode()


def _plain(value: Any) -> Any:
    """The value as json.dumps takes it."""
    made = _MADE.get(type(value))
    if made is not None:
        return made(value)
    # a class of one's own, as an IntEnum or a namedtuple
    if isinstance(value, Enum):
        return _plain(value.value)
    if dataclasses.is_dataclass(value) and not isinstance(value, type):
        return {field.name: _plain(getattr(value, field.name)) for field in dataclasses.fields(value)}
    if isinstance(value, tuple) and hasattr(value, "_fields"):
        return {name: _plain(part) for name, part in zip(value._fields, value)}
    if isinstance(value, Mapping):
        return _mapping(value)
    if hasattr(value, "tolist"):
        # numpy's scalars and arrays
        return _plain(value.tolist())
    for kind, make in _MADE.items():
        if isinstance(value, kind):
            return make(value)
    raise TypeError(f"a {type(value).__name__} has no place in a gob stream")


def _float(value: float) -> Any:
    if math.isfinite(value):
        return float(value)
    return "NaN" if math.isnan(value) else "Infinity" if value > 0 else "-Infinity"


def _text(value: str) -> Any:
    try:
        value.encode()
    except UnicodeEncodeError:
        # bytes that aren't UTF-8, as the reader gives them
        return {"hex": value.encode("utf-8", "surrogateescape").hex()}
    return str(value)


def _base64(value: Any) -> str:
    return base64.b64encode(value).decode("ascii")


def _mapping(value: Mapping[Any, Any]) -> Any:
    """An object of a struct's fields or a map's keys; of any other keys the pairs."""
    members = {key: _plain(part) for key, part in value.items() if isinstance(key, str) and _text(key) == key}
    return members if len(members) == len(value) else _pairs(value.items())


def _pairs(pairs: Any) -> list[Any]:
    return [[_plain(key), _plain(part)] for key, part in pairs]


def _list(value: Any) -> list[Any]:
    return [_plain(part) for part in value]


def _time(value: datetime) -> str:
    """A time in RFC 3339, with its nanoseconds where it has them. One without an offset isn't Go's."""
    offset = value.utcoffset()
    if offset is None:
        raise ValueError("a time without an offset from UTC")
    # (what pandas calls nanoseconds are those behind the microsecond)
    nanos = 1000 * value.microsecond + getattr(value, "nanosecond", 0) % 1000
    digits = f"{nanos:09}".rstrip("0")
    clock = value.replace(tzinfo=None, microsecond=0).isoformat()
    return clock + (f".{digits}" if digits else "") + _zone(offset)


def _zone(offset: timedelta) -> str:
    if not offset:
        return "Z"
    minutes, seconds = divmod(abs(offset) // timedelta(seconds=1), 60)
    if seconds:
        raise ValueError("an offset from UTC with seconds")
    return f"{'-' if offset < timedelta(0) else '+'}{minutes // 60:02}:{minutes % 60:02}"


def _address(value: ipaddress.IPv6Address) -> str:
    """An address as Go writes it: one that stands for an address of version 4 ends with that."""
    zone = f"%{value.scope_id}" if value.scope_id else ""
    return f"::ffff:{value.ipv4_mapped}{zone}" if value.ipv4_mapped else str(value)


def _opaque(value: Opaque) -> Any:
    """What is known of the bytes that a type wrote of itself, as the reader's plain JSON has it; else these bytes."""
    known = go.known(value)
    return _base64(value.data) if isinstance(known, Opaque) else _plain(known)


# (a bool is an int, and a Time a datetime)
_MADE: dict[type, Callable[[Any], Any]] = {
    type(None): lambda value: None, bool: bool, int: int, float: _float, str: _text,
    complex: lambda value: [_float(value.real), _float(value.imag)],
    bytes: _base64, bytearray: _base64, memoryview: _base64,
    dict: _mapping, Pairs: _pairs, list: _list, tuple: _list,
    datetime: _time, ipaddress.IPv6Address: _address, Opaque: _opaque, **dict.fromkeys(_TEXTS, str),
}
