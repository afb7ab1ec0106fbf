"""What some types of Go's standard library write when they encode themselves. Outside what is proved.

    gob.load(path, opaque=gob.go.known)     # time.Time as datetime, big.Int as int, by the type's name or its bytes
    gob.go.time(opaque)                     # of one value

A stream names a type without its package, so a type of another package may have one of these names: each function
raises ValueError where the bytes are not what Go's own type writes, and `known` then leaves the value opaque.
"""
from __future__ import annotations

import ipaddress
import operator
import struct
from datetime import datetime, timedelta, timezone
from fractions import Fraction
from typing import Any, Callable, Union

from ._decode import Opaque

Address = Union[ipaddress.IPv4Address, ipaddress.IPv6Address]


class Time(datetime):
    """A time.Time: a datetime, whose microseconds are cut, and beside it `nanosecond`, 0 to 999999999.

    Pickles, copies, `astimezone`, `replace`, and adding or subtracting a timedelta keep the nanoseconds; `replace` sets
    them by `nanosecond`, or by `microsecond` with 0 behind it. Comparing heeds them. What datetime itself gives has
    microseconds alone: texts, and the difference of two times.
    """

    _behind = 0  # the microsecond, 0 to 999

    def __new__(cls, *args: Any, nanosecond: int | None = None, **kwargs: Any) -> Time:
        made = super().__new__(cls, *args, **kwargs)
        return made if nanosecond is None else made.replace(nanosecond=nanosecond)

    @property
    def nanosecond(self) -> int:
        return 1000 * self.microsecond + self._behind

    def __repr__(self) -> str:
        return f"{super().__repr__()[:-1]}, nanosecond={self.nanosecond})"

    def __reduce_ex__(self, protocol: Any) -> tuple[Any, ...]:
        made, state = super().__reduce_ex__(protocol)[:2]
        return _restored, (made, state, self._behind)

    def replace(self, *args: Any, nanosecond: int | None = None, **kwargs: Any) -> Time:
        if nanosecond is not None:
            kwargs["microsecond"] = nanosecond // 1000
            return _with(super().replace(*args, **kwargs), nanosecond % 1000)
        has_microsecond = len(args) > 6 or "microsecond" in kwargs
        return _with(super().replace(*args, **kwargs), 0 if has_microsecond else self._behind)

    __replace__ = replace

    def astimezone(self, tz: Any = None) -> Time:
        return _with(super().astimezone(tz), self._behind)

    def __add__(self, other: Any) -> Any:
        return _with(super().__add__(other), self._behind)

    __radd__ = __add__

    def __sub__(self, other: Any) -> Any:
        return _with(super().__sub__(other), self._behind)

    def _told(self, other: Any, told: Any, behind: Callable[[int, int], bool]) -> Any:
        # pandas calls the digits behind the microsecond by this name
        return behind(self._behind, getattr(other, "nanosecond", 0) % 1000) if super().__eq__(other) is True else told

    def __eq__(self, other: object) -> Any:
        return self._told(other, super().__eq__(other), operator.eq)

    def __ne__(self, other: object) -> Any:
        return self._told(other, super().__ne__(other), operator.ne)

    def __lt__(self, other: Any) -> Any:
        return self._told(other, super().__lt__(other), operator.lt)

    def __le__(self, other: Any) -> Any:
        return self._told(other, super().__le__(other), operator.le)

    def __gt__(self, other: Any) -> Any:
        return self._told(other, super().__gt__(other), operator.gt)

    def __ge__(self, other: Any) -> Any:
        return self._told(other, super().__ge__(other), operator.ge)

    __hash__ = datetime.__hash__


def _with(at: Any, behind: int) -> Any:
    """The time with these nanoseconds behind its microsecond; what is no time is given back."""
    if isinstance(at, Time):
        at._behind = behind
    return at


def _restored(made: Callable[..., Time], state: tuple[Any, ...], behind: int) -> Any:
    return _with(made(*state), behind)


def time(value: Opaque) -> Time:
    """A time.Time, with its offset from UTC."""
    seconds, nanos, offset = _time(value)
    zone = timezone.utc if offset is None else timezone(timedelta(seconds=offset))
    at = datetime(1, 1, 1, tzinfo=timezone.utc) + timedelta(seconds=seconds, microseconds=nanos // 1000)
    at = at.astimezone(zone)
    made = Time(at.year, at.month, at.day, at.hour, at.minute, at.second, at.microsecond, zone)
    made._behind = nanos % 1000
    return made


def nanoseconds(value: Opaque) -> int:
    """A time.Time, as nanoseconds since 1970 UTC."""
    seconds, nanos, _ = _time(value)
    return (seconds - 62135596800) * 10**9 + nanos


def _time(value: Opaque) -> tuple[int, int, int | None]:
    data = value.data
    # version 1 has minutes of the offset, version 2 seconds behind them
    if len(data) not in (15, 16) or data[0] != len(data) - 14:
        raise ValueError("no time.Time")
    seconds, nanos, minutes = struct.unpack(">qih", data[1:15])
    if not 0 <= nanos < 10**9:
        raise ValueError("no time.Time")
    offset = 60 * minutes + (struct.unpack(">b", data[15:])[0] if len(data) == 16 else 0)
    return seconds, nanos, None if minutes == -1 else offset


def big_int(value: Opaque) -> int:
    """A big.Int."""
    data = value.data
    if not data or data[0] >> 1 != 1:
        raise ValueError("no big.Int")
    return _signed(int.from_bytes(data[1:], "big"), data[0] & 1)


def big_rat(value: Opaque) -> Fraction:
    """A big.Rat."""
    data = value.data
    if len(data) < 5 or data[0] >> 1 != 1:
        raise ValueError("no big.Rat")
    end = 5 + int.from_bytes(data[1:5], "big")
    if end > len(data):
        raise ValueError("no big.Rat")
    below = int.from_bytes(data[end:], "big") or 1
    return Fraction(_signed(int.from_bytes(data[5:end], "big"), data[0] & 1), below)


_MOST_EXPONENT = 1 << 16


def big_float(value: Opaque) -> Fraction | float:
    """A big.Float: exactly, as a fraction; a zero and an infinity as the float with their sign."""
    data = value.data
    if len(data) < 6 or data[0] != 1:
        raise ValueError("no big.Float")
    form, negative = data[1] >> 1 & 3, data[1] & 1
    if form == 1:
        if len(data) < 10:
            raise ValueError("no big.Float")
        exponent: int = struct.unpack(">i", data[6:10])[0]
        # digits beyond cost the square of the exponent, which a few bytes could ask for
        if abs(exponent) > _MOST_EXPONENT:
            raise ValueError("a big.Float beyond what is worked out")
        power = exponent - 8 * (len(data) - 10)
        digits = _signed(int.from_bytes(data[10:], "big"), negative)
        return Fraction(digits) * Fraction(2) ** power
    if form > 2 or len(data) != 6:
        raise ValueError("no big.Float")
    size = 0.0 if form == 0 else float("inf")
    return -size if negative else size


def _signed(size: int, negative: int) -> int:
    return -size if negative else size


def address(value: Opaque) -> Address | None:
    """A netip.Addr; None where it is the zero one."""
    data = value.data
    if not data:
        return None
    if len(data) == 4:
        return ipaddress.IPv4Address(data)
    if len(data) < 16:
        raise ValueError("no netip.Addr")
    zone = data[16:].decode("utf-8")
    return ipaddress.IPv6Address(f"{ipaddress.IPv6Address(data[:16])}%{zone}") if zone else ipaddress.IPv6Address(data)


def address_port(value: Opaque) -> tuple[Address | None, int]:
    """A netip.AddrPort, as a pair."""
    if len(value.data) < 2:
        raise ValueError("no netip.AddrPort")
    return address(value._replace(data=value.data[:-2])), int.from_bytes(value.data[-2:], "little")


def prefix(value: Opaque) -> tuple[Address | None, int]:
    """A netip.Prefix, as an address and how many bits; -1 where it is no valid one."""
    if not value.data:
        raise ValueError("no netip.Prefix")
    bits = value.data[-1]
    return address(value._replace(data=value.data[:-1])), -1 if bits == 255 else bits


def text(value: Opaque) -> str:
    """What is written as text: a url.URL, and whatever MarshalText wrote."""
    return value.data.decode("utf-8")


def _unnamed(value: Opaque) -> Any:
    """A time or a whole number, of a type without a name: of bytes that Go's own type writes and no others."""
    data = value.data
    if value.marshal != "GobEncode":
        raise ValueError("no type of Go's library")
    try:
        if len(data) == 16:
            minutes, seconds = struct.unpack(">hb", data[13:])
            if minutes == -1 or not 0 < abs(seconds) < 60 or minutes * seconds < 0:
                raise ValueError("no time.Time")
        return time(value)
    except (ValueError, OverflowError):
        if data != b"\2" and (len(data) < 2 or data[1] == 0):
            raise ValueError("no big.Int") from None
        return big_int(value)


# Go sends no name of a type that it met first behind a pointer, or as a map's key or element
_KNOWN: dict[str, Callable[[Opaque], Any]] = {
    "": _unnamed, "Time": time, "Int": big_int, "Rat": big_rat, "Float": big_float,
    "Addr": address, "AddrPort": address_port, "Prefix": prefix, "URL": text,
}


def known(value: Opaque) -> Any:
    """The value that one of these functions gives, by the type's name, else the opaque value itself. Of a type without
    a name, as Go sends one behind a pointer, the bytes of a time.Time and of a big.Int are known by their layout."""
    explain = text if value.marshal == "MarshalText" else _KNOWN.get(value.type)
    if explain is None:
        return value
    try:
        return explain(value)
    except (ValueError, OverflowError):
        return value
