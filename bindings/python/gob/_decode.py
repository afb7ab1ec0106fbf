"""Natural values of nodes: a decoder for each type, made once.

A decoder takes a node's place in the batch under way, and where the item's bytes begin in the batch's. The words of the
nodes stand in lists, which are filled anew for each batch, so that decoders can keep them.
"""
from __future__ import annotations

import keyword
import struct
from collections import namedtuple
from typing import Any, Callable, NamedTuple

from ._types import Type

_double = struct.Struct("<d").unpack
_Decode = Callable[[int, int], Any]


class Opaque(NamedTuple):
    """What a type that encodes itself wrote. Only the Go type explains the bytes; `gob.go` knows some of them."""

    type: str
    marshal: str
    data: bytes


class Held(NamedTuple):
    """What an interface holds: the name under which its type was registered, and the value. See `held` of `Reader`."""

    name: str
    value: Any


class Pairs(list[Any]):
    """The keys and elements of a map that can't be a dict: a key isn't hashable, or is there twice."""


class Options(NamedTuple):
    structs: str = "dict"
    zeros: bool = False
    tagged: str | None = None
    opaque: Callable[[Opaque], Any] | None = None
    held: Callable[[str, Any], Any] | None = None


class Decoder:
    def __init__(self, shape_of: Callable[[int], Type], options: Options):
        if options.structs not in ("dict", "namedtuple"):
            raise ValueError("structs is 'dict' or 'namedtuple'")
        self.shape_of = shape_of
        self.options = options
        self.number: list[int] = []
        self.first: list[int] = []
        self.second: list[int] = []
        self.reals: list[float] = []
        self.has_reals = False
        self.leave()
        self.pool: list[bytes] = [b""]
        self.text: list[str | None] = [None]
        self.made: dict[int, _Decode] = {}

    def fill(self, nodes: memoryview, pool: bytes) -> None:
        """Takes the next batch: its nodes, three words each, which stand until the next, and its bytes."""
        words = nodes.cast("Q")
        self.first[:] = words[0::3].tolist()
        self.second[:] = words[1::3].tolist()
        self.number[:] = nodes.cast("I")[4::6].tolist()
        self.nodes = nodes
        if self.has_reals:
            self._fill_reals()
        self.pool[0] = pool
        self.text[0] = pool.decode("ascii") if pool.isascii() else None

    def leave(self) -> None:
        """The nodes of the batch don't stand any more."""
        self.nodes = memoryview(b"")

    def _fill_reals(self) -> None:
        """From the first float on each number is told as one too."""
        self.has_reals = True
        self.reals[:] = self.nodes.cast("d")[0::3].tolist()

    def of(self, id: int) -> _Decode:
        """The decoder of a type."""
        made = self.made.get(id)
        if made is None:
            basic = self._basic(id)
            if basic is not None:
                made = self.made[id] = basic
            else:
                # a type may lead to itself: until its own is made, whoever asks gets one that looks it up
                self.made[id] = lambda i, base: self.made[id](i, base)
                made = self.made[id] = self._make(self.shape_of(id))
        return made

    def _basic(self, id: int) -> _Decode | None:
        first, second, reals, pool, text = self.first, self.second, self.reals, self.pool, self.text
        if id in (4, 7):
            self._fill_reals()

        def truth(i: int, base: int) -> bool:
            return first[i] == 1

        def integer(i: int, base: int) -> int:
            x = first[i]
            return (x >> 1) ^ -(x & 1)

        def unsigned(i: int, base: int) -> int:
            return first[i]

        def real(i: int, base: int) -> float:
            return reals[i]

        def raw(i: int, base: int) -> bytes:
            at = base + first[i]
            return pool[0][at:at + second[i]]

        def string(i: int, base: int) -> str:
            at = base + first[i]
            known = text[0]
            if known is not None:
                return known[at:at + second[i]]
            return pool[0][at:at + second[i]].decode("utf-8", "surrogateescape")

        def imaginary(i: int, base: int) -> complex:
            return complex(reals[i], _double(second[i].to_bytes(8, "little"))[0])

        explain = self.options.held

        def interface(i: int, base: int) -> Any:
            held = second[i]
            if held == 0:  # nil, since no type has this id
                return None
            at = i + first[i]  # its name, and behind that its value
            value = self.of(held)(at + 1, base)
            return value if explain is None else explain(string(at, base), value)

        return {1: truth, 2: integer, 3: unsigned, 4: real, 5: raw, 6: string, 7: imaginary, 8: interface}.get(id)

    def _is_leaf(self, id: int) -> bool:
        return id <= 8 or self.shape_of(id).kind == "opaque"

    def _make(self, shape: Type) -> _Decode:
        if shape.kind == "struct":
            return self._struct(shape)
        if shape.kind == "map":
            return self._map(shape)
        if shape.kind == "opaque":
            return self._opaque(shape)
        return self._list(shape)

    def _opaque(self, shape: Type) -> _Decode:
        first, second, pool, explain = self.first, self.second, self.pool, self.options.opaque
        name, marshal = shape.name, shape.marshal

        def opaque(i: int, base: int) -> Any:
            at = base + first[i]
            value = Opaque(name, marshal, pool[0][at:at + second[i]])
            return value if explain is None else explain(value)

        return opaque

    def _numbers(self, id: int) -> _Decode | None:
        """The decoder of a list of truths or numbers, without a call for each."""
        first, second, reals = self.first, self.second, self.reals

        def truths(i: int, base: int) -> list[bool]:
            return [x == 1 for x in first[i + 1:i + second[i]]]

        def integers(i: int, base: int) -> list[int]:
            return [(x >> 1) ^ -(x & 1) for x in first[i + 1:i + second[i]]]

        def unsigned(i: int, base: int) -> list[int]:
            return first[i + 1:i + second[i]]

        def floats(i: int, base: int) -> list[float]:
            return reals[i + 1:i + second[i]]

        return {1: truths, 2: integers, 3: unsigned, 4: floats}.get(id)

    def _list(self, shape: Type) -> _Decode:
        first, second = self.first, self.second
        element = self.of(shape.elem)
        numbers = self._numbers(shape.elem)
        if numbers is not None:
            return numbers
        if self._is_leaf(shape.elem):
            def flat(i: int, base: int) -> list[Any]:
                return [element(k, base) for k in range(i + 1, i + second[i])]
            return flat

        def nested(i: int, base: int) -> list[Any]:
            end, k, out = i + second[i], i + 1, []
            while k < end:
                out.append(element(k, base))
                k += second[k]
            return out

        return nested

    def _map(self, shape: Type) -> _Decode:
        first, second = self.first, self.second
        key, element = self.of(shape.key), self.of(shape.elem)
        key_leaf, leaf = self._is_leaf(shape.key), self._is_leaf(shape.elem)

        def entries(i: int, base: int) -> dict[Any, Any] | Pairs:
            end, k, out = i + second[i], i + 1, []
            while k < end:
                name = key(k, base)
                k += 1 if key_leaf else second[k]
                out.append((name, element(k, base)))
                k += 1 if leaf else second[k]
            try:
                found = dict(out)
            except TypeError:
                return Pairs(out)
            return found if len(found) == len(out) else Pairs(out)

        return entries

    def _struct(self, shape: Type) -> _Decode:
        number, second, zeros = self.number, self.second, self.options.zeros
        names = shape.names
        fields = [(name, self.of(field.type), self._is_leaf(field.type)) for name, field in zip(names, shape.fields)]
        fresh = [(name, self.zero(field.type)) for name, field in zip(names, shape.fields)] if zeros else []
        tag = {} if self.options.tagged is None else {self.options.tagged: shape.name}

        def present(i: int, base: int) -> dict[str, Any]:
            end, k, out = i + second[i], i + 1, tag.copy()
            while k < end:
                name, decode, leaf = fields[number[k]]
                out[name] = decode(k, base)
                k += 1 if leaf else second[k]
            return out

        def filled(i: int, base: int) -> dict[str, Any]:
            end, k, out = i + second[i], i + 1, {**tag, **{name: zero() for name, zero in fresh}}
            while k < end:
                name, decode, leaf = fields[number[k]]
                out[name] = decode(k, base)
                k += 1 if leaf else second[k]
            return out

        if self.options.structs == "dict":
            return filled if zeros else present
        named: Callable[..., Any] = namedtuple
        kind = named(shape.name if shape.name.isidentifier() and not keyword.iskeyword(shape.name) else "Struct",
                     names, rename=True, defaults=(None,) * len(names))

        def as_tuple(i: int, base: int) -> Any:
            end, k = i + second[i], i + 1
            out = [zero() for _, zero in fresh] if zeros else [None] * len(names)
            while k < end:
                n = number[k]
                _, decode, leaf = fields[n]
                out[n] = decode(k, base)
                k += 1 if leaf else second[k]
            return kind(*out)

        return as_tuple

    def zero(self, id: int) -> Callable[[], Any]:
        """What makes the value of a field that is absent.

        A struct or an array is sent even if all in it is zero, unless it is behind a nil pointer: so it is None. A type
        that encodes itself isn't sent where it is zero, and None too.
        """
        if id <= 8:
            zero = (None, False, 0, 0, 0.0, b"", "", 0j, None)[id]
            return lambda: zero
        shape = self.shape_of(id)
        if shape.kind == "slice":
            return list
        if shape.kind == "map":
            return dict
        return lambda: None
