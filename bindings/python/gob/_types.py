"""The types of a stream."""
from __future__ import annotations

from dataclasses import dataclass
from typing import Callable, Mapping, NamedTuple, Sequence

BASIC = {1: "bool", 2: "int", 3: "uint", 4: "float64", 5: "[]byte", 6: "string", 7: "complex128", 8: "interface{}"}
MARSHAL = {1: "GobEncode", 2: "MarshalBinary", 3: "MarshalText"}
_KINDS = {9: "slice", 10: "map", 11: "struct", 12: "opaque", 13: "array", 14: "basic"}


class Field(NamedTuple):
    """A field of a struct: its name, and the id of its type."""

    name: str
    type: int


@dataclass(frozen=True)
class Type:
    """What a type id stands for. `kind` is "basic", "array", "slice", "map", "struct" or "opaque"."""

    id: int
    name: str
    kind: str
    elem: int = 0
    key: int = 0
    len: int = 0
    fields: tuple[Field, ...] = ()
    marshal: str = ""  # of an opaque type: "GobEncode", "MarshalBinary" or "MarshalText"

    @property
    def names(self) -> tuple[str, ...]:
        """The names of the fields; where one is there twice, which Go never writes, the later one as "Name#3"."""
        names: list[str] = []
        for number, field in enumerate(self.fields):
            names.append(f"{field.name}#{number}" if field.name in names else field.name)
        return tuple(names)


def go_name(id: int, types: Mapping[int, Type], levels: int = 3) -> str:
    """How Go names a type: by its name, or where it has none by its parts, so many levels down."""
    if id in BASIC:
        return BASIC[id]
    type = types.get(id)
    if type is None or type.name or not levels or type.kind in ("struct", "opaque"):
        return type.name if type is not None and type.name else f"T{id}"
    elem = go_name(type.elem, types, levels - 1)
    if type.kind == "map":
        return f"map[{go_name(type.key, types, levels - 1)}]{elem}"
    return f"[{type.len}]{elem}" if type.kind == "array" else f"[]{elem}"


def type_of(id: int, nodes: Sequence[Sequence[int]], text: Callable[[int, int], str]) -> Type:
    """The type that a definition's nodes give: a list of (first, second, number, kind), and what gives a name."""
    first, second, number, word = nodes[0]
    name, kind, rest = text(first, second), _KINDS[word], nodes[1:]
    if kind == "struct":
        return Type(id, name, kind, fields=tuple(Field(text(f, s), n) for f, s, n, _ in rest))
    if kind == "map":
        return Type(id, name, kind, key=rest[0][2], elem=rest[1][2])
    if kind == "array":
        return Type(id, name, kind, elem=rest[0][2], len=rest[0][0])
    if kind == "slice":
        return Type(id, name, kind, elem=rest[0][2])
    return Type(id, name, kind, marshal=MARSHAL.get(number, ""))
