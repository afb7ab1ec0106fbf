"""Go source of the types that classes of Python declare by their annotations."""
from __future__ import annotations

import collections.abc
import dataclasses
import ipaddress
import re
import types
import typing
import uuid
from datetime import datetime
from fractions import Fraction
from typing import Any, Mapping

from ._errors import BadTypes

# what stands for a class of values and for those derived from it (a bool is an int)
_BASIC: dict[type, str] = {
    bool: "bool", int: "int", float: "float64", complex: "complex128", str: "string", bytes: "[]byte",
    bytearray: "[]byte", datetime: "time.Time", Fraction: "*big.Rat", uuid.UUID: "uuid.UUID",
    ipaddress.IPv4Address: "netip.Addr", ipaddress.IPv6Address: "netip.Addr",
}
_LISTS = (list, collections.abc.Sequence, collections.abc.MutableSequence)
_MAPS = (dict, collections.abc.Mapping, collections.abc.MutableMapping)
_PACKAGES = {"big": "math/big", "netip": "net/netip", "time": "time", "uuid": "github.com/google/uuid"}
_UNIONS = (typing.Union, getattr(types, "UnionType", typing.Union))
# names that say something of a field and nothing of its type, also those of typing_extensions
_QUALIFIERS = ("Final", "NotRequired", "ReadOnly", "Required")
_EXPORTED = re.compile(r"[A-Z][A-Za-z0-9_]*")
_IDENTIFIER = re.compile(r"[A-Za-z][A-Za-z0-9_]*")
# what Go, or a source made here, says by these names
_TAKEN = frozenset("""
    any big bool break byte case chan complex128 const continue default defer else error fallthrough false float64 for
    func go goto if import init int interface iota main map netip nil package range return select string struct switch
    time true type uuid var
""".split())


def go_source(cls: type) -> str:
    """Go source of the type that a class declares, and of all that it leads to: of a dataclass, a NamedTuple or a
    TypedDict, whose annotated fields are those of a struct. The class comes first.

        @dataclasses.dataclass
        class Login:
            User: str
            Tries: list[int]

        gob.go_source(Login)    # "package types\\n\\ntype Login struct {\\n\\tUser  string\\n\\tTries []int\\n}\\n"

    bool is bool, int int, float float64, complex complex128, str string, bytes []byte, datetime time.Time, Fraction
    *big.Rat, an address of ipaddress netip.Addr and UUID uuid.UUID; list[X], Sequence[X] and tuple[X, ...] are []X, and
    dict[K, V] and Mapping[K, V] map[K]V. A class in a field is a struct, declared once. Optional[X] is X, whose None is
    a zero, and of a class *X, as is a class that leads to itself.

    Raises `BadTypes`, which names the class, the field and the annotation, of anything else, and of a field that Go
    doesn't send: the name of each begins with a capital of ASCII.
    """
    if not isinstance(cls, type) or not _is_struct(cls):
        raise BadTypes(f"{_shown(cls)}: no dataclass, NamedTuple or TypedDict")
    source = _Source()
    source.declare(cls)
    return source.text()


class _Source:
    """The structs that are declared, in the order in which they are met."""

    def __init__(self) -> None:
        # the fields of each, and their types; None while these are looked at
        self.structs: dict[type, dict[str, str] | None] = {}

    def declare(self, cls: type) -> None:
        """Declares a class, if it isn't, and all that it leads to."""
        if cls in self.structs:
            return
        hints = _hints(cls)
        self._check_name(cls)
        self.structs[cls] = None
        self.structs[cls] = {name: _Field(self, cls, name, hints).in_go() for name in _names(cls)}

    def _check_name(self, cls: type) -> None:
        name = cls.__name__
        if not _IDENTIFIER.fullmatch(name) or name in _TAKEN:
            raise BadTypes(f"{_shown(cls)}: Go has no type of this name")
        if any(name == other.__name__ for other in self.structs):
            raise BadTypes(f"{_shown(cls)}: another class has this name")

    def is_comparable(self, text: str) -> bool:
        """Whether Go compares values of the type, as it does the keys of a map."""
        if text.startswith(("[]", "map[")):
            return False
        found = [fields for cls, fields in self.structs.items() if cls.__name__ == text]
        # (a struct that is still looked at has this map in it, and isn't compared)
        return all(fields is not None and all(map(self.is_comparable, fields.values())) for fields in found)

    def text(self) -> str:
        structs = [_struct(cls.__name__, fields or {}) for cls, fields in self.structs.items()]
        found = set(re.findall(r"\b[a-z]+(?=\.)", "".join(structs)))
        paths = sorted(path for package, path in _PACKAGES.items() if package in found)
        imports = ["import (\n" + "".join(f'\t"{path}"\n' for path in paths) + ")\n"] if paths else []
        return "\n".join(["package types\n", *imports, *structs])


def _struct(name: str, fields: Mapping[str, str]) -> str:
    """The declaration, as gofmt has it."""
    if not fields:
        return f"type {name} struct{{}}\n"
    width = max(map(len, fields))
    return f"type {name} struct {{\n" + "".join(f"\t{it:{width}} {type}\n" for it, type in fields.items()) + "}\n"


class _Field:
    """A field of a class that is declared."""

    def __init__(self, source: _Source, cls: type, name: str, hints: Mapping[str, Any]):
        self.source, self.cls, self.name = source, cls, name
        if not _EXPORTED.fullmatch(name):
            raise self._bad("Go sends only fields whose names begin with a capital, in letters and digits of ASCII")
        if name not in hints:
            raise self._bad("it has no annotation")
        self.annotation = hints[name]

    def _bad(self, why: str) -> BadTypes:
        return BadTypes(f"{_shown(self.cls)}.{self.name}: {why}")

    def in_go(self) -> str:
        """Its type in Go."""
        is_absent = self.name in getattr(self.cls, "__optional_keys__", ())
        return self._type(self.annotation, is_optional=is_absent)

    def _type(self, annotation: Any, is_optional: bool = False, is_part: bool = False) -> str:
        """The type that an annotation says: of what may be None, or of a part of a list or a map."""
        origin, args = typing.get_origin(annotation), typing.get_args(annotation)
        if origin in _UNIONS:
            return self._union(args, is_optional, is_part)
        if getattr(origin, "_name", None) in _QUALIFIERS:
            return self._type(args[0], is_optional, is_part)
        if args and origin in _LISTS or origin is tuple and args[1:] == (...,):
            return f"[]{self._type(args[0], is_part=True)}"
        if args and origin in _MAPS:
            return self._map(*args)
        if hasattr(annotation, "__supertype__"):
            return self._type(annotation.__supertype__, is_optional, is_part)
        if origin is None and isinstance(annotation, type):
            return self._class(annotation, is_optional, is_part)
        raise self._unknown(annotation)

    def _unknown(self, annotation: Any) -> BadTypes:
        whole = "" if annotation is self.annotation else f", in {_shown(self.annotation)}"
        return self._bad(f"no type of Go is known for {_shown(annotation)}{whole}")

    def _union(self, args: tuple[Any, ...], is_optional: bool, is_part: bool) -> str:
        """Of types that are one in Go, and None."""
        some = [arg for arg in args if arg is not type(None)]
        made = {self._type(arg, is_optional or len(some) < len(args), is_part) for arg in some}
        if len(made) != 1:
            raise self._unknown(typing.Union[args])
        return made.pop()

    def _map(self, key: Any, element: Any) -> str:
        made = self._type(key, is_part=True)
        if not self.source.is_comparable(made):
            raise self._bad(f"Go has no map with keys of {_shown(key)}")
        return f"map[{made}]{self._type(element, is_part=True)}"

    def _class(self, cls: type, is_optional: bool, is_part: bool) -> str:
        if not _is_struct(cls):
            basic = next((made for base, made in _BASIC.items() if issubclass(cls, base)), None)
            if basic is None:
                raise self._unknown(cls)
            return basic
        self.source.declare(cls)
        # a struct holds itself behind a pointer, a list or a map alone
        is_behind = is_optional or not is_part and self.source.structs[cls] is None
        return f"{'*' * is_behind}{cls.__name__}"


def _is_named_tuple(cls: type) -> bool:
    return issubclass(cls, tuple) and hasattr(cls, "_fields")


def _is_typed_dict(cls: type) -> bool:
    return issubclass(cls, dict) and hasattr(cls, "__total__")


def _is_struct(cls: type) -> bool:
    return dataclasses.is_dataclass(cls) or _is_named_tuple(cls) or _is_typed_dict(cls)


def _names(cls: Any) -> list[str]:
    """The names of its fields."""
    if dataclasses.is_dataclass(cls):
        return [field.name for field in dataclasses.fields(cls)]
    return list(cls._fields if _is_named_tuple(cls) else cls.__annotations__)


def _hints(cls: type) -> dict[str, Any]:
    """The annotations of its fields."""
    try:
        return typing.get_type_hints(cls)
    except (NameError, TypeError) as error:
        raise BadTypes(f"{_shown(cls)}: {error}") from error


def _shown(annotation: Any) -> str:
    """How an annotation is written."""
    if isinstance(annotation, type) and not typing.get_args(annotation):
        return annotation.__qualname__
    return repr(annotation)
