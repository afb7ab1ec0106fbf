"""Gob streams (Go's encoding/gob) as Python values, read exactly and without the Go types, and written.

    import gob

    for point in gob.iter_values("points.gob"):
        print(point)                          # {'X': 22, 'Y': 33}
    points = gob.load("points.gob")           # a list, with points.types
    frame = pandas.DataFrame(gob.iter_values("points.gob", zeros=True))
    gob.check("points.gob")                   # Summary(values=1, types=1, bytes=40), or Refused
    gob.dump([{"X": 22, "Y": 33}], "points.gob", types="type Point struct { X, Y int }")
    gob.dump([Point(22, 33)], "points.gob", types=Point)    # a dataclass, by its annotations

Structs are dicts by field name (or namedtuples), maps are dicts, floats are floats, `[]byte` is bytes, strings are str
(bytes that aren't UTF-8 as surrogates, which `s.encode("utf-8", "surrogateescape")` gives back), an interface is what
it holds, or None, and what a Go type encoded itself is an `Opaque`. A field that the stream doesn't have is absent;
with `zeros` it has its zero value, as Go's decoder would leave it.

The bytes are read and written by a library that is proved; this package and what explains opaque values are not. Values
are made, and told, by recursion: one deeper than Python's recursion limit allows raises RecursionError.
"""
from __future__ import annotations

import ctypes
import os
from contextlib import contextmanager
from enum import IntEnum
from itertools import groupby, repeat
from threading import get_ident
from typing import Any, BinaryIO, Callable, Iterable, Iterator, Mapping, NamedTuple, Union

from ._annotations import go_source
from ._decode import Decoder, Held, Opaque, Options, Pairs
from ._errors import BadLine, BadTypes, BadValue, Clash, Error, LeftOut
from ._library import Batch, Counts, Fault, Head, Limits as _Limits, Node, library
from ._types import Field, Type, type_of
from ._streams import Renames as _Renames, from_lines
from ._writer import Types as _TypesGiven, Writer, dump, dumps
from . import _streams, _texts, go

__all__ = ["BadLine", "BadTypes", "BadValue", "Clash", "Error", "Field", "Held", "Item", "LeftOut", "Limits", "Opaque",
           "Pairs", "Reader", "Reason", "Refused", "Summary", "Type", "Writer", "check", "convert", "dump", "dumps",
           "from_lines", "go", "go_source", "iter_items", "iter_values", "lines", "load", "loads", "source", "types",
           "why"]

Source = Union[str, "os.PathLike[str]", bytes, bytearray, memoryview, BinaryIO, Iterable[bytes]]
# makes of values of one type, and of where their items begin and end, what is given of them
_Made = Callable[[Type, Iterator[Any], Iterable[int], Iterable[int]], Iterable[Any]]
_HEAD, _NODE = ctypes.sizeof(Head), ctypes.sizeof(Node)
_HEAD_WORDS = _HEAD // 8


class Reason(IntEnum):
    """Why bytes are no gob stream: see docs/FORMAT.md, Refusals."""

    BadHead = 1
    NotMinimal = 2
    ItemTooLong = 3
    StreamTooLong = 4
    Short = 5
    Extra = 6
    ReservedType = 7
    DefinedTwice = 8
    TooManyTypes = 9
    UndefinedType = 10
    Bottomless = 11
    SingleTag = 12
    Bool = 13
    ArrayCount = 14
    FieldNumber = 15
    InterfaceValue = 16
    TooDeep = 17
    KindCount = 18
    WrongId = 19
    BadReference = 20
    BadLength = 21
    Ended = 22


_SPEAK_OF_A_TYPE = (Reason.ReservedType, Reason.DefinedTwice, Reason.UndefinedType, Reason.Bottomless)


class Limits(NamedTuple):
    """What a stream may have: bytes of an item, depth of a value, definitions, bytes of the stream.

    A depth above 1000 is that of a reader with `exact`; for any other it is 1000.
    """

    item: int = 64 << 20
    depth: int = 1000
    types: int = 10_000
    stream: int = 64 << 30


class Refused(Error):
    """The bytes are no gob stream.

    `reason` says why, `what` the same in a sentence, `place` is the offset of the first refused byte, and `seen` how
    many bytes of the stream show it. `begin` is the offset at which the refused item begins: the bytes in front of it
    are a whole stream. `type` is the id that the reason speaks of, or None, and `path` that of the file, where one was
    read. `values` has what was read before: where `load` raised it all values of the stream, where `Reader.feed` did
    those of the piece.
    """

    def __init__(self, reason: Reason, place: int, seen: int, type: int | None = None, begin: int = 0):
        of = "" if type is None else f"({type})"
        super().__init__(f"refused {int(reason)} {reason.name}{of} at {place} seen {seen}")
        self.reason, self.place, self.seen, self.type, self.begin = reason, place, seen, type, begin
        self.path: str | None = None
        self.values: list[Any] = []

    @property
    def what(self) -> str:
        text: bytes = library.gob_reason_text(int(self.reason))
        return text.decode()

    def __reduce__(self) -> tuple[Any, ...]:
        words = self.reason, self.place, self.seen, self.type, self.begin
        return Refused, words, {"path": self.path, "values": self.values}


class Summary(NamedTuple):
    """What a whole stream has."""

    values: int
    types: int
    bytes: int


class Item(tuple[Type, Any]):
    """A value behind its type, as `for type, value in iter_items(..)` takes them.

    The bytes of its item are those of the stream from the offset `begin` up to `end`, from 0. The definitions that
    stand in a value are among them.
    """

    begin: int
    end: int

    def __new__(cls, type: Type, value: Any, begin: int, end: int) -> Item:
        made = tuple.__new__(cls, (type, value))
        made.begin, made.end = begin, end
        return made

    @property
    def type(self) -> Type:
        return self[0]

    @property
    def value(self) -> Any:
        return self[1]

    def __getnewargs__(self) -> tuple[Any, ...]:
        return *self, self.begin, self.end

    def __repr__(self) -> str:
        return f"Item(type={self.type!r}, value={self.value!r}, begin={self.begin}, end={self.end})"


class Values(list[Any]):
    """The values of a stream, and its types by their ids."""

    types: Mapping[int, Type]


class Reader:
    """Takes a stream piece by piece: `feed` gives the values that are whole, `finish` says that no byte follows.

    `structs` is "dict" or "namedtuple". With `zeros` an absent field has its zero value. With `tagged` a dict has the
    name of its struct's type under that key, first. `opaque` is called with each `Opaque`, and gives what stands for
    it. What an interface holds stands for the interface, or what `held` gives, which is called with the name of its
    type and its value, as `held=gob.Held`. With `exact` only the format that Go documents is read, up to a depth of
    65536: no interface holds a value, and no type is first met through a pointer where it encodes itself.

    A reader stays on the thread that made it, and is let go of there: by `close`, as a context manager, or with its
    last reference. A call from another thread raises RuntimeError, as does one by what a call calls itself. Readers in
    several threads are independent of each other.
    """

    _handle: int | None = None

    def __init__(self, *, limits: Limits | None = None, structs: str = "dict", zeros: bool = False,
                 tagged: str | None = None, opaque: Callable[[Opaque], Any] | None = None,
                 held: Callable[[str, Any], Any] | None = None, exact: bool = False):
        self._fault = Fault()
        self._thread, self._is_busy = get_ident(), False
        chosen = None if limits is None else ctypes.byref(_Limits(*limits))
        opened = library.gob_open_exact if exact else library.gob_open
        self._handle = opened(chosen, ctypes.byref(self._fault))
        if not self._handle:
            _raise(self._fault)
        self._types: dict[int, Type] = {}
        self._order: list[int] = []
        self._decoder = Decoder(self._type, Options(structs, zeros, tagged, opaque, held))

    def close(self) -> None:
        """Lets the reader go. It can be called again."""
        with self._alone():
            self._let_go()

    def _let_go(self) -> None:
        handle, self._handle = self._handle, None
        if handle:
            library.gob_close(handle)

    # whoever lets the last reference go is in no call, whatever thread that is
    __del__ = _let_go

    @contextmanager
    def _alone(self) -> Iterator[None]:
        """What is within is done by the reader's thread, and by one call at a time."""
        if get_ident() != self._thread:
            raise RuntimeError("a reader stays on the thread that made it")
        if self._is_busy:
            raise RuntimeError("a call of this reader isn't over yet")
        self._is_busy = True
        try:
            yield
        finally:
            self._is_busy = False

    def __enter__(self) -> Reader:
        return self

    def __exit__(self, *_: object) -> None:
        self.close()

    @property
    def types(self) -> dict[int, Type]:
        """The types that the stream has defined so far, in their order."""
        return {id: self._types[id] for id in self._order}

    def feed(self, piece: bytes | bytearray | memoryview) -> list[Item]:
        """Takes the next piece, and gives the values that are whole with it, each behind its type.

        Where the bytes are refused, `Refused` has those before the fault as its `values`. After a fault, of whatever
        kind, no more is read.
        """
        return self._fed(piece, _typed)

    def _fed(self, piece: bytes | bytearray | memoryview, made: _Made | None) -> list[Any]:
        data = _read_only(piece)
        with self._alone():
            library.gob_feed(self._open(), data, len(data), ctypes.byref(self._fault))
            try:
                taken = self._taken(made)
            except BaseException:
                # some of the values are lost, so none that follow may be taken for the next
                self._let_go()
                raise
        try:
            _raise(self._fault)
        except Refused as refused:
            refused.values = taken
            raise
        return taken

    def finish(self) -> None:
        """Says that no byte follows. Raises `Refused` with the reason `Ended` inside an item."""
        with self._alone():
            library.gob_finish(self._open(), ctypes.byref(self._fault))
        _raise(self._fault)

    def _open(self) -> int:
        if not self._handle:
            raise ValueError("the reader is closed")
        return self._handle

    def _batches(self) -> Iterator[tuple[bytes, memoryview, bytes]]:
        """The heads, nodes and bytes of the items that are whole. The nodes stand until the next is asked for."""
        batch = Batch()
        while (some := library.gob_take(self._handle, ctypes.byref(batch))) == 1:
            nodes = (ctypes.c_ubyte * (_NODE * batch.node_count)).from_address(batch.nodes)
            yield (_copied(batch.heads, _HEAD * batch.items), memoryview(nodes).cast("B"),
                   _copied(batch.bytes, batch.byte_count))
            self._decoder.leave()
        if some < 0:
            raise MemoryError

    def _taken(self, made: _Made | None) -> list[Any]:
        taken: list[Any] = []
        for some, nodes, pool in self._batches():
            self._define(some, nodes, pool)
            if made is not None:
                self._decoder.fill(nodes, pool)
                self._decode(memoryview(some).cast("Q"), made, taken)
        return taken

    def _define(self, some: bytes, nodes: memoryview, pool: bytes) -> None:
        """Takes the definitions of a batch."""
        heads, words = memoryview(some).cast("Q"), nodes.cast("Q")
        kinds = heads[5::_HEAD_WORDS].tolist()
        for at, kind in enumerate(kinds if 1 in kinds else []):
            if kind == 1:
                id, first, count, begin, size = heads[_HEAD_WORDS * at:][:5].tolist()
                of_nodes = words[3 * first:3 * (first + count)].tolist()
                self._types[id] = _type_from(id, of_nodes, pool[begin:begin + size])
                self._order.append(id)

    def _decode(self, heads: memoryview, made: _Made, taken: list[Any]) -> None:
        """Appends the values of the batch that the decoder has."""
        ids, first, _, base, _, kinds, begins, ends = (heads[word::_HEAD_WORDS] for word in range(_HEAD_WORDS))
        at = 0
        # items of one kind and type that follow one another
        for (id, kind), run in groupby(zip(ids.tolist(), kinds.tolist())):
            end = at + sum(1 for _ in run)
            if kind == 2:
                values = map(self._decoder.of(id), first[at:end], base[at:end])
                taken.extend(made(self._type(id), values, begins[at:end], ends[at:end]))
            at = end

    def _type(self, id: int) -> Type:
        known = self._types.get(id)
        if known is None:
            found = library.gob_type(self._handle, id)
            if not found:
                raise KeyError(id)
            item = found.contents
            words = memoryview(_copied(ctypes.cast(item.nodes, ctypes.c_void_p).value, _NODE * item.count)).cast("Q")
            known = self._types[id] = _type_from(id, words.tolist(), _copied(item.bytes, item.size))
        return known


def _raise(fault: Fault) -> None:
    if fault.status == 1:
        reason = Reason(fault.reason)
        type = fault.id if reason in _SPEAK_OF_A_TYPE else None
        raise Refused(reason, fault.place, fault.seen, type, fault.begin)
    if fault.status == 2:
        raise MemoryError
    if fault.status == 3:
        raise ValueError("the reader met a fault before")
    if fault.status == 4:
        raise ValueError("a depth of 0 or above 65536, or a stream above 2**63 - 1 bytes")


def _typed(type: Type, values: Iterator[Any], begins: Iterable[int], ends: Iterable[int]) -> Iterator[Item]:
    return map(Item, repeat(type), values, begins, ends)


def _bare(type: Type, values: Iterator[Any], begins: Iterable[int], ends: Iterable[int]) -> Iterator[Any]:
    return values


def _read_only(piece: bytes | bytearray | memoryview) -> bytes:
    """The piece as ctypes takes it: no other buffer that is only read goes."""
    return piece if isinstance(piece, bytes) else memoryview(piece).tobytes()


def _copied(at: int | None, size: int) -> bytes:
    return ctypes.string_at(at, size) if at is not None and size else b""


def _type_from(id: int, words: list[int], names: bytes) -> Type:
    nodes = [(first, second, last & 0xFFFFFFFF, last >> 32 & 0xFFFF)
             for first, second, last in zip(words[0::3], words[1::3], words[2::3])]
    return type_of(id, nodes, lambda start, count: names[start:start + count].decode("utf-8", "surrogateescape"))


def _path(source: Any) -> str | None:
    return os.fspath(source) if isinstance(source, (str, os.PathLike)) else None


def _pieces(source: Any, size: int) -> Iterator[bytes]:
    if isinstance(source, (str, os.PathLike)):
        with open(source, "rb", buffering=0) as stream:
            while piece := stream.read(size):
                yield piece
    elif isinstance(source, (bytes, bytearray, memoryview)):
        view = memoryview(source).cast("B")
        for at in range(0, len(view), size):
            yield bytes(view[at:at + size])
    elif hasattr(source, "read"):
        while piece := source.read(size):
            yield piece
        if piece is None:
            raise BlockingIOError("the source has no bytes yet")
    else:
        yield from source


def iter_items(source: Source, **options: Any) -> Iterator[Item]:
    """The values of a stream one by one, each behind its type, in little memory however long the stream is.

    Each is an `Item`, which says where it begins and ends. The source is a path, bytes, a binary file, or an iterable
    of bytes. The options are those of `Reader`, and `piece`, how many bytes are read at a time.
    """
    return _each(source, _typed, **options)


def iter_values(source: Source, **options: Any) -> Iterator[Any]:
    """The values of a stream alone."""
    return _each(source, _bare, **options)


def _each(source: Source, made: _Made, *, piece: int = 65536, **options: Any) -> Iterator[Any]:
    reader = Reader(**options)
    try:
        for part in _pieces(source, piece):
            # whoever asks for the next value, one at a time, may be another thread
            reader._thread = get_ident()
            try:
                taken = reader._fed(part, made)
            except Refused as refused:
                yield from refused.values
                raise
            yield from taken
        reader._thread = get_ident()
        reader.finish()
    except Refused as refused:
        refused.path = _path(source)
        raise
    finally:
        reader._let_go()


def load(source: Source, *, piece: int = 1 << 20, **options: Any) -> Values:
    """All values of a stream, as a list with `types`."""
    values = Values()
    with Reader(**options) as reader:
        try:
            for part in _pieces(source, piece):
                values += reader._fed(part, _bare)
            reader.finish()
        except Refused as refused:
            refused.values, refused.path = values + refused.values, _path(source)
            raise
        values.types = reader.types
    return values


def loads(data: bytes | bytearray | memoryview, **options: Any) -> Values:
    """All values of a stream that is held in memory."""
    return load(memoryview(data), **options)


def types(source: Source, *, piece: int = 1 << 20, **options: Any) -> dict[int, Type]:
    """The types of a stream by their ids, in its order. No values are made.

    Where the bytes are refused, `Refused` has the types before the fault as its `values`.
    """
    with Reader(**options) as reader:
        try:
            for part in _pieces(source, piece):
                reader._fed(part, None)
            reader.finish()
        except Refused as refused:
            refused.values, refused.path = list(reader.types.values()), _path(source)
            raise
        return reader.types


def source(source: Source, *, limits: Limits | None = None) -> str:
    """The types of a stream as Go source that compiles: what `gob types` prints.

    Where the bytes are refused, `Refused` has the source of the types before the fault as its one value. A file of
    which the path is given is mapped; the bytes of any other source are held in memory.
    """
    text, fault = _texts.source(_held(source), None if limits is None else _Limits(*limits))
    _raise_with(fault, text, source)
    return text


def lines(source: Source, *, limits: Limits | None = None) -> str:
    """The items of a stream as lines of JSON that say all of each: what `gob show --go` prints. `from_lines` gives the
    stream again, also of some of them, and of changed ones.

        rows = [json.loads(line) for line in gob.lines("logins.gob").split("\\n") if line]
        data = gob.from_lines(row for row in rows if row.get("type") != 65)

    Where the bytes are refused, `Refused` has the lines before the fault as its one value. The bytes are mapped or held
    as by `source`.
    """
    text, fault = _texts.lines(_held(source), None if limits is None else _Limits(*limits))
    _raise_with(fault, text, source)
    return text


def convert(source: Source, types: _TypesGiven, type: str | None = None, *, rename: _Renames = None, all: bool = False,
            left_out: Callable[[str], Any] | None = None, limits: Limits | None = None) -> bytes:
    """The stream of the values of another, each as one of a type that `types` and `type` say as they do for `Writer`:
    what `gob convert` writes, and what Go's decoder would take into that type.

        data = gob.convert("logins.gob", Login, rename={"User": "Name"}, left_out=print)

    Fields go by their names, and what interfaces hold goes along. `rename` has the names that fields of the type have
    in the stream: `{"User": "Name"}` has the field Name take what the stream has as User, `{"Login.User": "Name"}` in
    the structs named Login alone, one rename behind another; words such as "User=Name" may stand for the mapping.
    Fields that the type lacks are left out: `left_out` is called with a line that says which, where there are any, and
    with `all` the first is a `LeftOut`.

    Raises `BadTypes`, also for a rename that doesn't fit the type, `Clash` where the type of a value doesn't match, and
    `Refused`, which has the stream of the values before the fault as its one value; and `Error` where no more goes into
    one stream. The bytes are mapped or held as by `source`.
    """
    held = _held(source)
    asked = None if limits is None else _Limits(*limits)
    data, words = _streams.convert(held, asked, types, type, rename, all, left_out)
    if words is not None:
        _raise_with(_fault_of(held, limits), data, source)
        raise Error(words)
    return data


def _fault_of(held: _texts.Held, limits: Limits | None) -> Fault:
    """How these bytes end, where no value is deeper than 1000."""
    fault, asked = Fault(), limits or Limits()
    chosen = _Limits(*asked._replace(depth=min(asked.depth, 1000)))
    library.gob_check(*held, ctypes.byref(chosen), None, ctypes.byref(fault))
    return fault


def _raise_with(fault: Fault, made: Any, source: Source) -> None:
    """Raises what the fault is, with what was made before it."""
    try:
        _raise(fault)
    except Refused as refused:
        refused.values, refused.path = [made], _path(source)
        raise


def why(source: Source, name: str | None = None, *, limits: Limits | None = None) -> str:
    """What `gob why` says of a stream: where and why it is refused, what is behind it, and what to type next.

    Of a whole one it says how much is in it. `name` is that of the file as what to type has it: the path, where one is
    given, else IN. Bytes are held as by `source`.
    """
    named, chosen = _path(source) if name is None else name, None if limits is None else _Limits(*limits)
    return _texts.why(_held(source), chosen, None if named is None else os.fsencode(named))


def _held(source: Source) -> _texts.Held:
    """All bytes of a source, as ctypes takes them."""
    held = _texts.mapped(source) if isinstance(source, (str, os.PathLike)) else None
    if held is None:
        data = source if isinstance(source, bytes) else b"".join(_pieces(source, 1 << 20))
        held = data, len(data)
    return held


def check(source: Source, *, piece: int = 65536, limits: Limits | None = None, exact: bool = False) -> Summary:
    """Goes through a whole stream piece by piece, and makes no values. Raises `Refused` where it is none."""
    counts, fault = Counts(), Fault()
    chosen = None if limits is None else ctypes.byref(_Limits(*limits))
    opened = library.gob_check_open_exact if exact else library.gob_check_open
    handle = opened(chosen, ctypes.byref(fault))
    try:
        _raise(fault)
        for data in map(_read_only, _pieces(source, piece)):
            library.gob_check_feed(handle, data, len(data), ctypes.byref(counts), ctypes.byref(fault))
            _raise(fault)
        library.gob_check_finish(handle, ctypes.byref(counts), ctypes.byref(fault))
        _raise(fault)
    except Refused as refused:
        refused.path = _path(source)
        raise
    finally:
        library.gob_check_close(handle)
    return Summary(counts.values, counts.types, counts.bytes)
