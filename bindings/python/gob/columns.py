"""The values of a stream as columns, by numpy: for many structs of one type. Needs numpy, and pandas for `frames`.

    import gob.columns

    columns = gob.columns.load("records.gob")["Record"]       # {'ID': array([..]), 'Name': array([..]), ..}
    frame = gob.columns.frames("records.gob")["Record"]       # these columns as a DataFrame
    samples = gob.columns.load("samples.gob")["[]float64"]    # of values that are no structs: an array of the values

What a column is:

    a number or a bool        an array of numbers; complex ones too
    a slice or an array       an array with two dimensions where all have one length, else of objects, each an array;
      of numbers              an array type's is None where it is absent
    a time.Time               datetime64[ns], in UTC, NaT where it is absent; where a year isn't 1678 to 2261, an array
                              of objects
    any other                 an array of objects, as `gob.load` gives them with `zeros`

A field that is absent has its zero value, as Go's decoder would leave it.
"""
from __future__ import annotations

import ctypes
from typing import TYPE_CHECKING, Any, Union

import numpy as np

from . import Reader, Refused, Type, _path, _pieces, _raise, go
from ._decode import Opaque
from ._library import Head, Node, library
from ._types import go_name

if TYPE_CHECKING:
    import pandas

    _Array = np.ndarray[Any, Any]

_HEAD, _NODE = np.dtype(Head), np.dtype(Node)
_DTYPES = {1: np.dtype(bool), 2: np.dtype("<i8"), 3: np.dtype("<u8"), 4: np.dtype("<f8"), 7: np.dtype("<c16")}
# what Go's time begins with, in either version
_TIME = np.dtype([("version", "u1"), ("seconds", ">i8"), ("nanos", ">i4")])
_TO_1970 = 62135596800
# so many seconds before and after 1970 a datetime64[ns] holds
_MOST = 9223372036


def load(source: Any, *, piece: int = 1 << 20, **options: Any) -> dict[str, Any]:
    """The columns of each struct type of which the stream has values, by the type's name, and of any other type the
    array of its values, by the name that Go gives it.

    Two types of one name are told apart by their ids, as "Name" and "Name#70".
    """
    with Reader(zeros=True, **options) as reader:
        values: dict[int, _Values] = {}
        try:
            for data in map(bytes, _pieces(source, piece)):
                library.gob_feed(reader._handle, data, len(data), ctypes.byref(reader._fault))
                for some in reader._batches():
                    reader._define(*some)
                    _add(_Batch(reader, *some), values)
                _raise(reader._fault)
            reader.finish()
        except Refused as refused:
            refused.path = _path(source)
            raise
        named: dict[str, Any] = {}
        for id, rows in values.items():
            name = _name_of(reader, id)
            named[name if name not in named else f"{name}#{id}"] = rows.made()
        return named


def frames(source: Any, **options: Any) -> dict[str, pandas.DataFrame]:
    """What `load` gives as pandas DataFrames, by the type's name: a column for each field of a struct, and the column
    "value" for values of any other type. An array with two dimensions is a column of arrays."""
    import pandas

    tables = {name: columns if isinstance(columns, dict) else {"value": columns}
              for name, columns in load(source, **options).items()}
    return {name: pandas.DataFrame({field: _flat(column) for field, column in table.items()})
            for name, table in tables.items()}


def known(value: Opaque) -> Any:
    """As `gob.go.known`, for `gob.load` and the like, but a time is a pandas.Timestamp where that can hold it: pandas
    itself would cut other times to their microseconds."""
    import pandas

    made = go.known(value)
    if not isinstance(made, go.Time):
        return made
    try:
        return pandas.Timestamp(go.nanoseconds(value), tz=made.tzinfo)
    except (ValueError, OverflowError):
        return made


def _name_of(reader: Reader, id: int) -> str:
    return go_name(id, reader.types)


def _flat(column: _Array) -> Any:
    return column if column.ndim == 1 else list(column)


class _Batch:
    """Items, one behind another, and of each node the item that it is of."""

    def __init__(self, reader: Reader, heads: bytes, words: memoryview, pool: bytes):
        self.reader, self.words, self.pool = reader, words, pool
        self.heads, self.nodes = np.frombuffer(heads, _HEAD), np.frombuffer(words, _NODE)
        self.item = np.repeat(np.arange(len(self.heads)), self.heads["nodes"].astype(np.int64))
        # what interfaces hold stands behind the nodes of the value itself
        ends = self.heads["node"] + self.nodes["second"][self.heads["node"].astype(np.int64)]
        self.is_own = np.arange(len(self.nodes)) < ends[self.item]
        self.is_filled = False

    def fill(self) -> None:
        """Gives the batch to the reader's decoder, which takes its time."""
        if not self.is_filled:
            self.reader._decoder.fill(self.words, self.pool)
            self.is_filled = True

    def places(self, nodes: _Array) -> list[int]:
        """Where the bytes of these nodes begin in the pool."""
        begins: list[int] = (self.heads["byte"][self.item[nodes]] + self.nodes["first"][nodes]).tolist()
        return begins


def _add(batch: _Batch, values: dict[int, _Values]) -> None:
    heads = batch.heads
    is_value = heads["kind"] == 2
    depth = _depths(batch.nodes, is_value[batch.item])
    ids, firsts = np.unique(heads["id"][is_value], return_index=True)
    for id in ids[np.argsort(firsts)].tolist():
        if id not in values:
            values[id] = _values_of(batch.reader, id)
        values[id].add(batch, is_value & (heads["id"] == id), depth)


class _Structs:
    """The values of a struct: a column for each of its fields."""

    def __init__(self, reader: Reader, shape: Type):
        self.columns = {name: _column_of(reader, field.type) for name, field in zip(shape.names, shape.fields)}

    def add(self, batch: _Batch, mine: _Array, depth: _Array) -> None:
        row_of, rows = np.cumsum(mine) - 1, int(mine.sum())
        places = np.flatnonzero((depth == 1) & batch.is_own & mine[batch.item])
        numbers = batch.nodes["number"][places]
        for number, column in enumerate(self.columns.values()):
            here = places[numbers == number]
            column.add(batch, here, row_of[batch.item[here]], rows)

    def made(self) -> dict[str, _Array]:
        return {name: column.made() for name, column in self.columns.items()}


class _Others:
    """The values of a type that is no struct: one column."""

    def __init__(self, reader: Reader, id: int):
        self.column = _column_of(reader, id)

    def add(self, batch: _Batch, mine: _Array, depth: _Array) -> None:
        here = batch.heads["node"][mine].astype(np.int64)
        self.column.add(batch, here, np.arange(len(here)), len(here))

    def made(self) -> _Array:
        return self.column.made()


class _Numbers:
    """Numbers, 0 where they are absent."""

    def __init__(self, id: int):
        self.id = id
        self.parts: list[_Array] = []

    def add(self, batch: _Batch, here: _Array, at: _Array, rows: int) -> None:
        part = np.zeros(rows, _DTYPES[self.id])
        part[at] = _numbers(self.id, batch.nodes["first"][here], batch.nodes["second"][here])
        self.parts.append(part)

    def made(self) -> _Array:
        return np.concatenate(self.parts)


class _Lists:
    """Lists of numbers. A slice that is absent is empty, and an array None."""

    def __init__(self, shape: Type):
        self.elem, self.absent = shape.elem, 0 if shape.kind == "slice" else -1
        self.numbers: list[_Array] = []
        self.lengths: list[_Array] = []

    def add(self, batch: _Batch, here: _Array, at: _Array, rows: int) -> None:
        counts = batch.nodes["first"][here].astype(np.int64)
        # the elements of a list are the nodes behind its own
        skipped = np.concatenate(([0], np.cumsum(counts)[:-1])) if len(counts) else counts
        nodes = np.repeat(here + 1 - skipped, counts) + np.arange(counts.sum())
        self.numbers.append(_numbers(self.elem, batch.nodes["first"][nodes], batch.nodes["second"][nodes]))
        lengths = np.full(rows, self.absent, np.int64)
        lengths[at] = counts
        self.lengths.append(lengths)

    def made(self) -> _Array:
        numbers, lengths = np.concatenate(self.numbers).astype(_DTYPES[self.elem]), np.concatenate(self.lengths)
        length = int(lengths[0])
        if length >= 0 and (lengths == length).all():
            return numbers.reshape(len(lengths), length)
        lists = np.split(numbers, np.cumsum(np.maximum(lengths, 0))[:-1])
        return _objects([None if length < 0 else each for each, length in zip(lists, lengths.tolist())])


class _Opaques:
    """What types that encode themselves wrote; None where it is absent."""

    def __init__(self, reader: Reader, shape: Type):
        self.shape, self.explain = shape, reader._decoder.options.opaque
        self.raw: list[bytes | None] = []

    def add(self, batch: _Batch, here: _Array, at: _Array, rows: int) -> None:
        raw: list[bytes | None] = [None] * rows
        sizes = batch.nodes["second"][here].tolist()
        for row, begin, size in zip(at.tolist(), batch.places(here), sizes):
            raw[row] = batch.pool[begin:begin + size]
        self.raw += raw

    def made(self) -> _Array:
        explain = self.explain
        name, marshal = self.shape.name, self.shape.marshal
        if name == "Time" and marshal == "GobEncode" and explain in (None, go.known, known):
            times = _times(self.raw)
            if times is not None:
                return times
            explain = explain or go.known
        values = [None if data is None else Opaque(name, marshal, data) for data in self.raw]
        return _objects(values if explain is None else [value if value is None else explain(value) for value in values])


class _Objects:
    """What has no array of its own, each as the decoder makes it."""

    def __init__(self, reader: Reader, id: int):
        self.decode, self.zero = reader._decoder.of(id), reader._decoder.zero(id)
        self.values: list[Any] = []

    def add(self, batch: _Batch, here: _Array, at: _Array, rows: int) -> None:
        batch.fill()
        values = [self.zero() for _ in range(rows)]
        for row, node, base in zip(at.tolist(), here.tolist(), batch.heads["byte"][batch.item[here]].tolist()):
            values[row] = self.decode(node, base)
        self.values += values

    def made(self) -> _Array:
        return _objects(self.values)


_Values = Union[_Structs, _Others]
_Column = Union[_Numbers, _Lists, _Opaques, _Objects]


def _values_of(reader: Reader, id: int) -> _Values:
    shape = reader._type(id)
    return _Structs(reader, shape) if shape.kind == "struct" else _Others(reader, id)


def _column_of(reader: Reader, id: int) -> _Column:
    if id in _DTYPES:
        return _Numbers(id)
    shape = reader._type(id)
    if shape.kind in ("slice", "array") and shape.elem in _DTYPES:
        return _Lists(shape)
    return _Opaques(reader, shape) if shape.kind == "opaque" else _Objects(reader, id)


def _objects(values: list[Any]) -> _Array:
    out = np.empty(len(values), object)
    for place, value in enumerate(values):
        out[place] = value
    return out


def _times(raw: list[bytes | None]) -> _Array | None:
    """These times as datetime64[ns], NaT where there is none; None where one isn't Go's, or lies outside its years."""
    there = np.flatnonzero([data is not None for data in raw])
    data = [data for data in raw if data is not None]
    sizes = np.fromiter(map(len, data), np.int64, len(data))
    if not np.isin(sizes, (15, 16)).all():
        return None
    times = np.frombuffer(b"".join(each[:13] for each in data), _TIME)
    seconds, nanos = times["seconds"].astype(np.int64), times["nanos"].astype(np.int64)
    is_near = (seconds > _TO_1970 - _MOST) & (seconds < _TO_1970 + _MOST)
    if not (is_near & (times["version"] == sizes - 14) & (0 <= nanos) & (nanos < 10**9)).all():
        return None
    out = np.full(len(raw), "NaT", "datetime64[ns]")
    out[there] = ((seconds - _TO_1970) * 10**9 + nanos).view("datetime64[ns]")
    return out


def _numbers(id: int, first: _Array, second: _Array) -> _Array:
    if id == 1:
        truths: _Array = first == 1
        return truths
    if id == 2:
        return (first >> np.uint64(1)).astype(np.int64) ^ -(first & np.uint64(1)).astype(np.int64)
    if id == 4:
        return first.view(np.float64)
    if id == 7:
        return np.stack((first, second), axis=1).view(np.complex128)[:, 0]
    return first


def _depths(nodes: _Array, is_value: _Array) -> _Array:
    """How deep each node lies in its item, the whole value at 0."""
    groups = np.flatnonzero(is_value & (nodes["kind"] >= 9) & (nodes["kind"] <= 11))
    change = np.zeros(len(nodes) + 1, np.int64)
    change[groups + 1] += 1
    np.subtract.at(change, groups + nodes["second"][groups].astype(np.int64), 1)
    return np.cumsum(change[:-1])
