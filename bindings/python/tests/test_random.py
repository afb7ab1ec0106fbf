"""Random types of Go and random values of them, by hypothesis where it is installed: written, and read back by the
package, and by Go where it is. GOB_EXAMPLES says how many there are; they are the same ones in each run.
"""
import datetime
import math
import os
import pathlib
import shutil
import subprocess
import tempfile
import unittest
from datetime import timedelta, timezone
from typing import Any, Callable, NamedTuple

import gob
from tests.test_writer import GO

try:
    import hypothesis
    from hypothesis import strategies as st
    from hypothesis.configuration import set_hypothesis_home_dir
except ImportError:
    hypothesis = None

EXAMPLES = int(os.environ.get("GOB_EXAMPLES", "300"))
# so many of them Go reads, which compiles their types
READ_BY_GO = 60
DEPTH = 3


class Kind(NamedTuple):
    """A type of Go: its text, in which @ begins the name of each struct; a strategy of its values; what is read of a
    value, and where a field of the type is absent; and whether one may be, so that Go sees no difference."""

    text: str
    values: Any
    read: Callable[[Any], Any] = lambda value: value
    absent: Any = None
    may_lack: bool = True


def same(one, other):
    """Whether two values are the same, and are of the same kinds."""
    if isinstance(one, float) and isinstance(other, float):
        return one == other or math.isnan(one) and math.isnan(other)
    if isinstance(one, complex) and isinstance(other, complex):
        return same(one.real, other.real) and same(one.imag, other.imag)
    if isinstance(one, datetime.datetime):
        return one == other and one.utcoffset() == other.utcoffset()
    if isinstance(one, dict):
        return isinstance(other, dict) and one.keys() == other.keys() and all(
            same(part, other[key]) for key, part in one.items())
    if isinstance(one, list):
        return isinstance(other, list) and len(one) == len(other) and all(map(same, one, other))
    return one == other and (type(one) is type(other) or isinstance(one, bytes))


# ---- types without parts

def whole(low, high, *texts):
    return [Kind(text, st.integers(low, high), absent=0) for text in texts]


def zones():
    """Offsets from UTC, but for the one that Go has no bytes for."""
    return st.integers(-1439, 1439).filter(lambda minutes: minutes != -1).map(
        lambda minutes: timezone(timedelta(minutes=minutes)))


def times():
    return st.datetimes(datetime.datetime(2, 1, 1), datetime.datetime(9998, 12, 31), timezones=zones())


def nanoseconds():
    return st.builds(lambda at, nanos: gob.go.Time.fromtimestamp(at, timezone.utc).replace(nanosecond=nanos),
                     st.integers(0, 2**32), st.integers(0, 999_999_999))


def texts():
    """Texts, and bytes that are none as the reader gives them."""
    return st.text(max_size=5) | st.binary(max_size=5).map(lambda raw: raw.decode("utf-8", "surrogateescape"))


def complexes(width):
    real = st.floats(width=width)
    return st.builds(complex, real, real)


def leaves():
    signed = [(-2**(size - 1), 2**(size - 1) - 1, f"int{size}") for size in (8, 16, 32, 64)]
    unsigned = [(0, 2**size - 1, f"uint{size}") for size in (8, 16, 32, 64)]
    numbers = [kind for low, high, text in signed + unsigned for kind in whole(low, high, text)]
    return [
        *numbers, *whole(-2**63, 2**63 - 1, "int", "time.Duration"), *whole(0, 2**64 - 1, "uint"),
        Kind("bool", st.booleans(), absent=False), Kind("string", texts(), absent=""),
        Kind("float32", st.floats(width=32), absent=0.0), Kind("float64", st.floats(), absent=0.0),
        Kind("complex64", complexes(32), absent=0j), Kind("complex128", complexes(64), absent=0j),
        Kind("[]byte", st.binary(max_size=5), absent=b""),
        Kind("time.Time", times() | nanoseconds()), Kind("*big.Int", st.integers(-10**30, 10**30)),
        Kind("*big.Rat", st.fractions(max_denominator=10**9)), Kind("netip.Addr", st.ip_addresses()),
        Kind("interface{}", st.none()),
    ]


def keys():
    return [Kind("string", texts()), Kind("bool", st.booleans()), Kind("float64", st.floats(allow_nan=False)),
            *whole(-2**63, 2**63 - 1, "int"), *whole(0, 255, "uint8")]


# ---- types of others

def slice_of(part):
    if part.text == "uint8":
        return Kind("[]byte", st.binary(max_size=5), absent=b"")
    return Kind(f"[]{part.text}", st.lists(part.values, max_size=3), lambda value: [part.read(it) for it in value], [])


def array_of(part, count):
    return Kind(f"[{count}]{part.text}", st.lists(part.values, min_size=count, max_size=count),
                lambda value: [part.read(it) for it in value], may_lack=False)


def map_of(key, part):
    return Kind(f"map[{key.text}]{part.text}", st.dictionaries(key.values, part.values, max_size=3),
                lambda value: {name: part.read(it) for name, it in value.items()}, {})


class Struct:
    """A struct of these fields, and one that may hold itself."""

    def __init__(self, name, fields, is_linked):
        self.name, self.fields = name, dict(fields)
        if is_linked:
            self.fields["Next"] = self.pointer()

    def declaration(self):
        return f"type {self.name} struct {{\n" + "".join(
            f"\t{name} {kind.text}\n" for name, kind in self.fields.items()) + "}\n"

    def values(self):
        lacking = {name: kind.values | st.none() for name, kind in self.fields.items() if kind.may_lack}
        given = {name: kind.values for name, kind in self.fields.items() if not kind.may_lack}
        return st.fixed_dictionaries(given, optional=lacking)

    def read(self, value):
        return {name: kind.absent if value.get(name) is None else kind.read(value[name])
                for name, kind in self.fields.items()}

    def pointer(self):
        return Kind(f"*{self.name}", st.deferred(lambda: self.values()), self.read)

    def plain(self):
        return Kind(self.name, st.deferred(lambda: self.values()), self.read, may_lack=False)


class Example(NamedTuple):
    """The source of some types, of which the first, called @, is that of the values."""

    source: str
    kind: Kind
    values: Any

    def source_as(self, name):
        return self.source.replace("@", name)

    def due(self):
        return [self.kind.read(value) for value in self.values]


def drawn_struct(draw, declared, depth):
    count = draw(st.integers(1, 4))
    fields = [(f"F{at}", drawn_kind(draw, declared, depth - 1)) for at in range(count)]
    struct = Struct(f"@{len(declared)}", fields, draw(st.booleans()))
    declared.append(struct.declaration())
    return struct.pointer() if draw(st.booleans()) else struct.plain()


def drawn_kind(draw, declared, depth):
    """A type no deeper than this, whose structs are declared."""
    made = draw(st.sampled_from(["leaf"] if depth == 0 else ["leaf", "leaf", "slice", "array", "map", "struct"]))
    if made == "leaf":
        return draw(st.sampled_from(leaves()))
    if made == "struct":
        return drawn_struct(draw, declared, depth)
    part = drawn_kind(draw, declared, depth - 1)
    if made == "slice":
        return slice_of(part)
    if made == "array":
        return array_of(part, draw(st.integers(1, 3)))
    return map_of(draw(st.sampled_from(keys())), part)


def drawn_example(draw):
    declared = []
    kind = drawn_kind(draw, declared, DEPTH)
    # (such types of one's own have no methods, or no values by themselves)
    hypothesis.assume("." not in kind.text.rsplit("]")[0] and kind.text != "interface{}")
    source = f"type @ {kind.text.lstrip('*')}\n" + "".join(declared)
    return Example(source, kind, draw(st.lists(kind.values, min_size=1, max_size=3)))


def explained(value):
    """What is known of the bytes that a type wrote, also where Go has sent no name of it."""
    known = gob.go.known(value)
    if not isinstance(known, gob.Opaque):
        return known
    return (gob.go.address if value.marshal == "MarshalBinary" else gob.go.big_rat)(value)


def read(source, **options):
    return list(gob.iter_values(source, zeros=True, opaque=explained, **options))


@unittest.skipUnless(hypothesis, "there is no hypothesis")
class RandomTest(unittest.TestCase):
    @classmethod
    def setUpClass(cls):
        # what hypothesis keeps lies in no folder of the sources
        room = tempfile.TemporaryDirectory()
        cls.addClassCleanup(room.cleanup)
        set_hypothesis_home_dir(room.name)

    def test_what_is_written_is_read(self):
        examples = []

        @hypothesis.settings(max_examples=EXAMPLES, deadline=None, derandomize=True, database=None,
                             suppress_health_check=list(hypothesis.HealthCheck))
        @hypothesis.given(st.composite(drawn_example)())
        def check(example):
            data = gob.dumps(example.values, types=example.source_as("Type"))
            self.check_readers(data, example.due())
            examples.append((example, data))

        check()
        if not shutil.which("go"):
            self.skipTest("there is no Go")
        self.check_go(examples[-READ_BY_GO:])

    def check_readers(self, data, due):
        """The readers give what is due, and what they give is written as the same bytes."""
        found = read(data)
        self.assertTrue(same(found, due), (found, due))
        for options in ({"piece": 3}, {"exact": True}, {"limits": gob.Limits(item=len(data))}):
            self.assertTrue(same(read(data, **options), due), options)
        self.assertTrue(same([value for _, value in gob.iter_items(data, zeros=True, opaque=gob.go.known)], due))
        self.assertEqual(gob.check(data).values, len(due))
        for values in (gob.loads(data), gob.loads(data, opaque=gob.go.known), gob.loads(data, structs="namedtuple")):
            self.assertEqual(gob.dumps(values, types=data), data)

    def check_go(self, examples):
        """Go's decoder reads the streams, and what its encoder writes of them is read as the same values."""
        with tempfile.TemporaryDirectory() as room:
            sources, calls, paths = [], [], []
            for at, (example, data) in enumerate(examples):
                name, path = f"Type{at}x", pathlib.Path(room, f"{at}.gob")
                path.write_bytes(data)
                sources.append(example.source_as(name))
                calls.append(f'\tagain[{name}]("{path}")\n')
                paths.append(path)
            pathlib.Path(room, "main.go").write_text(f"{GO}{''.join(sources)}func main() {{\n{''.join(calls)}}}\n")
            subprocess.run(["go", "run", "main.go"], cwd=room, check=True)
            for path, (example, _) in zip(paths, examples):
                found = read(pathlib.Path(f"{path}.go"))
                self.assertTrue(same(found, example.due()), (example, found))


if __name__ == "__main__":
    unittest.main()
