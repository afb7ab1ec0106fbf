"""What the package writes: read back, read by Go where it is, and what it raises."""
import dataclasses
import datetime
import enum
import io
import ipaddress
import math
import os
import pathlib
import pickle
import random
import shutil
import subprocess
import tempfile
import threading
import unittest
from collections import namedtuple
from datetime import timedelta, timezone
from fractions import Fraction

import gob

SOURCE = "type Point struct { X, Y int }"
# what Go writes of it: the definition, and {22 33}
POINT = bytes.fromhex("1fff8103010105506f696e7401ff82000102010158010400010159010400000007ff82012c014200")
LOGIN = """
package main

import "time"

type Login struct {
	User  string
	At    time.Time
	Tries []int
	Marks map[string]float64
	Raw   []byte
	From  *Place
}

type Place struct{ Name string }
"""
AT = datetime.datetime(2026, 11, 30, 18, 5, 6, 123456, timezone(timedelta(hours=1)))


@dataclasses.dataclass
class Place:
    Name: str


class Color(enum.IntEnum):
    RED = 3


class Types:
    """Random types of Go, each with what makes a value of it."""

    def __init__(self, seed):
        self.random, self.declared, self.prefix = random.Random(seed), [], f"S{seed}x"

    def any(self, depth):
        """The text of a type, and what makes values."""
        kinds = [self.basic] if depth == 0 else [self.basic, self.basic, self.slice, self.array, self.map, self.struct]
        return self.random.choice(kinds)(depth)

    def basic(self, _=0):
        return self.random.choice([
            ("bool", lambda: self.random.random() < 0.5),
            ("int8", lambda: self.random.randint(-128, 127)),
            ("int", lambda: self.random.choice([0, -1, self.random.randint(-2**63, 2**63 - 1)])),
            ("uint16", lambda: self.random.randint(0, 65535)),
            ("uint64", lambda: self.random.choice([0, 2**64 - 1, self.random.getrandbits(64)])),
            ("float64", self.real), ("complex128", lambda: complex(self.real(), self.real())),
            ("string", self.text), ("[]byte", lambda: self.random.randbytes(self.random.randint(0, 5))),
            ("time.Time", self.time), ("*big.Int", lambda: self.random.randint(-10**30, 10**30)),
            ("interface{}", lambda: None),
        ])

    def real(self):
        return self.random.choice([0.0, 1.5, -2.0, 1e300, 5e-324, math.inf, -math.inf, self.random.gauss(0, 1)])

    def text(self):
        return "".join(self.random.choices("ab \"\\\n\u00e9\u4e2d\U0001f600\x00", k=self.random.randint(0, 4)))

    def time(self):
        zone = timezone(timedelta(minutes=self.random.choice([0, 0, 90, -300])))
        return datetime.datetime(2000, 1, 1, tzinfo=zone) + timedelta(microseconds=self.random.getrandbits(50))

    def some(self, make):
        return [make() for _ in range(self.random.randint(0, 3))]

    def slice(self, depth):
        text, make = self.any(depth - 1)
        # (a slice of bytes is []byte)
        return f"[]{text}", lambda: self.some(make)

    def array(self, depth):
        text, make = self.any(depth - 1)
        count = self.random.randint(1, 3)
        return f"[{count}]{text}", lambda: [make() for _ in range(count)]

    def map(self, depth):
        key, name = self.random.choice([("string", self.text), ("int", lambda: self.random.randint(-9, 9)),
                                        ("bool", lambda: self.random.random() < 0.5), ("float64", self.real)])
        text, make = self.any(depth - 1)
        return f"map[{key}]{text}", lambda: {name(): make() for _ in range(self.random.randint(0, 3))}

    def struct(self, depth):
        fields = [self.any(depth - 1) for _ in range(self.random.randint(1, 4))]
        name = f"{self.prefix}{len(self.declared)}"
        self.declared.append("")
        lines = "".join(f"\tF{at} {self.random.choice(['', '', '*']) if text[0] == 'S' else ''}{text}\n"
                        for at, (text, _) in enumerate(fields))
        self.declared[int(name[len(self.prefix):])] = f"type {name} struct {{\n{lines}}}\n"
        return name, lambda: {f"F{at}": make() for at, (_, make) in enumerate(fields)}


def random_types(seed):
    """The source of some types, the name of one that isn't a declaration of another, and values of it."""
    types = Types(seed)
    text, make = types.any(3)
    if text in ("time.Time", "*big.Int", "interface{}"):
        # (such a type of one's own has no methods, and no value by itself)
        text, make = types.struct(3)
    name = f"T{seed}"
    return f"type {name} {text}\n" + "".join(types.declared), name, [make() for _ in range(5)]


def are_same(one, other):
    """Whether two values are the same, and are of the same kinds."""
    if isinstance(one, datetime.datetime):
        return one == other and one.utcoffset() == other.utcoffset()
    if isinstance(one, dict):
        return isinstance(other, dict) and one.keys() == other.keys() and all(
            are_same(part, other[key]) for key, part in one.items())
    if isinstance(one, list):
        return isinstance(other, list) and len(one) == len(other) and all(map(are_same, one, other))
    return one == other and (type(one) is type(other) or isinstance(one, (int, bytes)))


def read(data):
    return list(gob.loads(data, zeros=True, opaque=gob.go.known))


GO = """package main

import (
	"encoding/gob"
	"io"
	"math/big"
	"net/netip"
	"os"
	"time"
)

var _ time.Time
var _ big.Int
var _ netip.Addr

func again[T any](name string) {
	in, err := os.Open(name)
	if err != nil {
		panic(err)
	}
	out, err := os.Create(name + ".go")
	if err != nil {
		panic(err)
	}
	decoder, encoder := gob.NewDecoder(in), gob.NewEncoder(out)
	for {
		var value T
		err := decoder.Decode(&value)
		if err == io.EOF {
			return
		}
		if err == nil {
			err = encoder.Encode(&value)
		}
		if err != nil {
			panic(name + ": " + err.Error())
		}
	}
}
"""


class WriterTest(unittest.TestCase):
    def test_bytes_are_those_of_go(self):
        self.assertEqual(gob.dumps([{"X": 22, "Y": 33}], types=SOURCE), POINT)
        self.assertEqual(gob.dumps([{"Y": 33, "X": 22}], types=POINT), POINT)
        self.assertEqual(gob.dumps([], types=SOURCE), POINT[:32])
        self.assertEqual(gob.dumps([3], types="type N int"), b"\x03\x04\x00\x06")
        self.assertEqual(gob.dumps(["x"], types=POINT, type="string"), POINT[:32] + b"\x04\x0c\x00\x01x")

    def test_values_of_python(self):
        made = namedtuple("Login", "User At Tries Marks Raw From")(
            "ann\udcff", AT, (1, Color.RED), {"a": math.nan, "b": 2}, b"\x00\xff", Place("home"))
        value, = gob.loads(gob.dumps([made], types=LOGIN), opaque=gob.go.known)
        self.assertTrue(math.isnan(value["Marks"].pop("a")))
        self.assertEqual(value, {"User": "ann\udcff", "At": AT, "Tries": [1, 3], "Marks": {"b": 2.0},
                                 "Raw": b"\x00\xff", "From": {"Name": "home"}})
        self.assertEqual(value["At"].utcoffset(), timedelta(hours=1))
        none = dict.fromkeys(["User", "Tries", "Marks", "Raw", "From"])
        self.assertEqual(gob.loads(gob.dumps([none, {}], types=LOGIN)), [{}, {}])
        keys = gob.dumps([{1.5: 2}, gob.Pairs([(1.5, 2), (1.5, 3)])], types="type M map[float64]int")
        self.assertEqual(gob.loads(keys), [{1.5: 2}, [(1.5, 2), (1.5, 3)]])

    def test_opaque_values_are_written_again(self):
        data = gob.dumps([{"User": "ann", "At": AT}], types=LOGIN)
        self.assertEqual(gob.dumps(gob.loads(data), types=data), data)
        nanos = gob.go.Time(2026, 1, 2, 3, 4, 5, tzinfo=timezone.utc, nanosecond=123456789)
        again, = gob.loads(gob.dumps([{"At": nanos}], types=LOGIN), opaque=gob.go.known)
        self.assertEqual((again["At"].nanosecond, again["At"].utcoffset()), (123456789, timedelta(0)))

    def test_fractions_and_addresses(self):
        values = [Fraction(0), Fraction(-5), Fraction(3, 4)]
        self.assertEqual(read(gob.dumps([values], types="type L []big.Rat")), [values])
        values = [ipaddress.ip_address(text) for text in ("::ffff:1.2.3.4", "::ffff:0:0%eth0", "fe80::1%1", "1.2.3.4")]
        self.assertEqual(read(gob.dumps([values], types="type L []netip.Addr")), [values])

    def test_files(self):
        with tempfile.TemporaryDirectory() as room:
            room = pathlib.Path(room)
            (room / "types.go").write_text(f"package main\n\ntype Other int\n\n{SOURCE}\n")
            gob.dump([{"X": 22, "Y": 33}], room / "points.gob", types=room / "types.go", type="Point")
            self.assertEqual((room / "points.gob").read_bytes(), POINT)
            with open(room / "more.gob", "wb", buffering=0) as file:
                with gob.Writer(file, types=room / "points.gob") as writer:
                    self.assertEqual((room / "more.gob").read_bytes(), POINT[:32])
                    writer.put({"X": 22, "Y": 33})
                    self.assertEqual((room / "more.gob").read_bytes(), POINT)
                self.assertFalse(file.closed)
            with gob.Writer(os.fspath(room / "closed.gob"), types=SOURCE) as writer:
                own = writer._file
            self.assertTrue(own.closed)

    def test_wrong_values(self):
        made = io.BytesIO()
        with gob.Writer(made, types=LOGIN) as writer:
            writer.put({"User": "ann"})
            before = made.getvalue()
            with self.assertRaises(gob.BadValue) as caught:
                writer.put({"User": "bob", "Tries": [1, "two"]})
            fault = caught.exception
            self.assertEqual((fault.path, fault.index), (".Tries[1]", 1))
            self.assertEqual(str(fault), "value 1, at .Tries[1]: a whole number of 64 bits is due")
            self.assertEqual(str(pickle.loads(pickle.dumps(fault))), str(fault))
            for value in [{"Nobody": 1}, {"Tries": [1.5]}, {"Tries": [2**63]}, {"At": "soon"}, [], 3, "x", True]:
                with self.assertRaises(gob.Error, msg=repr(value)):
                    writer.put(value)
            for value in [{"User": object()}, {"At": AT.replace(tzinfo=None)}, {"User": "\ud800"}, {1, 2}]:
                with self.assertRaises((TypeError, ValueError), msg=repr(value)):
                    writer.put(value)
            self.assertEqual(made.getvalue(), before)
            writer.put({"User": "bob"})
        self.assertEqual(gob.loads(made.getvalue()), [{"User": "ann"}, {"User": "bob"}])
        with self.assertRaisesRegex(ValueError, "closed"):
            writer.put({})
        writer.close()

    def test_wrong_types(self):
        for types, name, words in [("type T", None, "line 1"), (SOURCE, "Line", "declared"), ("", None, "declared"),
                                   ("type T chan int", None, "channels"), (b"\x00", None, "refused"),
                                   (POINT[:32], None, "no value"), (POINT, "Line", "no type"),
                                   (POINT, "\udcff", "no type"), (POINT, "Point\0", "NUL")]:
            with self.assertRaisesRegex(gob.BadTypes, words):
                gob.dumps([], types=types, type=name)
        self.assertTrue(issubclass(gob.Refused, gob.Error) and issubclass(gob.Error, ValueError))

    def test_a_file_that_takes_no_more(self):
        class Full(io.RawIOBase):
            def write(self, data):
                if self.left == 0:
                    raise OSError("full")
                count = min(self.left, len(data), 5)
                self.left -= count
                return count

            def writable(self):
                return True

        full = Full()
        full.left = 36
        writer = gob.Writer(full, types=SOURCE)
        with self.assertRaisesRegex(OSError, "full"):
            writer.put({"X": 22, "Y": 33})
        with self.assertRaisesRegex(ValueError, "closed"):
            writer.put({"X": 22, "Y": 33})

    def test_threads(self):
        made = io.BytesIO()
        with gob.Writer(made, types="type N int") as writer:
            threads = [threading.Thread(target=lambda: [writer.put(n) for n in range(200)]) for _ in range(4)]
            for thread in threads:
                thread.start()
            for thread in threads:
                thread.join()
        self.assertEqual(sorted(gob.loads(made.getvalue())), sorted(list(range(200)) * 4))

    def test_random_values(self):
        with tempfile.TemporaryDirectory() as room:
            sources, due = [], {}
            for seed in range(60):
                source, name, values = random_types(seed)
                data = gob.dumps(values, types=source)
                self.assertTrue(are_same(read(data), values), (source, values, read(data)))
                self.assertEqual(gob.dumps(gob.loads(data, opaque=gob.go.known), types=data), data, source)
                path = pathlib.Path(room, name)
                path.write_bytes(data)
                sources.append(source)
                due[path] = (name, values)
            if not shutil.which("go"):
                self.skipTest("there is no Go")
            calls = "".join(f'\tagain[{name}]("{path}")\n' for path, (name, _) in due.items())
            pathlib.Path(room, "main.go").write_text(f"{GO}{''.join(sources)}func main() {{\n{calls}}}\n")
            subprocess.run(["go", "run", "main.go"], cwd=room, check=True)
            for path, (_, values) in due.items():
                again = read(pathlib.Path(f"{path}.go").read_bytes())
                self.assertTrue(are_same(again, values), (path.name, values, again))


if __name__ == "__main__":
    unittest.main()
