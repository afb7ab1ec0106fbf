"""Go source from the annotations of classes, and what is written under it."""
import collections
import collections.abc
import dataclasses
import datetime
import enum
import ipaddress
import pathlib
import shutil
import subprocess
import tempfile
import typing
import unittest
import uuid
from datetime import timezone
from fractions import Fraction
from typing import Any, Dict, List, Mapping, NamedTuple, NewType, Optional, Sequence, Tuple, TypedDict, Union

import gob

AT = datetime.datetime(2026, 11, 30, 18, 5, 6, 123456, timezone.utc)
UserId = NewType("UserId", int)
Address = Union[ipaddress.IPv4Address, ipaddress.IPv6Address]


class Color(enum.IntEnum):
    RED = 3


@dataclasses.dataclass
class Place:
    Name: str
    Within: Optional["Place"] = None


class Point(NamedTuple):
    X: int
    Y: int


class Node(TypedDict, total=False):
    Value: int
    Next: "Node"
    Others: List["Node"]


class Direct(NamedTuple):
    Itself: "Direct" = None
    Named: Dict[str, "Direct"] = {}


@dataclasses.dataclass
class Every:
    Truth: bool
    Whole: int
    Real: float
    Complex: complex
    Text: str
    Raw: bytes
    At: datetime.datetime
    Ratio: Fraction
    Host: Address
    Key: uuid.UUID
    Id: UserId
    Color: Color
    Numbers: List[int]
    Names: Sequence[str]
    Points: Tuple[Point, ...]
    Counts: Dict[str, int]
    Grid: Mapping[Point, collections.abc.Sequence[float]]
    Maybe: Optional[int]
    From: Optional[Place]
    To: Place
    Node: Node


SOURCE = """package types

import (
	"github.com/google/uuid"
	"math/big"
	"net/netip"
	"time"
)

type Every struct {
	Truth   bool
	Whole   int
	Real    float64
	Complex complex128
	Text    string
	Raw     []byte
	At      time.Time
	Ratio   *big.Rat
	Host    netip.Addr
	Key     uuid.UUID
	Id      int
	Color   int
	Numbers []int
	Names   []string
	Points  []Point
	Counts  map[string]int
	Grid    map[Point][]float64
	Maybe   int
	From    *Place
	To      Place
	Node    Node
}

type Point struct {
	X int
	Y int
}

type Place struct {
	Name   string
	Within *Place
}

type Node struct {
	Value  int
	Next   *Node
	Others []Node
}
"""


def fields(**annotations):
    """A class with these fields, which is called C."""
    return dataclasses.make_dataclass("C", annotations.items())


def named(name):
    return dataclasses.make_dataclass(name, [("X", int)])


class AnnotationsTest(unittest.TestCase):
    def test_source(self):
        self.assertEqual(gob.go_source(Every), SOURCE)
        self.assertEqual(gob.go_source(Point), "package types\n\ntype Point struct {\n\tX int\n\tY int\n}\n")
        self.assertEqual(gob.go_source(Direct), "package types\n\ntype Direct struct {\n\tItself *Direct\n"
                                                "\tNamed  map[string]Direct\n}\n")
        self.assertEqual(gob.go_source(fields()), "package types\n\ntype C struct{}\n")

    def test_values(self):
        place = Place("home", Place("town"))
        value = Every(True, -3, 1.5, 2j, "ann", b"\0", AT, Fraction(-1, 3), ipaddress.IPv6Address("fe80::1"),
                      uuid.UUID(int=5), UserId(7), Color.RED, [1, 2], ("a", "b"), (Point(1, 2),), {"a": 1},
                      {Point(3, 4): [0.5]}, None, place, place,
                      {"Value": 1, "Next": {"Value": 2}, "Others": [{"Value": 3}]})
        data = gob.dumps([value], types=Every)
        read, = gob.loads(data, opaque=gob.go.known)
        self.assertEqual(read.pop("Key").data, uuid.UUID(int=5).bytes)
        self.assertEqual(read, {
            "Truth": True, "Whole": -3, "Real": 1.5, "Complex": 2j, "Text": "ann", "Raw": b"\0", "At": AT,
            "Ratio": Fraction(-1, 3), "Host": ipaddress.IPv6Address("fe80::1"), "Id": 7, "Color": 3, "Numbers": [1, 2],
            "Names": ["a", "b"], "Points": [{"X": 1, "Y": 2}], "Counts": {"a": 1},
            "Grid": [({"X": 3, "Y": 4}, [0.5])], "From": {"Name": "home", "Within": {"Name": "town"}},
            "To": {"Name": "home", "Within": {"Name": "town"}},
            "Node": {"Value": 1, "Next": {"Value": 2}, "Others": [{"Value": 3}]}})
        self.assertEqual(gob.loads(gob.dumps([{}, {"Whole": None}], types=Every)), [{}, {}])
        self.assertEqual(gob.dumps([Point(22, 33)], types=Point), gob.dumps([{"X": 22, "Y": 33}], SOURCE, "Point"))
        self.assertEqual(gob.loads(gob.dumps([Place("x")], types=Every, type="Place")), [{"Name": "x"}])
        direct = gob.dumps([Direct(None, {"a": Direct()})], types=Direct)
        self.assertEqual(gob.loads(direct), [{"Named": {"a": {"Named": {}}}}])
        with self.assertRaisesRegex(gob.BadValue, "at .X"):
            gob.dumps([Point("1", 2)], types=Point)

    def test_what_has_no_type(self):
        for annotation, shown in [
                (set, "set"), (object, "object"), (Any, "(typing.)?Any"), (list, "list"), (Dict, r"typing\.Dict"),
                (1, "1"), (datetime.date, "date"), (datetime.timedelta, "timedelta"), (Optional[None], "NoneType"),
                (List[set], r"set, in typing\.List\[set\]"), (Tuple[int, str], r"typing\.Tuple\[int, str\]"),
                (Union[int, str], r".*int.*str.*"), (Optional[Union[int, str]], ".*int.*str.*None.*"),
                (typing.Callable[[], int], r"typing\.Callable.*")]:
            with self.assertRaisesRegex(gob.BadTypes, rf"^C\.X: no type of Go is known for {shown}$"):
                gob.go_source(fields(X=annotation))
        for key in (bytes, List[int], Dict[str, int], dataclasses.make_dataclass("D", [("X", List[int])])):
            with self.assertRaisesRegex(gob.BadTypes, "^C.X: Go has no map with keys of "):
                gob.go_source(fields(X=Dict[key, int]))
        with self.assertRaisesRegex(gob.BadTypes, "^C: name 'Nothing' is not defined"):
            gob.go_source(fields(X="Nothing"))

    def test_what_go_does_not_send(self):
        for name in ("x", "_X", "\u00c9"):
            with self.assertRaises(gob.BadTypes) as caught:
                gob.dumps([], types=fields(Y=int, **{name: int}))
            self.assertIn(f"C.{name}: Go sends only fields whose names begin with a capital", str(caught.exception))
        with self.assertRaisesRegex(gob.BadTypes, "^Odd.A-b: Go sends only"):
            gob.go_source(TypedDict("Odd", {"A-b": int}))

    def test_names_of_classes(self):
        for name in ("func", "int", "time", "\u00c9t\u00e9", "_C"):
            with self.assertRaisesRegex(gob.BadTypes, "Go has no type of this name"):
                gob.go_source(named(name))
        with self.assertRaisesRegex(gob.BadTypes, "another class has this name"):
            gob.go_source(fields(X=named("Twice"), Y=named("Twice")))
        for cls in (int, Color, List[int], 3, None, Point(1, 2), Place("x")):
            with self.assertRaisesRegex(gob.BadTypes, "no dataclass, NamedTuple or TypedDict"):
                gob.go_source(cls)
        with self.assertRaisesRegex(gob.BadTypes, "^Bare.X: it has no annotation"):
            gob.go_source(collections.namedtuple("Bare", "X"))

    @unittest.skipUnless(shutil.which("gofmt"), "there is no gofmt")
    def test_gofmt_leaves_the_source(self):
        with tempfile.TemporaryDirectory() as room:
            path = pathlib.Path(room, "types.go")
            path.write_text(SOURCE)
            said = subprocess.run(["gofmt", "-l", path], capture_output=True, check=True, text=True)
            self.assertEqual(said.stdout, "")


if __name__ == "__main__":
    unittest.main()
