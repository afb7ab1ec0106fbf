"""The package against the streams of interop/, in pieces of several sizes, and what Go writes of its own types.

GOB_STREAMS names the folder of the streams, GOB_LAYOUT what bindings/c/tests/layout.c prints.
"""
import contextlib
import copy
import ctypes
import datetime
import gc
import importlib.util
import io
import ipaddress
import json
import math
import os
import pathlib
import pickle
import shutil
import struct
import subprocess
import sys
import tempfile
import threading
import unittest
import weakref
import zipfile
from datetime import timedelta, timezone
from fractions import Fraction
from unittest import mock

import gob
import gob.__main__
import gob._library

STREAMS = pathlib.Path(os.environ.get("GOB_STREAMS", pathlib.Path(__file__).parents[3] / "interop/streams"))
SIZES = [1, 2, 3, 7, 64, 65536]
# what gob types says of the names under which types fill interfaces, which nothing here keeps
POINT = bytes.fromhex("1fff8103010105506f696e7401ff82000102010158010400010159010400000007ff82012c014200")


def due(path):
    """The natural values of the lines that are due, made from the JSON alone."""
    types, values = {}, []
    for line in path.read_text().splitlines():
        row = json.loads(line)
        if "define" in row:
            types[row["define"]] = row
        else:
            values.append(natural(row["value"], row["type"], types))
    return types, values


def name_of(text):
    """The text that a line has, also where it isn't UTF-8."""
    raw = bytes.fromhex(text["hex"]) if isinstance(text, dict) else text.encode()
    return raw.decode("utf-8", "surrogateescape")


def natural(value, id, types):
    """The natural value of a line's."""
    if id == 4:
        return struct.unpack(">d", bytes.fromhex(value))[0]
    if id == 7:
        return complex(natural(value[0], 4, types), natural(value[1], 4, types))
    if id == 5:
        return bytes.fromhex(value)
    if id == 6:
        return name_of(value)
    if id == 8 and value is not None:
        held = value["interface"]
        return natural(held["value"], held["type"], types)
    if id <= 8:
        return value
    row = types[id]
    kind = row["kind"]
    if kind == "struct":
        names = gob.Type(0, "", "struct", fields=tuple(gob.Field(*field) for field in row["fields"])).names
        return {names[n]: natural(v, row["fields"][n][1], types) for n, _, v in value}
    if kind in ("array", "slice"):
        return [natural(v, row["elem"], types) for v in value]
    if kind == "map":
        pairs = [(natural(k, row["key"], types), natural(v, row["elem"], types)) for k, v in value]
        try:
            return dict(pairs) if len(dict(pairs)) == len(pairs) else gob.Pairs(pairs)
        except TypeError:
            return gob.Pairs(pairs)
    marshal = {"gob": "GobEncode", "binary": "MarshalBinary", "text": "MarshalText"}[kind]
    return gob.Opaque(row["name"], marshal, bytes.fromhex(value["opaque"]))


# What Go 1.19 wrote of struct { A []float64; B [2]int; C []bool }: the definitions; {1, 2}, {3, 4}, then {5, 6.5},
# {0, 0}; and {1, 2}, {3, 4}, true, then nil, {5, -6}, false, then {-0.5}, {0, 0}, true.
PAIRS = bytes.fromhex(
    "28ff8103010105506169727301ff8200010301014101ff840001014201ff860001014301ff8800000017ff83020101095b5d666c6f61743634"
    "01ff84000108000016ff85010101065b325d696e7401ff860001040104000014ff87020101065b5d626f6f6c01ff880001020000")
EQUAL = bytes.fromhex("0dff820102fef03f4001020608000fff820102fe1440fe1a400102000000")
RAGGED = [bytes.fromhex(text) for text in ("10ff820102fef03f400102060801010100", "0aff8202020a0b01010000",
                                           "0fff820101fee0bf0102000001010100")]
# []float64 1, 2.5 and 3, 4; and map[string]int a 1, 7, "x", []int 1, then 2, 3.
FLOATS = bytes.fromhex("17ff83020101095b5d666c6f6174363401ff8400010800000aff840002fef03ffe04400aff840002fe0840fe1040")
SEVERAL = bytes.fromhex("0eff89040102ff8a00010c0104000007ff8a00010161020304000e040c0001780cff8b020102ff8c000104000005"
                        "ff8c00010206ff8c00020406")
# struct { At time.Time; N int }: 2026-11-27T01:02:03.123456789+01:00 and 1, 2 alone, 1700-01-02T03:04:05.000000001Z and
# 3; and the year 1500.
EVENT = bytes.fromhex("21ff8d030101054576656e7401ff8e0001020102417401ff900001014e010400000010ff8f0501010454696d6501ff"
                      "90000000")
NEAR = bytes.fromhex("16ff8e010f010000000ee29abf7b075bcd15003c01020005ff8e02040016ff8e010f010000000c7bb971250000000"
                     "1ffff010600")
FAR = bytes.fromhex("16ff8e010f010000000b03889ba500000001ffff010600")
# struct { A *[2]int; M map[string]int; S []string }: all nil, then {1, 2}, a 1, "b".
ZEROS = bytes.fromhex(
    "26ff910301010350747201ff9200010301014101ff860001014d01ff8a0001015301ff9400000016ff85010101065b325d696e7401ff860001"
    "04010400000eff89040102ff8a00010c0104000016ff93020101085b5d737472696e6701ff9400010c000003ff920010ff9201020204010101"
    "61020101016200")
# struct { N int; Any any; F float64 }: 1, Point{22, 33}, registered as P, 0.5; 2, nil, 1.5; 3, []any{7, "x"}, 2.5.
ROWS = bytes.fromhex(
    "25ff8103010103526f7701ff8200010301014e0104000103416e79011000010146010800000026ff820102010150ff8303010105506f696e74"
    "01ff8400010201015801040001015901040000000dff8405012c01420001fee03f0009ff82010402fef83f0020ff820106010e5b5d696e7465"
    "7266616365207b7dff85020102ff8600011000001eff8616000203696e740402000e06737472696e670c0300017801fe044000")


def listed(column):
    """The values of a column, its arrays as lists."""
    return [value.tolist() if hasattr(value, "tolist") else value for value in column]


def opaque(data, name="T"):
    return gob.Opaque(name, "GobEncode", bytes.fromhex(data))


class Streams(unittest.TestCase):
    def read(self, path, types, values, **options):
        """Whether the stream is read so, in pieces of each size."""
        fault = path.with_suffix(".fault")
        for size in SIZES:
            with self.subTest(stream=path.name, size=size):
                given, refused = [], None
                try:
                    for _, value in gob.iter_items(path, piece=size, **options):
                        given.append(value)
                except gob.Refused as error:
                    refused = f"gob: {error}"
                self.assertEqual(given, values)
                self.assertEqual(refused, fault.read_text().strip() if fault.exists() else None)
        if not fault.exists():
            loaded = gob.load(path, **options)
            self.assertEqual(list(loaded.types), list(types))
            for id, row in types.items():
                self.assertEqual(loaded.types[id].name, row["name"])
                if row["kind"] == "struct":
                    self.assertEqual([list(f) for f in loaded.types[id].fields], row["fields"])
            count = sum(len(gob.load(path, piece=s, **options)) for s in SIZES)
            self.assertEqual(count, len(values) * len(SIZES))
            self.assertEqual(gob.check(path, **options), (len(values), len(types), path.stat().st_size))

    def test_each_stream_in_pieces(self):
        paths = sorted(STREAMS.glob("*.gob"))
        self.assertGreater(len(paths), 10)
        for path in paths:
            types, values = due(path.with_suffix(".lines"))
            self.read(path, types, values, exact=True)
            if not path.with_suffix(".fault").exists():
                self.read(path, types, values)

    def test_each_stream_of_the_profile_in_pieces(self):
        paths = sorted(STREAMS.parent.glob("filled/streams/*.gob"))
        self.assertGreater(len(paths), 20)
        for path in paths:
            self.read(path, *due(path.with_suffix(".lines")))


class Interfaces(unittest.TestCase):
    """What Go 1.19 wrote of map[string]struct { Object any; Expiration int64 }, as go-cache does."""

    STREAM = STREAMS.parent / "filled/streams/go-cache.gob"

    def test_what_interfaces_hold(self):
        (cache,) = gob.load(self.STREAM)
        self.assertEqual(cache["count"], {"Object": 42})
        self.assertEqual(cache["names"], {"Object": ["a", "b"], "Expiration": 4102444800000000000})
        (cache,) = gob.load(self.STREAM, held=gob.Held)
        self.assertEqual(cache["count"], {"Object": gob.Held("int", 42)})
        self.assertEqual(cache["names"]["Object"], gob.Held("[]string", ["a", "b"]))
        (cache,) = gob.load(self.STREAM, held=lambda name, value: name)
        self.assertEqual(cache["count"], {"Object": "int"})
        for call in (gob.load, gob.check, gob.types):
            with self.assertRaises(gob.Refused) as caught:
                call(self.STREAM, exact=True)
            self.assertEqual(caught.exception.reason, gob.Reason.InterfaceValue)

    @unittest.skipUnless(importlib.util.find_spec("numpy"), "numpy isn't there")
    def test_columns_are_fields_of_the_row_alone(self):
        import gob.columns

        columns = gob.columns.load(ROWS)["Row"]
        self.assertEqual({name: column.tolist() for name, column in columns.items()}, {
            "N": [1, 2, 3], "Any": [{"X": 22, "Y": 33}, None, [7, "x"]], "F": [0.5, 1.5, 2.5]})
        names = gob.columns.load([ROWS], piece=7, held=lambda name, value: name)["Row"]["Any"].tolist()
        self.assertEqual(names, ["P", None, "[]interface {}"])

    def test_fields_of_interfaces_are_absent_or_hold(self):
        (one, two, three) = gob.loads(ROWS, zeros=True, structs="namedtuple")
        self.assertEqual((one.Any.X, two.Any, three.Any), (22, None, [7, "x"]))
        self.assertEqual(gob.loads(ROWS, tagged="type")[0]["Any"], {"type": "Point", "X": 22, "Y": 33})
        self.assertEqual([type.name for type in gob.types(ROWS).values()], ["Row", "Point", ""])
        self.assertEqual(gob.check(ROWS), (3, 3, len(ROWS)))


class Places(unittest.TestCase):
    def test_where_items_begin_and_end(self):
        for data, due in [(POINT + POINT[32:], [(32, 40), (40, 48)]), (ROWS, [(38, 91), (91, 101), (101, 165)])]:
            for size in SIZES:
                items = list(gob.iter_items(data, piece=size))
                self.assertEqual([(item.begin, item.end) for item in items], due)
            again = pickle.loads(pickle.dumps(items[1]))
            self.assertEqual((again, again.begin, again.end), (items[1], *due[1]))
            self.assertEqual((again.type, again.value), tuple(items[1]))
            self.assertIn(f"begin={due[1][0]}, end={due[1][1]})", repr(again))

    def test_what_stands_before_a_refused_item_is_whole(self):
        for data, begin, count in [(POINT + b"\x07", 40, 1), (ROWS[:80], 38, 0), (ROWS[:95], 91, 1),
                                   (ROWS[:101] + b"\x00", 101, 2), (b"\x80", 0, 0)]:
            for call in (gob.loads, gob.check, lambda data: list(gob.iter_values(data, piece=1))):
                with self.assertRaises(gob.Refused) as caught:
                    call(data)
                self.assertEqual(caught.exception.begin, begin)
                self.assertEqual(pickle.loads(pickle.dumps(caught.exception)).begin, begin)
            self.assertEqual(len(gob.loads(data[:begin])), count)


class Checks(unittest.TestCase):
    # a gigabyte takes as much as this
    CHECK = """if True:
        import itertools, gob
        point = bytes.fromhex("07ff82012c014200") * 8192
        definition = bytes.fromhex("1fff8103010105506f696e7401ff820001020101580104000101590104000000")
        print(*gob.check(itertools.chain([definition], itertools.repeat(point, 1000))))
        print(next(line.split()[1] for line in open("/proc/self/status") if line.startswith("VmHWM")))
    """

    def test_a_check_keeps_nothing(self):
        package = str(pathlib.Path(__file__).parents[1])
        ran = subprocess.run([sys.executable, "-c", self.CHECK], capture_output=True, text=True, check=True,
                             env={**os.environ, "PYTHONPATH": package})
        summary, kilobytes = ran.stdout.splitlines()
        self.assertEqual(summary, f"{8192000} 1 {32 + 8 * 8192000}")
        self.assertLess(int(kilobytes), 20000)

    def test_in_pieces(self):
        for size in SIZES:
            self.assertEqual(gob.check(io.BytesIO(ROWS), piece=size), (3, 3, len(ROWS)))
        self.assertEqual(gob.check([bytearray(POINT), memoryview(POINT[32:])]), (2, 1, 48))
        with self.assertRaisesRegex(ValueError, "depth"):
            gob.check(POINT, limits=gob.Limits(depth=0))


class Libraries(unittest.TestCase):
    def test_one_of_another_interface_is_refused(self):
        with mock.patch.object(gob._library, "ABI", 7), self.assertRaises(ImportError) as caught:
            gob._library._load()
        self.assertIn("this package needs a libgob.so.1 whose GOB_ABI is 7, and ", str(caught.exception))
        self.assertIn(" has 2: install both of one version, or set GOB_LIBRARY", str(caught.exception))
        with mock.patch.dict(os.environ, GOB_LIBRARY="nowhere.so"), self.assertRaisesRegex(ImportError, "not found"):
            gob._library._load()


class Values(unittest.TestCase):
    def test_the_example(self):
        points = gob.loads(POINT)
        self.assertEqual(points, [{"X": 22, "Y": 33}])

    def test_sources(self):
        for source in (POINT, bytearray(POINT), memoryview(POINT), io.BytesIO(POINT), [POINT[:9], b"", POINT[9:]]):
            self.assertEqual(list(gob.iter_values(source, piece=4)), [{"X": 22, "Y": 33}])

    def test_absent_fields(self):
        data = POINT[:32] + bytes.fromhex("05ff82024200")  # Y alone
        self.assertEqual(gob.loads(data), [{"Y": 33}])
        self.assertEqual(gob.loads(data, zeros=True), [{"X": 0, "Y": 33}])
        (point,) = gob.loads(data, structs="namedtuple")
        self.assertEqual((type(point).__name__, point.X, point.Y), ("Point", None, 33))
        (point,) = gob.loads(data, structs="namedtuple", zeros=True)
        self.assertEqual(point, (0, 33))

    def test_the_extremes_of_numbers(self):
        # int: the least and the greatest; uint: the greatest; float: -0.0, inf and a nan with a payload
        for bits, number in [("f8ffffffffffffffff", -2**63), ("f8fffffffffffffffe", 2**63 - 1)]:
            body = bytes.fromhex("0400" + bits)
            self.assertEqual(gob.loads(bytes([len(body)]) + body), [number])
        body = bytes.fromhex("0600f8ffffffffffffffff")
        self.assertEqual(gob.loads(bytes([len(body)]) + body), [2**64 - 1])
        body = bytes.fromhex("0800ff80")
        (zero,) = gob.loads(bytes([len(body)]) + body)
        self.assertEqual((zero, math.copysign(1, zero)), (0.0, -1.0))

    def test_refusals(self):
        damaged = bytearray(POINT)
        damaged[37] = 2
        with self.assertRaises(gob.Refused) as caught:
            gob.loads(POINT + damaged[32:])
        self.assertEqual(str(caught.exception), "refused 15 FieldNumber at 45 seen 46")
        self.assertEqual(caught.exception.reason, gob.Reason.FieldNumber)
        self.assertEqual(caught.exception.what, "A struct has no such field.")
        self.assertEqual(caught.exception.values, [{"X": 22, "Y": 33}])
        again = pickle.loads(pickle.dumps(caught.exception))
        self.assertEqual((again.reason, again.place, again.seen), (15, 45, 46))
        self.assertEqual((again.values, again.path), ([{"X": 22, "Y": 33}], None))
        with self.assertRaises(gob.Refused) as caught:
            gob.loads(POINT[:36])
        self.assertEqual(str(caught.exception), "refused 22 Ended at 36 seen 36")

    def test_the_reasons_are_those_of_the_library(self):
        names = [gob._library.library.gob_reason_name(number).decode() for number in range(1, 24)]
        self.assertEqual(names, [reason.name for reason in gob.Reason] + [""])
        self.assertEqual([int(reason) for reason in gob.Reason], list(range(1, 23)))

    def test_after_a_fault(self):
        with gob.Reader() as reader:
            with self.assertRaises(gob.Refused):
                reader.feed(b"\x00")
            with self.assertRaisesRegex(ValueError, "met a fault"):
                reader.feed(POINT)
            with self.assertRaisesRegex(ValueError, "met a fault"):
                reader.finish()
        with self.assertRaisesRegex(ValueError, "closed"):
            reader.feed(POINT)
        reader.close()

    def test_limits(self):
        with self.assertRaises(gob.Refused) as caught:
            gob.loads(POINT, limits=gob.Limits(item=30))
        self.assertEqual(caught.exception.reason, gob.Reason.ItemTooLong)
        for limits in (gob.Limits(depth=0), gob.Limits(depth=65537), gob.Limits(stream=2**63)):
            with self.assertRaises(ValueError):
                gob.Reader(limits=limits)

    def test_a_tag(self):
        self.assertEqual(gob.load(POINT, tagged="type"), [{"type": "Point", "X": 22, "Y": 33}])
        self.assertEqual(gob.loads(POINT, tagged="type", zeros=True), [{"type": "Point", "X": 22, "Y": 33}])

    def test_files(self):
        with tempfile.TemporaryDirectory() as folder:
            path = pathlib.Path(folder) / "point.gob"
            path.write_bytes(POINT)
            self.assertEqual(gob.load(path), [{"X": 22, "Y": 33}])
            self.assertEqual(gob.check(str(path)), gob.Summary(1, 1, 40))
            path.write_bytes(POINT[:36])
            for call in (gob.load, gob.check, lambda path: list(gob.iter_values(path))):
                with self.assertRaises(gob.Refused) as caught:
                    call(path)
                self.assertEqual(caught.exception.path, str(path))

    def test_the_command(self):
        with tempfile.TemporaryDirectory() as folder:
            path = pathlib.Path(folder) / "point.gob"
            path.write_bytes(POINT)
            source = "package types\n\n// type 65\ntype Point struct {\n\tX int\n\tY int\n}\n"
            for words, due in [([], "{'X': 22, 'Y': 33}\n"), (["--check"], "Summary(values=1, types=1, bytes=40)\n"),
                               (["--types"], source), (["--why"], "ok: 2 items, 1 types, 40 bytes\n1 value of type 65, Point\n")]:
                said = io.StringIO()
                with mock.patch.object(sys, "argv", ["gob", *words, str(path)]), contextlib.redirect_stdout(said):
                    self.assertEqual(gob.__main__.main(), 0)
                self.assertEqual(said.getvalue(), due)

    def test_nothing_of_a_file_reaches_a_terminal(self):
        coloured = POINT.replace(b"Point", b"\x1b[31m").replace(b"X", b"\x1b")
        source = b"package types\n\n// type 65\ntype T65 struct {\n\tY int\n\t// \\x1b int\n}\n"
        text = bytes.fromhex("080c00051b5b33316d")
        for data, words, due in [(coloured, ["--types"], source), (coloured, [], b"{'\\x1b': 22, 'Y': 33}\n"),
                                 (text, [], b"'\\x1b[31m'\n")]:
            ran = subprocess.run([sys.executable, "-m", "gob", *words], input=data, capture_output=True, check=True)
            self.assertEqual(ran.stdout, due)

    def test_types_are_read_without_values(self):
        many = [POINT] + [POINT[32:] * 1000] * 1000
        self.assertEqual(gob.types(many), gob.loads(POINT).types)
        words = [sys.executable, "-m", "gob", "--types"]
        counted = f"import resource, subprocess, sys; subprocess.run({words}, check=True); " \
            "print(resource.getrusage(resource.RUSAGE_CHILDREN).ru_maxrss)"
        ran = subprocess.run([sys.executable, "-c", counted], input=b"".join(many), capture_output=True, check=True)
        self.assertLess(int(ran.stdout.split()[-1]), 60_000)
        with self.assertRaises(gob.Refused) as caught:
            gob.types(POINT[:36])
        self.assertEqual([type.name for type in caught.exception.values], ["Point"])

    @unittest.skipUnless("GOB" in os.environ, "GOB names no program")
    def test_texts_are_those_of_the_program(self):
        for path in sorted([*STREAMS.glob("*.gob"), *STREAMS.glob("../filled/streams/*.gob")]):
            data = path.read_bytes()
            for bad in (path, self.written(data[:-1]), self.written(data + b"\xf7")):
                with self.subTest(stream=path.name, size=bad.stat().st_size):
                    self.assertEqual(gob.why(bad), self.told(bad))
                    self.assertEqual(gob.why(bad.read_bytes(), str(bad)), self.told(bad))
                    self.assertEqual(self.source(bad), self.printed("types", bad))
                    self.assertEqual(self.source(io.BytesIO(bad.read_bytes())), self.printed("types", bad))

    def told(self, path):
        """What the program says of the file, but how much salvage keeps of it, which the program alone looks for."""
        lines = self.printed("why", path).splitlines(keepends=True)
        return "".join(line for line in lines if not line.startswith("kept: "))

    def printed(self, command, path):
        return subprocess.run([os.environ["GOB"], command, path], capture_output=True, check=False).stdout.decode()

    def written(self, data):
        folder = tempfile.mkdtemp()
        self.addCleanup(shutil.rmtree, folder)
        path = pathlib.Path(folder) / "some.gob"
        path.write_bytes(data)
        return path

    def source(self, source):
        try:
            return gob.source(source)
        except gob.Refused as refused:
            return refused.values[0]

    def test_texts_of_a_refused_stream(self):
        path = self.written(POINT[:36])
        with self.assertRaises(gob.Refused) as caught:
            gob.source(path)
        self.assertEqual(caught.exception.path, str(path))
        self.assertEqual(caught.exception.values, ["package types\n\n// type 65\ntype Point struct {\n\tX int\n\tY int\n}\n"])
        said = gob.why(POINT[:36]).splitlines()
        self.assertEqual(said[0], "refused 22 Ended at 36 seen 36")
        self.assertEqual(said[2], "where: item 1, Point.X: a value of type 65, Point, which begins at byte 32")
        self.assertEqual(gob.why(b""), "ok: 0 items, 0 types, 0 bytes\n")
        self.assertEqual(gob.why(self.written(b"")), "ok: 0 items, 0 types, 0 bytes\n")

    def test_texts_under_limits(self):
        said = gob.why(POINT, "a b.gob", limits=gob.Limits(item=30))
        self.assertTrue(said.startswith("refused 3 ItemTooLong at 0 seen 1\n"))
        self.assertTrue(said.endswith("\nnext: gob why --item 31 'a b.gob'\n"))
        with self.assertRaises(gob.Refused):
            gob.source(POINT, limits=gob.Limits(item=30))
        with self.assertRaises(ValueError):
            gob.why(POINT, limits=gob.Limits(depth=0))
        # a name that isn't UTF-8 is none
        self.assertTrue(gob.why(POINT, "\udcff.gob", limits=gob.Limits(item=30)).endswith(" --item 31 IN\n"))

    def test_a_long_text_is_whole(self):
        fields = b"".join(b"\1\5" + f"F{number:04}".encode() + b"\1\4\0" for number in range(9000))
        body = b"\xff\x81\3\1\1\1P\1\xff\x82\0\1\xfe" + (9000).to_bytes(2, "big") + fields + b"\0\0"
        text = gob.source(b"\xfd" + len(body).to_bytes(3, "big") + body)
        self.assertEqual(text.count("\n"), 9000 + 5)

    def test_a_closed_pipe_ends_the_command(self):
        read, written = os.pipe()
        os.close(read)
        words = [sys.executable, "-m", "gob"]
        ran = subprocess.run(words, input=POINT, stdout=written, stderr=subprocess.PIPE, check=False)
        os.close(written)
        self.assertEqual((ran.returncode, ran.stderr), (2, b""))

    def test_any_cut(self):
        whole = gob.loads(POINT)
        for cut in range(len(POINT) + 1):
            self.assertEqual(list(gob.iter_values([POINT[:cut], POINT[cut:]])), whole)


class Opaque(unittest.TestCase):
    def test_time(self):
        path = STREAMS / "time.gob"
        at = gob.load(path, opaque=gob.go.known)[0]
        self.assertIsInstance(at, gob.go.Time)
        self.assertEqual(gob.go.nanoseconds(gob.load(path)[0]) // 10**9, int(at.timestamp()))

    def test_formats_of_go(self):
        # as Go 1.19 wrote them
        at = gob.go.time(opaque("010000000ee29abf7b075bcd15003c"))
        self.assertEqual((at.isoformat(), at.nanosecond), ("2026-11-27T01:02:03.123456+01:00", 123456789))
        at = gob.go.time(opaque("020000000ee29abf3e00000005003d01"))
        self.assertEqual((at.replace(tzinfo=None).isoformat(), at.nanosecond), ("2026-11-27T01:02:03", 5))
        self.assertEqual(at.utcoffset(), timedelta(seconds=3661))
        at = gob.go.time(opaque("01000000000000000000000000ffff"))
        self.assertEqual((at.year, at.utcoffset()), (1, timedelta(0)))
        self.assertEqual(gob.go.big_int(opaque("030100")), -256)
        self.assertEqual(gob.go.big_rat(opaque("03000000010302")), Fraction(-3, 2))
        self.assertEqual(gob.go.big_float(opaque("010b0000003500000001b000000000000000")), Fraction(-11, 8))
        self.assertEqual(gob.go.big_float(opaque(
            "010a000001900000014d924d692ca61be758593c2626705f9c5672047108d3e5559218454174788"
            "00000000000000000000000000000000000000000000000000000")), 10**100)
        self.assertEqual(gob.go.big_float(opaque("010d00000000")), -math.inf)
        self.assertEqual(math.copysign(1, gob.go.big_float(opaque("010900000000"))), -1.0)
        self.assertEqual(gob.go.address(opaque("0a000001")), ipaddress.ip_address("10.0.0.1"))
        self.assertEqual(str(gob.go.address(opaque("fe80000000000000000000000000000165746830"))), "fe80::1%eth0")
        self.assertIsNone(gob.go.address(opaque("")))
        self.assertEqual(gob.go.address_port(opaque("0a000001901f")), (ipaddress.ip_address("10.0.0.1"), 8080))
        self.assertEqual(gob.go.prefix(opaque("0a00000008")), (ipaddress.ip_address("10.0.0.0"), 8))
        self.assertEqual(gob.go.text(opaque("68747470733a2f2f612e6578616d706c652f")), "https://a.example/")

    def test_nanoseconds_stay(self):
        # the time that a Go program wrote as time.Date(2026, 11, 27, 1, 2, 3, 123456789, time.FixedZone("", 3600))
        at, hour = gob.go.time(opaque("010000000ee29abf7b075bcd15003c")), timedelta(hours=1)
        rows = [(f"pickle {number}", pickle.loads(pickle.dumps(at, number))) for number in range(6)]
        rows += [("copy", copy.copy(at)), ("deepcopy", copy.deepcopy(at)), ("replace", at.replace(year=2000)),
                 ("no zone", at.replace(tzinfo=None)), ("astimezone", at.astimezone(timezone.utc)),
                 ("its own zone", at.astimezone(at.tzinfo)), ("+", at + hour), ("+ from the left", hour + at),
                 ("-", at - hour), ("text", eval(repr(at), {"datetime": datetime, "Time": gob.go.Time}))]
        for what, made in rows:
            with self.subTest(what):
                self.assertIs(type(made), gob.go.Time)
                self.assertEqual(made.nanosecond, 123456789)
        self.assertEqual(at.replace(microsecond=5).nanosecond, 5000)
        self.assertEqual(at.replace(nanosecond=7).microsecond, 0)
        self.assertEqual(gob.go.Time(2026, 1, 1, nanosecond=999999999).microsecond, 999999)
        self.assertEqual(at - at.replace(nanosecond=0), timedelta(microseconds=123456))

    def test_comparing_heeds_nanoseconds(self):
        at = gob.go.time(opaque("010000000ee29abf7b075bcd15003c"))
        before, plain = at.replace(nanosecond=123456788), datetime.datetime.fromisoformat(at.isoformat())
        for other in (before, plain):
            self.assertTrue(at != other and at > other and at >= other and other < at and other <= at)
            self.assertFalse(at == other or at < other or at <= other or other > at or other >= at)
        self.assertEqual(at.replace(nanosecond=123456000), plain)
        self.assertEqual(hash(at.replace(nanosecond=123456000)), hash(plain))
        self.assertEqual(len({at, before, plain, at.astimezone(timezone.utc)}), 3)
        self.assertNotEqual(at, 5)
        with self.assertRaises(TypeError):
            at < 5  # noqa: B015

    def test_other_bytes(self):
        for explain in (gob.go.time, gob.go.big_int, gob.go.big_rat, gob.go.big_float, gob.go.address_port):
            for wrong in ("", "05", "01ff") if explain is not gob.go.address_port else ("", "05"):
                with self.assertRaises(ValueError):
                    explain(opaque(wrong))
        self.assertEqual(gob.go.known(opaque("05", "Time")), opaque("05", "Time"))
        self.assertEqual(gob.go.known(opaque("020100", "Int")), 256)
        self.assertEqual(gob.go.known(opaque("020100", "")), 256)
        at = gob.go.known(opaque("010000000ec28be77000000000ffff", ""))
        self.assertEqual(at.isoformat(), "2009-11-10T23:00:00+00:00")
        self.assertEqual(gob.go.known(opaque("02000000010304", "")), opaque("02000000010304", ""))
        far = opaque("010a000000357fffffff8000000000000000", "Float")
        self.assertEqual(gob.go.known(far), far)

    def test_types_without_a_name(self):
        known = {data: gob.go.known(opaque(data, "")) for data in (
            "010000000ee0e92ca5075bcd15ffff", "020000000ee0e92ca5075bcd15003c1e", "030100", "02",  # as Go writes them
            "03", "020001", "020000000ee0e92ca5075bcd15003c00")}
        utc, ahead, *numbers = known.values()
        self.assertEqual((utc.isoformat(), utc.nanosecond), ("2026-01-02T03:04:05.123456+00:00", 123456789))
        self.assertEqual(ahead.isoformat(), "2026-01-02T04:04:35.123456+01:00:30")
        self.assertEqual(numbers[:2], [-256, 0])
        self.assertEqual(numbers[2:], [opaque(data, "") for data in list(known)[4:]])
        text = gob.Opaque("", "MarshalBinary", b"\2")
        self.assertEqual(gob.go.known(text), text)


@unittest.skipUnless(importlib.util.find_spec("numpy"), "numpy isn't there")
class Columns(unittest.TestCase):
    def test_columns_are_the_values(self):
        import gob.columns

        self.assertEqual(gob.columns.load([POINT, POINT[32:] * 9])["Point"]["X"].tolist(), [22] * 10)
        for name in ("basics", "lists", "nested", "page", "several", "colors", "index"):
            values = {}
            for type, value in gob.iter_items(STREAMS / f"{name}.gob", zeros=True):
                values.setdefault(type.id, []).append(value)
            columns = gob.columns.load(STREAMS / f"{name}.gob").values()
            for due, of_type in zip(values.values(), columns):
                if not isinstance(of_type, dict):
                    of_type, due = {"value": of_type}, [{"value": value} for value in due]
                for field, column in of_type.items():
                    self.assertEqual(listed(column), [value[field] for value in due], (name, field))
            self.assertEqual(len(columns), len(values))

    def test_lists_of_numbers(self):
        import gob.columns

        equal = gob.columns.load(PAIRS + EQUAL)["Pairs"]
        self.assertEqual([(column.dtype.str, column.shape) for column in equal.values()],
                         [("<f8", (2, 2)), ("<i8", (2, 2)), ("|b1", (2, 0))])
        self.assertEqual([listed(column) for column in equal.values()],
                         [[[1.0, 2.0], [5.0, 6.5]], [[3, 4], [0, 0]], [[], []]])
        ragged = gob.columns.load([PAIRS, *RAGGED])["Pairs"]
        self.assertEqual([(column.dtype.str, column.shape) for column in ragged.values()],
                         [("|O", (3,)), ("<i8", (3, 2)), ("|b1", (3, 1))])
        self.assertEqual([listed(column) for column in ragged.values()],
                         [[[1.0, 2.0], [], [-0.5]], [[3, 4], [5, -6], [0, 0]], [[True], [False], [True]]])
        self.assertEqual({column.dtype.str for column in ragged["A"]}, {"<f8"})

    def test_values_that_are_no_structs(self):
        import gob.columns

        columns = gob.columns.load(FLOATS)
        self.assertEqual({name: listed(column) for name, column in columns.items()},
                         {"[]float64": [[1.0, 2.5], [3.0, 4.0]]})
        columns = gob.columns.load(SEVERAL)
        self.assertEqual({name: listed(column) for name, column in columns.items()},
                         {"map[string]int": [{"a": 1}], "int": [7], "string": ["x"], "[]int": [[1], [2, 3]]})

    def test_times_have_all_digits(self):
        import gob.columns
        import numpy

        for options in ({}, {"opaque": gob.go.known}):
            at = gob.columns.load(EVENT + NEAR, **options)["Event"]["At"]
            self.assertEqual(at.dtype.str, "<M8[ns]")
            self.assertEqual(numpy.datetime_as_string(at).tolist(),
                             ["2026-11-27T00:02:03.123456789", "NaT", "1700-01-02T03:04:05.000000001"])
        # a year that datetime64[ns] doesn't have
        at = gob.columns.load([EVENT + NEAR, FAR])["Event"]["At"].tolist()
        self.assertEqual([time and (time.isoformat(), time.nanosecond) for time in at],
                         [("2026-11-27T01:02:03.123456+01:00", 123456789), None, ("1700-01-02T03:04:05+00:00", 1),
                          ("1500-01-02T03:04:05+00:00", 1)])
        at = gob.columns.load(EVENT + NEAR, opaque=lambda value: len(value.data))["Event"]["At"].tolist()
        self.assertEqual(at, [15, None, 15])
        # not what Go's time writes
        other = gob.columns.load(EVENT + NEAR.replace(bytes.fromhex("0f0100"), bytes.fromhex("0f0300")))["Event"]["At"]
        self.assertIsInstance(other[0], gob.Opaque)

    @unittest.skipUnless(importlib.util.find_spec("pandas"), "pandas isn't there")
    def test_frames(self):
        import gob.columns
        import pandas

        frame = gob.columns.frames(EVENT + NEAR)["Event"]
        self.assertEqual((frame["At"].dtype.str, frame["At"][0].nanosecond), ("<M8[ns]", 789))
        frame = gob.columns.frames(ZEROS)["Ptr"]
        self.assertEqual(frame["M"].tolist(), [{}, {"a": 1}])
        self.assertEqual(frame["S"].tolist(), [[], ["b"]])
        self.assertEqual(listed(frame["A"].to_numpy()), [None, [1, 2]])
        self.assertEqual(listed(gob.columns.frames(FLOATS)["[]float64"]["value"].to_numpy()), [[1.0, 2.5], [3.0, 4.0]])
        values = pandas.DataFrame(gob.iter_values(EVENT + NEAR[:23], opaque=gob.columns.known))
        self.assertEqual(values["At"][0].isoformat(), "2026-11-27T01:02:03.123456789+01:00")
        self.assertIsInstance(gob.load(EVENT + FAR, opaque=gob.columns.known)[0]["At"], gob.go.Time)

    def test_a_refused_file_is_named(self):
        import gob.columns

        self.assertEqual(gob.columns.load([bytearray(POINT)])["Point"]["Y"].tolist(), [33])
        with tempfile.TemporaryDirectory() as folder:
            path = pathlib.Path(folder) / "cut.gob"
            path.write_bytes(POINT[:-1])
            with self.assertRaises(gob.Refused) as caught:
                gob.columns.load(path)
        self.assertEqual(caught.exception.path, str(path))


@unittest.skipUnless(importlib.util.find_spec("distributed"), "dask isn't there")
class Dask(unittest.TestCase):
    def counted(self, *words):
        package = pathlib.Path(__file__).parents[1]
        path = f"{os.path.dirname(os.environ.get('GOB', ''))}:{os.environ['PATH']}"
        ran = subprocess.run([sys.executable, package / "examples/dask_values.py", *words], capture_output=True,
                             text=True, check=False, env={**os.environ, "PYTHONPATH": str(package), "PATH": path})
        # (dask has warnings of its own)
        said = [line for line in ran.stderr.splitlines() if any(word in line for word in words)]
        return ran.returncode, sorted(ran.stdout.split()), said

    def test_a_folder_is_counted(self):
        from dask.distributed import Client, LocalCluster

        with tempfile.TemporaryDirectory() as folder, LocalCluster(2, threads_per_worker=1, dashboard_address=None) as \
                two, Client(two) as client:
            self.assertEqual(self.counted(folder), (1, [], [f"dask_values: no file in {folder} ends in .gob"]))
            for name, data in [("a", POINT), ("b", POINT + POINT[32:]), ("c", POINT.replace(b"Point", b"\x1b[31m"))]:
                (pathlib.Path(folder) / f"{name}.gob").write_bytes(data)
            due = sorted(["3", "Point", "1", "\\x1b[31m"])
            self.assertEqual(self.counted(folder), (0, due, []))
            self.assertEqual(self.counted(folder, two.scheduler_address), (0, due, []))
            cut = pathlib.Path(folder) / "d.gob"
            cut.write_bytes(POINT + POINT[32:36])
            due = sorted(["4", "Point", "1", "\\x1b[31m"])
            said = [f"{cut}: refused 22 Ended at 44 seen 44"]
            self.assertEqual(self.counted(folder), (1, due, said))
            self.assertEqual(self.counted(folder, two.scheduler_address), (1, due, said))
            # what a worker sends keeps its nanoseconds
            at = client.submit(gob.load, EVENT + NEAR, opaque=gob.go.known).result()[0]["At"]
            self.assertEqual(at.nanosecond, 123456789)

    @unittest.skipUnless("GOB" in os.environ, "GOB names no program")
    def test_a_large_file_is_split(self):
        with tempfile.TemporaryDirectory() as folder, tempfile.TemporaryDirectory() as parts:
            large = pathlib.Path(folder) / "large.gob"
            large.write_bytes(POINT + 99 * POINT[32:])
            words = "--above", "100", "--parts", parts, folder
            self.assertEqual(self.counted(*words), (0, ["100", "Point"], []))
            large.write_bytes(POINT + 99 * POINT[32:] + POINT[32:36])
            at = len(POINT) + 99 * len(POINT[32:])
            said = [f"{large}: refused 22 Ended at {at + 4} seen {at + 4}"]
            self.assertEqual(self.counted(*words), (1, ["100", "Point"], said))
            self.assertEqual(list(pathlib.Path(parts).iterdir()), [])


class Wheels(unittest.TestCase):
    def test_pip_makes_one_or_is_told_what_is_lacking(self):
        package = pathlib.Path(__file__).parents[1]
        call = "import make_wheel, sys; print(make_wheel.build_wheel(sys.argv[1]))"
        with tempfile.TemporaryDirectory() as folder:
            library = pathlib.Path(folder) / "libgob.so.1"
            for there in (False, True):
                # pip calls from the package's folder, and GOB_LIBRARY is seen from where pip was called
                named = {**os.environ, "GOB_LIBRARY": library.name, "PWD": folder}
                ran = subprocess.run([sys.executable, "-c", call, folder], cwd=package, env=named, capture_output=True,
                                     text=True, check=False)
                self.assertEqual(ran.returncode, 0 if there else 1)
                if not there:
                    self.assertIn("GOB_LIBRARY=OUT/libgob.so.1 pip install bindings/python", ran.stderr)
                    library.write_bytes(b"a library")
            (wheel,) = pathlib.Path(folder).glob("*.whl")
            self.assertEqual(ran.stdout.strip(), wheel.name)
            with zipfile.ZipFile(wheel) as files:
                self.assertEqual(files.read("gob/libgob.so.1"), b"a library")
                self.assertIn("gob/_texts.py", files.namelist())


class Layout(unittest.TestCase):
    @unittest.skipUnless("GOB_LAYOUT" in os.environ, "GOB_LAYOUT names no file")
    def test_structures_are_those_of_the_header(self):
        due = pathlib.Path(os.environ["GOB_LAYOUT"]).read_text().splitlines()
        said = []
        for name in ("Fault", "Limits", "Node", "Item", "Head", "Batch", "Counts", "WriterFault", "Conversion",
                     "LeftOut"):
            made = getattr(gob._library, name)
            said.append(f"{made.__doc__[:-1]} {ctypes.sizeof(made)}")
            for field, _ in made._fields_:
                place = getattr(made, field)
                said.append(f"{made.__doc__[:-1]}.{field} {place.offset} {place.size}")
        self.assertEqual(said, due)


class Lifetimes(unittest.TestCase):
    def test_closed_twice(self):
        reader = gob.Reader()
        reader.feed(POINT[:20])
        reader.close()
        reader.close()
        with self.assertRaisesRegex(ValueError, "closed"):
            reader.feed(POINT)

    def test_references_are_as_before(self):
        piece, options = bytes(POINT), gob.Limits()
        gc.collect()
        before = sys.getrefcount(piece), sys.getrefcount(options), sys.getrefcount(gob.Type)
        for _ in range(100):
            with gob.Reader(limits=options) as reader:
                reader.feed(piece)
                with contextlib.suppress(gob.Refused):
                    reader.feed(b"\x00")
        del reader
        gc.collect()
        self.assertEqual((sys.getrefcount(piece), sys.getrefcount(options), sys.getrefcount(gob.Type)), before)

    def test_left_iterators_let_go(self):
        many = POINT + POINT[32:] * 1000
        for _ in range(200):
            values = gob.iter_values(many, piece=16)
            next(values)
        del values
        gc.collect()

    def test_a_reader_is_let_go_with_its_last_reference(self):
        reader = gob.Reader()
        reader.feed(POINT)
        gone = weakref.ref(reader)
        del reader
        gc.collect()
        self.assertIsNone(gone())

    def test_values_outlive_the_reader(self):
        with gob.Reader() as reader:
            items = reader.feed(POINT)
        del reader
        gc.collect()
        self.assertEqual((items[0][0].name, items[0][1]), ("Point", {"X": 22, "Y": 33}))

    def test_readers_in_threads(self):
        many, counts = POINT + POINT[32:] * 5000, []

        def count():
            counts.append(sum(1 for _ in gob.iter_values(many, piece=777)))

        threads = [threading.Thread(target=count) for _ in range(8)]
        for thread in threads:
            thread.start()
        for thread in threads:
            thread.join()
        self.assertEqual(counts, [5001] * 8)

    def test_a_reader_stays_on_its_thread(self):
        reader = gob.Reader()
        raised = []

        def use():
            for call in (lambda: reader.feed(POINT), reader.finish, reader.close):
                try:
                    call()
                except RuntimeError as error:
                    raised.append(str(error))

        threads = [threading.Thread(target=use) for _ in range(2)]
        for thread in threads:
            thread.start()
        for _ in range(100):
            reader.feed(POINT if not reader.types else POINT[32:] * 100)
        for thread in threads:
            thread.join()
        self.assertEqual(raised, ["a reader stays on the thread that made it"] * 6)
        reader.finish()
        reader.close()

    def test_an_iterator_may_go_on_in_another_thread(self):
        values, given = gob.iter_values(POINT + POINT[32:] * 3, piece=8), []
        for _ in range(5):
            thread = threading.Thread(target=lambda: given.append(next(values, None)))
            thread.start()
            thread.join()
        self.assertEqual(given, [{"X": 22, "Y": 33}] * 4 + [None])

    def test_what_a_call_calls_leaves_the_reader_alone(self):
        stream = (STREAMS / "time.gob").read_bytes()
        for call in (lambda reader: reader.feed(b""), lambda reader: reader.finish(), lambda reader: reader.close()):
            reader = gob.Reader(opaque=lambda value: call(reader))
            with self.assertRaisesRegex(RuntimeError, "isn't over"):
                reader.feed(stream)
            # values were lost, so none that follow are given
            with self.assertRaisesRegex(ValueError, "closed"):
                reader.feed(b"")


if __name__ == "__main__":
    unittest.main()
