"""Lines of streams, streams of lines, and streams that are converted."""
import dataclasses
import io
import json
import os
import pathlib
import pickle
import tempfile
import threading
import time
import unittest

import gob

STREAMS = pathlib.Path(os.environ.get("GOB_STREAMS", pathlib.Path(__file__).parents[3] / "interop/streams"))
FILLED = STREAMS.parent / "filled/streams"
POINT = bytes.fromhex("1fff8103010105506f696e7401ff82000102010158010400010159010400000007ff82012c014200")
LINES = """{"define":65,"fields":[["X",2],["Y",2]],"kind":"struct","name":"Point"}
{"type":65,"value":[[0,"X",22],[1,"Y",33]]}
"""


@dataclasses.dataclass
class Line:
    Y: int
    Z: float = 0.0


class StreamsTest(unittest.TestCase):
    def test_lines(self):
        self.assertEqual(gob.lines(POINT), LINES)
        self.assertEqual(gob.lines(io.BytesIO(POINT)), LINES)
        self.assertEqual(gob.lines(b""), "")
        with self.assertRaises(gob.Refused) as caught:
            gob.lines(POINT[:36])
        self.assertEqual((caught.exception.reason, caught.exception.values),
                         (gob.Reason.Ended, [LINES.splitlines(True)[0]]))
        with self.assertRaises(gob.Refused):
            gob.lines(POINT, limits=gob.Limits(item=1))
        with self.assertRaisesRegex(ValueError, "limits"):
            gob.lines(POINT, limits=gob.Limits(depth=0))

    def test_lines_are_written_again(self):
        paths = [*STREAMS.glob("*.gob"), *FILLED.glob("*.gob")]
        self.assertTrue(paths)
        for path in paths:
            try:
                text = gob.lines(path)
            except gob.Refused as refused:
                text = refused.values[0]
            data = gob.from_lines(text)
            self.assertEqual(gob.lines(data), text, path)

    def test_lines_are_changed(self):
        rows = [json.loads(line) for line in gob.lines(POINT).split("\n") if line]
        rows[1]["value"][0][2] = 7
        self.assertEqual(gob.loads(gob.from_lines(rows + rows[1:])), [{"X": 7, "Y": 33}] * 2)
        self.assertEqual(gob.from_lines(LINES.splitlines()), POINT)
        self.assertEqual(gob.from_lines(row for row in rows if "define" in row), POINT[:32])
        self.assertEqual(gob.from_lines([]), b"")

    def test_wrong_lines(self):
        for line, due in [('{"type":65,"value":[[0,"X",true]]}', (3, 28, ".X")), ('{"type":65', (3, 11, "")),
                          ('{"type":66,"value":1}', (3, 0, ""))]:
            with self.assertRaises(gob.BadLine, msg=line) as caught:
                gob.from_lines(LINES + line)
            fault = caught.exception
            self.assertEqual((fault.line, fault.column, fault.path), due, fault)
            self.assertEqual(fault.data, POINT)
            self.assertEqual(str(pickle.loads(pickle.dumps(fault))), str(fault))
        self.assertTrue(issubclass(gob.BadLine, gob.Error) and issubclass(gob.Clash, gob.Error))

    def test_values_are_converted(self):
        source = "type Line struct { Y int; Z float64 }"
        data = gob.convert(POINT, source)
        self.assertEqual(gob.loads(data, zeros=True), [{"Y": 33, "Z": 0.0}])
        self.assertEqual(gob.convert(POINT, Line), data)
        self.assertEqual(gob.convert(POINT, data), data)
        self.assertEqual(gob.convert(io.BytesIO(POINT), f"type N int\n{source}", "Line"), data)
        self.assertEqual(gob.convert(POINT, POINT, type="Point"), POINT)
        self.assertEqual(gob.convert(b"", POINT), POINT[:32])
        with tempfile.TemporaryDirectory() as room:
            path = pathlib.Path(room, "types.go")
            path.write_text(source)
            self.assertEqual(gob.convert(POINT, path), data)

    def test_fields_are_renamed(self):
        for rename in ({"X": "Z"}, ["X=Z"], ("Line.X=Z",), iter(["X=Z"])):
            data = gob.convert(POINT, "type Line struct { Y, Z int }", rename=rename, all=True)
            self.assertEqual(gob.loads(data), [{"Y": 33, "Z": 22}])
        swapped = gob.convert(POINT, POINT, rename={"T": "X", "X": "Y", "Y": "T"})
        self.assertEqual(gob.loads(swapped), [{"X": 33, "Y": 22}])
        self.assertEqual(gob.convert(POINT, POINT, rename={}), POINT)
        for rename, due in [({"X": "W"}, "rename X=W: the wanted type has no field W"),
                            ({"Z": "Y"}, "rename Z=Y: .* one of the old name beside it"),
                            (["XZ"], "rename XZ: no = between two names"), (["X="], "a name is empty"),
                            (["\udcff=Z"], "a rename isn't UTF-8"), (["X=Z\0"], "NUL")]:
            with self.assertRaisesRegex(gob.BadTypes, due):
                gob.convert(POINT, "type Line struct { Y, Z int }", rename=rename)
        for rename in ("X=Z", b"X=Z", [b"X=Z"]):
            self.assertRaises(TypeError, gob.convert, POINT, POINT, rename=rename)

    def test_what_is_left_out(self):
        told = []
        data = gob.convert(POINT + POINT[32:], Line, left_out=told.append)
        self.assertEqual(told, ["left out .X of 2 values: it isn't wanted"])
        self.assertEqual(gob.loads(data), [{"Y": 33}] * 2)
        gob.convert(POINT, POINT, left_out=told.append)
        with self.assertRaises(gob.Refused):
            gob.convert(POINT + b"\1", Line, left_out=told.append)
        self.assertEqual(told[1:], ["left out .X of 1 value: it isn't wanted"])
        with self.assertRaises(gob.LeftOut) as caught:
            gob.convert(POINT[:32] + bytes.fromhex("05ff8202420005ff82012c00"), Line, all=True, left_out=told.append)
        fault = caught.exception
        self.assertEqual((fault.path, fault.index, gob.loads(fault.data)), (".X", 1, [{"Y": 33}]))
        self.assertEqual(str(pickle.loads(pickle.dumps(fault))), "value 1 has .X, which isn't wanted")
        self.assertEqual(len(told), 2)
        fields = [f"F{at:04}{'x' * 200}" for at in range(30)]
        wide = gob.dumps([{name: 1 for name in fields}], f"type Wide struct {{ {', '.join(fields)} int }}")
        gob.convert(wide, f"type Wide struct {{ {fields[0]} int }}", left_out=told.append)
        self.assertEqual(told[2], f"left out .{fields[1]} of 1 value, "
                         + ", ".join(f".{name} of 1" for name in fields[2:21]) + ", and 9 more: they aren't wanted")

    def test_what_interfaces_hold_goes_along(self):
        paths = [*FILLED.glob("*.gob")]
        self.assertTrue(paths)
        for path in paths:
            try:
                data = gob.convert(path, path)
            except gob.Clash as clash:
                data = clash.data
            made = gob.load(data)
            self.assertTrue(made, path)
            self.assertEqual(repr(made), repr(gob.load(path)[:len(made)]), path)

    def test_what_is_not_converted(self):
        with self.assertRaises(gob.Clash) as caught:
            gob.convert(POINT, "type Line struct { Y string }")
        fault = caught.exception
        self.assertEqual((fault.reason, fault.path), ("DifferentKind", ".Y"))
        self.assertEqual(gob.loads(fault.data), [])
        self.assertEqual((fault.index, fault.found, fault.wanted), (0, "int", "string"))
        self.assertEqual(str(pickle.loads(pickle.dumps(fault))),
                         "DifferentKind at .Y in value 0: int, where string is wanted")
        with self.assertRaises(gob.Clash) as caught:
            gob.convert(POINT, "type Line struct { Z int }")
        fault = caught.exception
        self.assertEqual((fault.reason, fault.path, fault.index, fault.found), ("NoCommonField", "top", 0, ""))
        name = "Y: value 3 has an int there, and a map is wanted"
        with self.assertRaises(gob.Clash) as caught:
            gob.convert(self.named(name, 2), self.named(name, 6))
        fault = caught.exception
        self.assertEqual((fault.path, fault.index, fault.found, fault.wanted), ("." + name, 0, "int", "string"))
        with self.assertRaises(gob.Clash) as caught:
            gob.convert(self.named("Y" * 500, 2), self.named("Y" * 500, 6))
        self.assertTrue(caught.exception.path.startswith(".YYY") and caught.exception.index is None)
        for types, name, words in [("type", None, "line 1"), ("type A int", "B", "declared"), (b"\0", None, "refused"),
                                   (POINT[:32], None, "NoWantedType"), (POINT, "Line", "no type"),
                                   (POINT, "Point\0", "NUL")]:
            with self.assertRaisesRegex(gob.BadTypes, words):
                gob.convert(POINT, types, name)
        with self.assertRaises(gob.Refused) as caught:
            gob.convert(POINT + b"\1", "type Point struct { X, Y int }")
        self.assertEqual((caught.exception.place, caught.exception.values), (41, [POINT]))
        with self.assertRaisesRegex(ValueError, "limits"):
            gob.convert(POINT, POINT, limits=gob.Limits(depth=0))

    def named(self, name, id):
        """A value of a struct with a field of the name, of a basic type."""
        return gob.from_lines([{"define": 65, "kind": "struct", "name": "P", "fields": [[name, id]]},
                               {"type": 65, "value": []}])

    def test_hostile_texts_end_soon(self):
        many = 1_000_000
        deep = '{"type":65,"value":' + "[" * many
        wide = LINES + '{"type":65,"value":[' + ",".join(f'[{at},"X",0]' for at in range(many // 10)) + "]}"
        long_name = LINES.replace("Point", "P" * many)
        for text in (deep, "{" * many, wide, '{"define":65,"fields":[' + '["X",2],' * (many // 10), '"' + "\\" * many):
            self.assert_soon(lambda text=text: self.assertRaises(gob.BadLine, gob.from_lines, text))
        self.assert_soon(lambda: self.assertEqual(gob.lines(gob.from_lines(long_name)), long_name))
        for types in ("type A " + "[]" * many + "int", "type A struct {" * (many // 10), "type " + "A" * many, "/*" * many):
            self.assert_soon(lambda types=types: self.assertRaises(gob.BadTypes, gob.convert, POINT, types))
        repeated = "type A struct { " + "X int; " * (many // 10) + "}"
        self.assert_soon(lambda: self.assertRaises(gob.Clash, gob.convert, POINT, repeated))

    def assert_soon(self, call):
        began = time.process_time()
        call()
        self.assertLess(time.process_time() - began, 5)

    def test_in_threads(self):
        made = []

        def make():
            for _ in range(50):
                narrow, same = gob.convert(POINT, Line), gob.convert(POINT, POINT)
                made.append((gob.lines(POINT), gob.from_lines(LINES), narrow, same))

        threads = [threading.Thread(target=make) for _ in range(4)]
        for thread in threads:
            thread.start()
        for thread in threads:
            thread.join()
        self.assertEqual(len(made), 200)
        self.assertEqual({it[:2] + (gob.loads(it[2])[0]["Y"], it[3]) for it in made}, {(LINES, POINT, 33, POINT)})


if __name__ == "__main__":
    unittest.main()
