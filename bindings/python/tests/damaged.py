"""Damaged streams by the package and by the program: the same values and the same fault, of all that Go writes and of
the documented format alone. GOB names the program.

    python3 tests/damaged.py SEED COUNT
"""
import json
import os
import pathlib
import random
import subprocess
import sys

HERE = pathlib.Path(__file__).resolve().parent
sys.path[:0] = [str(HERE.parent), str(HERE), str(HERE.parents[2] / "tools")]
import damage  # noqa: E402
import gob  # noqa: E402
from test_gob import STREAMS, name_of, natural  # noqa: E402

SIZES = [0, 1, 2, 5, 17, 1000]


def same(one, other):
    """Whether two values are equal, also where they are no numbers."""
    if type(one) is not type(other):
        return False
    if isinstance(one, (float, complex)):
        return repr(one) == repr(other)
    if isinstance(one, dict):
        return list(one) == list(other) and all(same(one[key], other[key]) for key in one)
    if isinstance(one, (list, tuple)):
        return len(one) == len(other) and all(map(same, one, other))
    return one == other


def shown(data, exact):
    """The values and the fault that the program shows."""
    options = [] if exact else ["--go"]
    said = subprocess.run([os.environ["GOB"], "show", *options], input=data, capture_output=True)
    types, values = {}, []
    for line in said.stdout.splitlines():
        row = json.loads(line)
        if "define" not in row:
            # a value of a type of descriptions has fields that no line names
            values.append(natural(row["value"], row["type"], types) if not 16 <= row["type"] < 64 else None)
            continue
        types[row["define"]] = row
        row["name"] = name_of(row["name"])
        row["fields"] = [[name_of(name), type] for name, type in row.get("fields", [])]
    return values, said.stderr.decode().strip()


def pieces(dice, data):
    at = 0
    while at < len(data):
        count = dice.choice(SIZES)
        yield data[at:at + count]
        at += count


def read(dice, data, exact):
    values = []
    try:
        for type, value in gob.iter_items(pieces(dice, data), exact=exact):
            values.append(value if not 16 <= type.id < 64 else None)
    except gob.Refused as refused:
        assert len(gob.loads(data[:refused.begin], exact=exact)) == len(values), data.hex()
        return values, f"gob: {refused}"
    return values, ""


def checked(dice, data, exact):
    """The fault that a check of the stream raises, and how many values are counted in front of it."""
    try:
        return "", gob.check(pieces(dice, data), exact=exact).values
    except gob.Refused as refused:
        return f"gob: {refused}", gob.check(data[:refused.begin], exact=exact).values


def main(seed, count):
    dice, refused = random.Random(seed), 0
    streams = damage.streams(STREAMS) + damage.streams(STREAMS.parent / "filled/streams")
    for number in range(count):
        data, exact = damage.damaged(dice, dice.choice(streams)), number % 3 == 0
        due, given = shown(data, exact), read(dice, data, exact)
        assert given[1] == due[1], (data.hex(), given[1], due[1])
        assert same(given[0], due[0]), (data.hex(), given[0], due[0])
        assert checked(dice, data, exact) == (due[1], len(due[0])), data.hex()
        refused += due[1] != ""
    print(f"{count} streams, {refused} refused: the same values and faults")


if __name__ == "__main__":
    main(int(sys.argv[1]), int(sys.argv[2]))
