#!/usr/bin/env python3
"""Prints streams with what is due of each, for the tests of the packages: the rows that were worked out by hand, and
damaged streams, by the judge of what Go's encoder writes (judge_filled.py), which shares nothing with the library.

    tools/cases.py SEED COUNT

A stream has a line with `exact`, where the documented format alone is to read it, or `all`; its limits; and its bytes
in hexadecimal. The lines of `gob show` follow, or of `gob show --go`, that of a fault too, and then an empty line.
"""
import random
import sys

import damage
import judge_filled
import rows

FOLDERS = ("interop/streams", "interop/filled/streams")


def case(stream, due, how="all", limits=None):
    print(how, *(limits or judge_filled.STANDARD), stream.hex() or "-")
    print(due)


def by_hand():
    for row in rows.rows():
        if row.wanted is None:
            case(row.stream, row.lines + row.fault, "exact", row.limits)
    for row in rows.rows(f"{rows.ROOT}/interop/filled/rows"):
        case(row.stream, row.lines + row.fault, "all", row.limits)


def damaged(seed, count):
    dice = random.Random(seed)
    whole = [stream for folder in FOLDERS for stream in damage.streams(f"{rows.ROOT}/{folder}")]
    for _ in range(count):
        stream = damage.damaged(dice, dice.choice(whole))
        case(stream, judge_filled.outcome(stream))


if __name__ == "__main__":
    by_hand()
    damaged(int(sys.argv[1]), int(sys.argv[2]))
