#!/usr/bin/env python3
"""Damages streams by chance, always the same way for the same seed.

    tools/damage.py SEED COUNT FOLDER

writes to standard output so many damaged streams of those in FOLDER, as crates/gob_show_many reads them: each with
limits and how it is cut.
"""
import pathlib
import random
import struct
import sys

STANDARD = (67108864, 1000, 10000, 68719476736)


def damaged(dice, stream):
    """The stream with one to three bytes changed, and now and then cut off."""
    data = bytearray(stream)
    for _ in range(dice.randrange(1, 4)):
        data[dice.randrange(len(data))] = dice.choice([0, 1, 2, 0x7F, 0x80, 0xFF, dice.randrange(256)])
    if dice.random() < 0.2:
        del data[dice.randrange(1, len(data) + 1):]
    return bytes(data)


def streams(folder):
    """The streams of the folder, in the order of their names."""
    return [path.read_bytes() for path in sorted(pathlib.Path(folder).glob("*.gob"))]


def main(seed, count, folder):
    dice, whole = random.Random(int(seed)), streams(folder)
    for _ in range(int(count)):
        stream = damaged(dice, dice.choice(whole))
        item, depth, types, length = STANDARD
        if dice.random() < 0.3:
            item, depth, types = dice.choice([20, 60, item]), dice.choice([1, 2, 3, depth]), dice.choice([0, 1, types])
        first, other = dice.choice([1, 2, 7, 64, 65536]), dice.choice([1, 3, 64, 65536])
        sys.stdout.buffer.write(struct.pack(">7Q", item, depth, types, length, first, other, len(stream)) + stream)


if __name__ == "__main__":
    main(*sys.argv[1:])
