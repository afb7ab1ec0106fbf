"""Counts the values of a folder of gob streams by their types, over the cores of this machine or of a cluster.

    python3 dask_values.py [--above SIZE] [--parts DIR] FOLDER [SCHEDULER]

FOLDER's files end in .gob; each is read as one task, in bounded memory. Where the program gob is on the path, a stream
of more than SIZE bytes (64M unless said otherwise; K, M and G are units of 1024) is split first, and each part is a
task: the parts stand in a new folder in DIR, or in the system's place for such, until all is counted. SCHEDULER is the
address of a dask scheduler, as tcp://host:8786, whose workers have the package and see FOLDER and DIR; without one the
processes of this machine are taken. A file that is no stream, or isn't read, is named, with what it has before the
fault counted. The status is 0 where all of each file was counted, 1 where there is a fault or no file.
"""
import argparse
import collections
import pathlib
import shutil
import subprocess
import sys
import tempfile

import dask.bag
import gob

UNITS = {"K": 1 << 10, "M": 1 << 20, "G": 1 << 30}


def size_of(text):
    """The bytes that a size says: 64M are 64 times 1024 times 1024."""
    number, unit = (text[:-1], UNITS[text[-1]]) if text[-1:] in UNITS else (text, 1)
    return int(number) * unit


def parts_of(path, above, room):
    """The files to be read in place of this one: its parts, or itself where it is small or isn't split."""
    if not path.is_file() or path.stat().st_size <= above or shutil.which("gob") is None:
        return [path]
    room.mkdir()
    split = subprocess.run(["gob", "split", "--size", str(above), path, room], stderr=subprocess.DEVNULL, check=False)
    # (what is wrong with it is said by who reads it)
    return [path] if split.returncode else sorted(room.iterdir())


def counts(path):
    """How many values of each type a file has, and its fault, if it has one."""
    found = collections.Counter()
    try:
        for type, _ in gob.iter_items(path):
            found[type.name or type.kind] += 1
    except (gob.Refused, OSError, MemoryError, RecursionError) as fault:
        return found, [f"{path}: {str(fault) or 'out of memory'}"]
    return found, []


def both(one, other):
    return one[0] + other[0], one[1] + other[1]


def counted(files, scheduler):
    """What all of these files have, and their faults."""
    bag = dask.bag.from_sequence([str(path) for path in files], npartitions=len(files))
    total = bag.map(counts).fold(both, initial=(collections.Counter(), []))
    if scheduler is None:
        return total.compute(scheduler="processes")
    from dask.distributed import Client

    with Client(scheduler):
        return total.compute()


def escaped(text):
    """The text without what a terminal would obey, since names of types come from the files."""
    return "".join(mark if mark.isprintable() else repr(mark)[1:-1] for mark in text)


def main(words):
    paths = sorted(pathlib.Path(words.folder).glob("*.gob"))
    if not paths:
        print(f"dask_values: no file in {words.folder} ends in .gob", file=sys.stderr)
        return 1
    with tempfile.TemporaryDirectory(dir=words.parts, prefix="gob-parts-") as room:
        parts = [parts_of(path, words.above, pathlib.Path(room, str(at))) for at, path in enumerate(paths)]
        found, faults = counted([file for files in parts for file in files], words.scheduler)
    for name, count in found.most_common():
        print(f"{count:10} {escaped(name)}")
    for fault in faults:
        print(escaped(fault), file=sys.stderr)
    return 1 if faults else 0


def read_words():
    words = argparse.ArgumentParser(description=__doc__, formatter_class=argparse.RawDescriptionHelpFormatter)
    words.add_argument("--above", type=size_of, default="64M", metavar="SIZE", help="a file of more bytes is split")
    words.add_argument("--parts", metavar="DIR", help="where the parts stand")
    words.add_argument("folder", metavar="FOLDER")
    words.add_argument("scheduler", nargs="?", metavar="SCHEDULER")
    return words.parse_args()


if __name__ == "__main__":
    sys.exit(main(read_words()))
