#!/usr/bin/env python3
"""Damages the streams of interop/ by chance, and compares what the C library makes of each with what the program prints.

    mutants.py VECTORS GOB SEED COUNT

VECTORS is vectors.c, compiled with sanitizers where there are any, and GOB the program. How each stream ends, and what
there is in it, is compared with `gob verify`, which is told of many files at once; the lines of one in ten with
`gob show --go`, which starts anew for each. Of each the first line of what is said of it is compared too.
"""
import os
import pathlib
import random
import struct
import subprocess
import sys
import tempfile

ROOT = pathlib.Path(__file__).resolve().parents[3]
sys.path.insert(0, str(ROOT / "tools"))
import damage  # noqa: E402

AT_A_TIME, SHOWN, LINES_OF = 2000, 10, 10
# to keep much of what was freed takes half of the time
SANITIZED = {"ASAN_OPTIONS": "quarantine_size_mb=1:malloc_context_size=4", **os.environ}


def mutants(seed, count):
    dice = random.Random(seed)
    whole = [path.read_bytes() for path in sorted((ROOT / "interop").rglob("*.gob"))]
    for _ in range(count):
        stream = damage.damaged(dice, dice.choice(whole))
        yield stream, dice.choice([1, 2, 7, 64, 65536]), dice.choice([1, 3, 64, 65536])


def told_by_library(vectors, some):
    """What the library makes of each: the lines of its items and of a fault, and what is said of it."""
    words = [struct.pack(">7Q", *damage.STANDARD, first, other, len(stream)) + stream for stream, first, other in some]
    ran = subprocess.run([vectors, "all"], input=b"".join(words), capture_output=True, env=SANITIZED)
    if ran.returncode:
        sys.exit(f"mutants: {vectors} ended with {ran.returncode}\n{ran.stderr.decode()[:2000]}")
    return [text.split("\n") for text in ran.stdout.decode().split("\n\n")[:-1]]


def told_by_program(gob, files):
    """How each of the files ends, as `gob verify` says it."""
    ran = subprocess.run([gob, "verify", *files], capture_output=True, text=True)
    return [line.partition(": ")[2] for line in ran.stdout.splitlines()]


def lines_of(gob, file):
    ran = subprocess.run([gob, "show", "--go", file], capture_output=True, text=True)
    return ran.stdout.splitlines() + [line for line in ran.stderr.splitlines() if line.startswith("gob: refused ")]


def differing(vectors, gob, some, folder, number):
    """The streams of which the library and the program tell other things, each with both."""
    files = []
    for place, (stream, _, _) in enumerate(some):
        files.append(f"{folder}/{place}")
        pathlib.Path(files[-1]).write_bytes(stream)
    made, due = told_by_library(vectors, some), told_by_program(gob, files)
    if not len(made) == len(due) == len(some):
        sys.exit(f"mutants: {len(some)} streams, of which the library tells of {len(made)} and the program of {len(due)}")
    for place, (stream, _, _) in enumerate(some):
        # the last two lines say how the check ends and how what is said begins
        *lines, checked, said = made[place]
        wanted = due[place]
        is_so = said == wanted and checked == (wanted if wanted.startswith("ok: ") else f"gob: {wanted}")
        if is_so and (number + place) % LINES_OF == 0:
            shown = lines if wanted.startswith("ok: ") else [*lines, checked]
            wanted = lines_of(gob, files[place])
            is_so = shown == wanted
        if not is_so:
            yield stream, made[place], wanted


def main(vectors, gob, seed, count):
    every, wrong = list(mutants(int(seed), int(count))), 0
    with tempfile.TemporaryDirectory() as folder:
        for number in range(0, len(every), AT_A_TIME):
            for stream, made, due in differing(vectors, gob, every[number:number + AT_A_TIME], folder, number):
                wrong += 1
                if wrong <= SHOWN:
                    print(f"mutants: {stream.hex(' ')}\n  the library: {made}\n  the program: {due}")
    print(f"{len(every)} mutants, {wrong} differed")
    sys.exit(wrong > 0)


if __name__ == "__main__":
    main(*sys.argv[1:])
