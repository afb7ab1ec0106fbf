#!/usr/bin/env python3
"""Reads interop/rows: streams worked out by hand, and what comes of each.

    tools/rows.py FOLDER

    tools/rows.py --ends STREAM

The first writes for each row a folder in it, with the name of the row (name), its stream (gob), the lines that are due (lines), the line of
the fault (fault), what it is rewritten as (tidy), and the wanted stream where there is one (wanted).
The second prints the offset at which each item of the stream ends, as its count announces it.
"""
import os
import re
import sys
from collections import namedtuple

ROOT = os.path.dirname(os.path.dirname(os.path.realpath(__file__)))

# `wanted` is None where the stream is shown as it stands, and `limits` where it is under the standard ones
Row = namedtuple("Row", "name stream lines fault tidy wanted limits")


def rows(path=f"{ROOT}/interop/rows"):
    """Yields the rows of this file."""
    named = {}

    def bytes_of(words):
        return b"".join(named[word] if word in named else bytes.fromhex(word) for word in words.split())

    with open(path, encoding="utf-8") as file:
        blocks = file.read().split("\n\n")
    for block in blocks:
        texts = [text for text in block.splitlines() if not text.startswith("#")]
        if texts and re.match("[A-Z_]+ =", texts[0]):
            for name, words in (text.split(" =", 1) for text in texts):
                named[name] = bytes_of(words)
        elif texts:
            yield row_of(texts, bytes_of)


def row_of(texts, bytes_of):
    """Returns the row of these texts: its name, its bytes, and what comes of it."""
    name, stream, *others = texts
    marked = {mark: bytes_of(words) for mark, words in (text.split(": ", 1) for text in others if text.startswith(("wanted:", "tidy:")))}
    limits = [tuple(map(int, text.split()[1:])) for text in others if text.startswith("limits: ")]
    return Row(
        name,
        bytes_of(stream),
        "".join(f"{text}\n" for text in others if text.startswith("{")),
        "".join(f"{text}\n" for text in others if text.startswith("gob: ")),
        marked.get("tidy", bytes_of(stream)),
        marked.get("wanted"),
        limits[0] if limits else None,
    )


def ends(stream):
    """Yields the offset at which each item ends."""
    at = 0
    while at < len(stream):
        head = stream[at]
        digits = 0 if head < 128 else 256 - head
        at += 1 + digits
        at += head if head < 128 else int.from_bytes(stream[at - digits : at], "big")
        yield at


def main():
    if sys.argv[1] == "--ends":
        with open(sys.argv[2], "rb") as file:
            print(*ends(file.read()), sep="\n")
        return
    for number, row in enumerate(rows()):
        folder = f"{sys.argv[1]}/{number:03}"
        os.makedirs(folder)
        parts = {"name": row.name, "gob": row.stream, "lines": row.lines, "fault": row.fault, "tidy": row.tidy, "wanted": row.wanted}
        for part, content in parts.items():
            if content is not None:
                with open(f"{folder}/{part}", "wb") as file:
                    file.write(content if isinstance(content, bytes) else content.encode())


if __name__ == "__main__":
    main()
