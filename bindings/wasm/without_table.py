#!/usr/bin/env python3
"""Drops the section of tables from a module, which wasm-opt would leave with numbers of 64 bits.

    without_table.py MODULE.wasm OUT.wasm

No function is called through a table.
"""
import pathlib
import sys

TABLES = 4  # the number of their section


def number(data, at):
    """The number that stands at the place, and where it ends."""
    value = shift = 0
    while True:
        byte = data[at]
        at += 1
        value |= (byte & 127) << shift
        shift += 7
        if byte < 128:
            return value, at


def without_table(data):
    out, at = data[:8], 8
    while at < len(data):
        size, start = number(data, at + 1)
        if data[at] != TABLES:
            out += data[at:start + size]
        at = start + size
    return out


if __name__ == "__main__":
    if len(sys.argv) != 3:
        sys.exit(__doc__)
    pathlib.Path(sys.argv[2]).write_bytes(without_table(pathlib.Path(sys.argv[1]).read_bytes()))
