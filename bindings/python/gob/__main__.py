"""python -m gob [--zeros] [--types] [--why] [--check] [FILE]: prints the values of a gob stream, one a line."""
from __future__ import annotations

import argparse
import io
import os
import sys

import gob


def _say_types(source: gob.Source) -> None:
    try:
        print(gob.source(source), end="")
    except gob.Refused as refused:
        print(*refused.values, end="")
        raise


def _say_why(source: gob.Source) -> int:
    text = gob.why(source)
    print(text, end="", flush=True)
    return 0 if text.startswith("ok: ") else 1


def main() -> int:
    parser = argparse.ArgumentParser(prog="python -m gob", description="Prints the values of a gob stream, one a line.")
    parser.add_argument("file", nargs="?", help="the file; standard input if none is named")
    parser.add_argument("--zeros", action="store_true", help="show absent fields with their zero values")
    parser.add_argument("--types", action="store_true", help="print the types that the stream defines, as Go source")
    parser.add_argument("--why", action="store_true", help="say where and why the stream is refused")
    parser.add_argument("--check", action="store_true", help="say how many values, types and bytes there are")
    words = parser.parse_args()
    if isinstance(sys.stdout, io.TextIOWrapper):
        sys.stdout.reconfigure(errors="backslashreplace")
    source = words.file or sys.stdin.buffer
    try:
        if words.check:
            print(gob.check(source))
        elif words.types:
            _say_types(source)
        elif words.why:
            return _say_why(source)
        else:
            for value in gob.iter_values(source, zeros=words.zeros, opaque=gob.go.known):
                # as Python writes it, so that no byte of a file tells a terminal what to do
                print(repr(value))
        sys.stdout.flush()
    except gob.Refused as refused:
        sys.stdout.flush()
        print(f"gob: {refused}", file=sys.stderr)
        return 1
    except BrokenPipeError:
        # whoever closed the pipe has what they wanted; so that nothing more is written at the end
        os.dup2(os.open(os.devnull, os.O_WRONLY), sys.stdout.fileno())
        return 2
    except (OSError, MemoryError, RecursionError) as error:
        print(f"gob: {str(error) or 'out of memory'}", file=sys.stderr)
        return 2
    return 0


if __name__ == "__main__":
    sys.exit(main())
