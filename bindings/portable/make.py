#!/usr/bin/env python3
"""Puts gob.c together, which with gob.h is the library for any machine: the header raw.h, what the translated code runs
on, that code as wasm2c made it, the exports over it, and the layer of C that the library has everywhere.

    make.py CODE.c CODE.h GOB.c
"""
import pathlib
import re
import sys

HERE = pathlib.Path(__file__).resolve().parent
C = HERE.parent / "c"
HEAD = """/* The library of gob.h @VERSION@ for any little-endian machine: gob.c and gob.h are all of it.
 *
 *     cc -O1 -c gob.c
 *
 * Its reader was proved, and translated to C by way of WebAssembly: bindings/portable in the sources of gob, by wasm2c
 * of wabt. The translation isn't proved. Each reader keeps to a memory of its own, which it can't get out of, and which
 * gob_close gives back. Options are names that the compiler is given, as -DGOB_MEMORY=268435456:
 *
 * GOB_MEMORY: the most bytes of a reader's memory, 4294901760 where nothing is said; beyond it GOB_NO_MEMORY is
 * answered.
 * GOB_GUARD_PAGES: each reader takes 8 GB of addresses, most of which can't be touched, and no access is checked. It
 * asks for mmap and 64 bits.
 * GOB_TRAP(): what is done where the translation is found wrong, abort() where nothing is said. It must not return.
 */
#ifdef GOB_GUARD_PAGES
#define _DEFAULT_SOURCE
#endif
"""
# (wasm2c declares more than it uses)
UNUSED = "#pragma GCC diagnostic push\n" + "".join(
    f'#pragma GCC diagnostic ignored "-Wunused-{what}"\n'
    for what in ["function", "label", "parameter", "variable", "but-set-variable", "but-set-parameter"])


def read(path):
    return pathlib.Path(path).read_text(encoding="utf-8")


def raw_header():
    """raw.h, whose exports this file alone has; what the archive asks of its caller is the translated code's own."""
    text = read(C / "raw.h").replace('#include "gob.h"\n', "")
    text = re.sub("^void gob_raw", "static void gob_raw", text, flags=re.M)
    return re.sub("\n/\\* What the archive asks of its caller.*(?=\n#endif)", "", text, flags=re.S)


def translated(code, header):
    """The functions that wasm2c made, all of this file's own, without what it has for every module."""
    code = code[code.index("static void init_func_types("):]
    code = code[code.index("\n}\n") + 3:]
    code = code[:code.index("void Z_gob_init_module")] + code[code.index("void Z_gob_instantiate"):]
    code = re.sub("\n(/\\*[^\n]*\\*/\n)?[^\n]* Z_gob(Z_memory|_free)\\([^\n]*{\n.*?\n}\n", "\n", code, flags=re.S)
    code = re.sub(" *assert\\(.*\n", "", code)
    code = re.sub("^(void|u32|u64|f64) Z_gob", r"static \1 Z_gob", code, flags=re.M)
    instance = re.search("typedef struct Z_gob_instance_t {.*?} Z_gob_instance_t;\n", header, re.S)[0]
    named = (instance + code).replace("Z_gob_instance_t", "code").replace("Z_gob_instantiate", "code_begin")
    return f"{UNUSED}{named.replace('Z_gobZ_', 'code_')}\n#pragma GCC diagnostic pop\n"


def main(code, header, out):
    version = re.search('^#define GOB_VERSION "(.*)"$', read(C / "gob.h"), re.M)[1]
    exports = re.sub("^void gob_raw", "static void gob_raw", read(HERE / "sandbox.c"), flags=re.M)
    parts = [raw_header(), read(HERE / "machine.c"), translated(read(code), read(header)), exports, read(C / "gob.c")]
    body = re.sub('#include "(raw|gob)\\.h"\n', "", "\n".join(parts))
    whole = HEAD.replace("@VERSION@", version) + '#include "gob.h"\n\n' + body
    pathlib.Path(out).write_text(whole, encoding="utf-8")


if __name__ == "__main__":
    if len(sys.argv) != 4:
        sys.exit(__doc__)
    main(*sys.argv[1:])
