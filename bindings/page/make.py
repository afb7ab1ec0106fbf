#!/usr/bin/env python3
"""Puts the page together: its text, its style, its scripts, the translated library and the examples, in one file.

    make.py MODULE.wasm PAGE.html
"""
import base64
import hashlib
import pathlib
import re
import sys

HERE = pathlib.Path(__file__).resolve().parent
ROOT = HERE.parents[1]
# what the page and its worker both have, and what the page alone has
SHARED = ["texts.js", "types.js", "lines.js", "library.js", "said.js", "known.js", "find.js", "stream.js"]
PAGE = ["tree.js", "bytes.js", "files.js", "search.js", "keys.js", "page.js"]
EXAMPLES = {
    "two logins": "examples/logins.gob",
    "lists of points and texts": "interop/streams/lists.gob",
    "a damaged file": "examples/damaged.gob",
}


def encoded(data):
    return base64.b64encode(data).decode()


def script(names):
    """The text of these scripts. It stands in a page, so it must not end its element."""
    text = "".join((HERE / "src" / name).read_text(encoding="utf-8") for name in names)
    if "</script" in text:
        raise ValueError("a script ends its element")
    return f'"use strict";\n{text}'


def sum_of(text):
    return f"'sha256-{encoded(hashlib.sha256(text.encode()).digest())}'"


def examples():
    rows = [f'["{name}", "{path.rsplit("/", 1)[-1]}", "{encoded((ROOT / path).read_bytes())}"]'
            for name, path in EXAMPLES.items()]
    return "const EXAMPLES = [\n    " + ",\n    ".join(rows) + ",\n];\n"


def version():
    project = (ROOT / "bindings/python/pyproject.toml").read_text(encoding="utf-8")
    return re.search('^version = "(.*)"$', project, re.M)[1]


def page(module):
    """The page's text. Its rules let it run these scripts and no others, and fetch nothing."""
    shared, own = script(SHARED), script(PAGE).replace("const EXAMPLES = [];\n", examples())
    style = (HERE / "src/page.css").read_text(encoding="utf-8")
    rules = f"default-src 'none'; script-src {sum_of(shared)} {sum_of(own)} 'wasm-unsafe-eval'; worker-src blob:; " \
        f"style-src {sum_of(style)}; base-uri 'none'; form-action 'none'"
    parts = {"RULES": rules, "STYLE": style, "SHARED": shared, "OWN": own}
    parts |= {"MODULE": encoded(module), "VERSION": version()}
    return re.sub("@([A-Z]+)@", lambda found: parts[found[1]], (HERE / "src/page.html").read_text(encoding="utf-8"))


if __name__ == "__main__":
    if len(sys.argv) != 3:
        sys.exit(__doc__)
    pathlib.Path(sys.argv[2]).write_text(page(pathlib.Path(sys.argv[1]).read_bytes()), encoding="utf-8")
