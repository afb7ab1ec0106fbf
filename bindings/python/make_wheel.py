#!/usr/bin/env python3
"""Makes a wheel of the package with the library inside, and a source distribution, by nothing but Python's own modules:

    make_wheel.py LIBGOB.SO.1 FOLDER [LABEL]

    make_wheel.py --sdist PORTABLE FOLDER

The library needs glibc 2.14 and x86-64-v2, so the wheel's tag is manylinux2014_x86_64. `pip install --no-index` takes
it. With LABEL the version is 0.1.0+LABEL. PORTABLE is what bindings/portable/build made; the source distribution has
gob.c and gob.h from there, and stands alone.

`pip install` of the folder of this file makes a wheel too: of the library that GOB_LIBRARY names; else, by the C
compiler that CC names or cc, of gob.c and gob.h, which are beside this file or where GOB_PORTABLE says.
"""
import base64
import gzip
import hashlib
import io
import os
import pathlib
import re
import shlex
import subprocess
import sys
import sysconfig
import tarfile
import tempfile
import zipfile

HERE = pathlib.Path(__file__).resolve().parent
NAME, TAG = "gobstream", "py3-none-manylinux2014_x86_64"
VERSION = re.search('^version = "(.*)"$', (HERE / "pyproject.toml").read_text(), re.M)[1]
LACKING = """gobstream: there is no library to put into the package, and no source of one. They are made from the top
of the repository, the first two of proved code, the third of code of which nothing is proved:

    bindings/c/build OUT            GOB_LIBRARY=OUT/libgob.so.1 pip install bindings/python
    bindings/portable/build OUT     GOB_PORTABLE=OUT pip install bindings/python
    tools/first-look OUT            GOB_LIBRARY=OUT/libgob.so.1 pip install bindings/python
"""


def metadata(version):
    return (
        f"Metadata-Version: 2.1\nName: {NAME}\nVersion: {version}\n"
        "Summary: Reads Go's gob streams exactly, without the Go types\nRequires-Python: >=3.9\n"
    ).encode()


def path_of(variable, default):
    """The path that the variable names; pip calls from the folder of this file."""
    named = os.environ.get(variable)
    return pathlib.Path(os.environ.get("PWD", ""), named) if named else default


def build_wheel(folder, config_settings=None, metadata_directory=None):
    """What pip calls. It gives the wheel's name."""
    library, portable = path_of("GOB_LIBRARY", None), path_of("GOB_PORTABLE", HERE)
    if library is None and (portable / "gob.c").is_file():
        with tempfile.TemporaryDirectory() as room:
            return make(compiled(portable, room), folder, tag=f"py3-none-{platform()}").name
    if library is None or not library.is_file():
        sys.exit(LACKING)
    return make(library, folder).name


def build_sdist(folder, config_settings=None):
    """What `python -m build` calls. It gives the archive's name."""
    portable = path_of("GOB_PORTABLE", HERE)
    if not (portable / "gob.c").is_file():
        sys.exit(LACKING)
    return make_sdist(portable, folder).name


def platform():
    return re.sub("[-.]", "_", sysconfig.get_platform())


def compiled(portable, room):
    """The library that the C compiler makes of gob.c."""
    library = pathlib.Path(room) / "libgob.so.1"
    words = [*shlex.split(os.environ.get("CC", "cc")), *shlex.split(os.environ.get("CFLAGS", "-O1"))]
    words += ["-std=c99", "-fPIC", "-fvisibility=hidden", "-shared", str(portable / "gob.c"), "-o", str(library)]
    if subprocess.run(words, check=False).returncode != 0:
        sys.exit(f"gobstream: {shlex.join(words)} failed: install a C compiler, or name one by CC")
    return library


def make(library, folder, label=None, tag=TAG):
    version = VERSION if label is None else f"{VERSION}+{label}"
    files = {f"gob/{path.name}": path.read_bytes() for path in sorted((HERE / "gob").glob("*.py"))}
    files["gob/py.typed"] = b""
    files["gob/libgob.so.1"] = pathlib.Path(library).read_bytes()
    info = f"{NAME}-{version}.dist-info"
    files[f"{info}/METADATA"] = metadata(version)
    files[f"{info}/WHEEL"] = f"Wheel-Version: 1.0\nGenerator: make_wheel\nRoot-Is-Purelib: false\nTag: {tag}\n".encode()
    rows = []
    for name, data in files.items():
        digest = base64.urlsafe_b64encode(hashlib.sha256(data).digest()).rstrip(b"=").decode()
        rows.append(f"{name},sha256={digest},{len(data)}\n")
    files[f"{info}/RECORD"] = ("".join(rows) + f"{info}/RECORD,,\n").encode()
    path = pathlib.Path(folder) / f"{NAME}-{version}-{tag}.whl"
    with zipfile.ZipFile(path, "w", zipfile.ZIP_DEFLATED) as wheel:
        for name, data in files.items():
            wheel.writestr(zipfile.ZipInfo(name), data, zipfile.ZIP_DEFLATED)
    return path


def make_sdist(portable, folder):
    top = f"{NAME}-{VERSION}"
    files = {"PKG-INFO": metadata(VERSION), "gob/py.typed": b""}
    for path in [HERE / "README.md", HERE / "make_wheel.py", HERE / "pyproject.toml", *(HERE / "gob").glob("*.py")]:
        files[path.relative_to(HERE).as_posix()] = path.read_bytes()
    for name in ["gob.c", "gob.h"]:
        files[name] = (pathlib.Path(portable) / name).read_bytes()
    path, time = pathlib.Path(folder) / f"{top}.tar.gz", int(os.environ.get("SOURCE_DATE_EPOCH", 0))
    with open(path, "wb") as file, gzip.GzipFile("", "wb", fileobj=file, mtime=time) as packed, \
            tarfile.open(fileobj=packed, mode="w", format=tarfile.PAX_FORMAT) as archive:
        for name, data in sorted(files.items()):
            member = tarfile.TarInfo(f"{top}/{name}")
            member.size, member.mtime = len(data), time
            archive.addfile(member, io.BytesIO(data))
    return path


if __name__ == "__main__":
    if len(sys.argv) == 4 and sys.argv[1] == "--sdist":
        print(make_sdist(*sys.argv[2:]))
    elif len(sys.argv) in (3, 4) and sys.argv[1] != "--sdist":
        print(make(*sys.argv[1:]))
    else:
        sys.exit(__doc__)
