"""Compiles num_format._native, a module over the static library libnum_format_c.a.

The library is the first of these that is there:

1. the file that the environment variable NUM_FORMAT_LIBRARY names;
2. libnum_format.a of the package `num_format`, where pkg-config knows it;
3. crates/num_format_c/out/libnum_format_c.a of this repository.

The header num_format.h of a library that is not of pkg-config is beside it, in the folder above, or in `include`
there.
"""
import os
import shutil
import subprocess
import sysconfig
from pathlib import Path

from setuptools import Extension

HERE = Path(__file__).resolve().parent
BUILT = HERE.parents[1] / "crates" / "num_format_c" / "out" / "libnum_format_c.a"

ADVICE = f"""\
Build it by `tools/build library`, or set NUM_FORMAT_LIBRARY to its path. Looked for:
1. the file that the environment variable NUM_FORMAT_LIBRARY names
2. libnum_format.a of the package num_format, by pkg-config
3. {BUILT}"""

def installed():
    """The library that pkg-config knows, and the folder of its header; None if it knows none."""
    if shutil.which("pkg-config") is None:
        return None
    words = ["pkg-config", "--variable=libdir", "num_format"], ["pkg-config", "--variable=includedir", "num_format"]
    ended = [subprocess.run(line, check=False, capture_output=True, text=True) for line in words]
    if any(each.returncode for each in ended):
        return None
    libdir, includedir = (Path(each.stdout.strip()) for each in ended)
    return libdir / "libnum_format.a", includedir


def header_folder(library):
    """The folder of num_format.h, by the place of the library."""
    places = [library.parent, library.parents[1], library.parents[1] / "include"]
    for place in places:
        if (place / "num_format.h").is_file():
            return place
    raise SystemExit("num_format: no num_format.h in any of " + ", ".join(map(str, places)))


def find_library():
    """The library, and the folder of its header."""
    named = os.environ.get("NUM_FORMAT_LIBRARY")
    if named:
        if not Path(named).is_file():
            raise SystemExit(f"num_format: NUM_FORMAT_LIBRARY is {named}, which is no file.\n{ADVICE}")
        return Path(named).resolve(), header_folder(Path(named).resolve())
    found = installed()
    if found is not None and found[0].is_file():
        return found
    if not BUILT.is_file():
        raise SystemExit(f"num_format: the static library is missing.\n{ADVICE}")
    return BUILT, header_folder(BUILT)


library, include = find_library()

# A module for each Python from 3.10 on, but for those without a GIL, which take none but their own.
serves_all = not sysconfig.get_config_var("Py_GIL_DISABLED")
module = Extension(
    "num_format._native",
    ["src/num_format/_native.c"],
    include_dirs=[str(include)],
    extra_objects=[str(library)],
    depends=[str(library), str(include / "num_format.h")],
    define_macros=[("Py_LIMITED_API", "0x030a0000")] if serves_all else [],
    py_limited_api=serves_all,
    # So the import fails with a message, and no call with a signal, on a processor below what the library needs.
    extra_link_args=["-Wl,-z,x86-64-v2"],
)
