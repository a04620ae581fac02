#!/usr/bin/env python3
"""Runs the programs of examples/ in C, Python and Rust, and two of packages/c/tests, over the library for C.

    python3 tests/library_checks.py [LIBRARY]    # crates/num_format_c/out/libnum_format_c.a

Each has to print what its file `.expected` has, and header.c and columns.c of packages/c/tests nothing. C programs are
built twice: as they are delivered, and to stop at an access outside an object. header.c and columns.c make each
call, and no request for memory. A program whose compiler is missing is skipped. The last lines name it,
and say how many passed and failed. The exit status is 1 where one failed.
"""
import subprocess
import sys
import tempfile
from pathlib import Path

import memory_checks
from tally import CC, ROOT, Tally, heading, run

EXAMPLES = ROOT / "examples"
CHECKS = [ROOT / "packages" / "c" / "tests" / name for name in ("header.c", "columns.c")]
CRATE = ROOT / "crates" / "num_format_c"
LIBRARY = CRATE / "out" / "libnum_format_c.a"

# How a C program is compiled, and the flags of its two builds.
COMPILE = [CC, "-std=c11", "-Wall", "-Wextra", "-Werror", "-I", CRATE]
BUILDS = {
    "": ["-O2"],
    " under sanitizers": ["-g", "-fsanitize=address,undefined", "-fno-sanitize-recover=all"],
}


def check_all(tally, library):
    """Builds each program over the library, and compares what it prints."""
    heading("programs in C, Python and Rust over the library for C")
    if not library.is_file():
        tally.add(library.name, "it was not built")
        return
    with tempfile.TemporaryDirectory() as folder:
        made = Path(folder) / "made"
        for source in [EXAMPLES / "prices.c", EXAMPLES / "every_call.c", *CHECKS]:
            if not tally.lacks(CC, source.name):
                check_c(tally, source, library, made)
        for source in CHECKS:
            if not tally.lacks(CC, f"{source.name}, memory"):
                check_memory(tally, source, library, made)
        if not tally.lacks(CC, "column.py"):
            words = [sys.executable, "-B", "column.py", made, "de", "column.txt"]
            check(tally, "column.py", shared(library, made), words, expected(EXAMPLES / "column.py"))
        if not tally.lacks("rustc", "settings.rs"):
            build = ["rustc", "--edition", "2021", "-D", "warnings", "-O", EXAMPLES / "settings.rs"]
            build += ["-C", f"link-arg={library}", "-o", made]
            words = [made, "apostrophes.conf", "zeros.conf", "no_grouping.conf"]
            check(tally, "settings.rs", build, words, expected(EXAMPLES / "settings.rs"))


def shared(library, made):
    """The words that build the shared library from the static one."""
    return [CC, "-shared", "-o", made, "-Wl,--whole-archive", library, "-Wl,--no-whole-archive"]


def check_c(tally, source, library, made):
    """Checks each build of a C program."""
    wanted = b"" if source in CHECKS else expected(source)
    for ending, flags in BUILDS.items():
        build = [*COMPILE, *flags, source, library, "-o", made]
        check(tally, source.name + ending, build, [made], wanted)


def check_memory(tally, source, library, made):
    """No call makes a request for memory."""
    refusing = memory_checks.refusing_library(tally, made.parent)
    built = run([*COMPILE, "-O2", source, library, "-o", made])
    if refusing is None or built.returncode:
        tally.add(f"{source.name}, memory", "not built")
        return
    memory_checks.count(tally, refusing, source.name, [made], (0, b"", b""), 0)


def check(tally, name, build, words, wanted):
    """Builds a program, runs it in examples/, and compares its status and what it prints."""
    built = run(build, stdout=subprocess.PIPE, stderr=subprocess.STDOUT)
    if built.returncode:
        tally.add(name, f"not built: {built.stdout.decode(errors='replace')}")
        return
    ended = run(words, cwd=EXAMPLES, stdout=subprocess.PIPE)
    tally.compare(name, (ended.returncode, ended.stdout), (0, wanted))


def expected(source):
    return source.with_suffix(".expected").read_bytes()


def main():
    library = Path(sys.argv[1]).resolve() if len(sys.argv) > 1 else LIBRARY
    tally = Tally()
    check_all(tally, library)
    tally.end()


if __name__ == "__main__":
    main()
