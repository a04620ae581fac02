#!/usr/bin/env python3
"""Counts the instructions of calls of the library for C, and compares them with those of a table.

    python3 tests/work_checks.py [LIBRARY]    # crates/num_format_c/out/libnum_format_c.a
    python3 tests/work_checks.py --write      # writes the table from that library

No contract counts work: a body that prints, copies or tests twice returns the same. tests/work_checks.tsv has how
many instructions each call of tests/work_checks.c takes, and a call fails that takes over a tenth more or less.
Where a change means to, write the table again, and commit it with the change. Whatever the table says, the calls of
AT_MOST, and these alone, take at most so many times what others take, and SLACK more: typed parsing beside strict
parsing, and other digits beside 0 to 9. Other texts, sets and columns may take more.

Valgrind's callgrind counts. A count may differ by one between runs, which is rounded, and by a few between compilers of
the program in C. Without valgrind or a C compiler the checks are skipped, and a last line says so.
The exit status is 1 where one failed.
"""
import re
import subprocess
import sys
import tempfile
from pathlib import Path

from library_checks import COMPILE, LIBRARY
from tally import CC, ROOT, Tally, heading, run

SOURCE = ROOT / "tests" / "work_checks.c"
TABLE = ROOT / "tests" / "work_checks.tsv"

# How often a call is made to be counted, so that what a program does besides is not.
TIMES = 100

# How much more or less than in the table a call may take, in hundredths.
TOLERANCE = 10

# How many instructions more a call may take: counts are rounded, and other compilers of the program in C add some.
SLACK = 4

# How many times what a call takes another may take, at most.
AT_MOST = [
    ("print i64 INT64_MIN, fa, digits arabext", 2, "print i64 INT64_MIN, fa"),
    ("parse strictly i64 INT64_MIN, fa, digits arabext", 1.8, "parse strictly i64 INT64_MIN, fa"),
    ("parse typed i64 -234", 1.2, "parse strictly i64 -234"),
    ("parse decimal -1,234.50, fa, digits arabext", 1.8, "parse decimal -1,234.50, fa"),
    ("parse typed i64 INT64_MIN, fa, digits arabext", 1.8, "parse typed i64 INT64_MIN, fa"),
    ("parse typed i64 +1,234, fa, digits arabext", 1.8, "parse typed i64 +1,234, fa"),
    ("parse typed decimal -1,234.50, fa, digits arabext", 1.8, "parse typed decimal -1,234.50, fa"),
    *(
        (f"{call}, fa, digits {name}", 1.8, f"{call}, fa")
        for call in [
            "parse decimal of 12 digits",
            "parse a column strictly, 19 digits",
            "parse a column as typed, 19 digits",
            "parse a decimal column, 19 digits",
            "parse a typed decimal column, 19 digits",
        ]
        for name in ["arabext", "deva", "adlm"]
    ),
    *(
        (f"{call}, {locale}, digits deva", 1.8, f"{call}, {locale}")
        for call in [
            "parse strictly i64 1,234",
            "parse typed i64 1,234",
            "parse decimal -1,234.50",
        ]
        for locale in ["en", "hi"]
    ),
    ("parse typed i64 INT64_MIN", 1.2, "parse strictly i64 INT64_MIN"),
    ("parse typed i64 +1,234 after a space", 3, "parse strictly i64 1,234"),
    ("parse typed i64 1,234 and a newline", 3, "parse strictly i64 1,234"),
    ("parse typed i64 -1 234, fr", 3, "parse strictly i64 -1 234, fr"),
    ("parse typed decimal 1,234.50", 1.2, "parse decimal 1,234.50"),
    ("parse typed decimal +1,234.50 after a space", 3, "parse decimal 1,234.50"),
    ("parse typed decimal -1 234,50, fr", 3, "parse decimal -1 234,50, fr"),
    ("parse typed i64 -1,234 with U+2212", 3, "parse strictly i64 -1,234"),
    ("parse typed i64 -1 234 with U+00A0, fr", 3, "parse strictly i64 -1 234, fr"),
    ("parse typed i64 1'234, de-CH", 3, "parse strictly i64 1'234, de-CH"),
    ("parse typed decimal -1 234,50 with U+00A0, fr", 3, "parse decimal -1 234,50, fr"),
    ("parse typed decimal 12 345,67, pl", 3, "parse decimal 12 345,67, pl"),
    ("parse typed decimal -5,50, sv", 3, "parse decimal -5,50, sv"),
]

COUNT = ["valgrind", "--tool=callgrind", "--callgrind-out-file=/dev/null"]


def check_all(tally, library):
    """Compares the instructions of each call with those of the table."""
    heading("instructions of calls of the library for C")
    name = "instructions of calls"
    if tally.lacks(CC, name) or tally.lacks("valgrind", name):
        return
    wanted = table()
    found = counted(tally, library)
    tally.compare("the calls that are counted", list(found), list(wanted))
    for name in wanted:
        if name in found:
            tally.add(name, problem(found[name], wanted[name]))
    compare(tally, found)


def compare(tally, found):
    """Compares what calls take with what others do."""
    for name, times, other in AT_MOST:
        if name in found and other in found:
            is_more = found[name] > times * found[other] + SLACK
            why = f"{found[name]} instructions are over {times} times the {found[other]} and {SLACK} of: {other}"
            tally.add(f"{name}, beside {other}", why if is_more else None)


def problem(found, wanted):
    """Why a call that takes so many instructions fails, if it does."""
    if 100 * abs(found - wanted) <= TOLERANCE * wanted:
        return None
    change = f"{found} instructions in place of {wanted}"
    if found < wanted:
        return f"{change}: write the table again by `python3 tests/work_checks.py --write`"
    return f"{change}: something is done twice, or the table has to be written again"


def table():
    """The instructions of each call, as the table has them."""
    lines = TABLE.read_text(encoding="utf-8").splitlines()
    rows = (line.split("\t") for line in lines if not line.startswith("#"))
    return {name: int(instructions) for name, instructions in rows}


def counted(tally, library):
    """The instructions that each call takes, none where the program is not built or a call fails."""
    if not library.is_file():
        tally.add(library.name, "it was not built")
        return {}
    with tempfile.TemporaryDirectory() as folder:
        program = Path(folder) / "work"
        # Calls of the C library are bound before the first is made.
        flags = ["-O2", "-Wl,-z,now"]
        built = run([*COMPILE, *flags, SOURCE, library, "-o", program], capture_output=True, text=True)
        if built.returncode:
            tally.add(SOURCE.name, f"not built: {built.stderr}")
            return {}
        listed = run([program], stdout=subprocess.PIPE, text=True)
        tally.compare("the names of the calls", listed.returncode, 0)
        found = {name: instructions(program, name) for name in listed.stdout.splitlines()}
    for name in [name for name, count in found.items() if count is None]:
        tally.add(name, "it failed, or was not counted")
        del found[name]
    return found


def instructions(program, name):
    """The instructions that one call takes, or None."""
    once, often = (total(program, name, times) for times in (1, 1 + TIMES))
    return None if None in (once, often) else round((often - once) / TIMES)


def total(program, name, times):
    """The instructions of a run of the program that makes a call so many times, or None where it fails."""
    ended = run([*COUNT, program, name, str(times)], capture_output=True, text=True)
    found = re.search(r"Collected : (\d+)", ended.stderr)
    return int(found[1]) if found and ended.returncode == 0 else None


def write(tally, library):
    """Writes the table, where each call was counted."""
    found = counted(tally, library)
    compare(tally, found)
    if tally.failed:
        return
    head = "# The instructions of each call, as tests/work_checks.py counts and writes them.\n"
    rows = "".join(f"{name}\t{count}\n" for name, count in found.items())
    TABLE.write_text(head + rows, encoding="utf-8")


def main():
    words = sys.argv[1:]
    is_written = "--write" in words
    libraries = [Path(word).resolve() for word in words if word != "--write"]
    tally = Tally()
    (write if is_written else check_all)(tally, *(libraries or [LIBRARY]))
    tally.end()


if __name__ == "__main__":
    main()
