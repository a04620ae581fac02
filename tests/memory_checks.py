#!/usr/bin/env python3
"""Refuses each request for memory of the programs and of the tests of memory in turn, and counts those of
calls that take none.

    python3 tests/memory_checks.py TOP ENDING    # programs of that copy of the repository, whose names end so

tests/refuse_memory.c refuses and counts them. A C compiler builds it: where there is none, the checks are
skipped.
"""
import os
import re
import sys
import tempfile
from pathlib import Path

import filter_checks
import generated_cases
from case_files import Case, of_crate
from tally import CC, ROOT, Tally, heading, run

# The crate that has the tests of memory, and how its executable file lists them.
CRATE = "test_printing"
TEST = re.compile(r"^(memory::\w+): test$", re.M)

# How it lists those of calls that take no memory, and how many requests one makes before them.
FREE_TEST = re.compile(r"^(without_memory::\w+): test$", re.M)
REQUESTS_BEFORE = {"without_memory::a_string_is_parsed": 1}

# How a test of memory ends, and how with any request refused: the status and both outputs.
PASSED = (0, b"\ntest result: ok\n", b"")
PASSED_REFUSED = (0, b"refused\n\ntest result: ok\n", b"")

# What refuses a request for memory, and more requests than the program or a test makes.
REFUSE_MEMORY = ROOT / "tests" / "refuse_memory.c"
MANY_REQUESTS = 200

# How a program ends that gets no memory.
FAILED = (3, b"", b"")

# Words of `regroup-lines`, without input.
FILTER_CASES = [
    Case("en de", [b"en", b"de"]),
    Case("en custom", [b"en", b"custom:,:Indian:-"]),
    Case("--field 1,3- en de", [b"--field", b"1,3-", b"en", b"de"]),
    Case("--field 1 --sum en de", [b"--field", b"1", b"--sum", b"en", b"de"]),
    Case("en xx", [b"en", b"xx"], status=2, err=filter_checks.UNKNOWN),
]


def check_all(tally, top, ending):
    """Refuses each request for memory of `regroup`, of `regroup-lines` and of the tests of memory in turn."""
    heading("memory refused at each request in turn")
    if tally.lacks(CC, "memory refused"):
        return
    with tempfile.TemporaryDirectory() as folder:
        library = refusing_library(tally, Path(folder))
        if library is None:
            return
        names = next(generated_cases.of_regroup())
        refuse_to_program(tally, library, built(top, "regroup", ending), [*of_crate("regroup")[0], names])
        refuse_to_program(tally, library, built(top, "regroup_lines_cli", ending), FILTER_CASES)
        if not ending:
            refuse_to_tests(tally, library, built(top, CRATE, "_tests"))


def built(top, crate, ending):
    return top / "crates" / crate / "out" / f"{crate}{ending}"


def refusing_library(tally, folder):
    """Builds in the folder what refuses and counts requests. None where that fails."""
    library = folder / "refuse_memory.so"
    flags = ["-shared", "-fPIC", "-Wall", "-Wextra", "-Werror"]
    ended = run([CC, *flags, "-o", library, REFUSE_MEMORY])
    tally.compare(f"{CC} {REFUSE_MEMORY.name}", ended.returncode, 0)
    return library if library.is_file() else None


def refuse_to_program(tally, library, program, cases):
    """The program ends as with memory, or prints nothing and ends with status 3."""
    for case in cases:
        whole = (case.status, case.out, case.err)
        refuse_each(tally, library, f"{program.name}: {case.name}", [program, *case.words], whole, [whole, FAILED])


def refuse_to_tests(tally, library, tests):
    """A test of memory passes, and prints that a request was refused. Other tests make no request."""
    listed = run([tests, "--list"], capture_output=True) if tests.is_file() else None
    listed = listed.stdout.decode() if listed else ""
    names, free = TEST.findall(listed), FREE_TEST.findall(listed)
    if not names or not free:
        tally.add(tests.name, "it was not built, or lists no tests of memory")
    for name in names:
        refuse_each(tally, library, name, [tests, name], PASSED, [PASSED_REFUSED])
    for name in free:
        count(tally, library, name, [tests, name], PASSED, REQUESTS_BEFORE.get(name, 0))


def count(tally, library, name, words, whole, requests):
    """The command ends as `whole` says, and makes so many requests."""
    found = run_refused(library, 0, words)
    tally.compare(f"{name}, requests made: {requests}", found, (whole, requests))


def refuse_each(tally, library, name, words, whole, refused):
    """Refuses no request of a command, then each in turn, and then the one after the last.

    Where a request of the command is refused, it has to end in one of the ways `refused`, and else
    as `whole` says.
    """
    ended, requests = run_refused(library, 0, words)
    if not 0 < requests < MANY_REQUESTS:
        tally.add(name, f"{requests} requests for memory, and it ended as {ended!r}")
        return
    problems = [f"none refused: {ended!r}"] if ended != whole else []
    for number in range(1, requests + 2):
        ended, _ = run_refused(library, number, words)
        if ended not in (refused if number <= requests else [whole]):
            problems.append(f"request {number}: {ended!r}")
    tally.add(f"{name}, requests refused: {requests}", "; ".join(problems[:3]))


def run_refused(library, number, words):
    """Runs a command whose request for memory of that number is refused; at 0 none is.

    Returns its status and outputs, and how many requests it made.
    """
    with tempfile.NamedTemporaryFile() as requests:
        settings = {"REFUSED_REQUEST": str(number), "REQUESTS_FILE": requests.name}
        env = {**os.environ, "LD_PRELOAD": str(library), **settings}
        ended = run(words, capture_output=True, env=env)
        made = os.stat(requests.name).st_size
    return (ended.returncode, ended.stdout, ended.stderr), made


def main():
    tally = Tally()
    check_all(tally, Path(sys.argv[1]), sys.argv[2] if len(sys.argv) > 2 else "")
    tally.end()


if __name__ == "__main__":
    main()
