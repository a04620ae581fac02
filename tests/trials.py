#!/usr/bin/env python3
"""Runs the tests of crates unproved, by `rt try --test`, with a check of each access as they run.

    python3 tests/trials.py CRATE ..
"""
import re
import subprocess
import sys

from tally import ROOT, RUN_SECONDS, Tally, heading, run

# The crates of tests alone that take the prover long, so that only --edits proves them: libraries with tests, and programs.
TESTS = ["num_format_vectors", "test_hostile"]
PROGRAMS = ["test_digits", "test_oracle", "test_properties"]
TRIED = [*TESTS, *PROGRAMS]

# What `rt try` prints of a test, and that the tests ran to their end.
TESTED = re.compile(r"^test (\S+) \.\.\. (\w+)$", re.M)
ENDED = re.compile(r"^run=ended status=\d+ ", re.M)


def check(tally, name):
    """Runs the tests of a crate, and adds them."""
    heading(f"tests of {name}, unproved")
    words = ["rt", "try", "--test", "--seconds", str(RUN_SECONDS)]
    how = {"cwd": ROOT / "crates" / name, "timeout": None, "text": True, "errors": "replace"}
    printed = run(words, stdout=subprocess.PIPE, stderr=subprocess.STDOUT, **how).stdout
    tested = TESTED.findall(printed)
    for test, result in tested:
        tally.add(f"{name} {test}", None if result == "ok" else result)
    if not tested or not ENDED.search(printed):
        tally.add(name, f"its tests did not end: {printed[-900:]}")


def main():
    tally = Tally()
    for name in sys.argv[1:]:
        check(tally, name)
    tally.end()


if __name__ == "__main__":
    main()
