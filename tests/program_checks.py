#!/usr/bin/env python3
"""Runs built programs where a case cannot say it: with outputs and inputs that fail, and with computed input.

    python3 tests/program_checks.py PROGRAM    # crates/NAME/out/NAME

The name of the program's folder says which checks: regroup, test_properties, test_readme or uses_ledger.
"""
import os
import re
import subprocess
import sys
from pathlib import Path

import case_files
import generated_cases
from tally import CLOSE, ROOT, Tally, compare_failed, heading, other, run

CRATES = ROOT / "crates"

# The words and the output of `regroup` that fails, with status 3.
REGROUP = [
    (["print", "en", "1"], "stdout"),
    (["names"], "stdout"),
    (["read", "en", "1"], "stdout"),
    (["check", "en"], "stdout"),
    (["alike", "en", "de"], "stdout"),
    (["print", "xx", "1"], "stderr"),
    (["print", "en", "one"], "stderr"),
    (["custom"], "stderr"),
]

# The two outputs of test_readme with the word `streams`, each of two writes. The status is how many of them failed.
STREAMS = {"stdout": b"1,0002,000", "stderr": b"3,0004,000"}

# The length of an input of test_properties in bytes.
INPUT_LEN = 98


def check_regroup(tally, program):
    for words, output in REGROUP:
        compare_failed(tally, [program, *words], output, (3, b""))


def check_streams(tally, program):
    for output in STREAMS:
        compare_failed(tally, [program, "streams"], output, (2, STREAMS[other(output)]))


def check_properties(tally, program):
    """It fails without an input, and prints where a property fails: here, where it is negated."""
    inputs = (CRATES / "test_properties" / "stdin").read_bytes()
    for name, given, status in [("no input", b"", 1), ("one input", b"\0", 0)]:
        tally.compare(name, run([program], input=given, stdout=subprocess.DEVNULL).returncode, status)
    lines = (CRATES / "test_properties" / "stdout").read_text(encoding="utf-8").splitlines()
    for number, line in enumerate(lines):
        name, count = re.match(r"(.*): (\d+) inputs", line).groups()
        ended = run([program, name], input=inputs, stdout=subprocess.PIPE)
        printed = ended.stdout.decode()
        first = re.search(r"first input (\d+):", printed)
        first = int(first[1]) if first else 0
        record = inputs[first * INPUT_LEN : (first + 1) * INPUT_LEN].hex()
        expected = [*lines]
        expected[number] = f"{name}: {count} inputs, {count} failed, first input {first}: {record}"
        tally.compare(f"{name}, negated", (ended.returncode, printed.splitlines()), (1, expected))


def check_ledger(tally, program):
    """A failed read is not the end of the input, so no total is printed. A report that is shorter than the buffer fails
    where it is flushed, and a longer one before."""
    words = [program, "en", "de"]
    ended = run(words, preexec_fn=lambda: os.close(0), capture_output=True)
    tally.compare("a closed input", (ended.returncode, ended.stdout), (1, b""))
    folder = os.open(ROOT, os.O_RDONLY)
    ended = run(words, stdin=folder, capture_output=True)
    os.close(folder)
    tally.compare("a folder as the input", (ended.returncode, ended.stdout), (1, b""))
    with open("/dev/full", "wb") as full:
        for case in [*case_files.of_crate("uses_ledger")[0], *generated_cases.of_ledger()]:
            if case.status == 0:
                for state, how in [("full", {"stdout": full}), ("closed", {"preexec_fn": CLOSE["stdout"]})]:
                    ended = run([program, *case.words], input=case.given, stderr=subprocess.PIPE, **how)
                    tally.compare(f"{case.name}, stdout {state}", ended.returncode, 1)


CHECKS = {
    "regroup": check_regroup,
    "test_readme": check_streams,
    "test_properties": check_properties,
    "uses_ledger": check_ledger,
}


def main():
    tally = Tally()
    for program in map(Path, sys.argv[1:]):
        heading(program.name)
        CHECKS[program.name.partition(".")[0]](tally, program.resolve())
    tally.end()


if __name__ == "__main__":
    main()
