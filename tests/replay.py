#!/usr/bin/env python3
"""Replays the tables of cases, and tables that are wrong, in which each change has to be found.

    python3 tests/replay.py NAME COMMAND ..          # a command that is a replayer, as tests/README.md says
    python3 tests/replay.py [--program FILE] NAME    # rattle, regroup or regroup-lines: FILE, or else unproved
    python3 tests/replay.py --built NAME             # the same, c or c++, over what crates/*/out has, and else skipped
    python3 tests/replay.py --quick ..               # the same, of wrong tables by one case of 16

For each table is printed how many of its cases ran, how many the language can't say and why, and how many differ: their
sum has to be the cases of the table. Replayed are tests/cases; a copy with each result changed, where each case that runs
has to differ; and the errors alone, each with another cause or position.
"""
import argparse
import os
import re
import subprocess
import tempfile
from contextlib import nullcontext
from functools import partial
from pathlib import Path

import programs
from tally import CC, ROOT, Tally, heading
from tried import tried

CASES = Path(__file__).resolve().parent / "cases"

# What C and C++ are replayed by.
SOURCES = ROOT / "packages" / "c" / "tests"
COMPILERS = {
    "c": [CC, "-std=c11", SOURCES / "replay.c"],
    "c++": [os.environ.get("CXX", "g++"), "-std=c++17", SOURCES / "replay.cpp"],
}
LIBRARY = ROOT / "crates" / "num_format_c" / "out" / "libnum_format_c.a"

# What a replayer prints of a table.
REPORT = re.compile(r"^(\w+)\.tsv: ran (\d+), cannot say (\d+)(?: \((.*)\))?, differ (\d+)$", re.M)

# The tables whose errors have causes.
CAUSES = ["strict", "decimals_parsed", "decimals_at_scale", "typed", "typed_decimals"]
CAUSES += [f"{name}_digits" for name in CAUSES]

# Of how many cases of a wrong table one is compared, where it has to be quick.
QUICK_EVERY = 16


def changed(result):
    """Another result: of an error a number, of a number one with another last digit, of a text one with a letter more."""
    if result.startswith("err "):
        return "ok 0"
    if result in ("true", "false"):
        return "false" if result == "true" else "true"
    if re.fullmatch(r"(ok )?-?\d+(/\d+)?", result):
        return re.sub(r"\d(?=/|$)", lambda digit: "1" if digit[0] == "0" else str(int(digit[0]) - 1), result)
    return re.sub(r"(?<==)\S*", r"\g<0>x", result) if "=" in result else f"{result}x"


def other_cause(result):
    """An error of another cause, or of the same one elsewhere."""
    at = result.partition("Unexpected ")[2]
    return f"err Unexpected {int(at) + 1}" if at else "err NoDigit" if result == "err Misspelled" else "err Misspelled"


def with_changes(name, lines, change):
    """The cases of a table with each result changed."""
    for line in lines:
        fields = line.split("\t")
        count = programs.ARGUMENTS[name]
        yield "\t".join([*fields[:count], *map(change, fields[count:])])


def write(folder, tables):
    folder.mkdir()
    for name, lines in tables.items():
        (folder / f"{name}.tsv").write_text("".join(f"{line}\n" for line in lines), encoding="ascii")


def check(tally, name, replayer, folder, is_wrong):
    """Replays a folder, and compares what is counted. Returns the lines of the tables."""
    status, printed = replayer.replay(folder)
    reports = {stem: rest for stem, *rest in REPORT.findall(printed)}
    any_ran = any(report[0] != "0" for report in reports.values())
    problems = [f"status {status}"] if status != int(is_wrong and any_ran) else []
    for stem, lines in programs.of_tables(folder):
        ran, unsaid, reasons, differ = reports.get(stem, ["0", "0", "", "0"])
        given = sum(int(count) for count in re.findall(r"(\d+)(?:,|$)", reasons))
        if int(ran) + int(unsaid) != len(lines) or given != int(unsaid):
            problems.append(f"{stem}.tsv: ran {ran}, cannot say {unsaid} ({reasons}) of {len(lines)}")
        if differ != (ran if is_wrong else "0"):
            problems.append(f"{stem}.tsv: of {ran} that ran, {differ} differ")
    if problems:
        print(printed[-4000:])
    tally.add(name, "; ".join(problems) or None)
    return [match[0] for match in REPORT.finditer(printed)]


def replay(tally, name, made, every=1):
    """Checks a replayer, made for these folders, by right tables, and by wrong ones that have one of so many cases."""
    heading(f"the tables of cases, replayed by {name}")
    with tempfile.TemporaryDirectory() as folder:
        results, causes = Path(folder) / "results", Path(folder) / "causes"
        tables = dict(programs.of_tables(CASES))
        wrong = {stem: lines[::every] for stem, lines in tables.items()}
        write(results, {stem: with_changes(stem, lines, changed) for stem, lines in wrong.items()})
        errors = {stem: [line for line in wrong[stem] if "\terr " in line] for stem in CAUSES}
        write(causes, {stem: with_changes(stem, lines, other_cause) for stem, lines in errors.items()})
        replayer = made([CASES, results, causes])
        lines = check(tally, f"{name}: each case", replayer, CASES, False)
        check(tally, f"{name}: each result changed", replayer, results, True)
        check(tally, f"{name}: each cause changed", replayer, causes, True)
    ran, unsaid = (sum(int(REPORT.match(line)[k]) for line in lines) for k in (2, 3))
    print("\n".join([*lines, f"{name}: {ran} cases, and {unsaid} that it cannot say"]))


def replay_c(tally, name, library, every):
    """Builds and checks the replayer of C or C++ over that library."""
    compiler, *words, source = COMPILERS[name]
    if tally.lacks(compiler, f"the tables of cases in {name}"):
        return
    with tempfile.TemporaryDirectory() as folder:
        made = Path(folder) / "replay"
        headers = ["-I", LIBRARY.parent.parent, "-I", SOURCES.parent]
        words = [compiler, *words, "-O1", "-Wall", "-Wextra", "-Werror", *headers, source, library, "-o", made]
        if subprocess.run(words, stdin=subprocess.DEVNULL, check=False).returncode:
            tally.add(source.name, "not built")
        else:
            replay(tally, name, partial(programs.Replayer, [made]), every)


def main():
    parser = argparse.ArgumentParser(description="Replays the tables of cases.")
    parser.add_argument("--program", type=Path, metavar="FILE", help="the program, or the library for C, as it was built")
    parser.add_argument("--built", action="store_true", help="over what crates/*/out has")
    parser.add_argument("--quick", action="store_true", help="of wrong tables by one case of 16")
    parser.add_argument("name")
    parser.add_argument("command", nargs=argparse.REMAINDER)
    given = parser.parse_args()
    tally, every = Tally(), QUICK_EVERY if given.quick else 1
    if given.command:
        replay(tally, given.name, partial(programs.Replayer, given.command), every)
        tally.end()
    crate, asked = (None, None) if given.name in COMPILERS else programs.OF[given.name]
    built = LIBRARY if crate is None else ROOT / "crates" / crate / "out" / crate
    program = given.program.resolve() if given.program else built if given.built or crate is None else None
    with nullcontext(program) if program else tried(crate) as program:
        if program and program.is_file():
            if crate is None:
                replay_c(tally, given.name, program, every)
            else:
                replay(tally, given.name, partial(asked, [program]), every)
        elif given.built:
            tally.skip(f"the tables of cases by {given.name}", "it was not built: --prove does that")
        else:
            tally.add(given.name, "it was not built")
    tally.end()


if __name__ == "__main__":
    main()
