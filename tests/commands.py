#!/usr/bin/env python3
"""Runs the cases of programs: those of crates/NAME/cases/*.cases, and those of generated_cases.py.

    python3 tests/commands.py [CRATE ..]                # over crates/CRATE/out/CRATE, which `rt run` proves and builds
    python3 tests/commands.py --program FILE CRATE      # over that program
    python3 tests/commands.py --try [CRATE ..]          # unproved, as tried.py builds the program
    python3 tests/commands.py --try CRATE csv.cases     # the cases of this file alone

The head of case_files.py says how a case is written. With --try the stored run of the crate, its files args, stdin and
stdout, is a case too, which `rt ci` compares where it proves the program, and cases that are computed or long are left
out. The last line says how many cases passed and failed. The exit status is 1 where one failed.
"""
import argparse
import tempfile
from contextlib import nullcontext
from pathlib import Path

import generated_cases
from case_files import Case, of_crate, problem
from tally import ROOT, Tally, heading, run
from tried import tried

# The most bytes of words, input and output of a case that runs unproved, where a million lines take minutes.
MOST_TRIED = 100_000


def of(crate):
    """The cases of a crate, and the files that they are run beside."""
    cases, files = of_crate(crate)
    return [*cases, *generated_cases.OF.get(crate, list)()], files


def unproved(tally, crate):
    """The cases that run unproved: those of files that are short, and the stored run."""
    written, computed = of_crate(crate)[0], [*generated_cases.OF.get(crate, list)(), *generated_cases.LENGTHS.get(crate, list)()]
    short = [case for case in written if sum(map(len, [*case.words, case.given, case.out or b""])) <= MOST_TRIED]
    for count, what in (len(computed), "computed"), (len(written) - len(short), "long"):
        if count:
            tally.skip(f"{count} {what} cases of {crate}", "--prove runs them")
    return [*stored(crate), *short]


def stored(crate):
    """The stored run of a crate."""
    args, given, out = (ROOT / "crates" / crate / name for name in ("args", "stdin", "stdout"))
    if out.is_file():
        words, read = (path.read_bytes() if path.is_file() else b"" for path in (args, given))
        yield Case(f"the stored run of {crate}", words.splitlines(), read, 0, out.read_bytes(), None)


def write_files(folder, files):
    for name, content in files.items():
        path = Path(folder) / name
        path.parent.mkdir(parents=True, exist_ok=True)
        path.write_bytes(content)


def check(tally, program, cases, files):
    """Runs each case over a program that is built."""
    with tempfile.TemporaryDirectory() as folder:
        write_files(folder, files)
        for case in cases:
            ended = run([program, *case.words], input=case.given, capture_output=True, cwd=folder)
            tally.add(case.name, problem(case, ended.returncode, ended.stdout, ended.stderr))


def main():
    parser = argparse.ArgumentParser(description="Runs the cases of programs.")
    parser.add_argument("--program", type=Path, help="run this program")
    parser.add_argument("--try", action="store_true", dest="is_tried", help="run what `rt try` builds, unproved")
    parser.add_argument("words", nargs="*", metavar="CRATE or FILE.cases")
    given = parser.parse_args()
    only = tuple(f"{word}:" for word in given.words if word.endswith(".cases"))
    crates = [word for word in given.words if not word.endswith(".cases")]
    tally = Tally()
    for crate in crates or sorted(path.parent.name for path in (ROOT / "crates").glob("*/cases")):
        heading(f"cases of {crate}")
        cases, files = of(crate)
        if only:
            cases = [case for case in cases if case.name.startswith(only)]
            tally.add(f"{crate} has a case", None if cases else "no file of these names")
        elif given.is_tried:
            cases = unproved(tally, crate)
        else:
            cases.extend(generated_cases.LENGTHS.get(crate, list)())
        built = (given.program or ROOT / "crates" / crate / "out" / crate).resolve()
        with tried(crate) if given.is_tried else nullcontext(built if built.is_file() else None) as program:
            if program:
                check(tally, program, cases, files)
            else:
                tally.add(crate, "it was not built")
    tally.end()


if __name__ == "__main__":
    main()
