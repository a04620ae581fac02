#!/usr/bin/env python3
"""Runs the commands of README.md, "Prove and test", in fresh clones, and writes below them what each took.

    python3 bench/times.py             # all, one after the other, in some three hours
    python3 bench/times.py NAME ..     # of try, test, run, prove and ci those that are named
    python3 bench/times.py --check     # whether the tables there are some that this writes

The machine should be idle. A clone has the last commit, and not what was changed since. What a command prints is shown.
Its row is written once it has ended with status 0, and else the exit status is 1. `prove` and `ci` run with --anew, and
the table at the end of what `ci` prints goes to README.md beside this file. Where `rt` says that a proof was kept by an
earlier run in another folder, a first run would take longer, and no row is written either.
"""
import argparse
import datetime
import re
import subprocess
import sys
import tempfile
import time
from typing import NamedTuple

# Nothing is written beside the files that are imported.
sys.dont_write_bytecode = True

import proof_times
import tables
from cells import ROOT

README = ROOT / "README.md"

# The commands in their order: the name here, and that in the table.
NAMES = {
    "try": "`rt try`",
    "test": "`tools/test.py`",
    "run": "`rt run`",
    "prove": "`tools/test.py --prove`",
    "ci": "`.ci/run`",
}

# Those that take no proof of an earlier run where they are told so.
ANEW = ["prove", "ci"]

HEAD = ["Command", "Minutes", "Measured"]

# What stands for the table of bench/README.md until there is one.
NOT_MEASURED = "Not measured."

# What `rt` says of a proof that it need not find anew, with the folder where it was kept, if it says which.
KEPT = re.compile(r"rt: .* is kept: an earlier run|rt: .* begins with what a check kept in (\S+)")

# What a row has of minutes and seconds, and of when and where.
MINUTES = re.compile(r"\d+:\d\d")
MEASURED = re.compile(r"version [\d.]+, commit [0-9a-f]{7,}, \d{4}-\d\d-\d\d, .+, \d+ threads")


class Row(NamedTuple):
    """A row of the table, as texts. `-` was not measured."""

    command: str
    minutes: str = "-"
    measured: str = "-"

    @property
    def is_measured(self):
        return bool(MINUTES.fullmatch(self.minutes) and MEASURED.fullmatch(self.measured))


def commands():
    """The lines that README.md has, by their names here."""
    section = README.read_text(encoding="utf-8").split("\n## Prove and test\n")[1]
    block = re.search(r"^```sh\n(.*?)^```$", section, re.DOTALL | re.MULTILINE)[1]
    return dict(zip(NAMES, (line.partition(" #")[0].strip() for line in block.splitlines())))


def read():
    """The rows of README.md that were measured, by their commands."""
    lines = (line.strip("| ").split(" | ") for line in tables.block(README, "times").splitlines()[2:])
    rows = (Row(*cells) for cells in lines if len(cells) == len(HEAD))
    return {row.command: row for row in rows if row.is_measured}


def text(rows):
    """The table of these rows, and of commands that were not measured."""
    return tables.table(HEAD, [rows.get(shown, Row(shown)) for shown in NAMES.values()])


def problems():
    """What is not as this writes it."""
    lines = commands()
    for place, (name, shown) in enumerate(NAMES.items(), 1):
        if shown.strip("`") not in lines.get(name, ""):
            yield f"README.md, Prove and test: command {place} is not {shown}"
    if tables.block(README, "times") != text(read()):
        yield "README.md, times: not a table that bench/times.py writes: run it"
    proofs = tables.block(tables.PAGE, "proofs")
    if proofs != NOT_MEASURED and not proof_times.is_report(proofs.splitlines()[:-2]):
        yield "bench/README.md, proofs: not a table that bench/times.py writes: run it"


def show(line, folder):
    """Runs a command in a folder, and shows what it prints. Returns its status, whether another run kept its proofs, and
    the lines that it printed."""
    how = {"stdin": subprocess.DEVNULL, "stdout": subprocess.PIPE, "stderr": subprocess.STDOUT}
    is_kept, lines = False, []
    with subprocess.Popen(["bash", "-c", line], cwd=folder, text=True, errors="replace", **how) as ran:
        for printed in ran.stdout:
            print(printed, end="", flush=True)
            lines.append(printed.rstrip("\n"))
            found = KEPT.search(printed)
            is_kept |= bool(found) and not (found[1] or "").startswith(folder)
    return ran.returncode, is_kept, lines


def row(name, line):
    """The row of a command, which runs in a fresh clone, and the lines that it printed. Ends this process where it has
    none."""
    line = f"{line} --anew" if name in ANEW else line
    with tempfile.TemporaryDirectory(prefix="num-format-times-") as folder:
        clone = f"{folder}/num-format"
        subprocess.run(["git", "clone", "-q", ROOT, clone], check=True)
        words = ["git", "-C", clone, "log", "-1", "--format=%h"]
        commit = subprocess.run(words, check=True, stdout=subprocess.PIPE, text=True).stdout.strip()
        of = f"version {tables.VERSION}, commit {commit}, {datetime.date.today()}, {tables.machine()}"
        print(f"== {line}", flush=True)
        started = time.monotonic()
        status, is_kept, lines = show(line, clone)
        seconds = round(time.monotonic() - started)
    print(f"== status {status}, {seconds} s", flush=True)
    if status or is_kept:
        sys.exit(f"{name}: not written: {'a proof was kept by an earlier run' if is_kept else f'status {status}'}")
    return Row(NAMES[name], proof_times.clock(seconds), of), lines


def main():
    parser = argparse.ArgumentParser(description="Writes what the commands of README.md take.")
    parser.add_argument("--check", action="store_true", help="whether the table there is one that this writes")
    parser.add_argument("names", nargs="*", metavar="NAME", help=f"of {', '.join(NAMES)}: all if none is named")
    given = parser.parse_args()
    if given.check:
        sys.exit("\n".join(problems()) or None)
    if not set(given.names) <= set(NAMES):
        parser.error(f"the names are {', '.join(NAMES)}")
    for name in given.names or NAMES:
        found, lines = row(name, commands()[name])
        tables.put(README, "times", text({**read(), found.command: found}))
        if name == "ci":
            measured = f"{NAMES[name]}: {found.minutes} minutes, {found.measured}."
            tables.put(tables.PAGE, "proofs", "\n".join([*proof_times.report_in(lines), "", measured]))


if __name__ == "__main__":
    main()
