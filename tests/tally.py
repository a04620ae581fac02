"""Counts the checks of programs, and runs programs."""
import argparse
import os
import shutil
import subprocess
import sys
import threading
import time
from pathlib import Path

ROOT = Path(__file__).resolve().parent.parent

# What tests read of the scripts that write data.
sys.path.append(str(ROOT / "tools"))

# The most seconds for a run, which hangs if it takes longer. Where all processors are busy proving, it may take minutes.
RUN_SECONDS = 1500

# The C compiler.
CC = os.environ.get("CC", "cc")

# Closes an output, in the process that then becomes the program.
CLOSE = {"stdout": lambda: os.close(1), "stderr": lambda: os.close(2)}

STARTED = time.monotonic()


class Tally:
    """How many checks passed and failed, and why each skipped one was."""

    def __init__(self):
        self.passed = 0
        self.failed = 0
        self.skipped = []
        self.counting = threading.Lock()

    def count(self, passed, failed):
        with self.counting:
            self.passed += passed
            self.failed += failed

    def add(self, name, problem=None):
        """Counts a check, which failed if it has a problem, and shows it."""
        print(f"FAILED {name}: {problem}" if problem else f"ok {name}", flush=True)
        self.count(not problem, bool(problem))

    def compare(self, name, found, expected):
        """Counts a check that failed if the values differ, and returns whether it passed."""
        self.add(name, None if found == expected else f"{found!r} in place of {expected!r}")
        return found == expected

    def skip(self, name, why):
        """Counts a check that is not made."""
        self.skipped.append(f"skipped {name}: {why}")

    def lacks(self, command, name):
        """Whether a command is missing, and counts the check that needs it as skipped if so."""
        is_missing = shutil.which(command) is None
        if is_missing:
            self.skip(name, f"there is no `{command}`")
        return is_missing

    def end(self):
        """Shows what was skipped, and how many checks passed and failed. Ends this process."""
        for line in self.skipped:
            print(line)
        skipped = f", {len(self.skipped)} skipped" if self.skipped else ""
        print(f"{self.passed} passed, {self.failed} failed{skipped}")
        sys.exit(1 if self.failed else 0)


def package_words(library):
    """What the words of a package's test command ask for: the tables of cases alone, and the library for C."""
    parser = argparse.ArgumentParser(description="Tests a package.")
    parser.add_argument("--cases", action="store_true", help="replay the tables of cases alone")
    parser.add_argument("library", nargs="?", type=Path, default=library, help="libnum_format_c.a")
    given = parser.parse_args()
    return given.cases, given.library.resolve()


def elapsed():
    """The minutes and seconds since this process began."""
    minutes, seconds = divmod(int(time.monotonic() - STARTED), 60)
    return f"{minutes}:{seconds:02}"


def heading(text):
    print(f"== {elapsed()} {text}", flush=True)


def run(words, **how):
    """Runs a command to its end. One that takes too long has the status None."""
    how = {"timeout": RUN_SECONDS, **how}
    if "input" not in how:
        how.setdefault("stdin", subprocess.DEVNULL)
    try:
        return subprocess.run(words, check=False, **how)
    except subprocess.TimeoutExpired as late:
        return subprocess.CompletedProcess(words, None, late.stdout or b"", late.stderr or b"")


def shown(words):
    """The words, the long ones truncated."""
    return " ".join(repr(word[:20]) for word in words) or "no words"


def other(output):
    return "stderr" if output == "stdout" else "stdout"


def compare_failed(tally, words, output, expected, **given):
    """Runs a program with an output that is full, then closed: its status, and the other output. What is expected is a
    pair of these, or one for each."""
    pairs = expected if isinstance(expected, list) else 2 * [expected]
    with open("/dev/full", "wb") as full:
        states = [("full", {output: full}), ("closed", {output: None, "preexec_fn": CLOSE[output]})]
        for (state, how), wanted in zip(states, pairs):
            ended = run(words, **{other(output): subprocess.PIPE, **how, **given})
            name = f"{shown(words[1:])}, {output} {state}"
            tally.compare(name, (ended.returncode, getattr(ended, other(output))), wanted)
