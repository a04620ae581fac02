"""Runs `rt ci` on a copy of the repository."""
import contextlib
import os
import re
import shutil
import subprocess
import tempfile
from pathlib import Path

from tally import ROOT, elapsed, heading
from trials import TRIED

# What a copy leaves out: what git has, and what programs made.
MADE = [".git", "out", "target", "__pycache__"]

# What a copy that is not whole leaves out too: what takes the prover long and no user needs, or `rt lib` proves. Those are
# the edits, the library for C, and the crates of tests that run unproved.
LEFT_OUT = ["must-fail", "num_format_c", *TRIED]

# What `rt ci` says of a crate that is proved, now or by an earlier run, of a must-fail edit that the prover
# refused, and its last line.
PROVED = re.compile(r"rt: (\w+)(: its tests are)? (?:proved|is kept: .*)\n")
REFUSED = re.compile(r"rt: must-fail (\S+)/(\S+)\.edit: refused, as it must be: (.*)\n")
COUNTED = re.compile(r"(\d+) passed, (\d+) failed\n")


@contextlib.contextmanager
def copied(is_whole):
    """Gives the folder of a copy of the repository, without what LEFT_OUT names if it is not whole."""
    left_out = MADE if is_whole else [*MADE, *LEFT_OUT]
    with tempfile.TemporaryDirectory(prefix="num-format-") as folder:
        copy = Path(folder) / "copy"
        shutil.copytree(ROOT, copy, symlinks=True, ignore=shutil.ignore_patterns(*left_out))
        lines = (ROOT / "crates.txt").read_text(encoding="utf-8").splitlines(keepends=True)
        listed = (line for line in lines if re.split("[ :]", line)[0] not in left_out)
        (copy / "crates.txt").write_text("".join(listed), encoding="utf-8")
        # The top of a repository, also where the folder is below that of another.
        (copy / ".git").mkdir()
        yield copy


def keep(copy, name):
    """Puts the program of a crate that is proved, if it is one, into this repository, for tools/install and tools/release."""
    built, to = (top / "crates" / name / "out" / name for top in (copy, ROOT))
    if built.is_file():
        to.parent.mkdir(exist_ok=True)
        to.unlink(missing_ok=True)
        shutil.copy2(built, to)


def prove(tally, copy, is_anew):
    """Runs `rt ci`, and adds what its last line counts. Gives the name of each crate once it is proved and its program
    built, and `NAME: tests` once its tests are."""
    heading("rt ci")
    how = {"env": {**os.environ, "PYTHONUNBUFFERED": "1"}, "errors": "replace"}
    line = ""
    words = ["rt", "ci", *(["--anew"] if is_anew else [])]
    with subprocess.Popen(words, cwd=copy, stdout=subprocess.PIPE, text=True, **how) as ci:
        for line in ci.stdout:
            print(tidy(line), end="", flush=True)
            found = PROVED.fullmatch(line)
            if found:
                yield f"{found[1]}: tests" if found[2] else found[1]
    counted = COUNTED.fullmatch(line)
    passed, failed = map(int, counted.groups()) if counted else (0, 0)
    tally.count(passed, failed)
    if not passed or bool(ci.returncode) != bool(failed):
        tally.add("rt ci", f"status {ci.returncode} after the line {line!r}")


def tidy(line):
    """A line of `rt ci`: with the time, or with the error for which an edit was refused."""
    refused = REFUSED.fullmatch(line)
    if refused:
        return "refused: {}/{}: {}\n".format(*refused.groups())
    return f"{elapsed()} {line}" if line.startswith("rt: ") or COUNTED.fullmatch(line) else line


def read_crates(top):
    """What each crate stands on, as crates.txt says."""
    lines = (top / "crates.txt").read_text(encoding="utf-8").splitlines()
    pairs = (line.split(":") for line in lines if line and not line.startswith("#"))
    return {head.split()[0]: below.split() for head, below in pairs}
