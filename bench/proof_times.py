"""Counts the processor seconds that the prover takes for each crate, and shows them in a table.

`rt` says when a crate is proved, and not what that took. So while it runs, /proc is read each half second: each process of
the prover has the name of its crate among its words, and its folder tells what it proves. What one took after it was seen
for the last time is not counted, a quarter of a second on average.
"""
import os
import re
import tempfile
import threading
import time
from collections import defaultdict
from pathlib import Path
from typing import NamedTuple

# The seconds between two looks.
STEP = 0.5

# "rt lib" proves the library for C, and what it stands on, apart from the others.
HEAD = ["Crate", "Could begin", "Ended", "Proof", "Its tests", "Its edits", "`rt lib`"]

# How the last line begins.
TOTAL = "Processor seconds of the prover in all:"

# What a process of the prover does, as the columns of the table after the first three.
PROOF, TESTS, EDITS, LIBRARY = PARTS = ["proof", "tests", "edits", "library"]

# The folder in which `rt` tries a must-fail edit, or proves a crate before its edits.
OF_EDIT = re.compile(re.escape(tempfile.gettempdir()) + r"/rt-edit-")

# A hundredth of a second, in most systems.
TICKS = os.sysconf("SC_CLK_TCK")


class Process(NamedTuple):
    """A process as /proc shows it, with the processor seconds that it took so far."""

    name: tuple
    parent: int
    seconds: float


class Spent(NamedTuple):
    """What was seen of a part of a crate's work: its processor seconds, and when it began and ended."""

    seconds: float
    began: float
    ended: float


def clock(seconds):
    """Minutes and seconds."""
    minutes, rest = divmod(round(seconds), 60)
    return f"{minutes}:{rest:02}"


def processes():
    """All processes by their numbers."""
    found = {}
    for folder in filter(str.isdigit, os.listdir("/proc")):
        try:
            fields = Path("/proc", folder, "stat").read_text(encoding="utf-8", errors="replace").rpartition(")")[2].split()
        except OSError:
            continue
        number = int(folder)
        # A number may be given again, so that the time at which a process started is part of its name.
        found[number] = Process((number, fields[19]), int(fields[1]), (int(fields[11]) + int(fields[12])) / TICKS)
    return found


def is_below(number, top, found):
    """Whether the process of this number is a child of that one, or a child of a child."""
    while number in found and number != top:
        number = found[number].parent
    return number == top


def work_of(number, copy):
    """The crate and the part for which a process proves, if it does."""
    try:
        words = Path("/proc", str(number), "cmdline").read_bytes().decode(errors="replace").split("\0")
        folder = os.readlink(f"/proc/{number}/cwd")
    except OSError:
        return None
    if not words[0].endswith("/rattle") or words[1:2] not in (["check"], ["build"]) or "--crate-name" not in words:
        return None
    crate = words[words.index("--crate-name") + 1]
    if OF_EDIT.match(folder):
        return crate, EDITS
    if not folder.startswith(f"{copy}/"):
        return crate, LIBRARY
    return crate, TESTS if "--test" in words else PROOF


class Watch:
    """Looks at the processes below this one while it is entered. `copy` is the folder in which `rt ci` works."""

    def __init__(self, copy):
        self.copy, self.started = os.path.realpath(copy), time.monotonic()
        self.works, self.spent, self.seen = {}, {}, {}
        self.ending = threading.Event()
        self.thread = threading.Thread(target=self.run, daemon=True)

    def __enter__(self):
        self.thread.start()
        return self

    def __exit__(self, *_):
        self.ending.set()
        self.thread.join()

    def run(self):
        while not self.ending.wait(STEP):
            self.look()

    def look(self):
        found, now = processes(), time.monotonic() - self.started
        for number, process in found.items():
            if process.name not in self.works and is_below(number, os.getpid(), found):
                work = work_of(number, self.copy)
                # A process that has not begun with its program yet is looked at again.
                if work or process.seconds > 1:
                    self.works[process.name] = work
            if self.works.get(process.name):
                self.spent[process.name] = process.seconds
                began = self.seen.get(process.name, (now,))[0]
                self.seen[process.name] = began, now

    def report(self, stands_on):
        """The table as lines, and the longest chain. `stands_on` has the crates below each, as crates.txt says."""
        return report(self.parts(), stands_on)

    def parts(self):
        """What was spent on each part of each crate."""
        found = defaultdict(list)
        for name, seconds in self.spent.items():
            found[self.works[name]].append((seconds, *self.seen[name]))
        return {work: Spent(sum(it[0] for it in all), min(it[1] for it in all), max(it[2] for it in all)) for work, all in found.items()}


def below(crate, stands_on):
    """The crates of the repository on which one stands, and on which those stand."""
    found = set()
    for name in stands_on.get(crate, []):
        if name in stands_on:
            found |= {name, *below(name, stands_on)}
    return found


def longest_chain(proofs, stands_on):
    """The crates of which each waited for the one before it, up to that which was proved last."""
    chain = [max(proofs, key=lambda crate: proofs[crate].ended)] if proofs else []
    while chain and (waited := below(chain[0], stands_on) & proofs.keys()):
        chain.insert(0, max(waited, key=lambda crate: proofs[crate].ended))
    return chain


def rows(parts, stands_on):
    """A row for each crate that was proved, those that ended first at the top, and one for all."""
    proofs = {crate: spent for (crate, part), spent in parts.items() if part == PROOF}
    crates = {crate for crate, _ in parts}
    for crate in sorted(crates, key=lambda crate: proofs[crate].ended if crate in proofs else float("inf")):
        ends = [proofs[name].ended for name in below(crate, stands_on) & proofs.keys()]
        times = [clock(max(ends, default=0)), clock(proofs[crate].ended)] if crate in proofs else ["-", "-"]
        yield [crate, *times, *(seconds_of(parts, [(crate, part)]) for part in PARTS)]
    yield ["all", "-", "-", *(seconds_of(parts, [work for work in parts if work[1] == part]) for part in PARTS)]


def seconds_of(parts, works):
    """The seconds of these parts, as text. `-` took none."""
    seconds = sum(parts[work].seconds for work in works if work in parts)
    return f"{seconds:,.0f}" if seconds else "-"


def report(parts, stands_on):
    """The table as lines, the longest chain in a line, and the sum."""
    proofs = {crate: spent for (crate, part), spent in parts.items() if part == PROOF}
    lines = [HEAD, ["---"] * 3 + ["---:"] * 4, *rows(parts, stands_on)]
    chain = longest_chain(proofs, stands_on)
    steps = ", ".join(f"{crate} {clock(proofs[crate].ended)}" for crate in chain)
    total = sum(spent.seconds for spent in parts.values())
    return [*map(line_of, lines), "", f"Longest chain, each proved at: {steps or 'none'}.", f"{TOTAL} {total:,.0f}."]


def line_of(cells):
    return f"| {' | '.join(cells)} |"


def report_in(lines):
    """What a log has of the report, which ends with the sum."""
    first = lines.index(line_of(HEAD))
    return lines[first : next(at for at, line in enumerate(lines) if at > first and line.startswith(TOTAL)) + 1]


def is_report(lines):
    """Whether lines begin and end as a report does, with as many cells in each row."""
    rows = [line for line in lines if line.startswith("|")]
    is_whole = bool(lines) and lines[0] == line_of(HEAD) and lines[-1].startswith(TOTAL)
    return is_whole and all(row.count("|") == len(HEAD) + 1 for row in rows)
