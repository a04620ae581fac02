#!/usr/bin/env python3
"""The table of bench/README.md, and what is written by it: words there and in README.md, packages' tables, the chart.

    python3 bench/tables.py            # writes these again by the table, as where words change
    python3 bench/tables.py --check    # compares them, and writes nothing

With --check the exit status is 1 where one is not by the table, or where the table is of an earlier version than VERSION.
"""
import datetime
import os
import platform
import re
import statistics
import sys
import textwrap
from pathlib import Path
from typing import NamedTuple

# Nothing is written beside the files that are imported.
sys.dont_write_bytecode = True

HERE = Path(__file__).resolve().parent

import plot
from cells import ROOT, SHOWN

PAGE = HERE / "README.md"
CELLS = HERE / "cells.tsv"
VERSION = (ROOT / "VERSION").read_text(encoding="ascii").strip()

HEAD = ["For", "Does", "This library", "ns", "A copy", "Beside it", "ns", "Median", "Lowest", "Highest", "Above"]

# Each package's folder, by the languages that its README has the rows of.
PACKAGES = {"rust": ["Rust"], "c": ["C", "C++"], "python": ["Python"], "js": ["JavaScript"], "sqlite": ["SQLite"]}
PACKAGES |= {"postgresql": ["PostgreSQL"]}

# What the words of the page tell in a line each.
GROUPS = [["Rust"], ["C", "C++"], ["Python"], ["JavaScript"], ["SQLite", "PostgreSQL"], ["Programs"]]

# What README.md tells: a language, what is done, beside what, and in which words.
TOLD = [
    ("Rust", "print, kept buffer", "num-format 0.4.4", "In Rust it takes {} of the time of `num-format` 0.4.4 to print"),
    ("Rust", "print, new string", "num-format 0.4.4", "into a kept buffer, {} into a new string"),
    ("Rust", "parse, strict", "num-format 0.4.4", "and {} to parse;"),
    ("C", "print", "`snprintf` of `%'ld`", "in C {} of that of `snprintf`"),
    ("C", "parse, strict", "`sscanf` of `%'ld`", "and {} of that of `sscanf`;"),
    ("Programs", "lines", "`numfmt`", "`regroup-lines` {} of that of `numfmt`"),
    ("Programs", "CSV with quotes", "Python's `csv`", "and {} of that of Python's `csv`."),
]

# What is done, in the order of the table.
ORDER = ["print", "parse", "look up", "decimal", "column", "decimal column"]


class Row(NamedTuple):
    """A row of the table, as texts: the times of a call and of another that does the same, and what the first is over the
    second in all cells: the median, the lowest and the highest, and in how many it is above. `copy` is the widest that a
    copy of this library shows over it, and no cell is above by less. `-` was not measured."""

    language: str
    does: str
    ours: str
    ns: str
    copy: str
    beside: str
    beside_ns: str
    median: str
    lowest: str
    highest: str
    above: str

    @property
    def is_above(self):
        return float(self.median) > float(self.copy.replace("-", "1"))

    @property
    def is_digits(self):
        """Whether what is beside it prints or parses plain digits alone."""
        return "digits" in self.beside


def ratio(number):
    return f"{number:.2f}".removeprefix("0")


def nanoseconds(cells):
    """The time in the cell that is shown, or in the only one."""
    time = cells.get(SHOWN, next(iter(cells.values())))
    return f"{time:,.0f}" if time >= 10 else f"{time:.1f}"


def place(does):
    """What the rows of a language are sorted by: printing before parsing."""
    subject = does.split(",")[0]
    return ORDER.index(subject) if subject in ORDER else 0, "parse" in does


def rows_of(language, lines):
    """The rows of a language's lines."""
    operations = list(dict.fromkeys(line.operation for line in lines))
    for does in sorted(operations, key=place):
        calls = {}
        for line in lines:
            if line.operation == does:
                calls.setdefault((line.role, line.call if line.role == "other" else ""), {})[line.cell] = float(line.time)
        ours, copies = calls.pop(("ours", "")), calls.pop(("copy", ""))
        name = next(line.call for line in lines if (line.operation, line.role) == (does, "ours"))
        noise = max(max(ours[cell] / copies[cell], copies[cell] / ours[cell]) for cell in ours)
        start = [language, does, name, nanoseconds(ours), ratio(noise)]
        for (_, beside), times in sorted(calls.items(), key=lambda call: "digits" in call[0][1]):
            ratios = {cell: ours[cell] / times[cell] for cell in times}
            highest = max(ratios, key=ratios.get)
            above = sum(each > noise for each in ratios.values())
            ends = [ratio(each) for each in (statistics.median(ratios.values()), min(ratios.values()), ratios[highest])]
            yield Row(*start, beside, nanoseconds(times), *ends[:2], f"{ends[2]}, {highest}", f"{above} of {len(ratios)}")
        if not calls:
            yield Row(*start, *6 * ["-"])


def write_cells(found):
    """Writes all times, for who works at them."""
    lines = ("\t".join([name, *line]) + "\n" for name, each in found.items() for line in each)
    CELLS.write_text("".join(lines), encoding="utf-8")


def table(head, rows):
    rule = ["---:" if name in ("ns", "A copy", "Median", "Lowest") else "---" for name in head]
    return "\n".join(f"| {' | '.join(cells)} |" for cells in [head, rule, *rows])


def read():
    """The rows of the page, and the line below them."""
    found, caption = block(PAGE, "times").split("\n\n")
    return [Row(*line.strip("| ").split(" | ")) for line in found.splitlines()[2:]], caption


def machine():
    """The processor, and how many threads it has."""
    try:
        with open("/proc/cpuinfo", encoding="utf-8") as lines:
            name = next(line.split(":", 1)[1].strip() for line in lines if line.startswith("model name"))
    except (OSError, StopIteration):
        name = platform.machine()
    return f"{name}, {os.cpu_count()} threads"


def caption(skipped):
    """What the table is of, with what was skipped."""
    load, missing = os.getloadavg()[0], "".join(f" Not measured: {line}." for line in skipped)
    return f"Version {VERSION}, {datetime.date.today()}, {machine()}, load {load:.1f} before.{missing}"


def marks(name):
    return re.compile(rf"(<!-- bench/\S+ writes: {name} -->\n\n)(.*?)(\n\n<!-- end -->)", re.S)


def block(path, name):
    """What a document has between its marks."""
    found = marks(name).search(path.read_text(encoding="utf-8"))
    if not found:
        sys.exit(f"{path} has no marks of {name}")
    return found[2]


def between(rows):
    medians = sorted((row.median for row in rows), key=float)
    return " to ".join(dict.fromkeys([medians[0], medians[-1]]))


def slower(rows):
    """The calls over which a median is above one by more than a copy shows, in what and by how much."""
    found = {}
    for row in rows:
        if row.is_above and not row.is_digits:
            found.setdefault(row.beside, []).append(row)
    what = {beside: " and ".join(f"*{row.does}*" for row in each) for beside, each in found.items()}
    said = (f"{beside} at {what[beside]} ({between(each)})" for beside, each in found.items())
    return f"Slower than {', '.join(said)}." if found else "Nowhere slower."


def words_of(rows, languages):
    """A line on rows: how fast they are beside what does the same, where slower, and how fast beside plain digits."""
    compared = [row for row in rows if row.language in languages and row.median != "-"]
    alike, digits = ([row for row in compared if row.is_digits == is_digits] for is_digits in (False, True))
    by_kind = {}
    for row in alike:
        kind = next((kind for kind in ["print", "parse", "look up"] if kind in row.does), "regroup")
        by_kind.setdefault(kind, []).append(row)
    said = ", ".join(f"{between(found)} to {kind}" for kind, found in by_kind.items())
    more = f" Beside plain digits {between(digits)}." if digits else ""
    return f"- **{' and '.join(languages)}** {said}. {slower(compared)}{more}"


def wrapped(text, indent=""):
    return textwrap.fill(text, 120, subsequent_indent=indent, break_on_hyphens=False, break_long_words=False)


def page_words(rows):
    there = {row.language for row in rows if row.median != "-"}
    return "\n".join(wrapped(words_of(rows, languages), "  ") for languages in GROUPS if there & set(languages))


def readme_words(rows, below):
    """The lines of README.md."""
    found = {(row.language, row.does, row.beside): row.median for row in rows if row.median != "-"}
    told = [words.format(found[key]) for *keys, words in TOLD if (key := tuple(keys)) in found]
    measured = [row for row in rows if row.median != "-"]
    return "\n".join(map(wrapped, [" ".join(told).rstrip(";.") + ".", f"{slower(measured)} {below.split(', load')[0]}."]))


def package_table(rows, languages):
    """The rows of a package, without the columns that only the page has, and with the language where there are several."""
    chosen = [row for row in rows if row.language in languages]
    names = ["language"] * (len(languages) > 1) + ["does", "ours", "ns", "beside", "beside_ns", "median"]
    heads = dict(zip(Row._fields, HEAD))
    return table([heads[name] for name in names], [[getattr(row, name) for name in names] for row in chosen])


def written(rows, below):
    """Each document and name of a block, with its text."""
    short = below.split(" Not measured")[0]
    yield PAGE, "words", page_words(rows)
    yield ROOT / "README.md", "speed", readme_words(rows, below)
    for folder, languages in PACKAGES.items():
        yield ROOT / "packages" / folder / "README.md", "times", f"{package_table(rows, languages)}\n\n{short}"


def put(path, name, text):
    """Replaces what is between the marks of a document."""
    old = path.read_text(encoding="utf-8")
    path.write_text(marks(name).sub(lambda found: found[1] + text + found[3], old), encoding="utf-8")


def write(rows, below):
    """Writes the table, and what is by it."""
    put(PAGE, "times", f"{table(HEAD, rows)}\n\n{below}")
    for path, name, text in written(rows, below):
        put(path, name, text)
    plot.CHART.write_text(plot.chart(rows, below), encoding="utf-8")


def is_stale(below, version):
    """Whether the table is of another version than this one: a release needs its own."""
    return not below.startswith(f"Version {version}, ")


def problems():
    """What is not by the table, or why the table is stale."""
    rows, below = read()
    if is_stale(below, VERSION):
        yield f"the table of bench/README.md is not of version {VERSION}: run bench/run"
    for path, name, text in written(rows, below):
        if block(path, name) != text:
            yield f"{path.relative_to(ROOT)}, {name}: not by the table: run python3 bench/tables.py"
    if plot.CHART.read_text(encoding="utf-8") != plot.chart(rows, below):
        yield "bench/speed.svg is not by the table: run python3 bench/tables.py"


def main():
    if sys.argv[1:] == ["--check"]:
        sys.exit("\n".join(problems()) or None)
    write(*read())


if __name__ == "__main__":
    main()
