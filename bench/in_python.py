"""Times the package for Python beside what Python's users have now.

    python3 in_python.py FOLDER SECONDS    # what cells.py writes, and how long each call is measured in a cell

Prints lines of five fields: what is done, the cell, whose call it is, the call, and the nanoseconds that it takes for a
number by the best turn, or `differs` where a result is not the one expected. What is missing is named.
"""
import importlib
import locale
import sys
import time
from decimal import Decimal
from functools import partial
from pathlib import Path

import numpy as np

import num_format
from num_format import Format
from num_format.columns import StringColumn, format_column, format_decimal_column, parse_column, parse_decimal_column

# How many numbers of a cell are printed and parsed one at a time.
FIRST = 1000

# The names that C has for formats. Its hi_IN groups in another way.
GNU = {"en": "en_US.UTF-8", "fr": "fr_FR.UTF-8"}


def optional(name):
    """A module, or None where it is missing."""
    try:
        return importlib.import_module(name)
    except ImportError:
        print(f"skipped: {name}: there is no such module")
        return None


babel, pandas = optional("babel.numbers"), optional("pandas")


class Way:
    """A call: what it does, whose it is, and a function with what it is given for each number and is to return."""

    def __init__(self, operation, role, call, one, given, expected):
        self.line, self.work = [operation, role, call], lambda: [one(each) for each in given]
        self.expected, self.best = expected, float("inf")

    def time(self):
        start = time.thread_time_ns()
        self.work()
        self.best = min(self.best, (time.thread_time_ns() - start) / len(self.expected))

    def shown(self):
        return f"{self.best:.1f}" if list(self.work()) == self.expected else "differs"


class Column(Way):
    """A call for a whole column."""

    def __init__(self, operation, role, call, work, expected):
        super().__init__(operation, role, call, None, [], expected)
        self.work = work


def measure(cell, ways, seconds):
    """Measures the calls of each operation in turn, until each had so many seconds, and prints them."""
    for operation in dict.fromkeys(way.line[0] for way in ways):
        group = [way for way in ways if way.line[0] == operation]
        end = time.thread_time() + seconds * len(group)
        while time.thread_time() < end or group[-1].best == float("inf"):
            for way in group:
                way.time()
        for way in group:
            does, *rest = way.line
            print(does, cell, *rest, way.shown(), sep="\t", flush=True)


def form_of(name):
    if name != "own":
        return Format.locale(name)
    return Format(separator="\u2019", grouping="Indian", minus_sign="\u2212", decimal_mark=",")


def read(path):
    """The numbers of a cell, and the columns that cells.py writes beside them."""
    lines = [line.split("\t") for line in path.read_text(encoding="utf-8").splitlines()]
    numbers, _, *columns = map(list, zip(*lines))
    return list(map(int, numbers)), *columns


def or_none(parse):
    """The call, which returns None where it raises a ValueError."""

    def parse_or_none(text):
        try:
            return parse(text)
        except ValueError:
            return None

    return parse_or_none


def has_locale(name):
    try:
        return name in GNU and bool(locale.setlocale(locale.LC_NUMERIC, GNU[name]))
    except locale.Error:
        return False


def without_commas(text, to_number=int):
    return to_number(text.replace(",", ""))


def singles(path):
    """The calls for one number."""
    name = path.name.split()[1]
    numbers, texts, with_letter, _, digits, decimal_texts = (column[:FIRST] for column in read(path))
    decimals, form = list(map(Decimal, digits)), form_of(name)
    given = {
        "print": (numbers, texts),
        "parse, strict": (texts, numbers),
        "parse, refused": (with_letter, [None] * len(with_letter)),
        "decimal, print": (decimals, decimal_texts),
        "decimal, parse": (decimal_texts, decimals),
    }

    def parse_decimal(text):
        return num_format.parse_decimal(text, form)

    calls = [
        ("print", "ours", "`num_format.format(n, form)`", lambda n: num_format.format(n, form)),
        ("parse, strict", "ours", "`num_format.parse(text, form)`", lambda text: num_format.parse(text, form)),
        ("parse, refused", "ours", "`num_format.parse(text, form)`", or_none(partial(num_format.parse, format=form))),
        ("decimal, print", "ours", "`num_format.format(d, form)`", lambda d: num_format.format(d, form)),
        ("decimal, parse", "ours", "`num_format.parse_decimal(text, form)`", parse_decimal),
    ]
    calls += [(does, "copy", *rest) for does, _, *rest in calls]
    if name == "en":
        calls += [
            ("print", "other", '`f"{n:,}"`', lambda n: f"{n:,}"),
            ("parse, strict", "other", '`int(text.replace(",", ""))`', without_commas),
            ("parse, refused", "other", '`int(text.replace(",", ""))`', or_none(without_commas)),
            ("decimal, print", "other", '`f"{d:,}"`', lambda d: f"{d:,}"),
            ("decimal, parse", "other", '`Decimal(text.replace(",", ""))`', lambda text: without_commas(text, Decimal)),
        ]
    if has_locale(name):
        calls += [
            ("print", "other", '`locale.format_string("%d", n, True)`', lambda n: locale.format_string("%d", n, True)),
            ("parse, strict", "other", "`locale.atoi(text)`", locale.atoi),
        ]
    if babel and name in [*GNU, "hi"]:
        calls += [
            ("print", "other", "`babel.numbers.format_decimal(n)`", partial(babel.format_decimal, locale=name)),
            ("parse, strict", "other", "`babel.numbers.parse_number(text)`", partial(babel.parse_number, locale=name)),
            ("decimal, parse", "other", "`babel.numbers.parse_decimal(text)`", partial(babel.parse_decimal, locale=name)),
        ]
    for does, role, call, one in calls:
        yield Way(does, role, call, one, *given[does])


def columns(path):
    """The calls for a column under `en`, and those that users have for one."""
    numbers, texts, _, _, _, decimal_texts = read(path)
    values, form = np.array(numbers), form_of("en")
    column, decimals = map(StringColumn.from_strings, [texts, decimal_texts])
    ours = [
        ("column, print", "`format_column(values, form)`", lambda: format_column(values, form), texts),
        ("column, print a list", "`format_column(values, form).tolist()`",
         lambda: format_column(values, form).tolist(), texts),
        ("column, parse", "`parse_column(column, form)`", lambda: parse_column(column, form), numbers),
        ("column, parse a list", "`parse_column(texts, form)`", lambda: parse_column(texts, form), numbers),
        ("decimal column, print", "`format_decimal_column(values, 2, form)`",
         lambda: format_decimal_column(values, 2, form), decimal_texts),
        ("decimal column, parse", "`parse_decimal_column(column, 2, form)`",
         lambda: parse_decimal_column(decimals, 2, form), numbers),
    ]
    for role in "ours", "copy":
        yield from (Column(does, role, *rest) for does, *rest in ours)
    for does in "column, print", "column, print a list":
        yield Column(does, "other", '`[f"{n:,}" for n in numbers]`', lambda: [f"{n:,}" for n in numbers], texts)
    for does in "column, parse", "column, parse a list":
        call = '`[int(text.replace(",", "")) for text in texts]`'
        yield Column(does, "other", call, lambda: list(map(without_commas, texts)), numbers)
    if pandas:
        series, text_series = pandas.Series(values), pandas.Series(texts)
        call = 'pandas, `series.map("{:,}".format)`'
        yield Column("column, print", "other", call, lambda: series.map("{:,}".format), texts)
        call = 'pandas, `series.str.replace(",", "").astype(int)`'
        parse = lambda: text_series.str.replace(",", "", regex=False).astype("int64")
        yield Column("column, parse", "other", call, parse, numbers)


def main():
    folder, seconds = Path(sys.argv[1]), float(sys.argv[2])
    for path in sorted((folder / "cells").glob("i64 *")):
        measure(path.name, list(singles(path)), seconds)
    measure("i64 en mixed", list(columns(folder / "rows")), seconds)


if __name__ == "__main__":
    main()
