"""The rows of decimals that the tables have, and what Python's module decimal makes of them.

Python computes each result: the text by format(d, ",f"), with the marks of the format in place of its own, the
roundings by quantize, the order by comparison, and the sums by + and -. The rows are the same in each run.
"""
import decimal
import random
import sys
from decimal import Decimal
from pathlib import Path

sys.path.append(str(Path(__file__).resolve().parent.parent / "tests"))

from case_files import unescaped  # noqa: E402

# More digits than any result has, so that each is exact.
decimal.getcontext().prec = 200

LOW = -(2**127)
HIGH = 2**127 - 1

# The separator, the decimal mark and the minus sign of each format.
FORMATS = {
    "english": (",", ".", "-"),
    "german": (".", ",", "-"),
    "french": ("\u202f", ",", "-"),
    "arabic": ("\u066c", "\u066b", "\u2212"),
    "plain": ("", ".", "-"),
    "longest": ("<<<<>>>>", "[[[[]]]]", "--------"),
}

ROUNDINGS = {
    "HalfEven": decimal.ROUND_HALF_EVEN,
    "HalfAwayFromZero": decimal.ROUND_HALF_UP,
    "TowardZero": decimal.ROUND_DOWN,
}

# Each error, and its message.
SCALE_TOO_LARGE = "ScaleTooLarge: The scale is larger than 38."
DIGITS_LOST = "DigitsLost: Digits would be lost at that scale."
OUT_OF_RANGE = "OutOfRange: The units are out of range."

DATA = Path(__file__).with_name("decimal_examples.tsv")


def examples(kind):
    """The rows of that kind of the data, with numbers for all but the name of a format and a text to parse."""
    lines = DATA.read_text(encoding="utf-8").splitlines()
    rows = (line.split("\t") for line in lines if not line.startswith("#"))
    for row_kind, name, first, *numbers in rows:
        if row_kind == kind:
            yield name, int(first) if kind == "print" else unescaped(first).decode(), *map(int, numbers)


def value(units, scale):
    return Decimal(units).scaleb(-scale)


def text(name, units, scale):
    separator, mark, minus = FORMATS[name]
    shown = format(value(units, scale), ",f")
    if units == 0:
        shown = shown.lstrip("-")
    return shown.translate({ord(","): separator, ord("."): mark, ord("-"): minus})


def written(units, scale):
    return f"{units}/{scale}" if LOW <= units <= HIGH else None


def units_of(number, scale):
    """How many units of the scale a number is, if that is whole."""
    units = number.scaleb(scale)
    return int(units) if units == units.to_integral_value() else None


def rescaled(units, scale, to, rounding):
    if to > 38:
        return SCALE_TOO_LARGE
    number = value(units, scale)
    if rounding is None:
        there = units_of(number, to)
        if there is None:
            return DIGITS_LOST
    else:
        there = units_of(number.quantize(Decimal(1).scaleb(-to), rounding=rounding), to)
    return written(there, to) or OUT_OF_RANGE


def expected(row):
    name, units, scale, other_units, other_scale, to = row
    first, second = value(units, scale), value(other_units, other_scale)
    larger = max(scale, other_scale)
    return "\t".join([
        text(name, units, scale),
        # Each way of printing has that text.
        "true",
        *(rescaled(units, scale, to, rounding) for rounding in [*ROUNDINGS.values(), None]),
        "less" if first < second else "greater" if first > second else "equal",
        "true" if first == second else "false",
        written(units_of(first + second, larger), larger) or "none",
        written(units_of(first - second, larger), larger) or "none",
        written(-units, scale) or "none",
    ])


def some_units(chance):
    """Units of any size, often near a power of ten or at an end of i128."""
    kind = chance.randrange(8)
    if kind == 0:
        units = chance.choice([LOW, LOW + 1, HIGH, HIGH - 1])
    elif kind <= 2:
        units = chance.choice([1, 5, 25, 15]) * 10 ** chance.randrange(37) + chance.randrange(-1, 2)
    else:
        units = chance.randrange(10 ** chance.randrange(1, 39))
    units *= chance.choice([1, -1])
    return min(max(units, LOW), HIGH)


def some_row(chance):
    units, scale = some_units(chance), chance.randrange(39)
    to = chance.choice([chance.randrange(40), max(scale - 1, 0), scale])
    kind = chance.randrange(4)
    if kind == 0:
        # An equal value, or one that differs in the last place.
        more = chance.randrange(39 - scale)
        other_units, other_scale = units * 10**more + chance.choice([0, 0, 1, -1]), scale + more
        if not LOW <= other_units <= HIGH:
            other_units, other_scale = units, scale
    else:
        other_units, other_scale = some_units(chance), chance.randrange(39)
    return chance.choice(list(FORMATS)), units, scale, other_units, other_scale, to


def lines():
    """Each row, and what Python makes of it."""
    chance = random.Random(7)
    rows = list(examples("print"))
    rows += [some_row(chance) for _ in range(4500 - len(rows))]
    return [("\t".join(["print", *map(str, row)]), expected(row)) for row in rows]
