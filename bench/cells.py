"""The numbers that are measured, with Python's answers: what each has to be printed as.

A cell is a type, a format and how many digits, as `i64 en mixed`. Its file has a line for each number, with `Fields`.
"""
import random
import re
import sys
from decimal import Decimal, getcontext
from pathlib import Path
from typing import NamedTuple

ROOT = Path(__file__).resolve().parent.parent
sys.path.append(str(ROOT / "tools"))
getcontext().prec = 40

from locales import rows as locales


class Form(NamedTuple):
    """A format. Each of its groups but the first from the right has two digits if it is Indian."""

    separator: str
    decimal_mark: str = "."
    minus: str = "-"
    is_indian: bool = False


# `own` is no locale.
FORMS = {
    "en": Form(","),
    "fr": Form("\u202f", ","),
    "hi": Form(",", is_indian=True),
    "en-US-POSIX": Form(""),
    "own": Form("\u2019", ",", "\u2212", True),
}

# Each type's lowest and highest number.
TYPES = {
    "i32": (-(2**31), 2**31 - 1),
    "u64": (0, 2**64 - 1),
    "i64": (-(2**63), 2**63 - 1),
    "i128": (-(2**127), 2**127 - 1),
}

# How many digits the numbers of a cell have: as many as the type has where they are mixed, each length as often.
DIGITS = {"1-3": (1, 3), "4-6": (4, 6), "7-19": (7, 19), "mixed": (1, 39)}

# The cell whose times the tables show, where a call takes numbers of this type.
SHOWN = "i64 en mixed"


def numbers(chance, type_name, digits, count):
    """Random numbers of a type."""
    lowest, highest = TYPES[type_name]
    least, most = DIGITS[digits]
    most = min(most, len(str(highest)))
    for _ in range(count):
        length = chance.randint(least, most)
        number = chance.randrange(10 ** (length - 1), min(10**length, highest + 1))
        yield -number if lowest < 0 and chance.random() < 0.5 else number


def text(number, form):
    """What Python prints of a number or a decimal, with the separators and signs of the format."""
    whole, mark, decimals = f"{number.copy_abs():,}".partition(".")
    if form.is_indian:
        whole = re.sub(r"(?<=\d)(?=(\d\d)*\d{3}$)", ",", whole.replace(",", ""))
    sign = form.minus if number.is_signed() else ""
    return sign + whole.replace(",", form.separator) + (mark and form.decimal_mark) + decimals


class Fields(NamedTuple):
    """A number, its digits and its text, a text that has a letter too, letters alone, and a hundredth as
    digits and as text."""

    number: str
    digits: str
    text: str
    with_letter: str
    letters: str
    decimal_digits: str
    decimal_text: str

    def wrong(self):
        """The same number with wrong answers: each text is another number's, and what is to be refused is not."""
        digits, text, decimal_digits, decimal_text = map(changed, [self.digits, self.text, *self[5:]], range(1, 5))
        return Fields(self.number, digits, text, self.digits, self.digits, decimal_digits, decimal_text)


class Names(NamedTuple):
    """A locale's name, one that no locale has, a language tag, and the separator."""

    name: str
    unknown: str
    tag: str
    separator: str

    def wrong(self):
        return self._replace(unknown=self.name, separator="?")


def changed(text, more):
    """A text whose last digit is so much higher, from 1 again after 9: no text is that of -0."""
    return text[:-1] + str((int(text[-1]) - 1 + more) % 9 + 1)


def fields(number, form):
    """The fields of a number."""
    plain, hundredth = str(number), number.scaleb(-2)
    decimal = f"{hundredth:f}", text(hundredth, form)
    return Fields(plain, plain, text(number, form), f"{plain}x", "x" * len(plain), *decimal)


def names_of(name, separator):
    return Names(name, f"{name}-ZZ", f"{name.replace('-', '_')}.UTF-8", separator)


def write(folder, names, numbers_of_cell, rows, is_right=True):
    """Writes the files of these cells, `rows`, which has more numbers, and `names`, of each locale; with wrong answers
    where they are not to be right."""
    chance = random.Random(72)
    (folder / "cells").mkdir(exist_ok=True)
    cells = {f"cells/{name}": (name.split(), numbers_of_cell) for name in names} | {"rows": (SHOWN.split(), rows)}
    files = {
        path: [fields(Decimal(number), FORMS[form]) for number in numbers(chance, type_name, digits, count)]
        for path, ((type_name, form, digits), count) in cells.items()
    }
    files["names"] = [names_of(each["name"], each["sep"]) for each in locales()]
    for path, lines in files.items():
        written = lines if is_right else [line.wrong() for line in lines]
        (folder / path).write_text("".join("\t".join(line) + "\n" for line in written), encoding="utf-8")


def all_cells():
    return [f"{type_name} {form} {digits}" for type_name in TYPES for form in FORMS for digits in DIGITS]


def few_cells():
    """Those that a quick run has."""
    return ["i64 en 1-3", "i64 en 7-19", "i64 fr mixed", "i64 own mixed", "i128 en mixed", SHOWN]
