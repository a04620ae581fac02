"""The texts of decimals that are to be parsed, and what is to be returned of them, by Python's module decimal.

They are those of decimal_examples.tsv and more, each with the name of its format and a scale. Python prints the number
that the digits of a text write, as decimals.py does, and compares: so it is found whether the text is spelled as the
number is printed. The place of an unexpected byte is where a regular expression ends. The texts are the same in each run.
"""
import random
import re

import decimals
from decimals import FORMATS, HIGH, LOW, rescaled, some_units, text

# Formats by which a text can be misread: with no minus sign or no mark, with a numeral, or with a mark that separates.
AMBIGUOUS = [
    "without a sign",
    "without a mark",
    "a mark that separates",
    "a digit in the mark",
    "a numeral in the mark",
    "a digit in the sign",
    "a digit in the separator",
]

# Formats of the same texts as "plain", which has no separator, but for one that is never printed.
PLAIN = ["a digit that is not printed", "a mark that is not printed"]


def without_separators(name, units, scale):
    return text(name, units, scale).replace(FORMATS[name][0] or "\0", "")


def unexpected_at(shown, name):
    """The place of the first byte after the minus sign, digits and separators, and one mark with digits."""
    separator, mark, minus = (re.escape(part.encode()) for part in FORMATS[name])
    digits = rb"[0-9]"
    among = rb"(?:" + (separator + rb"|" if separator else rb"") + digits + rb")*"
    return re.match(rb"(?:" + minus + rb")?" + among + rb"(?:" + mark + digits + rb"*)?", shown.encode()).end()


def parsed(shown, name):
    """The units and the scale that are to be returned, or the cause of the refusal."""
    if name in AMBIGUOUS:
        return "AmbiguousFormat"
    name = "plain" if name in PLAIN else name
    mark, minus = FORMATS[name][1:]
    decimals = shown.partition(mark)[2]
    units = int("".join(re.findall("[0-9]", shown)) or "0") * (-1 if shown.startswith(minus) else 1)
    if len(decimals) <= 38:
        scale = len(decimals)
        if shown in (text(name, units, scale), without_separators(name, units, scale)):
            return (units, scale) if LOW <= units <= HIGH else "OutOfRange"
    at = unexpected_at(shown, name)
    if at < len(shown.encode()):
        return f"Unexpected {{ at: {at} }}"
    if not re.search("[0-9]", shown):
        return "NoDigit"
    return "TooManyDecimals" if len(decimals) > 38 else "Misspelled"


def expected(row):
    name, shown, to = row
    result = parsed(shown, name)
    if isinstance(result, str):
        return f"{result}\tParse({result})"
    units, scale = result
    # Of an error, its name and not its message.
    there = rescaled(units, scale, to, None).partition(":")[0]
    return f"{units}/{scale}\t{there if '/' in there else f'Rescale({there})'}"


def changed(chance, shown, name):
    """A text with one change, which mostly makes it one that is refused."""
    separator, mark, minus = FORMATS[name]
    parts = [separator, mark, minus, "0", "7", "", " ", "+", "e", ".", ",", "\u0663", mark + mark]
    place = chance.randrange(len(shown) + 1)
    kind = chance.randrange(4)
    if kind == 0:
        return shown[:place] + chance.choice(parts) + shown[place:]
    if kind == 1:
        return shown[:place] + shown[place + 1:]
    if kind == 2:
        return shown[:place] + chance.choice(parts) + shown[place + 1:]
    part = chance.choice([separator, mark, minus])
    return shown.replace(part, chance.choice(parts), 1) if part else shown


def some_row(chance):
    name = chance.choice(list(FORMATS))
    units, scale = some_units(chance), chance.randrange(39)
    kind = chance.randrange(16)
    if kind == 0:
        # One digit more than may fit, or a few decimals more.
        units, scale = units * 10 + chance.randrange(10), scale + chance.randrange(3)
    elif kind == 1:
        scale = chance.randrange(39, 42)
    show = chance.choice([text, without_separators])
    shown = show(name, units, scale)
    if chance.randrange(2):
        shown = changed(chance, shown, name)
    return name, shown, chance.choice([chance.randrange(41), max(scale - 1, 0), scale, scale + 1])


def lines():
    """Each text with its format and its scale, and what is returned of it."""
    chance = random.Random(11)
    rows = list(decimals.examples("parse"))
    rows += [some_row(chance) for _ in range(5000 - len(rows))]
    return [("\t".join(["parse", name, shown, str(to)]), expected((name, shown, to))) for name, shown, to in rows]
