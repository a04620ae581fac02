#!/usr/bin/env python3
"""Writes the parts of the tables of cases in tests/cases that follow from data, and checks the others.

    python3 tools/tables.py

A table keeps its head, the recorded results of the Rust crate and what was worked out by hand, which is all above the
line that begins with WRITTEN. What follows is written anew: by Python's integers and `decimal`, as spelling.py,
decimals.py and decimal_texts.py have them, and from the texts of grouped_texts.txt. Python also prints the number and
parses the text of each case that is kept. The rows are the same in each run. What digit_texts.py writes follows from
them, and is written too.
"""
import itertools
import json
import re
import unicodedata
from functools import partial
from pathlib import Path
from urllib.parse import quote_from_bytes, unquote_to_bytes

import decimal_texts
import decimals
import digit_texts
import grouped_texts
import spelling
import typed_texts
from spelling import PLACES, Format, is_ambiguous, is_value, printed, strict_result

CASES = Path(__file__).resolve().parent.parent / "tests" / "cases"

# How the line begins after which a table is written.
WRITTEN = "# Written by tools/tables.py"

# The characters that are as they are in an escaped text.
KEPT = "".join(map(chr, range(0x21, 0x7F))).replace("%", "").replace("#", "")

# The locales that have all that is written of decimals, with the names that decimals.py has of their formats.
LOCALES = {"english": "en", "german": "de", "french": "fr"}

# Formats of decimals beside those of decimals.py: the grouping, separator, mark and minus sign.
GROUPINGS = {"plain": "Posix", "a digit that is not printed": "Posix", "a mark that is not printed": "Posix"}
SYMBOLS = {
    **decimals.FORMATS,
    "without a sign": (",", ".", ""),
    "without a mark": (",", "", "-"),
    "a mark that separates": (",", ",", "-"),
    "a digit in the mark": (",", "0", "-"),
    "a numeral in the mark": (",", "\u0663", "-"),
    "a digit in the sign": (",", ".", "-0"),
    "a digit in the separator": ("7", ".", "-"),
    "a digit that is not printed": ("7", ".", "-"),
    "a mark that is not printed": (".", ".", "-"),
    "plain": (",", ".", "-"),
}

# The types, with the longest number of each.
TYPES = {f"{kind}{bits}": bits for bits in (8, 16, 32, 64, 128) for kind in "iu"}


def escaped(text, but=""):
    """A text as a field of a table."""
    text = text.encode() if isinstance(text, str) else text
    return quote_from_bytes(text, safe="".join(each for each in KEPT if each not in but))


def row(*fields):
    return "\t".join(map(str, fields)) + "\n"


def custom(separator, grouping, minus_sign, mark="."):
    """A format of one's own as a field of a table."""
    return ":".join(["custom", escaped(separator, ":"), grouping, escaped(minus_sign, ":"), escaped(mark, ":")])


def kept(name):
    """The part of a table that stays."""
    return (CASES / f"{name}.tsv").read_text(encoding="utf-8").partition(WRITTEN)[0]


def rows(name):
    """The fields of the cases of a table that stay."""
    return [line.split("\t") for line in kept(name).splitlines() if not line.startswith("#")]


def locales():
    """The format of each locale."""
    for name, grouping, _, _, minus_sign, _, _, separator in rows("locales"):
        yield name, Format(unquote_to_bytes(separator), grouping, unquote_to_bytes(minus_sign))


OF_LOCALES = dict(locales())


def form(name):
    """The format that a field names."""
    kind, *parts = name.split(":")
    if kind == "locale":
        return OF_LOCALES[parts[0]]
    return Format(unquote_to_bytes(parts[0]), parts[1], unquote_to_bytes(parts[2]))


def strict(type_name, name, text):
    """The result of strict parsing, as a table has it."""
    result = strict_result(text, form(name), partial(is_value, type_name))
    return re.sub(r" \{ at: (\d+) \}", r" \1", result)


def check():
    """Sees that Python prints the number of each case that is kept as the case has it, and parses its text so."""
    for type_name, name, number, text in rows("printing"):
        assert is_value(type_name, int(number)) and printed(int(number), form(name)) == unquote_to_bytes(text), text
    for type_name, name, text, result in rows("strict"):
        assert strict(type_name, name, unquote_to_bytes(text)) == result, text
    for name, result in rows("reads_back"):
        assert reads_back(form(name)) == (result == "true"), name
    for first, second, result in rows("alike"):
        assert (texts(form(first)) == texts(form(second))) == (result == "true"), (first, second)
    for tag, result in rows("tags"):
        assert found(unquote_to_bytes(tag)) == result, tag


# ---- Integers ----


def grouped():
    """The numbers of grouped_texts.txt with their texts by format: which prints it, and those that parse it or not."""
    for line in grouped_texts.DATA.read_text(encoding="utf-8").splitlines():
        if not line.startswith("#"):
            number, by_comma, by_underscore, *by_gnu = line.split("\t")
            assert printed(int(number), OF_LOCALES["en"]) == by_comma.encode(), line
            yield "i128", "locale:en-US-POSIX", number, number
            yield "i128", "locale:en", number, by_comma
            yield "i128", custom("_", "Standard", "-"), number, by_underscore
            if by_gnu:
                by_printf, by_numfmt, by_printf_in_india = by_gnu
                yield "i64", "locale:en", number, by_printf
                yield "i64", "locale:en-GB", number, by_numfmt
                yield "i64", "locale:en-IN", number, by_printf_in_india


def spelled():
    """Those texts to be parsed strictly, under the formats that print them and others."""
    cases = {}
    for type_name, _, number, text in grouped():
        for name in "locale:en", custom("_", "Standard", "-"), "locale:en-IN":
            for type_name in type_name, "i32":
                cases[type_name, name, text] = None
    for type_name, name, text in cases:
        yield row(type_name, name, escaped(text), strict(type_name, name, text.encode()))


def separated():
    """Each power of ten and one less, of both signs, under separators of 1 to 8 bytes and each grouping that prints one."""
    separators = [",", "\u00e9", "\u202f", "\U00020731", "\u00e9\u202f", "\u202f'\u00e9", "'\u00e9\U00020731", "12345678"]
    for separator, grouping in itertools.product(separators, PLACES):
        name = custom(separator, grouping, "\u200e-")
        for k, one in enumerate(sorted({10**n - less for n in range(39) for less in (0, 1)})):
            number = one if k % 2 or one > 2**127 else -one
            yield row("i128", name, number, escaped(printed(number, form(name))))


def texts(form):
    """The texts of numbers of each length and sign."""
    ones = [*range(10), *(10**n for n in range(1, 39)), *(10**n - 1 for n in range(2, 39)), 2**128 - 1, 2**127]
    return [printed(sign * one, form) for one in ones for sign in (1, -1)]


def lenient(text, form, bits, is_signed):
    """The number that lenient parsing returns of a text, or none."""
    longest = max(len(str(2**bits - 1)) if not is_signed else len(str(-(2 ** (bits - 1)))), 1)
    is_negative = text.startswith(form.minus_sign)
    numerals = [each for each in text.decode() if unicodedata.category(each)[0] == "N"]
    if not numerals or any(each not in "0123456789" for each in numerals) or len(numerals) + is_negative > longest:
        return None
    number = int("".join(numerals)) * (-1 if is_negative else 1)
    low, high = (-(2 ** (bits - 1)), 2 ** (bits - 1)) if is_signed else (0, 2**bits)
    return number if low <= number < high else None


def reads_back(form):
    """Whether numbers of each type and length parse again from their texts."""
    for name, bits in TYPES.items():
        is_signed = name[0] == "i"
        low, high = (-(2 ** (bits - 1)), 2 ** (bits - 1) - 1) if is_signed else (0, 2**bits - 1)
        powers = [10**n for n in range(39)]
        numbers = {low, low + 1, high, high - 1, 0, 5, *powers, *(-one for one in powers), *(one - 1 for one in powers)}
        for number in numbers:
            if low <= number <= high and lenient(printed(number, form), form, bits, is_signed) != number:
                return False
    return True


def some_formats():
    """Formats of each shape: of locales one for each that prints otherwise, and custom ones that can be misread."""
    by_shape = {}
    for name, one in OF_LOCALES.items():
        by_shape.setdefault(one, f"locale:{name}")
    yield from by_shape.values()
    separators = [",", "", "0", "00", "7", "ab", "ba", "\u0663", "\u00a0", "-", "\U0001f600", "abcdefgh"]
    signs = ["-", "", "-0", ",", "\u2212", "1", "\u0663", "--", "\u200e-", "12345678"]
    for k, (separator, sign) in enumerate(itertools.product(separators, signs)):
        groupings = ["Standard", "Indian", "Posix", "Myriad", "Sparse"]
        for grouping in groupings if sign == "-" else [groupings[k % 5]]:
            yield custom(separator, grouping, sign)


def certified():
    for name in [*(f"locale:{name}" for name in OF_LOCALES), *some_formats()]:
        result = reads_back(form(name))
        assert result is not is_ambiguous(form(name)), name
        yield row(name, str(result).lower())


def alike():
    """Each format beside the next ones, and beside all that print as it does."""
    every = list(dict.fromkeys(some_formats()))
    printed_by = {name: texts(form(name)) for name in every}
    for k, first in enumerate(every):
        for j, second in enumerate(every):
            is_alike = printed_by[first] == printed_by[second]
            if is_alike or (j - k) % len(every) in (1, 2, 7):
                yield row(first, second, str(is_alike).lower())
    names = list(OF_LOCALES)
    for first, second in zip(names, names[1:]):
        yield row(f"locale:{first}", f"locale:{second}", str(OF_LOCALES[first] == OF_LOCALES[second]).lower())


# ---- Names and tags ----

NAMES = {name.lower(): name for name in OF_LOCALES}


def found(tag):
    """The locale of a tag, as a table has it."""
    subtags = re.split(rb"[.@]", tag)[0].lower().replace(b"_", b"-").decode()
    if subtags in ("c", "posix"):
        return "ok en-US-POSIX"
    while subtags not in NAMES and "-" in subtags:
        subtags = subtags.rpartition("-")[0]
    return f"ok {NAMES[subtags]}" if subtags in NAMES else "err ParseLocale"


def tags():
    """Tags made of names, three of each."""
    for k, name in enumerate(NAMES.values()):
        under = name.replace("-", "_")
        shapes = [
            name.lower(), under.upper(), f"{under}.UTF-8", f"{name}@euro", f"{under.swapcase()}.utf8@x", f"{name}-x-a",
            f"{name}-", name[:-1], f"{name}x", f" {name}", f"{name}-ZZ-1901", f"x-{name}", name.replace("-", ""),
        ]
        for shape in sorted({name, *(shapes[(4 * k + j) % len(shapes)] for j in (0, 5))}):
            yield row(escaped(shape), found(shape.encode()))


def reordered():
    """The JSON objects of several keys, with the keys in reverse order."""
    for kind, text, result in rows("json"):
        try:
            value = json.loads(unquote_to_bytes(text))
        except ValueError:
            continue
        if isinstance(value, dict) and len(value) > 1:
            yield row(kind, escaped(json.dumps(dict(reversed(value.items())), ensure_ascii=False)), result)


# ---- Decimals ----


def of_decimals(name, k):
    """A format of decimals as a field of a table: every other one of a locale by its name."""
    if name in LOCALES and k % 2:
        return f"locale:{LOCALES[name]}"
    if name == "plain" and k % 2:
        return "locale:en-US-POSIX"
    separator, mark, minus_sign = SYMBOLS[name]
    return custom(separator, GROUPINGS.get(name, "Standard"), minus_sign, mark)


def cause(result):
    return "err " + re.sub(r" \{ at: (\d+) \}", r" \1", result)


def decimals_printed():
    for k, (fields, result) in enumerate(decimals.lines()):
        _, name, units, scale, *_ = fields.split("\t")
        yield row(of_decimals(name, k), units, scale, escaped(result.split("\t")[0]))


def decimals_computed():
    for fields, result in decimals.lines():
        _, _, *numbers = fields.split("\t")
        _, _, *results = result.split("\t")
        first, second, to = "/".join(numbers[:2]), "/".join(numbers[2:4]), numbers[4]
        results = [each.partition(":")[0] for each in results]
        results = [each if "/" in each or each[0].islower() else f"err {each}" for each in results]
        yield row(first, second, to, *results)


def decimals_parsed():
    for k, (fields, result) in enumerate(decimal_texts.lines()):
        _, name, text, _ = fields.split("\t")
        parsed = result.split("\t")[0]
        yield row(of_decimals(name, k), escaped(text), f"ok {parsed}" if "/" in parsed else cause(parsed))


def decimals_at_scale():
    for k, (fields, result) in enumerate(decimal_texts.lines()):
        _, name, text, to = fields.split("\t")
        scaled = result.split("\t")[1]
        if "/" in scaled:
            scaled = f"ok {scaled.partition('/')[0]}"
        else:
            scaled = cause(re.sub(r"^(?:Parse|Rescale)\((.*)\)$", r"\1", scaled))
        yield row(of_decimals(name, k), escaped(text), to, scaled)


# ---- Texts as people type them ----

# Locales whose formats typed_texts.py has.
TYPED = {typed_texts.LOCALES[0]: "en", typed_texts.LOCALES[21]: "fr", typed_texts.Format("\u00a0", "\u2212", ","): "sv"}


def typed_rows(is_decimal):
    """The texts of typed_texts.py that are UTF-8: a format as a field of a table, the text, and the number or the cause."""
    for k, (data, one) in enumerate(typed_texts.rows(4000)):
        name = f"locale:{TYPED[one]}" if k % 2 and one in TYPED else custom(one.separator, one.grouping, one.minus, one.mark)
        if data.decode(errors="ignore").encode() == data:
            yield name, escaped(data), typed_texts.parsed(data, one, is_decimal)


def typed():
    for k, (name, text, found) in enumerate(typed_rows(False)):
        kind = "i64" if k % 2 else list(TYPES)[k // 2 % len(TYPES)]
        if not isinstance(found, str):
            found = f"ok {found[0]}" if is_value(kind, found[0]) else "OutOfRange"
        yield row(kind, name, text, found if found.startswith("ok ") else cause(found))


def typed_decimals():
    for name, text, found in typed_rows(True):
        if not isinstance(found, str):
            found = f"ok {found[0]}/{found[1]}" if -(2**127) <= found[0] < 2**127 else "OutOfRange"
        yield row(name, text, found if found.startswith("ok ") else cause(found))


def at_keyboard(k):
    """A number under each locale, and the text that a keyboard has of it."""
    for j, (name, one) in enumerate(OF_LOCALES.items()):
        number = (-1) ** (j + k) * (7 ** (2 * (j % 19) + 5) + j)
        yield name, number, typed_texts.at_keyboard(printed(number, one).decode())


def typed_at_keyboard():
    for name, number, text in at_keyboard(0):
        yield row("i128", f"locale:{name}", escaped(text), f"ok {number}")


def decimals_at_keyboard():
    marks = {name: unquote_to_bytes(mark).decode() for name, _, mark, *_ in rows("locales")}
    for name, number, text in at_keyboard(1):
        yield row(f"locale:{name}", escaped(f"{text}{marks[name]}50"), f"ok {number}50/2")


# ---- Texts filled up to a width ----


def padded():
    some = [(0, 0), (5, 0), (-5, 0), (1234567, 0), (-1234567, 0), (-123450, 2), (5, 38), (-(2**127), 0), (2**127 - 1, 1)]
    for k, (name, (units, scale)) in enumerate(itertools.product(SYMBOLS, some)):
        if name not in decimals.FORMATS:
            continue
        text = decimals.text(name, units, scale)
        for j, width in enumerate([0, len(text) - 1, len(text), len(text) + 1, len(text) + 2, 24, 60, 255, 300]):
            fill, side = " *€"[(j + k) % 3], "<^>"[(j + k // 3) % 3]
            shown = format(text, f"{fill}{side}{width}")
            yield row(of_decimals(name, k), units, scale, escaped(fill), side, width, escaped(shown))


# What is written into each table, by what it says of itself.
TABLES = {
    "printing": [("numbers with the texts of tools/grouped_texts.txt, by Python and GNU tools", lambda: itertools.starmap(
        lambda kind, name, number, text: row(kind, name, number, escaped(text)), grouped())),
        ("powers of ten under separators of each length, by tools/spelling.py", separated)],
    "lenient": [],
    "strict": [
        ("the texts of lenient.tsv, by tools/spelling.py", lambda: (
            row(kind, name, text, strict(kind, name, unquote_to_bytes(text))) for kind, name, text, _ in rows("lenient"))),
        ("the texts of tools/grouped_texts.txt, which Python and GNU tools print, by tools/spelling.py", spelled),
    ],
    "decimals_printed": [("by Python's decimal: see tools/decimals.py", decimals_printed)],
    "decimals_parsed": [("by Python's decimal: see tools/decimal_texts.py", decimals_parsed)],
    "decimals_at_scale": [("by Python's decimal: see tools/decimal_texts.py", decimals_at_scale)],
    "decimals_computed": [("by Python's decimal: see tools/decimals.py", decimals_computed)],
    "names": [],
    "tags": [("tags made of each name, by the rule of tags as Python does it here", tags)],
    "locales": [],
    "reads_back": [("numbers of each length, printed and parsed by Python", certified)],
    "alike": [("texts of numbers of each length, printed by Python and compared", alike)],
    "json": [("the objects above with their keys in reverse order", reordered)],
    "builders": [],
    "typed": [
        ("by the model of tools/typed_texts.py", typed),
        ("a number under each locale, with the keyboard's characters for those that are printed", typed_at_keyboard),
    ],
    "typed_decimals": [
        ("by the model of tools/typed_texts.py", typed_decimals),
        ("a decimal under each locale, with the keyboard's characters for those that are printed", decimals_at_keyboard),
    ],
    "padded": [("by Python's format, of texts as tools/decimals.py has them", padded)],
}

# Those that follow from the tables above.
DIGITS = "other tables in the digits of other scripts, which Python's unicodedata has: see tools/digit_texts.py"


def main():
    check()
    for name, parts in TABLES.items():
        write(name, parts)
    for name in digit_texts.CASES:
        write(name, [(DIGITS, partial(itertools.starmap, row, digit_texts.cases(name)))])
    digit_texts.main()


def write(name, parts):
    """Writes what follows in a table anew."""
    text = kept(name)
    for source, made in parts:
        text += f"{WRITTEN}: {source}.\n{''.join(made())}"
    (CASES / f"{name}.tsv").write_text(text, encoding="utf-8")


if __name__ == "__main__":
    main()
