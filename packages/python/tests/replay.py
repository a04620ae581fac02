#!/usr/bin/env python3
"""Replays the repository's tables of cases, as its tests/README.md says. A case of up to 64 bits is run by a column of one
row too."""
import sys
from decimal import Decimal
from urllib.parse import quote, unquote

import numpy as np

import num_format
from num_format import Cause, Format, FormatError, ParseError, columns


class Unsaid(Exception):
    """Why a case cannot be said in Python."""


def format_of(words):
    kind, *parts = words.split(":")
    if kind == "locale":
        return Format.locale(unquote(parts[0]))
    separator, grouping, minus_sign, mark = map(unquote, parts)
    return Format(separator=separator, grouping=grouping, minus_sign=minus_sign, decimal_mark=mark)


def decimal_of(units, scale):
    return Decimal(f"{units}E-{scale}")


def units_of(number):
    sign, digits, exponent = number.as_tuple()
    return f"{'-' * sign}{''.join(map(str, digits))}/{-exponent}"


def type_of(name):
    """The dtype of a type, or None for one of 128 bits, and its least and its largest number."""
    kind, bits = name.removeprefix("NonZero").lower()[0], int(name.lower().lstrip("nozeriu").replace("size", "64") or 64)
    least, largest = (-(2 ** (bits - 1)), 2 ** (bits - 1) - 1) if kind == "i" else (0, 2**bits - 1)
    return np.dtype(f"{kind}{bits // 8}") if bits <= 64 else None, least + name.startswith("NonZeroU"), largest


def same(found):
    """What each call returned."""
    return " or ".join(map(quote, sorted(set(found))))


def words(call, text, ok=str):
    """The words of what a call returns, or of its error."""
    try:
        return f"ok {ok(call())}"
    except (ParseError, FormatError) as error:
        name = error.cause.name.title().replace("_", "").removeprefix("Text")
        is_placed = error.cause in (Cause.UNEXPECTED, Cause.OTHER_NUMERAL)
        at = f" {len(text[: error.at].encode())}" if is_placed else ""
        return "err ParseNumber?" if error.cause is Cause.NOT_A_NUMBER else f"err {name}{at}"


def parsed(type_name, form, text, lenient=False, typed=False):
    """What is parsed by the call for a text, and by that for a column of the type."""
    (dtype, least, largest), form, text = type_of(type_name), format_of(form), unquote(text)
    if lenient and dtype is None and type_name != "i128":
        # The call takes the numbers of both types.
        raise Unsaid("no unsigned type of 128 bits")
    way = {"lenient": lenient, "typed": typed}
    calls = [lambda: num_format.parse(text, form, **way)] if not lenient or dtype is None else []
    if dtype is not None:
        calls.append(lambda: int(columns.parse_column([text], form, dtype, **way)[0]))
    found = {words(call, text) for call in calls}
    past = "err ParseNumber?" if lenient else "err OutOfRange"
    found = {past if one[0] == "o" and not least <= int(one[3:]) <= largest else one for one in found}
    return " or ".join(sorted(found))


def printing(type_name, form, number):
    dtype, form = type_of(type_name)[0], format_of(form)
    of_column = [] if dtype is None else columns.format_column(np.array([number], dtype=object).astype(dtype), form)
    return same([num_format.format(int(number), form), *of_column])


def decimals_printed(form, units, scale):
    form, number = format_of(form), decimal_of(units, scale)
    of_columns = [columns.format_decimal_column(given, int(scale), form)[0] for given in ([number], [int(units)])]
    return same([num_format.format(number, form), num_format.format(number, form, decimals=int(scale)), *of_columns])


def decimals_parsed(form, text, typed=False):
    text = unquote(text)
    return words(lambda: num_format.parse_decimal(text, format_of(form), typed=typed), text, units_of)


def decimals_at_scale(form, text, scale):
    if int(scale) > 38:
        raise Unsaid("no such scale")
    text = unquote(text)
    column = lambda: columns.parse_decimal_column([text], int(scale), format_of(form), object)[0]  # noqa: E731
    return words(column, text, lambda number: units_of(number).partition("/")[0])


def decimals_computed(first, _, scale):
    """The rest is Python's own."""
    try:
        half_even = units_of(Decimal(num_format.format(decimal_of(*first.split("/")), "C", decimals=int(scale))))
    except (OverflowError, ValueError) as error:
        half_even = "err OutOfRange" if isinstance(error, OverflowError) else "err ScaleTooLarge"
    return f"{half_even}\t?"


def tags(tag):
    if "," in unquote(tag) or ";" in unquote(tag):
        raise Unsaid("a header and no tag")
    found = num_format.lookup(unquote(tag))
    return f"ok {found}" if found else "err ParseLocale"


def locales(name):
    form = Format.locale(name)
    mark, minus_sign, separator = map(quote, (form.decimal_mark, form.minus_sign, form.separator))
    return f"{form.grouping.value}\t{mark}\t?\t{minus_sign}\t?\t?\t{separator}"


def padded(form, units, scale, fill, side, width):
    return quote(f"{num_format.format(decimal_of(units, scale), format_of(form)):{unquote(fill)}{side}{width}}")


def unsaid(reason):
    def case(*_):
        raise Unsaid(reason)

    return case


CALLS = [printing, decimals_printed, decimals_parsed, decimals_at_scale, decimals_computed, tags, locales, padded]
TABLES = {call.__name__: call for call in CALLS} | {
    "alike": lambda first, second: str(format_of(first).prints_alike(format_of(second))).lower(),
    "builders": unsaid("no builder"),
    "json": unsaid("no JSON"),
    "lenient": lambda *fields: parsed(*fields, lenient=True),
    "names": unsaid("no names but tags"),
    "reads_back": lambda form: str(format_of(form).reads_back()).lower(),
    "strict": parsed,
    "typed": lambda *fields: parsed(*fields, typed=True),
    "typed_decimals": lambda *fields: decimals_parsed(*fields, typed=True),
}
DIGITS = ["printing", "decimals_printed", "strict", "decimals_parsed", "decimals_at_scale", "typed", "typed_decimals"]
TABLES |= {f"{name}_digits": TABLES[name] for name in DIGITS}

for line in sys.stdin:
    table, *fields = line.rstrip("\n").split("\t")
    try:
        print(TABLES[table](*fields))
    except Unsaid as why:
        print("!", why)
