#!/usr/bin/python3
"""Replays the tables of cases, as tests/README.md says, by the functions of SQLite's extension. Debian's Python loads it.

    packages/sqlite/tests/replay.py EXTENSION

What does not depend on the database is used by packages/postgresql/tests/replay.py too.
"""
import re
import sqlite3
import sys
from urllib.parse import quote, unquote

# What a message says, and the cause that it has in the tables.
CAUSES = {
    r"t has no digit\.?$": "NoDigit",
    r"t is not as the number is printed(\.?$|:)": "Misspelled",
    r"is longer than": "TooLong",
    r"t needs more than \d+ bits\.?$": "OutOfRange",
    r"t has more than 38 decimals\.?$": "TooManyDecimals",
    r"has digits after the last decimal that is asked for$": "DigitsLost",
    r"the number of decimals is \d+, not 0 to 38$": "ScaleTooLarge",
}
PLACED = re.compile(r"haracter (\d+), U\+[0-9A-F]{4,}, is (?:(a numeral of another digit set)|unexpected\b)")

# Texts of at most so many digits are within 63 bits.
SAFE_DIGITS = 18

# The order of two texts, by the collation.
ORDER = "CASE WHEN {0} = {1} COLLATE num_decimal THEN 'equal' WHEN {0} < {1} COLLATE num_decimal THEN 'less' ELSE 'greater' END"

NO_CALL = {
    "alike": "no comparison of formats",
    "builders": "no format of your own",
    "decimals_at_scale": "no parsing at a scale",
    "decimals_computed": "no arithmetic but the server's",
    "json": "no JSON",
    "lenient": "no lenient parsing",
    "locales": "no parts of a locale",
    "names": "no exact names",
    "padded": "no padding",
    "reads_back": "no format of your own",
}


class CannotSay(Exception):
    """SQL has not what a case needs."""


class Numeric(str):
    """A decimal as SQL writes it."""


def locale_of(form):
    """The name of the locale that a format is."""
    kind, _, name = form.partition(":")
    if kind != "locale":
        raise CannotSay("no format of your own")
    return name


def decimal(units, scale):
    """The decimal as SQL writes it."""
    digits = str(abs(units)).zfill(scale + 1)
    mark = len(digits) - scale
    return Numeric("-" * (units < 0) + digits[:mark] + "." * (scale > 0) + digits[mark:])


def units_and_scale(text):
    """The words for a decimal as SQL writes it."""
    whole, _, decimals = text.partition(".")
    return f"{int(whole + decimals)}/{len(decimals)}"


def ok(text):
    return f"ok {text}"


def printing(kind, form, number):
    value = int(number)
    if not -(2**127) <= value < 2**127:
        raise CannotSay("a number past a decimal's bits")
    value = value if -(2**63) <= value < 2**63 else Numeric(number)
    yield "num_format({}, {})", [value, locale_of(form)], quote


def whole(call, kind, form, text):
    locale, is_signed, bits = locale_of(form), kind[0] == "i", int(re.sub(r"\D", "", kind) or 64)
    lowest, highest = -(2 ** (bits - 1)) if is_signed else 0, 2 ** (bits - is_signed) - 1
    if highest >= 2**63 and sum(map(str.isdecimal, text)) > SAFE_DIGITS:
        raise CannotSay("a number of more digits than a bigint")

    def words(value):
        fits = lowest <= int(value) <= highest and not (kind.startswith("NonZero") and int(value) == 0)
        return ok(value) if fits else "err OutOfRange"

    yield f"{call}({{}}, {{}})", [text, locale], words


def strict(*case):
    yield from whole("num_parse", *case)


def typed(*case):
    yield from whole("num_parse_typed", *case)


def decimals_printed(form, units, scale):
    yield "num_format({}, {})", [decimal(int(units), int(scale)), locale_of(form)], quote


def decimals_parsed(form, text):
    yield "num_parse_decimal({}, {})", [text, locale_of(form)], lambda shown: ok(units_and_scale(shown))


def typed_decimals(form, text):
    yield "num_parse_typed_decimal({}, {})", [text, locale_of(form)], lambda shown: ok(units_and_scale(shown))


def decimals_at_scale(form, text, scale):
    yield "num_parse_units({}, {}, {})", [text, locale_of(form), int(scale)], ok


def decimals_computed(first, second, scale):
    first, second = (decimal(*map(int, number.split("/"))) for number in [first, second])
    yield "num_format({}, {}, {})", [first, "en-US-POSIX", int(scale)], units_and_scale
    yield ORDER, [first, second], "{}\t?".format


def tags(tag):
    yield "num_locale({})", [tag], lambda name: "err ParseLocale" if name is None else ok(name)


def in_words(outcome, values, words):
    """What a call returned, or the message of its error, in the words of the tables."""
    value, message = outcome
    if message is None:
        return words(value)
    if found := PLACED.search(message):
        return f"err {'OtherNumeral' if found[2] else 'Unexpected'} {len(values[0][: int(found[1]) - 1].encode())}"
    return "".join(f"err {cause}" for pattern, cause in CAUSES.items() if re.search(pattern, message)) or quote(message)


def asked(line, calls, zero_bytes):
    """The calls of a case, or why there are none."""
    table, *fields = line.rstrip("\n").split("\t")
    try:
        if table not in calls:
            raise CannotSay(NO_CALL[table.removesuffix("_digits")])
        if not zero_bytes and "%00" in line:
            raise CannotSay("a zero byte in a text")
        return list(calls[table](*map(unquote, fields)))
    except CannotSay as reason:
        return str(reason)


def replay_all(calls, run, zero_bytes=True):
    """Makes the calls of all cases, in a database whose texts have zero bytes or not, and writes what they return."""
    calls = {call.__name__: call for call in calls}
    calls |= {f"{name}_digits": call for name, call in calls.items()}
    cases = [asked(line, calls, zero_bytes) for line in sys.stdin]
    outcomes = iter(run([(call, values) for made in cases if isinstance(made, list) for call, values, _ in made]))
    for made in cases:
        if isinstance(made, str):
            print("!", made)
        else:
            # Calls of the same field return the same.
            print("\t?\t".join(dict.fromkeys(in_words(next(outcomes), values, words) for _, values, words in made)))


def main():
    database = sqlite3.connect(":memory:")
    database.enable_load_extension(True)
    database.load_extension(sys.argv[1])

    def outcome(call, values):
        try:
            places = [f"?{i}" for i in range(1, len(values) + 1)]
            return database.execute(f"SELECT {call.format(*places)}", values).fetchone()[0], None
        except sqlite3.OperationalError as error:
            return None, str(error)

    def at_scale(form, text, scale):
        mark = outcome("num_format('0.1', {})", [locale_of(form)])[0][1:-1]
        if int(scale) > 38:
            raise CannotSay("a scale that is rejected before the text is parsed")
        if sum(map(str.isdecimal, text.partition(mark)[0])) + int(scale) > SAFE_DIGITS:
            raise CannotSay("units past an INTEGER")
        yield from decimals_at_scale(form, text, scale)

    def printed(form, units, scale):
        yield from decimals_printed(form, units, scale)
        if -(2**63) <= int(units) < 2**63:
            yield "num_format_units({}, {}, {})", [int(units), locale_of(form), int(scale)], quote

    at_scale.__name__, printed.__name__ = "decimals_at_scale", "decimals_printed"
    calls = [printing, strict, typed, printed, decimals_parsed, typed_decimals, decimals_computed, tags, at_scale]
    replay_all(calls, lambda made: [outcome(*call) for call in made])


if __name__ == "__main__":
    main()
