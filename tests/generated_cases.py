"""Cases of programs that are computed: texts of each length, what numfmt prints, ledgers, the table of locales, tables
of examples/, and what README.md shows. Nothing of num_format computes what is expected."""
import decimal
import random
import re
import shlex
from decimal import Decimal

import numfmt_rows
import readme_code
from case_files import Case
from tally import ROOT

import lengths
import locales

# More digits than any sum of a ledger has, and any number of 128 bits with 38 decimals more, so that each is exact.
decimal.getcontext().prec = 80

# What each way to round is in Python.
ROUNDINGS = {
    "half-even": decimal.ROUND_HALF_EVEN,
    "half-away-from-zero": decimal.ROUND_HALF_UP,
    "toward-zero": decimal.ROUND_DOWN,
    "exact": decimal.ROUND_DOWN,
}

# The separator, the decimal mark and the minus sign of each locale of the ledgers. The first has those of Python.
LOCALES = {"en": ",.-", "de": ".,-", "fr": "\u202f,-", "sv": "\u00a0,\u2212"}

# Ledgers of many lines, and of amounts whose cents are at the ends of an i128.
CENT = Decimal("0.01")
LEDGERS = {
    "at the ends": [(2**127 - 1) * CENT, -(2**127) * CENT, (2**127 - 1) * CENT],
    "of 5000 lines": [place * Decimal("12345.67") - 10_000_000 for place in range(5000)],
}


def case(words, given="", **expected):
    """A case of these words, with outputs that are texts."""
    name = " ".join([*words, given[:24]]).encode("unicode_escape").decode()
    words, given = [word.encode() for word in words], given.encode()
    expected = {key: text.encode() if isinstance(text, str) else text for key, text in expected.items()}
    return Case(name, words, given, **expected)


def of_regroup():
    yield case(["names"], out="".join(f"{row['name']}\n" for row in locales.rows()))
    yield from shown("regroup")


def lengths_of_regroup():
    for grouping in lengths.LONGEST:
        for separator, minus_sign, number, text in lengths.under(grouping):
            yield case(["custom", separator, grouping, minus_sign, str(number)], out=f"{text}\n")


def lengths_of_regroup_lines():
    """Numbers whose texts have each length, all of one custom format at once."""
    for grouping in lengths.LONGEST:
        formats = {}
        for separator, minus_sign, number, text in lengths.under(grouping):
            formats.setdefault(f"custom:{separator}:{grouping}:{minus_sign or '-'}", []).append((f"{number}\n", f"{text}\n"))
        for name, lines in formats.items():
            given, out = map("".join, zip(*lines))
            yield case(["en", name], given, out=out)


def of_regroup_lines():
    yield from numfmt_rows.cases()
    yield from shown("regroup-lines")
    version = (ROOT / "VERSION").read_text(encoding="utf-8").strip()
    for word in ["--version", "-V"]:
        yield case([word], out=f"regroup-lines {version}\n")
    yield from of_tables()
    yield from of_decimals()


def of_decimals():
    """Numbers with so many decimals as Python rounds them, or a message where they are not of 128 bits or not exact."""
    randomly = random.Random(57)
    numbers = [Decimal(units).scaleb(-scale) for units in (2**127 - 1, -(2**127)) for scale in range(39)]
    numbers += [Decimal(randomly.randint(-9999, 9999) * 5).scaleb(-randomly.randint(0, 6)) for _ in range(400)]
    for mode, rounding in ROUNDINGS.items():
        for places in [0, 1, 2, 3, 19, 37, 38]:
            out, err = [], []
            for line, number in enumerate(numbers, 1):
                rounded = number.quantize(Decimal(1).scaleb(-places), rounding)
                is_lost = mode == "exact" and rounded != number
                is_number = not is_lost and -(2**127) <= rounded.scaleb(places) < 2**127
                out.append(f"{rounded + 0 if is_number else number:f}\n")
                if not is_number:
                    cause = "digits would be lost" if is_lost else "out of range"
                    err.append(f"regroup-lines: -:{line}: '{number:f}': {cause} with --decimals {places}\n")
            words = ["--decimals", str(places), "--round", mode, "--invalid", "warn", "plain", "plain"]
            yield case(words, "".join(f"{number:f}\n" for number in numbers), out="".join(out), err="".join(err))


def of_tables():
    """The third column of tables, of which two amounts are none."""
    table, out, records, out_of_records = (
        (ROOT / "examples" / name).read_text(encoding="utf-8")
        for name in ("sales.tsv", "sales.expected", "sales.csv", "sales_csv.expected")
    )
    words = ["--header", "--field", "3", "en", "de"]
    first = "regroup-lines: -:8: field 3: '12.5O': not a number at byte 5\n"
    both = first + "regroup-lines: -:{}: field 3: 'n/a': not a number at byte 1\n"
    yield case(["--invalid", "ignore", *words], table, out=out)
    for mode, status in [("fail", 1), ("warn", 0)]:
        yield case(["--invalid", mode, *words], table, status=status, out=out, err=both.format(12))
    before = "".join(out.splitlines(keepends=True)[:7])
    yield case(words, table, status=1, out=before, err=first)
    yield case(["--csv", "--invalid", "warn", *words], records, out=out_of_records, err=both.format(13))


def shown(program):
    """The commands of README.md that run the program alone."""
    for line, out in readme_code.commands(ROOT / "README.md"):
        command = line.partition("#")[0].strip()
        if out and re.match(rf"{program} [^|<>]*$", command):
            yield case(shlex.split(command)[1:], out=out)


def of_ledger():
    """Ledgers under `en`, and their reports under each locale: each column is as wide as its widest text."""
    for amounts in LEDGERS.values():
        given = "".join(f"entry {place}\t{amount:,.2f}\n" for place, amount in enumerate(amounts))
        names = [*(f"entry {place}" for place in range(len(amounts))), "total"]
        for locale, marks in LOCALES.items():
            texts = [f"{n:,.2f}".translate(str.maketrans(",.-", marks)) for n in [*amounts, sum(amounts)]]
            left, right = (max(map(len, column)) for column in (names, texts))
            rows = zip(names, texts)
            yield case(["en", locale], given, out="".join(f"{a.ljust(left)}  {b.rjust(right)}\n" for a, b in rows))


# The cases of each crate, and the many of texts of each length.
OF = {"regroup": of_regroup, "regroup_lines_cli": of_regroup_lines, "uses_ledger": of_ledger}
LENGTHS = {"regroup": lengths_of_regroup, "regroup_lines_cli": lengths_of_regroup_lines}
