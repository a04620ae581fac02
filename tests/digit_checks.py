#!/usr/bin/env python3
"""Compares digits of other scripts in the library for C with those of ICU 72, and with Python's unicodedata.

    python3 tests/digit_checks.py [LIBRARY]    # crates/num_format_c/out/libnum_format_c.a

Beside ICU, numbers are printed under each locale in each set, as `unum_formatDecimal` does under `de@numbers=deva`. Where
a text of ICU is another, a rule here has the reason, and the rule has to say exactly where: a difference without a rule
fails, and so does a rule without a difference.

Beside unicodedata, texts are printed and changed at random, and parsed strictly: a numeric character that is no digit of
the set is refused at its place, and a text without one has the result that it has with 0 to 9 for its digits.

Without ICU 72 or a C compiler a check is skipped, and a last line says so. The exit status is 1 where one failed.
"""
import ctypes
import random
import subprocess
import sys
import tempfile
import unicodedata
from ctypes import POINTER, byref, c_char_p, c_int, c_size_t, c_uint8, c_uint16, c_uint32, c_uint64, c_void_p
from pathlib import Path

from library_checks import LIBRARY, shared
from tally import CC, Tally, heading, run

from digit_texts import LONGEST, ZEROS, first_other, in_set, rows

LOCALES = [name for name, *_ in rows("locales.tsv")]

# The sets of Unicode 14 that are not 0 to 9.
SETS = [name for name in ZEROS if name != "latn"]

# Sets of Unicode 16 and later, and the set of ICU that has no decimal digits.
LATER = {"gara", "gukh", "krai", "mymrepka", "mymrpao", "onao", "outlined", "sunu", "tols"}
LETTERS = {"hanidec"}

# Locales with U+2212 for their minus sign in CLDR 42, and one of which the table has the symbols of arab, though its
# digits are latn.
NEWER_MINUS = {"hr", "hr-BA"}
ARABIC_SYMBOLS = {"ar-AE"}

# The sets that have symbols of their own in ICU, under each locale.
WITH_SYMBOLS = {"arab", "arabext"}

# The locale whose groups are of CLDR 36 in the table, and locales with other groups of ICU in a set of their own.
OTHER_GROUPS = {"ks"}
OTHER_GROUPS_IN = {("ta-MY", "tamldec"), ("ta-SG", "tamldec"), ("te", "telu")}

# Numbers beside ICU, as units and scale.
NUMBERS = [(1234, 0), (-9876543210, 0), (-(2**127), 0), (12345675, 1), (-5, 2)]

# How many texts are drawn, and the statuses that they are to have, as num_format.h numbers them.
TEXTS = 20000
NOT_UTF8, TEXT_TOO_LONG, OTHER_NUMERAL = -3, -21, -23
STATUSES = {0, NOT_UTF8, -9, -10, -11, -12, -14, TEXT_TOO_LONG, OTHER_NUMERAL}


class Format(ctypes.Structure):
    """The struct num_format."""

    _fields_ = [("texts", c_uint8 * 8 * 3), ("lengths", c_uint8 * 3), ("grouping", c_uint8), ("digits", c_uint8),
                ("reserved", c_uint8 * 3)]

    def symbols(self):
        """Returns the separator, the minus sign and the decimal mark."""
        return [bytes(text[:length]).decode() for text, length in zip(self.texts, self.lengths)]


class Library:
    """The library for C, shared."""

    HALF, TEXT = POINTER(c_uint64), [POINTER(Format), c_char_p, c_size_t]
    CALLS = {
        "lookup": TEXT,
        "print_i128": [TEXT[0], c_uint64, c_uint64, *TEXT[1:]],
        "print_decimal": [TEXT[0], c_uint64, c_uint64, c_uint32, *TEXT[1:]],
        "parse_strict_i128": [*TEXT, HALF, HALF, POINTER(c_size_t)],
        "parse_decimal": [*TEXT, HALF, HALF, POINTER(c_uint32), POINTER(c_size_t)],
    }

    def __init__(self, path):
        loaded = ctypes.CDLL(path)
        for name, types in self.CALLS.items():
            setattr(self, name, getattr(loaded, f"num_format_{name}"))
            getattr(self, name).argtypes = types
        self.text = ctypes.create_string_buffer(796)

    def format(self, tag):
        """Returns the format of a tag, and None if there is none."""
        found = Format()
        status = self.lookup(found, tag.encode(), len(tag))
        return None if status else found

    def printed(self, form, units, scale):
        halves = units % 2**64, units // 2**64 % 2**64
        number = [*halves, scale] if scale else halves
        call = self.print_decimal if scale else self.print_i128
        return self.text[: call(form, *number, self.text, len(self.text))].decode()

    def parsed(self, form, text, is_decimal):
        """Returns the status, the place of an error, and the number."""
        low, high, scale, at = c_uint64(), c_uint64(), c_uint32(), c_size_t()
        outputs = [low, high, scale, at] if is_decimal else [low, high, at]
        call = self.parse_decimal if is_decimal else self.parse_strict_i128
        status = call(form, text, len(text), *map(byref, outputs))
        return status, at.value, (low.value, high.value, scale.value)


class Icu:
    """ICU 72. The numbers of what is asked are of its headers."""

    def __init__(self):
        self.i18n, self.common = ctypes.CDLL("libicui18n.so.72"), ctypes.CDLL("libicuuc.so.72")
        for name in "unum_open", "unumsys_open", "unumsys_openByName", "unumsys_openAvailableNames":
            getattr(self.i18n, f"{name}_72").restype = c_void_p
        self.i18n.unumsys_getName_72.restype = self.common.uenum_next_72.restype = c_char_p
        self.status, self.text = c_int(), (c_uint16 * 300)()
        self.made(self.common.uloc_setDefault_72, b"root")

    def made(self, call, *arguments):
        """Calls a function, whose last parameter is an error."""
        self.status.value = 0
        made = call(*arguments, byref(self.status))
        if self.status.value > 0:
            raise ValueError(f"{call.__name__}{arguments}: error {self.status.value}")
        return made

    def text_of(self, call, *arguments):
        return ctypes.string_at(self.text, 2 * self.made(call, *arguments)).decode("utf-16-le")

    def sets(self):
        """Returns the names of the sets of ten digits."""
        names = c_void_p(self.made(self.i18n.unumsys_openAvailableNames_72))
        while name := self.made(self.common.uenum_next_72, names, None):
            system = c_void_p(self.made(self.i18n.unumsys_openByName_72, name))
            if not self.i18n.unumsys_isAlgorithmic_72(system):
                yield name.decode()

    def set_of(self, locale):
        """Returns the name of the default set of a locale."""
        system = c_void_p(self.made(self.i18n.unumsys_open_72, locale.encode()))
        return self.i18n.unumsys_getName_72(system).decode()

    def opened(self, locale, name):
        tag = f"{locale.replace('-', '_')}@numbers={name}".encode()
        return c_void_p(self.made(self.i18n.unum_open_72, 1, None, 0, tag, None))

    def printed(self, locale, name):
        """Returns the texts of the numbers under a locale in a set."""
        opened = self.opened(locale, name)
        texts = [self.text_of(self.i18n.unum_formatDecimal_72, opened, f"{units}e-{scale}".encode(), -1, self.text, 300, None)
                 for units, scale in NUMBERS]
        self.i18n.unum_close_72(opened)
        return texts

    def symbols(self, locale, name):
        """Returns the separator, the minus sign and the decimal mark."""
        opened = self.opened(locale, name)
        return [self.text_of(self.i18n.unum_getSymbol_72, opened, symbol, self.text, 300) for symbol in (1, 6, 0)]


def check_icu(tally, library):
    """Compares sets, default sets and texts with those of ICU."""
    try:
        icu = Icu()
    except OSError as error:
        tally.skip("digits beside ICU 72", error)
        return
    there = set(icu.sets())
    numbers = {name: form.digits for name in there | LATER if (form := library.format(f"en-u-nu-{name}"))}
    tally.compare("sets of ICU or of the library alone", there ^ set(numbers), LATER | LETTERS)
    tally.compare("the numbers of sets", sorted(numbers.values()), list(range(77)))
    defaults = {locale: icu.set_of(locale) for locale in LOCALES}
    others = [locale for locale in LOCALES if library.format(f"{locale}-u-nu-native").digits != numbers[defaults[locale]]]
    tally.compare("locales with another default set", others, [])
    pairs = [(locale, name) for locale in LOCALES for name in sorted(there & set(numbers))]
    wanted = {(kind, *pair) for pair in pairs for kind in by_rules(*pair, defaults[pair[0]])}
    found = {(kind, *pair) for pair in pairs for kind in differing(library, icu, *pair)}
    others = sorted(wanted ^ found)
    problem = f"{len(others)} are not by the rules, as {others[:5]}" if others else None
    tally.add(f"texts of {len(pairs)} pairs of a locale and a set", problem)


def by_rules(locale, name, default):
    """What differs under a locale in a set, by the rules."""
    own = "arab" if locale in ARABIC_SYMBOLS else default
    if locale in NEWER_MINUS or name != own and {name, own} & WITH_SYMBOLS:
        yield "symbols"
    if locale in OTHER_GROUPS or (locale, name) in OTHER_GROUPS_IN:
        yield "groups"


def differing(library, icu, locale, name):
    """What differs: symbols, and the places of separators or digits once symbols are alike."""
    form = library.format(f"{locale}-u-nu-{name}")
    own, texts = [library.printed(form, *number) for number in NUMBERS], icu.printed(locale, name)
    if own == texts:
        return
    symbols = icu.symbols(locale, name)
    if symbols != form.symbols():
        yield "symbols"
    ours, theirs = named(own, form.symbols()), named(texts, symbols)
    if ours != theirs:
        yield "groups" if ours.replace("s", "") == theirs.replace("s", "") else "digits"


def named(texts, symbols):
    """The texts with letters for their separators, minus signs and decimal marks."""
    line = " ".join(texts)
    for symbol, letter in zip(symbols, "smd"):
        line = line.replace(symbol, letter)
    return line


def check_unicode(tally, library):
    """Prints numbers and parses texts at random beside unicodedata."""
    draw, found, wrong = random.Random(1), set(), []
    assigned = [c for c in map(chr, range(sys.maxunicode + 1)) if unicodedata.category(c) not in ("Cn", "Cs")]
    kinds = [assigned, [c for c in assigned if unicodedata.category(c)[0] == "N"]]
    for _ in range(TEXTS):
        locale, name, scale = draw.choice(LOCALES), draw.choice(SETS), draw.randrange(5)
        form, plain = library.format(f"{locale}-u-nu-{name}"), library.format(locale)
        units = draw.choice([-1, 1]) * draw.randrange(10 ** draw.randrange(39))
        text = library.printed(form, units, scale)
        if text != in_set(library.printed(plain, units, scale), name):
            wrong.append((locale, name, text))
        given = changed(draw, text, name, [*kinds, "0123456789", form.symbols()])
        result = library.parsed(form, given, scale > 0)
        found.add(result[0])
        if result != expected(library, plain, given, name, scale > 0):
            wrong.append((locale, name, given, result))
    tally.add("texts at random", f"{len(wrong)} have other results, as {wrong[:3]}" if wrong else None)
    tally.compare("their statuses", found, STATUSES)
    form = library.format("en-u-nu-deva")
    refused = {c for c in assigned if library.parsed(form, c.encode(), False)[0] == OTHER_NUMERAL}
    others = {c for c in kinds[1] if first_other(c, "deva") == 0}
    tally.compare("characters that are numerals to one alone", refused ^ others, set())


def changed(draw, text, name, kinds):
    """Returns the bytes of a text that is changed at random, by characters of the kinds, digits or less."""
    separator, *_ = kinds[-1]
    text = draw.choice([text, text, text.replace(separator, ""), ""])
    for _ in range(draw.randrange(3)):
        digits = in_set(str(draw.randrange(10)), name) * draw.choice([1, 1, 40, draw.randrange(190, 205)])
        start = draw.randrange(len(text) + 1)
        put = draw.choice([digits, "", *map(draw.choice, kinds)])
        text = text[:start] + put + text[start + draw.randrange(2) :]
    return text.encode()[: -1 if draw.random() < 0.05 else None]


def expected(library, plain, given, name, is_decimal):
    """Returns the result of a text in a set, by that of the text with 0 to 9."""
    none = (0, 0, 0)
    try:
        text = given.decode()
    except UnicodeDecodeError:
        return NOT_UTF8, 0, none
    other = first_other(text, name)
    if other is not None:
        return OTHER_NUMERAL, other, none
    latin = "".join(str(unicodedata.digit(c)) if unicodedata.category(c)[0] == "N" else c for c in text).encode()
    if len(latin) > LONGEST:
        return TEXT_TOO_LONG, 0, none
    status, at, number = library.parsed(plain, latin, is_decimal)
    return status, len(text[: len(latin[:at].decode())].encode()), number


def main():
    path = Path(sys.argv[1]).resolve() if len(sys.argv) > 1 else LIBRARY
    tally = Tally()
    heading("digits of other scripts beside ICU and unicodedata")
    with tempfile.TemporaryDirectory() as folder:
        made = Path(folder) / "made"
        if not tally.lacks(CC, "digits of other scripts"):
            built = run(shared(path, made), stdout=subprocess.PIPE, stderr=subprocess.STDOUT)
            tally.add("the shared library", built.stdout.decode(errors="replace") if built.returncode else None)
            if not built.returncode:
                library = Library(made)
                check_icu(tally, library)
                check_unicode(tally, library)
    tally.end()


if __name__ == "__main__":
    main()
