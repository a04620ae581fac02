"""Single numbers, printed and parsed."""
import enum
import fractions
import random
import re

import pytest
import spelling

import num_format
from num_format import Cause, Format, FormatError, ParseError


def test_all_locales_print_and_read_back(rows):
    numbers = [0, 7, -7, 999, 1000, -1234, 12345, -(2**63), 2**64 - 1, -(2**127), 2**128 - 1]
    names = ["Standard", "Indian", "Posix"]
    assert sorted(rows) == list(num_format.locales())
    for name, row in rows.items():
        form = spelling.Format(row["sep"].encode(), names[row["group"]], row["min"].encode())
        for number in numbers:
            text = spelling.printed(number, form).decode()
            assert num_format.format(number, name) == text
            # Marks of direction take no column: U+061C, U+200E, U+200F.
            assert num_format.text_width(number, name) == len(re.sub("[\u061c\u200e\u200f]", "", text))
            assert num_format.parse(text, name) == number
            assert num_format.parse(text, name, lenient=True) == number


def test_texts_by_the_definition():
    """Numbers printed under random formats, and changed at random, against what tools/spelling.py says of a text."""
    rng = random.Random(35)
    characters = "0123456789,.'-\u2212 \u00a0x"
    for _ in range(20000):
        separator = rng.choice([",", ".", "'", "", "\u00a0", ", ", "7", "\u0663", "-"])
        minus_sign = rng.choice(["-", "\u2212", "minus ", "-", "\u2212", "minus ", "", "-0"])
        grouping = rng.choice(list(num_format.Grouping)).value
        form = spelling.Format(separator.encode(), grouping, minus_sign.encode())
        number = rng.randrange(-(2**128), 2**129) >> rng.randrange(128)
        text = spelling.printed(number, form).decode()
        for _ in range(rng.randrange(3)):
            at = rng.randrange(len(text) + 1)
            text = text[:at] + rng.choice([*characters, separator, minus_sign, ""]) + text[at + rng.randrange(2) :]
        expected = spelling.strict_result(text.encode(), form, lambda value: -(2**127) <= value < 2**128)
        named = Format(separator=separator, grouping=grouping, minus_sign=minus_sign)
        assert strict_result(text, named) == expected


def strict_result(text, form):
    """What is parsed, in the words of tools/spelling.py."""
    try:
        return f"ok {num_format.parse(text, form)}"
    except FormatError as error:
        assert (error.argument, error.text, error.cause) == ("format", repr(form), Cause.AMBIGUOUS_FORMAT)
        return "err AmbiguousFormat"
    except ParseError as error:
        assert (error.text, error.row) == (text, None)
        if error.cause is Cause.UNEXPECTED:
            return f"err Unexpected {{ at: {len(text[: error.at].encode())} }}"
        return "err " + error.cause.name.title().replace("_", "")


@pytest.mark.parametrize(
    ("text", "cause", "at"),
    [
        ("12.50", Cause.UNEXPECTED, 2),
        (str(2**128), Cause.OUT_OF_RANGE, None),
        ("9" * 5000, Cause.OUT_OF_RANGE, None),
        ("1\ud800", Cause.NOT_UTF8, 1),
    ],
)
def test_refused_texts(text, cause, at):
    with pytest.raises(ParseError) as caught:
        num_format.parse(text, "en")
    error = caught.value
    assert isinstance(error, ValueError)
    assert (error.text, error.cause, error.at, error.row) == (text, cause, at, None)


def test_formats_that_can_be_misread():
    """They are refused whatever the text is, and not where parsing is lenient."""
    for form in [Format(minus_sign=""), Format(minus_sign="-0"), Format(separator="7"), Format(separator="\u0663")]:
        for text in ["5", "", "x", "1\ud800"]:
            with pytest.raises(FormatError) as caught:
                num_format.parse(text, form)
            assert (caught.value.cause, caught.value.text) == (Cause.AMBIGUOUS_FORMAT, repr(form))
            assert str(caught.value) == f"{form} is ambiguous"
        assert abs(num_format.parse("5", form, lenient=True)) == 5
    assert num_format.parse("17", Format(separator="7", grouping="Posix")) == 17


def test_lenient():
    for text in ["", "x", "\u0661", str(2**128), str(-(2**127) - 1)]:
        with pytest.raises(ParseError) as caught:
            num_format.parse(text, "en", lenient=True)
        assert (caught.value.cause, caught.value.at) == (Cause.NOT_A_NUMBER, None)


@pytest.mark.parametrize("number", [2**128, -(2**127) - 1, 10**100, -(10**100)])
def test_numbers_that_are_too_large(number):
    with pytest.raises(OverflowError):
        num_format.format(number, "en")


@pytest.mark.parametrize("number", [True, False, 1.0, float("nan"), "1", b"1", None, 1j, fractions.Fraction(1)])
def test_wrong_types_of_numbers(number):
    with pytest.raises(TypeError, match="a bool|an int or a decimal.Decimal, not |a float is not exact: decimals=2 "):
        num_format.format(number, "en")


@pytest.mark.parametrize("text", [1, b"1", None, ["1"], bytearray(b"1")])
def test_wrong_types_of_texts(text):
    for lenient in [False, True]:
        with pytest.raises(TypeError):
            num_format.parse(text, "en", lenient=lenient)


@pytest.mark.parametrize("form", [None, 1, b"en", ("en",), ["en"], Format])
def test_wrong_types_of_formats(form):
    with pytest.raises(TypeError):
        num_format.format(1, form)
    with pytest.raises(TypeError):
        num_format.parse("1", form)


def test_other_integers():
    class Color(enum.IntEnum):
        RED = 1000

    class Place:
        def __index__(self):
            return 2**100

    assert num_format.format(Color.RED, "en") == "1,000"
    assert num_format.format(Place(), "en") == f"{2**100:,}"
    numpy = pytest.importorskip("numpy")
    assert num_format.format(numpy.uint64(2**64 - 1), "en") == f"{2**64 - 1:,}"
    with pytest.raises(TypeError):
        num_format.format(numpy.bool_(True), "en")
    with pytest.raises(TypeError):
        num_format.format(numpy.float64(1), "en")


def test_babel_prints_the_same(rows):
    """Where Babel's CLDR has the separator, minus sign and grouping of the table's, it prints the same."""
    babel = pytest.importorskip("babel")
    numbers = pytest.importorskip("babel.numbers")
    compared = 0
    for name, row in rows.items():
        try:
            locale = babel.Locale.parse(name, sep="-")
        except (babel.UnknownLocaleError, ValueError):
            continue
        symbols = locale.number_symbols
        pattern = locale.decimal_formats[None].pattern
        grouped = {0: "#,##0.###", 1: "#,##,##0.###"}.get(row["group"])
        if (symbols.get("group"), symbols.get("minusSign"), pattern) != (row["sep"], row["min"], grouped):
            continue
        compared += 1
        # Babel has an ASCII hyphen where CLDR has another minus sign.
        negatives = [-1000, -12345678901234567890] if row["min"] == "-" else []
        for number in [0, 999, 1234567, 12345678901234567890, *negatives]:
            text = numbers.format_decimal(number, locale=locale)
            assert num_format.format(number, name) == text
            assert num_format.parse(text, name) == number
    assert compared > 300
