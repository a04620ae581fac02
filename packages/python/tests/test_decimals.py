"""Decimals, printed and parsed."""
import decimal
import random
import time
import timeit
from decimal import Decimal
from fractions import Fraction

import pytest

import num_format
from num_format import Cause, Format, FormatError, ParseError


@pytest.mark.parametrize("text", ["1E+3", "12E+36", "-17E+2", "0E+3", "0E+900000", "1.5E+1"])
def test_numbers_with_an_exponent(text):
    number = Decimal(text)
    assert num_format.format(number, "en") == f"{int(number):,}"


def test_the_most_decimals():
    for text in ["1E-38", "-12E-38", "0E-38"]:
        assert num_format.format(Decimal(text), "en") == f"{Decimal(text):f}"


def test_negative_zeros_are_zeros():
    assert num_format.format(Decimal("-0.00"), "en") == "0.00"
    assert num_format.format(Decimal("-0"), "en") == "0"


def test_locales(rows):
    for name, row in rows.items():
        text = f"{row['min']}0{row['dec']}50"
        assert num_format.format(Decimal("-0.50"), name) == text
        assert num_format.parse_decimal(text, name).as_tuple() == Decimal("-0.50").as_tuple()


def test_contexts_do_not_matter():
    number = Decimal("1234567890123456789012345678901234.5678")
    with decimal.localcontext() as context:
        context.prec = 3
        context.traps[decimal.Inexact] = True
        context.traps[decimal.Rounded] = True
        text = num_format.format(number, "de")
        assert text == "1.234.567.890.123.456.789.012.345.678.901.234,5678"
        assert num_format.parse_decimal(text, "de").as_tuple() == number.as_tuple()


@pytest.mark.parametrize("text", [str(2**127), str(-(2**127) - 1), "1E+39", "1E+999999", "10E+38", f"{2**126}.01", "1" * 5000])
def test_too_many_digits(text):
    with pytest.raises(OverflowError, match="digits"):
        num_format.format(Decimal(text), "en")


@pytest.mark.parametrize("text", ["1E-39", "0E-39", "1E-999999", "123E-40", "0." + "1" * 5000])
def test_too_many_decimals(text):
    with pytest.raises(OverflowError, match="38 decimals"):
        num_format.format(Decimal(text), "en")


def test_what_is_no_number():
    for text in ["NaN", "-NaN123", "sNaN"]:
        with pytest.raises(ValueError, match="the number is NaN"):
            num_format.format(Decimal(text), "en")
    for text in ["Infinity", "-Infinity"]:
        with pytest.raises(OverflowError):
            num_format.format(Decimal(text), "en")


@pytest.mark.parametrize(
    ("text", "cause", "at"),
    [
        (".5", Cause.MISSPELLED, None),
        ("1.234.5", Cause.UNEXPECTED, 5),
        (f"{2**127}", Cause.OUT_OF_RANGE, None),
        ("1.0\ud800", Cause.NOT_UTF8, 3),
    ],
)
def test_refused_texts(text, cause, at):
    with pytest.raises(ParseError) as caught:
        num_format.parse_decimal(text, "en")
    assert (caught.value.text, caught.value.cause, caught.value.at) == (text, cause, at)


@pytest.mark.parametrize("mark", ["", ",", "0", "\u0663"])
def test_marks_that_can_be_misread(mark):
    form = Format(decimal_mark=mark)
    for text in ["5", "", "x", "1\ud800"]:
        with pytest.raises(FormatError) as caught:
            num_format.parse_decimal(text, form)
        assert (caught.value.cause, caught.value.text) == (Cause.AMBIGUOUS_FORMAT, repr(form))
    assert num_format.parse("5", form) == 5


def test_wrong_types():
    for text in [1, Decimal(1), b"1", None]:
        with pytest.raises(TypeError):
            num_format.parse_decimal(text, "en")


def rounded(number, decimals):
    """The text of the nearest decimal under `en`, half to even, by fractions."""
    units, rest = divmod(Fraction(number) * 10**decimals, 1)
    units = int(units) + (rest > Fraction(1, 2) or (rest == Fraction(1, 2) and units % 2 == 1))
    digits = f"{abs(units):0{decimals + 1}}"
    whole, after = (digits[:-decimals], f".{digits[-decimals:]}") if decimals else (digits, "")
    return f"{'-' if units < 0 else ''}{int(whole):,}{after}"


def test_floats_by_their_exact_values():
    assert num_format.format(1234.5, "de", decimals=2) == "1.234,50"
    # Neither 2.675 nor 0.615 is a float: the nearest ones are below and above.
    assert [num_format.format(n, "en", decimals=2) for n in (2.675, 0.615, 0.125, 0.375)] == ["2.67", "0.61", "0.12", "0.38"]
    assert [num_format.format(n, "en", decimals=0) for n in (0.5, 1.5, 2.5, -0.5, -1.5)] == ["0", "2", "2", "0", "-2"]
    assert num_format.format(-0.001, "de", decimals=2) == num_format.format(-0.0, "de", decimals=2) == "0,00"
    chance = random.Random(35)
    for _ in range(3000):
        number = chance.uniform(-1, 1) * 10 ** chance.randrange(-12, 20)
        number = chance.choice([number, round(number, 2), round(number * 8) / 8])
        decimals = chance.randrange(18)
        text = num_format.format(number, "en", decimals=decimals)
        assert text == rounded(number, decimals) or (float(text.replace(",", "")) == 0 and text == rounded(0, decimals))
        assert num_format.text_width(number, "en", decimals=decimals) == len(text)
    for number in [5e-324, 1e-200, 0.1, 2.0**126, -(2.0**127), 1.7e38]:
        assert num_format.format(number, "en", decimals=0) == rounded(number, 0)
    assert num_format.format(0.1, "en", decimals=38) == "0.10000000000000000555111512312578270212"


def test_decimals_of_other_numbers():
    for number, decimals, text in [
        (5, 2, "5.00"),
        (-1234, 0, "-1,234"),
        (2**127 - 1, 0, f"{2**127 - 1:,}"),
        (Decimal("1234.5"), 2, "1,234.50"),
        (Decimal("2.675"), 2, "2.68"),
        (Decimal("2.665"), 2, "2.66"),
        (Decimal("-0.005"), 2, "0.00"),
        (Decimal("9.995"), 2, "10.00"),
        (Decimal("1E+3"), 1, "1,000.0"),
        (Decimal("1E-999999"), 2, "0.00"),
        (Decimal("1." + "4" * 5000), 1, "1.4"),
        (Decimal("1" * 39), 0, f"{int('1' * 39):,}"),
        (Decimal("0." + "9" * 39), 38, "1." + "0" * 38),
    ]:
        with decimal.localcontext() as context:
            context.prec, context.rounding, context.traps[decimal.Inexact] = 3, decimal.ROUND_UP, True
            assert num_format.format(number, "en", decimals=decimals) == text
    for number, decimals in [(2**127, 0), (1e39, 0), (1e300, 2), (Decimal("1E+999999"), 2), (2**127 - 1, 1), (float("-inf"), 2)]:
        with pytest.raises(OverflowError):
            num_format.format(number, "en", decimals=decimals)
    for number, decimals in [(float("nan"), 2), (Decimal("sNaN"), 2), (1.5, -1), (1.5, 39)]:
        with pytest.raises(ValueError):
            num_format.format(number, "en", decimals=decimals)
    for number, decimals in [(True, 2), ("1.5", 2), (None, 2), (1.5, 2.0), (1.5, "2"), (Fraction(1, 2), 2)]:
        with pytest.raises(TypeError):
            num_format.format(number, "en", decimals=decimals)
    with pytest.raises(TypeError, match="decimals=2 rounds"):
        num_format.format(1.5, "en")
    numpy = pytest.importorskip("numpy")
    for number in [numpy.float64(0.5), numpy.float32(0.5), numpy.float16(0.5)]:
        assert num_format.format(number, "de", decimals=2) == "0,50"
        with pytest.raises(TypeError, match="decimals=2 rounds"):
            num_format.format(number, "de")
    with pytest.raises(TypeError):
        num_format.format(numpy.longdouble(0.5), "de", decimals=2)


def test_a_decimal_costs_about_what_python_takes():
    number, form = Decimal("-1234567.89"), Format.locale("de")
    text = num_format.format(number, form)
    works = {
        "printed": lambda: num_format.format(number, form),
        "by Python": lambda: f"{number:,}",
        "parsed": lambda: num_format.parse_decimal(text, form),
        "parsed by Python": lambda: Decimal(text.replace(".", "").replace(",", ".")),
    }
    times = {name: min(timeit.repeat(work, number=2000, repeat=15, timer=time.process_time)) for name, work in works.items()}
    # Other processes have the machine too.
    assert times["printed"] < 3 * times["by Python"] and times["parsed"] < 3 * times["parsed by Python"], times
