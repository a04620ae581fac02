"""Columns of decimals: units at a scale, and back."""
import decimal
import random
import time
from decimal import Decimal

import pytest

import num_format
from num_format import Cause, FormatError, ParseError

np = pytest.importorskip("numpy")
columns = pytest.importorskip("num_format.columns")

DTYPES = [np.dtype(f"{kind}{size}") for kind in "iu" for size in (1, 2, 4, 8)]

I128 = -(2**127), 2**127 - 1


def wide(units):
    """The array of units of 128 bits: the buffer that Arrow describes of decimal128, 16 bytes each in the order of the
    processor, here little-endian."""
    buffer = b"".join(number.to_bytes(16, "little", signed=True) for number in units)
    return np.frombuffer(buffer, columns.WIDE)


def whole(array):
    """The units in such an array."""
    data = array.tobytes()
    return [int.from_bytes(data[at : at + 16], "little", signed=True) for at in range(0, len(data), 16)]


def text(units, scale):
    """The text that Python makes under `en`."""
    # Arithmetic would round, and a text does not.
    return f"{Decimal(f'{units}E-{scale}'):,f}"


@pytest.mark.parametrize("dtype", DTYPES, ids=str)
@pytest.mark.parametrize("scale", [0, 1, 2, 19, 38])
def test_python_prints_the_same(dtype, scale):
    limits = np.iinfo(dtype)
    numbers = [0, 5, 99, 100, limits.min, limits.max, limits.max // 3, limits.min // 3]
    for large in (False, True):
        column = columns.format_decimal_column(np.array(numbers, dtype=dtype), scale, "en", large=large)
        assert column.tolist() == [text(number, scale) for number in numbers]
        assert column.offsets.dtype == (np.int64 if large else np.int32)
        again = columns.parse_decimal_column(column, scale, "en", dtype)
        assert again.dtype == dtype and again.tolist() == numbers
        assert whole(columns.parse_decimal_column(column, scale, "en", columns.WIDE)) == numbers


@pytest.mark.parametrize("scale", [0, 2, 38])
def test_units_of_128_bits(scale):
    units = [0, -1, 2**64, -(2**64), 2**63, -(2**63) - 1, *I128, 10**38, -(10**38)]
    column = columns.format_decimal_column(wide(units), scale, "en")
    assert column.tolist() == [text(number, scale) for number in units]
    assert whole(columns.parse_decimal_column(column, scale, "en", columns.WIDE)) == units
    narrow, causes = columns.try_parse_decimal_column(column, scale, "en")
    assert causes.tolist() == [0 if -(2**63) <= number < 2**63 else Cause.OUT_OF_RANGE for number in units]
    assert narrow.tolist() == [number if cause == 0 else None for number, cause in zip(units, causes)]


def test_as_single_decimals():
    rng = np.random.default_rng(35)
    units = rng.integers(-(2**63), 2**63 - 1, 5000, endpoint=True) >> rng.integers(0, 63, 5000)
    for scale, name in [(2, "de"), (7, "sv"), (20, "hi")]:
        column = columns.format_decimal_column(units, scale, name)
        decimals = [Decimal(f"{number}E-{scale}") for number in units.tolist()]
        assert column.tolist() == [num_format.format(number, name) for number in decimals]
        assert (columns.parse_decimal_column(column, scale, name) == units).all()


def parsed_alone(text, form, scale):
    """The cause and the units at the scale by the call for one text."""
    try:
        number = num_format.parse_decimal(text, form)
    except ParseError as error:
        return error.cause, 0
    # Arithmetic would round, and a text does not.
    integer, _, decimals = f"{number:f}".partition(".")
    if decimals[scale:].strip("0"):
        return Cause.DIGITS_LOST, 0
    return 0, int(integer + decimals[:scale].ljust(scale, "0"))


def test_changed_texts_as_single_decimals():
    chance = random.Random(35)
    plain = num_format.Format(separator=".", grouping="Posix")
    made = [num_format.Format(separator=", "), num_format.Format(decimal_mark=",."), plain]
    for form in [num_format.Format.locale("en"), num_format.Format.locale("sv"), *made]:
        characters = [*"0123456789,.- x", "", form.separator, form.minus_sign, form.decimal_mark]
        texts = []
        for _ in range(3000):
            units = chance.randrange(-(10**20), 10**20) >> chance.randrange(66)
            changed = num_format.format(Decimal(f"{units}E-{chance.randrange(4)}"), form)
            for _ in range(chance.randrange(3)):
                at = chance.randrange(len(changed) + 1)
                changed = changed[:at] + chance.choice(characters) + changed[at + chance.randrange(2) :]
            texts.append(changed)
        units, causes = columns.try_parse_decimal_column(texts, 2, form, columns.WIDE)
        assert 500 < np.count_nonzero(causes) < 2500
        found = list(zip(causes.tolist(), whole(units.data)))
        assert found == [parsed_alone(changed, form, 2) for changed in texts]


@pytest.mark.parametrize("mark", ["", ",", "0", "\u0663"])
def test_marks_that_can_be_misread(mark):
    form = num_format.Format(decimal_mark=mark)
    with pytest.raises(FormatError) as caught:
        columns.try_parse_decimal_column(["5", "x"], 2, form)
    assert (caught.value.cause, caught.value.text) == (Cause.AMBIGUOUS_FORMAT, repr(form))
    assert columns.parse_column(["5"], form).tolist() == [5]


def test_fewer_and_more_decimals():
    texts = ["1.5", "7", "-0.25", "1,234.5", "1.500", "0.000", "1.255", "1.", "x", "1" + "0" * 37, "9" * 39]
    units, causes = columns.try_parse_decimal_column(texts, 2, "en", columns.WIDE)
    refused = [Cause.DIGITS_LOST, Cause.MISSPELLED, Cause.UNEXPECTED, Cause.OUT_OF_RANGE, Cause.OUT_OF_RANGE]
    assert causes.tolist() == [0] * 6 + refused
    assert whole(units.data) == [150, 700, -25, 123450, 150, 0, 0, 0, 0, 0, 0]
    assert units.mask["low"].tolist() == [False] * 6 + [True] * 5
    with pytest.raises(ParseError) as caught:
        columns.parse_decimal_column(["1", "1.2.3"], 2, "en")
    error = caught.value
    assert (error.text, error.cause, error.at, error.row) == ("1.2.3", Cause.UNEXPECTED, 3, 1)


def test_numbers_outside_a_dtype():
    for dtype in DTYPES:
        limits = np.iinfo(dtype)
        numbers = [limits.min, limits.min - 1, limits.max, limits.max + 1, 2**64, -(2**64), 2**100]
        is_there = [limits.min <= number <= limits.max for number in numbers]
        texts = [text(number, 1) for number in numbers]
        units, causes = columns.try_parse_decimal_column(texts, 1, "en", dtype)
        assert causes.tolist() == [0 if has else Cause.OUT_OF_RANGE for has in is_there]
        assert units.tolist() == [number if has else None for number, has in zip(numbers, is_there)]
        assert units.dtype == dtype


def test_nulls():
    for units in [np.array([150, 7, -25]), wide([150, 7, -25])]:
        column = columns.format_decimal_column(np.ma.array(units, mask=[False, True, False]), 2, "de")
        assert column.tolist() == ["1,50", None, "-0,25"]
        again = columns.parse_decimal_column(column, 2, "de", units.dtype)
        assert np.ma.getdata(again).tolist() == np.where([True, False, True], units, np.zeros(3, units.dtype)).tolist()
        # An array of `WIDE` that was parsed can be printed again, with its mask.
        assert columns.format_decimal_column(again, 2, "de").tolist() == column.tolist()


def test_decimals():
    """They are numbers, and not units: 1.5 at scale 2 is 150 units."""
    numbers = [*map(Decimal, ["1.5", "-0.25", "7", "1E3", "0", "0.500", "1234567890123456789012345678901.23"])]
    texts = ["1.50", "-0.25", "7.00", "1,000.00", "0.00", "0.50", "1,234,567,890,123,456,789,012,345,678,901.23"]
    for given in [numbers, np.array(numbers), np.ma.array(numbers)]:
        assert columns.format_decimal_column(given, 2, "en").tolist() == texts
    found = columns.parse_decimal_column(texts, 2, "en", object)
    assert found.tolist() == numbers and [f"{number:,}" for number in found] == texts
    nulls = columns.format_decimal_column([Decimal(5), None, Decimal("NaN")], 1, "de")
    assert nulls.tolist() == ["5,0", None, None]
    again = columns.parse_decimal_column(nulls, 1, "de", object)
    assert again.tolist() == [Decimal(5), None, None]
    assert columns.format_decimal_column(again, 1, "de") == nulls
    assert columns.try_parse_decimal_column(["1.5", "x"], 1, "en", object).values.tolist() == [Decimal("1.5"), None]
    for number in ["0.001", "1E37", "1E-39", "Infinity"]:
        with pytest.raises(ValueError if number == "0.001" else OverflowError):
            columns.format_decimal_column([Decimal(number)], 2, "en")
    for values in [[Decimal(1), 2], [2, Decimal(1)], [Decimal(1), True]]:
        with pytest.raises(TypeError, match="either units or Decimals"):
            columns.format_decimal_column(values, 2, "en")
    for values in [[1.5], ["1.5"], [1, True]]:
        with pytest.raises(TypeError):
            columns.format_decimal_column(values, 2, "en")


class Loud(Decimal):
    """A class that is made of Decimal, with a text of its own."""

    def __str__(self):
        return "1"


def test_decimals_of_each_form():
    """Those of which C reads the text, and those that are left to Python: exponents, many digits, a class's own text."""
    texts = ["0", "-0", "-0.00", "0E-7", "1E+3", "-17E+2", "1.50", "0.10", "1E-2", "0.0100", "99.99", "1" * 35]
    texts += ["-" + "9" * 35, "170141183460469231731687303715884105.727", "1" * 34 + ".5", "0.050", "5E-0", "-1E-3"]
    numbers = [*map(Decimal, texts), Loud("-2.5")]
    wide = decimal.Context(prec=60)
    # A zero has no minus sign.
    expected = [f"{wide.quantize(number, Decimal('0.001')):,f}" if number else "0.000" for number in numbers]
    assert columns.format_decimal_column(numbers, 3, "en").tolist() == expected
    for number in ["1E+36", "1" * 37, "9" * 36, "0.0001", "1.0005", "123456789012345678901234567890123.0001"]:
        with pytest.raises(ValueError if "." in number else OverflowError):
            columns.format_decimal_column([Decimal("1"), Decimal(number)], 3, "en")
    assert num_format.format(Loud("-2.5"), "en") == "-2.5"


def test_a_column_of_units_is_faster_than_a_loop():
    units = np.arange(-50_000, 50_000)
    numbers = [Decimal(number).scaleb(-2) for number in units.tolist()]
    form = num_format.Format.locale("de")
    column = columns.format_decimal_column(units, 2, form)
    texts = column.tolist()
    works = {
        "printed": lambda: columns.format_decimal_column(units, 2, form),
        "printed in a loop": lambda: [num_format.format(number, form) for number in numbers],
        "parsed": lambda: columns.parse_decimal_column(column, 2, form),
        "parsed in a loop": lambda: [num_format.parse_decimal(text, form) for text in texts],
    }
    # In turns, so that a busy moment of the machine slows each of them.
    rounds = [{name: timed(work) for name, work in works.items()} for _ in range(25)]
    times = {name: min(each[name] for each in rounds) for name in works}
    assert times["printed"] < times["printed in a loop"] and times["parsed"] < times["parsed in a loop"], times


def timed(work):
    start = time.process_time_ns()
    work()
    return time.process_time_ns() - start


def test_texts_of_very_different_lengths():
    units = wide([1] * 1000 + [I128[0]] * 1000 + [1] * 1000 + [I128[1]])
    form = num_format.Format(separator="12345678", minus_sign="12345678", decimal_mark="12345678")
    column = columns.format_decimal_column(units, 3, form)
    assert column.tolist() == [num_format.format(Decimal(f"{number}E-3"), form) for number in whole(units)]


def test_empty_columns():
    assert columns.format_decimal_column(np.array([], dtype=int), 2, "de").tolist() == []
    assert columns.parse_decimal_column([], 2, "de").tolist() == []


def test_bad_offsets():
    for offsets in [[0, 2, 1], [-1, 0], [0, 5], [5, 5], [2, 1]]:
        column = columns.StringColumn(np.zeros(len(offsets), dtype=np.int32), b"1234")
        column.offsets[:] = offsets
        with pytest.raises(ValueError):
            columns.parse_decimal_column(column, 2, "en")


def test_wrong_arguments():
    for scale in (-1, 39, 2**40):
        with pytest.raises(ValueError):
            columns.format_decimal_column([1], scale, "en")
        with pytest.raises(ValueError):
            columns.parse_decimal_column(["1"], scale, "en")
    for scale in (1.5, "2", None):
        with pytest.raises(TypeError):
            columns.format_decimal_column([1], scale, "en")
    for dtype in (float, bool, "U5"):
        with pytest.raises(TypeError):
            columns.format_decimal_column(np.zeros(2, dtype=dtype), 2, "en")
        with pytest.raises(TypeError):
            columns.parse_decimal_column(["1"], 2, "en", dtype)
    with pytest.raises(ValueError):
        columns.format_decimal_column(np.zeros((2, 2), dtype=int), 2, "en")
    with pytest.raises(FormatError):
        columns.format_decimal_column([1], 2, "xx")


def test_more_bytes_than_offsets_of_32_bits_say(monkeypatch):
    """The limit is lowered, since the texts would take long."""
    lowered = np.iinfo(np.int8)
    monkeypatch.setattr(columns.np, "iinfo", lambda dtype: lowered)
    with pytest.raises(OverflowError, match="large=True"):
        columns.format_decimal_column(np.full(100, 5), 2, "en")
