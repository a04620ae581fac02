"""Columns: NumPy arrays to texts, and back."""
import itertools
import pickle
import tracemalloc
from decimal import Decimal

import pytest

import num_format
from num_format import Cause, Format, FormatError, ParseError, _native

np = pytest.importorskip("numpy")
columns = pytest.importorskip("num_format.columns")

DTYPES = [np.dtype(f"{kind}{size}") for kind in "iu" for size in (1, 2, 4, 8)]


def test_all_locales():
    numbers = [0, 7, -999, 1000, -12345, 2**63 - 1, -(2**63)]
    for name in num_format.locales():
        column = columns.format_column(np.array(numbers), name)
        # Single numbers are compared with the table.
        assert column.tolist() == [num_format.format(number, name) for number in numbers]
        assert columns.parse_column(column, name).tolist() == numbers


def test_random_numbers():
    rng = np.random.default_rng(35)
    numbers = rng.integers(-(2**63), 2**63 - 1, 20000, endpoint=True) >> rng.integers(0, 63, 20000)
    column = columns.format_column(numbers, "en")
    assert column.tolist() == [f"{number:,}" for number in numbers.tolist()]
    assert (columns.parse_column(column, "en") == numbers).all()


def test_layout_is_that_of_arrow():
    """Written out by hand, as Arrow's columnar format describes a string array."""
    column = columns.format_column(np.array([1234, -5, 0]), "sv")
    assert column.offsets.tobytes() == np.array([0, 6, 10, 11], dtype="=i4").tobytes()
    assert column.data.tobytes() == b"1\xc2\xa0234" + b"\xe2\x88\x925" + b"0"
    assert column.offsets.flags.c_contiguous and column.data.flags.c_contiguous


def test_layout_of_nulls_is_that_of_arrow():
    """The validity bitmap that the columnar format describes: a bit for each row, the first lowest, 1 for no null."""
    mask = [False, True, False, False, True, True, False, False, True, False]
    column = columns.format_column(np.ma.array(range(1000, 1010), mask=mask), "en")
    assert column.validity.tobytes() == bytes([0b11001101, 0b10])
    assert column.offsets.tolist() == [0, 5, 5, 10, 15, 15, 15, 20, 25, 25, 30]
    assert column.data.tobytes() == b"1,0001,0021,0031,0061,0071,009"
    assert column.buffers() == (column.offsets, column.data, column.validity)


def test_the_example_of_arrows_specification():
    """Its layout of `["joe", null, null, "mark"]`, each buffer padded to 64 bytes, which it recommends."""
    buffers = [bytes([0b00001001]), np.array([0, 3, 3, 3, 7], dtype="<i4").tobytes(), b"joemark"]
    validity, offsets, data = (buffer.ljust(64, b"\0") for buffer in buffers)
    column = columns.StringColumn(np.frombuffer(offsets, dtype=np.int32, count=5), data, validity)
    assert column.tolist() == ["joe", None, None, "mark"]
    _, causes = columns.try_parse_column(column, "en")
    assert causes.tolist() == [Cause.UNEXPECTED, 0, 0, Cause.UNEXPECTED]
    numbers = columns.StringColumn(column.offsets, b"1,2,345".ljust(64, b"\0"), validity)
    assert columns.parse_column(numbers, "en", lenient=True).tolist() == [12, None, None, 345]


def test_nulls():
    """Each row that is not null is as in a column of its own, and the others are nulls there and back."""
    rng = np.random.default_rng(35)
    for count in [0, 1, 7, 8, 9, 1000]:
        for dtype in DTYPES:
            numbers = rng.integers(np.iinfo(dtype).min, np.iinfo(dtype).max, count, dtype=dtype, endpoint=True)
            masked = np.ma.array(numbers, mask=rng.integers(0, 2, count).astype(bool))
            column = columns.format_column(masked, "de", large=count == 9)
            expected = [None if n is None else f"{n:,}".replace(",", ".") for n in masked.tolist()]
            assert column.tolist() == list(column) == column.to_object().tolist() == expected
            assert column.valid().tolist() == [text is not None for text in expected]
            for given in [column, expected, np.array(expected, dtype=object), column.to_bytes()]:
                again = columns.parse_column(given, "de", dtype)
                assert again.tolist() == masked.tolist() and again.dtype == dtype
                assert np.ma.getdata(again)[np.ma.getmaskarray(again)].tolist() == [0] * expected.count(None)


def test_bytes_of_nulls_are_not_looked_at():
    """Arrow lets a null have any bytes."""
    column = columns.StringColumn(np.array([0, 5, 9, 10], dtype=np.int32), b"1,234\xff,,x7", bytes([0b101]))
    assert column.tolist() == ["1,234", None, "7"]
    values, causes = columns.try_parse_column(column, "en")
    assert values.tolist() == [1234, None, 7] and causes.tolist() == [0, 0, 0]
    assert columns.parse_column(column, "en", lenient=True).tolist() == [1234, None, 7]
    units, causes = columns.try_parse_decimal_column(column, 1, "en")
    assert units.tolist() == [12340, None, 70] and causes.tolist() == [0, 0, 0]
    refused = columns.StringColumn(column.offsets, column.data, bytes([0b110]))
    with pytest.raises(ParseError) as caught:
        columns.parse_column(refused, "en")
    assert (caught.value.row, caught.value.cause) == (1, Cause.NOT_UTF8)
    with pytest.raises(ValueError):
        columns.StringColumn(np.zeros(10, dtype=np.int32), b"", bytes([255]))
    columns.StringColumn(np.zeros(9, dtype=np.int32), b"", bytes([255]))


def test_strides_and_byte_orders():
    numbers = np.arange(-3000, 3000, 7)
    for values in [numbers[::3], numbers[::-1], numbers.reshape(-1, 2)[:, 1], numbers[5:-5]]:
        for order in "<>=":
            for size in (2, 8):
                given = values.astype(f"{order}i{size}")
                again = np.repeat(given, 2)[::2]
                for array in (given, again):
                    expected = [f"{number:,}" for number in values.tolist()]
                    assert columns.format_column(array, "en").tolist() == expected
    column = columns.format_column(numbers, "en")
    swapped = columns.StringColumn(column.offsets.astype(">i4"), column.data)
    assert columns.parse_column(swapped, "en").tolist() == numbers.tolist()
    spread = columns.StringColumn(np.repeat(column.offsets, 2)[::2], column.data)
    assert columns.parse_column(spread, "en").tolist() == numbers.tolist()
    assert columns.parse_column(column, "en", ">i8").tolist() == numbers.tolist()


def test_read_only_arrays():
    numbers = np.array([1000, 2])
    numbers.flags.writeable = False
    column = columns.StringColumn(*map(frozen, vars_of(columns.format_column(numbers, "en"))))
    assert columns.parse_column(column, "en").tolist() == [1000, 2]


def vars_of(column):
    return column.offsets, column.data


def frozen(array):
    array.flags.writeable = False
    return array


def test_empty_columns():
    for dtype in DTYPES:
        for large in (False, True):
            column = columns.format_column(np.array([], dtype=dtype), "de", large=large)
            assert (len(column), column.offsets.tolist(), len(column.data)) == (0, [0], 0)
            assert columns.parse_column(column, "de", dtype).tolist() == []
    for nothing in [[], (), np.array([], dtype="S5"), np.array([], dtype="U5"), np.array([], dtype=object), iter("")]:
        assert columns.parse_column(nothing, "de").tolist() == []
    empty = columns.StringColumn.from_strings([])
    assert empty.tolist() == [] and empty.to_bytes().shape == (0,) and empty.to_object().shape == (0,)
    assert len(columns.StringColumn(np.zeros(1, dtype=np.int32), b"")) == 0


def test_ways_to_give_texts():
    texts = ["\u22121\u00a0234", "5", "\u22121\u00a0234\u00a0567"]
    numbers = [-1234, 5, -1234567]
    encoded = [text.encode() for text in texts]
    for given in [
        texts,
        tuple(texts),
        iter(texts),
        encoded,
        np.array(texts),
        np.array(texts, dtype=object),
        np.array(encoded),
        np.array(encoded, dtype="S40"),
        np.array(encoded, dtype=object),
        np.array(encoded, dtype="S40")[::-1][::-1],
        np.array(texts).astype(">U20"),
        columns.StringColumn.from_strings(texts),
    ]:
        assert columns.parse_column(given, "sv").tolist() == numbers


def test_ways_to_take_texts():
    column = columns.format_column(np.array([-1234, 5, 0]), "sv")
    texts = ["\u22121\u00a0234", "5", "0"]
    assert column.tolist() == texts == list(column)
    assert column.to_object().tolist() == texts and column.to_object().dtype == object
    fixed = column.to_bytes()
    assert fixed.tolist() == [text.encode() for text in texts] and fixed.dtype == "S9"
    assert (column[0], column[-1], column[np.int64(1)]) == (texts[0], "0", "5")
    for row in (3, -4):
        with pytest.raises(IndexError):
            column[row]
    # A column may begin and end within the bytes.
    part = columns.StringColumn(column.offsets[1:3], column.data)
    assert part.tolist() == ["5"] and part.to_bytes().tolist() == [b"5"]
    assert columns.parse_column(part, "sv").tolist() == [5]
    empty_texts = columns.StringColumn.from_strings(["", "1", ""])
    assert empty_texts.to_bytes().tolist() == [b"", b"1", b""]


def test_columns_are_pickled():
    column = columns.format_column(np.array([1000, -5]), "de")
    for protocol in range(pickle.HIGHEST_PROTOCOL + 1):
        again = pickle.loads(pickle.dumps(column, protocol))
        assert again.tolist() == column.tolist()
    assert repr(column) == "<StringColumn of 2 texts, int32 offsets, 0 nulls>"
    nulls = columns.format_column(np.ma.array([1, 2, 3], mask=[0, 1, 0]), "de")
    assert pickle.loads(pickle.dumps(nulls)).tolist() == ["1", None, "3"]
    assert repr(nulls) == "<StringColumn of 3 texts, int32 offsets, 1 nulls>"


def test_refused_rows():
    texts = ["1,234", "1,23", "", "12.50", "999", "1e3", "9,223,372,036,854,775,808", b"\xff".decode("latin-1")]
    expected = [0, Cause.MISSPELLED, Cause.NO_DIGIT, Cause.UNEXPECTED]
    expected += [0, Cause.UNEXPECTED, Cause.OUT_OF_RANGE, Cause.UNEXPECTED]
    values, causes = columns.try_parse_column(texts, "en")
    assert causes.tolist() == expected
    assert values.tolist() == [1234, None, None, None, 999, None, None, None]
    assert values.data.tolist() == [1234, 0, 0, 0, 999, 0, 0, 0]
    with pytest.raises(ParseError) as caught:
        columns.parse_column(texts, "en")
    error = caught.value
    assert (error.text, error.cause, error.at, error.row) == ("1,23", Cause.MISSPELLED, None, 1)
    with pytest.raises(ParseError, match="row 0: '-1' is refused: the number is below the type's least value or above"):
        columns.parse_column(["-1"], "en", np.uint8)
    with pytest.raises(ParseError) as caught:
        columns.parse_column(["1", "\u22121", "-1\u00e9"], "sv")
    error = caught.value
    assert (error.text, error.cause, error.at, error.row) == ("-1\u00e9", Cause.UNEXPECTED, 0, 2)


def test_rows_that_are_not_utf8():
    with pytest.raises(ParseError) as caught:
        columns.parse_column([b"1", b"1,0\xff0"], "en")
    error = caught.value
    assert (error.text, error.cause, error.at, error.row) == ("1,0\udcff0", Cause.NOT_UTF8, 3, 1)
    assert str(error) == r"row 1: '1,0\udcff0' is refused: it is not UTF-8 at index 3"


@pytest.mark.parametrize(
    "offsets", [[0, 2, 1], [-1, 0], [0, 5], [5, 5], [0, -1, 3], [0, 2**31 - 1], [2, 1]]
)
def test_bad_offsets(offsets):
    for dtype in (np.int32, np.int64):
        with pytest.raises(ValueError):
            columns.StringColumn(np.array(offsets, dtype=dtype), b"1234")
        # The calls look at offsets again.
        column = columns.StringColumn(np.zeros(len(offsets), dtype=dtype), b"1234")
        column.offsets[:] = offsets
        with pytest.raises(ValueError):
            columns.parse_column(column, "en")
        with pytest.raises(ValueError):
            column.__arrow_c_array__()
    column.offsets = np.zeros(8, dtype=np.int32)[::-2]
    with pytest.raises(ValueError, match="contiguous"):
        columns.parse_column(column, "en")


def test_lists_of_offsets_that_were_changed():
    """They are as slices of the bytes are, whatever the offsets are."""
    for offsets, texts in [
        ([0, 3, 1, 4], ["123", "", "234"]),
        ([0, 1, 9, 4], ["1", "234", ""]),
        ([0, 2, 3, 2**31 - 1], ["12", "3", "4"]),
        ([2, 1, 3, 4], ["3", "", "4"]),
        ([2**31 - 1, 0, 1, 3], ["", "", ""]),
    ]:
        column = columns.StringColumn.from_strings(["1", "23", "4"])
        column.offsets[:] = offsets
        assert column.tolist() == texts, offsets
    column = columns.StringColumn.from_strings(["1", None, "4"])
    column.offsets[:] = [0, 2, 1, 2]
    assert column.tolist() == ["14", None, "4"]


def test_wrong_offsets():
    with pytest.raises(ValueError):
        columns.StringColumn(np.array([], dtype=np.int32), b"")
    with pytest.raises(ValueError):
        columns.StringColumn(np.zeros((2, 2), dtype=np.int32), b"")
    for dtype in (np.int16, np.uint32, np.uint64, np.float64, object):
        with pytest.raises(TypeError):
            columns.StringColumn(np.zeros(1, dtype=dtype), b"")


@pytest.mark.parametrize("dtype", [bool, np.float32, np.float64, complex, "U5", "S5", "M8[s]", "m8[s]", "V8"])
def test_wrong_dtypes(dtype):
    with pytest.raises(TypeError):
        columns.format_column(np.zeros(3, dtype=dtype), "en")
    with pytest.raises(TypeError):
        columns.parse_column(["1"], "en", dtype)


def test_wrong_arguments():
    for values in [np.array(5), np.zeros((2, 2), dtype=int)]:
        with pytest.raises(ValueError):
            columns.format_column(values, "en")
    mixed = np.array(["1", 2.5], dtype=object)
    for texts in ["1,234", b"1", [1], ["1", 2], ["1", b"2"], [b"1", "2"], ["1", None, 2], np.array([1, 2]), mixed]:
        with pytest.raises(TypeError):
            columns.parse_column(texts, "en")
    with pytest.raises(ValueError):
        columns.parse_column(np.array([["1"]]), "en")
    with pytest.raises(UnicodeEncodeError):
        columns.parse_column(["1\ud800"], "en")
    with pytest.raises(FormatError):
        columns.format_column(np.array([1]), "xx")
    with pytest.raises(FormatError):
        columns.parse_column(["1"], "xx")
    with pytest.raises(TypeError):
        columns.format_column(np.array([1]), None)


def test_lists_of_numbers():
    assert columns.format_column([1000, -5], Format(separator="'")).tolist() == ["1'000", "-5"]
    mixed = [np.int8(-5), np.uint64(2**64 - 1), 7]
    for numbers in [[2**64 - 1, 1], [2**63, -1], [2**63 - 1, -(2**63)], [-(2**63) - 1], [2**127 - 1, -(2**127)], mixed]:
        for given in [numbers, tuple(numbers), np.array(numbers, dtype=object), [*numbers, None]]:
            expected = [f"{int(number):,}" for number in numbers] + [None] * (len(given) - len(numbers))
            assert columns.format_column(given, "en").tolist() == expected
            assert columns.format_decimal_column(given, 0, "en").tolist() == expected
    assert columns.format_column([2**128 - 1, 0, 2**127], "en").tolist() == [f"{2**128 - 1:,}", "0", f"{2**127:,}"]
    for numbers in [[2**128], [-(2**127) - 1], [2**127, -1]]:
        with pytest.raises(OverflowError, match="from -2..127 to"):
            columns.format_column(numbers, "en")
        with pytest.raises(OverflowError, match="from -2..127 to"):
            columns.format_decimal_column(numbers, 0, "en")
    with pytest.raises(OverflowError, match="from -2..127 to"):
        columns.format_decimal_column([2**127], 0, "en")
    assert columns.format_column([], "en").tolist() == columns.format_column((), "en").tolist() == []
    ragged = np.array([[1], [2, 3]], dtype=object)
    bools = [[True], [True, 5], [5, False, None], [np.True_, 5], np.array([True, 5], dtype=object)]
    for values in [[1.5], np.array([1.0]), ["5"], *bools, [None, 1.5], ragged, ragged[:1], [[1]]]:
        with pytest.raises(TypeError):
            columns.format_column(values, "en")
        with pytest.raises(TypeError):
            columns.format_decimal_column(values, 2, "en")
    with pytest.raises(TypeError):
        columns.format_column([Decimal(1)], "en")
    with pytest.raises(TypeError, match="a float is not exact"):
        columns.format_column([1.5], "en")


def test_objects_that_are_null():
    for null in [None, float("nan"), np.float32("nan"), Decimal("NaN"), Decimal("sNaN"), np.ma.masked]:
        row = [1000, null, 5]
        arrays = [] if null is np.ma.masked else [np.array(row, dtype=object), np.ma.array(row, dtype=object)]
        for values in [row, *arrays]:
            assert columns.format_column(values, "en").tolist() == ["1,000", None, "5"]
        object_texts = [] if null is np.ma.masked else [np.array(["1,000", null, "5"], dtype=object)]
        for texts in [["1,000", null, "5"], [b"1,000", null, b"5"], *object_texts]:
            assert columns.parse_column(texts, "en").tolist() == [1000, None, 5]
        for both in [columns.format_column([null, null], "en"), columns.parse_column([null, null], "en")]:
            assert both.tolist() == [None, None]


def test_slices_and_equality():
    texts = ["1", None, "2,345", "", "678", None, "9", "10", None, "11"]
    for given in [texts, [text or "" for text in texts]]:
        column = columns.StringColumn.from_strings(given)
        rows = [None, *range(-11, 12)]
        for part in itertools.starmap(slice, itertools.product(rows, rows, [None, 2, -1, -3])):
            assert column[part].tolist() == given[part]
            assert column[part] == columns.StringColumn.from_strings(given[part])
        assert column[2:5].data is column.data and column[2:5][1:].tolist() == given[3:5]
        assert column == column[:] and (column == column[1:]) is False and column != given
        assert given[2] in column and column.index("678") == 4 and list(reversed(column)) == given[::-1]


def test_masks_and_indices():
    texts = ["1", None, "2,345", "", "678", None, "9", "10", None, "\u22121\u00a0000"]
    for given in [texts, [text or "" for text in texts]]:
        column = columns.StringColumn.from_strings(["x" * 100, *given, "y"])[1:-1]
        for rows in [[], [0], [9, 0, 0, -1, -10], list(range(10)), [1, 8, 5]]:
            for chosen in [rows, tuple(rows), np.array(rows, dtype=np.int8), np.array(rows, dtype=np.int64)]:
                part = column[chosen]
                assert part.tolist() == [given[row] for row in rows]
                assert part.data.nbytes == sum(len((given[row] or "").encode()) for row in rows)
        mask = np.array([text == "9" or text is None for text in given])
        for chosen in [mask, mask.tolist(), ~mask, np.zeros(10, dtype=bool), np.ones(10, dtype=bool)]:
            assert column[chosen].tolist() == list(itertools.compress(given, chosen))
    values, causes = columns.try_parse_column(["1", "x", "2"], "en")
    assert columns.StringColumn.from_strings(["1", "x", "2"])[causes != 0].tolist() == ["x"]
    for outside in [[10], [-11], np.array([2**40]), np.array([True]), [True] * 11]:
        with pytest.raises(IndexError, match="of a column of 10$|^the array of bool"):
            column[outside]
    for wrong in [np.array([1.5]), ["1"], np.array([[1]]), 1.5, "1", None]:
        with pytest.raises(TypeError):
            column[wrong]


def test_slices_cost_what_they_have():
    """A part of a column is not paid by the whole: what is made of it has its bytes alone."""
    column = columns.format_column(np.ma.array(np.arange(10**6), mask=np.arange(10**6) % 7 == 0), "en")
    for start, step in [(500_003, 1), (500_008, 1), (999_990, -1)]:
        part = column[start : start + 10 * step : step]
        expected = [None if n % 7 == 0 else f"{n:,}" for n in range(start, start + 10 * step, step)]
        tracemalloc.start()
        assert part.tolist() == list(part) == expected and part == columns.StringColumn.from_strings(expected)
        pickled = pickle.dumps(part)
        assert pickle.loads(pickled) == part
        peak = tracemalloc.get_traced_memory()[1]
        tracemalloc.stop()
        assert peak < 100_000 and len(pickled) < 1000 and len(part.validity) <= 2


def test_what_is_parsed_has_a_mask():
    for texts in [["1", "2"], ["1", None], [], columns.StringColumn.from_strings(["1"])]:
        for found in [columns.parse_column(texts, "en"), columns.parse_decimal_column(texts, 2, "en")]:
            assert type(found) is np.ma.MaskedArray and found.mask.shape == found.shape


def test_pandas():
    pandas = pytest.importorskip("pandas")
    numbers, texts = pandas.array([1234567, None, 5]), pandas.array(["1.234.567", None, "5"], dtype="string")
    expected = columns.StringColumn.from_strings(["1.234.567", None, "5"])
    index = pandas.Index([7, 8, 9])
    for given in [numbers, pandas.Series(numbers, index), numbers.astype("Int32"), pandas.Series([1234567, None, 5], index, "UInt32")]:
        assert columns.format_column(given, "de") == expected
    for given in [pandas.Series([1234567, 0], dtype="Int64"), pandas.Series([1234567, 0])]:
        assert columns.format_column(given, "de").tolist() == ["1.234.567", "0"]
    for given in [texts, pandas.Series(texts, index)]:
        again = columns.parse_column(given, "de", np.int32)
        assert columns.to_pandas(again).equals(numbers.astype("Int32"))
    assert columns.to_pandas(expected).equals(texts)
    decimals = columns.to_pandas(columns.parse_decimal_column(["1.5", None], 2, "en", object))
    assert decimals.dtype == object and decimals.tolist() == [Decimal("1.50"), None]
    with pytest.raises(TypeError, match="WIDE.*`object`"):
        columns.to_pandas(columns.parse_decimal_column(["1"], 0, "en", columns.WIDE))
    for given in [pandas.Series([1.5]), pandas.array([1.5, None]), pandas.array([True, None]), pandas.Series(["1"])]:
        with pytest.raises(TypeError):
            columns.format_column(given, "de")


def test_the_error_of_a_lenient_row():
    """A byte that is not UTF-8 has its place under each format, also one that strict parsing refuses."""
    for form in [Format(minus_sign=""), Format(separator="7"), Format.locale("en")]:
        with pytest.raises(ParseError) as caught:
            columns.parse_column([b"5", b"12\xff"], form, lenient=True)
        assert (caught.value.cause, caught.value.at, caught.value.row) == (Cause.NOT_UTF8, 2, 1)
        with pytest.raises(ParseError) as caught:
            columns.parse_column(["5", "x"], form, lenient=True)
        assert (caught.value.cause, caught.value.at, caught.value.row) == (Cause.NOT_A_NUMBER, None, 1)


def test_more_bytes_than_offsets_of_32_bits_say():
    form = Format(separator="12345678", minus_sign="12345678", grouping="Indian")
    width = len(num_format.format(-(2**63), form))
    assert width == 91
    # The texts have 2**31 bytes together.
    numbers = np.full(2**31 // width + 2**31 % width, -(2**63))
    numbers[2**31 // width :] = 0
    with pytest.raises(OverflowError, match="large=True"):
        columns.format_column(numbers, form)
    for given, status in [(numbers, _native.TOO_MANY_BYTES), (numbers[:-1], _native.TOO_SMALL)]:
        offsets, data = np.full(len(given) + 1, 7, dtype=np.int32), np.full(1, 7, dtype=np.uint8)
        values = form._bytes, _native.I64, -1, given.ctypes.data, given.nbytes
        texts = offsets.ctypes.data, offsets.nbytes, _native.I32, data.ctypes.data, data.nbytes
        assert _native.print_column(*values, *texts) == status
        assert (offsets == 7).all() and data[0] == 7
