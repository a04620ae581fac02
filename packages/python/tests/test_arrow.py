"""Arrow's C data interface, both ways: beside a consumer and a producer that ctypes makes of the structs which the
specification of the interface fixes."""
import ctypes
import gc
import sys
from ctypes import CFUNCTYPE, POINTER, Structure, c_char_p, c_int64, c_void_p, py_object, pythonapi

import pytest

import num_format
from num_format import Cause

np = pytest.importorskip("numpy")
columns = pytest.importorskip("num_format.columns")


class ArrowSchema(Structure):
    pass


class ArrowArray(Structure):
    pass


RELEASE_SCHEMA, RELEASE_ARRAY = CFUNCTYPE(None, POINTER(ArrowSchema)), CFUNCTYPE(None, POINTER(ArrowArray))

ArrowSchema._fields_ = [
    ("format", c_char_p),
    ("name", c_char_p),
    ("metadata", c_char_p),
    ("flags", c_int64),
    ("n_children", c_int64),
    ("children", c_void_p),
    ("dictionary", c_void_p),
    ("release", RELEASE_SCHEMA),
    ("private_data", c_void_p),
]
ArrowArray._fields_ = [
    *((name, c_int64) for name in ["length", "null_count", "offset", "n_buffers", "n_children"]),
    ("buffers", POINTER(c_void_p)),
    ("children", c_void_p),
    ("dictionary", c_void_p),
    ("release", RELEASE_ARRAY),
    ("private_data", c_void_p),
]

new_capsule, pointer_of = pythonapi.PyCapsule_New, pythonapi.PyCapsule_GetPointer
new_capsule.restype, new_capsule.argtypes = py_object, [c_void_p, c_char_p, c_void_p]
pointer_of.restype, pointer_of.argtypes = c_void_p, [py_object, c_char_p]


def structs(schema, array):
    """The structs in a pair of capsules."""
    made = pointer_of(schema, b"arrow_schema"), pointer_of(array, b"arrow_array")
    return ArrowSchema.from_address(made[0]), ArrowArray.from_address(made[1])


def consumed(column):
    """What a consumer has of a column: its type, and the rows, which it takes bit by bit and byte by byte."""
    capsules = column.__arrow_c_array__()
    schema, array = structs(*capsules)
    assert (schema.name, schema.flags, schema.n_children, array.n_buffers, array.n_children) == (b"", 2, 0, 3, 0)
    assert not schema.dictionary and not array.dictionary and array.offset == 0
    validity, offsets, data = array.buffers[:3]
    number = {b"u": ctypes.c_int32, b"U": ctypes.c_int64}[schema.format]
    ends = (number * (array.length + 1)).from_address(offsets)
    rows = []
    for row in range(array.length):
        is_valid = not validity or ctypes.c_uint8.from_address(validity + row // 8).value >> row % 8 & 1
        text = ctypes.string_at(data + ends[row], ends[row + 1] - ends[row]).decode()
        rows.append(text if is_valid else None)
    assert array.null_count == rows.count(None)
    return schema.format, rows, (validity, offsets, data)


class Produced:
    """An array of another producer, with a count of how often it was released."""

    def __init__(self, kind, buffers, length, offset=0, nulls=-1):
        self.released = []
        self.buffers = buffers
        addresses = (c_void_p * len(buffers))(*(b and ctypes.addressof(b) for b in buffers))
        self.release_schema = RELEASE_SCHEMA(lambda given: self.let_go(given, "schema"))
        self.release_array = RELEASE_ARRAY(lambda given: self.let_go(given, "array"))
        self.schema = ArrowSchema(format=kind, release=self.release_schema)
        self.array = ArrowArray(length, nulls, offset, len(buffers), 0, addresses, release=self.release_array)

    def let_go(self, given, name):
        given.contents.release = type(given.contents.release)()
        self.released.append(name)

    def __arrow_c_array__(self, requested_schema=None):
        schema, array = ctypes.addressof(self.schema), ctypes.addressof(self.array)
        return new_capsule(schema, b"arrow_schema", None), new_capsule(array, b"arrow_array", None)


def held(data):
    """Bytes in a buffer of C."""
    return (ctypes.c_uint8 * max(len(data), 1)).from_buffer_copy(data or b"\0")


@pytest.mark.parametrize("large", [False, True])
def test_a_consumer_takes_a_column(large):
    numbers = np.ma.array([-1234567, 0, 5, 10**12, 7, 8, 9, 10, 11], mask=[0, 1, 0, 0, 0, 0, 0, 0, 1])
    for name in ["en", "sv"]:
        column = columns.format_column(numbers, name, large=large)
        kind, rows, addresses = consumed(column)
        assert kind == (b"U" if large else b"u")
        assert rows == column.tolist() == [n if n is None else num_format.format(n, name) for n in numbers.tolist()]
        # Nothing is copied.
        assert addresses == tuple(each.ctypes.data for each in [column.validity, column.offsets, column.data])
        for start in range(9):
            assert consumed(column[start:8])[:2] == (kind, rows[start:8])
        plain = columns.format_column(numbers.data, name, large=large)
        assert consumed(plain)[1] == plain.tolist() and consumed(plain)[2][0] is None
    assert consumed(columns.StringColumn.from_strings([]))[1] == []


def test_a_consumer_keeps_what_it_took():
    """Both arrays live until the array is released: by whoever moved it, or by the capsule."""
    column = columns.format_column(np.arange(5), "en")
    counts = [sys.getrefcount(column.data)]
    schema, capsule = column.__arrow_c_array__()
    counts.append(sys.getrefcount(column.data))
    _, array = structs(schema, capsule)
    moved = ArrowArray.from_buffer_copy(array)
    array.release = RELEASE_ARRAY()
    del capsule
    counts.append(sys.getrefcount(column.data))
    moved.release(ctypes.byref(moved))
    counts.append(sys.getrefcount(column.data))
    column.__arrow_c_array__()
    counts.append(sys.getrefcount(column.data))
    assert [count - counts[0] for count in counts] == [0, 1, 1, 0, 0] and not moved.release
    assert ArrowSchema.from_address(pointer_of(column.__arrow_c_schema__(), b"arrow_schema")).format == b"u"


def test_texts_that_are_not_utf8_are_not_given():
    for texts in [[b"1\xff"], [b"1", b"\xc3"], [b"\xc3", b"\xa9"], [b"", b"x\xc3", b"", b"\xa9"]]:
        with pytest.raises(UnicodeDecodeError):
            columns.StringColumn.from_strings(texts).__arrow_c_array__()
    assert consumed(columns.StringColumn.from_strings(["\u00e9", "", "1", "\u00e9"]))[1] == ["\u00e9", "", "1", "\u00e9"]


@pytest.mark.parametrize("kind", ["u", "z", "U", "Z"])
def test_texts_of_a_producer(kind):
    offset = np.int32 if kind in "uz" else np.int64
    texts = ["1.234", "", "-5", None, "1,5", None, "7", "8", "9", "1.000.000"]
    whole = columns.StringColumn.from_strings([text or "" for text in texts])
    bits = np.packbits([text is not None for text in texts], bitorder="little").tobytes()
    for start in range(11):
        for validity in [None, held(bits)]:
            buffers = [validity, held(whole.offsets.astype(offset).tobytes()), held(whole.data.tobytes())]
            made = Produced(kind.encode(), buffers, 10 - start, start)
            column = columns.StringColumn.from_arrow(made)
            assert column.tolist() == [text if validity else text or "" for text in texts[start:]]
            assert column.offsets.dtype == offset and made.released == []
            assert column.data.ctypes.data == ctypes.addressof(buffers[2])
            part = column[:0]
            del column
            gc.collect()
            assert made.released == []
            del part
            gc.collect()
            # The schema is left to the capsule of the producer, which has no destructor here.
            assert made.released == ["array"]
    _, causes = columns.try_parse_column(Produced(kind.encode(), buffers, 10), "de")
    refused = {1: Cause.NO_DIGIT, 3: 0, 4: Cause.UNEXPECTED, 5: 0}
    assert causes.tolist() == [refused.get(row, 0) for row in range(10)]


@pytest.mark.parametrize("dtype", [f"{kind}{size}" for kind in "iu" for size in (1, 2, 4, 8)])
def test_integers_of_a_producer(dtype):
    limits = np.iinfo(dtype)
    numbers = np.array([limits.min, 7, limits.max, 0, 1, 2, 3, 4, 5, 6], dtype=dtype)
    kind = dict(zip(["i1", "u1", "i2", "u2", "i4", "u4", "i8", "u8"], "cCsSiIlL"))[dtype]
    for start in range(10):
        made = Produced(kind.encode(), [held(bytes([0b11111101, 0b01])), held(numbers.tobytes())], 10 - start, start)
        texts = [None if row in (1, 9) else f"{int(numbers[row]):,}" for row in range(start, 10)]
        assert columns.format_column(made, "en").tolist() == texts and made.released == ["array"]
        made = Produced(kind.encode(), [None, held(numbers.tobytes())], 10 - start, start, nulls=0)
        assert columns.format_decimal_column(made, 0, "en").tolist() == [f"{n:,}" for n in numbers[start:].tolist()]


def test_arrays_that_are_refused():
    for kind in [b"g", b"b", b"vu", b"+s", b"d:19,2", b"tdD", b"n"]:
        made = Produced(kind, [None, held(b"12345678"), held(b"")], 1)
        for call in [columns.StringColumn.from_arrow, lambda given: columns.format_column(given, "en")]:
            with pytest.raises(TypeError, match="texts or integers is needed"):
                call(made)
            assert made.released.pop() == "array"
            made = Produced(kind, [None, held(b"12345678"), held(b"")], 1)
    numbers = Produced(b"l", [None, held(bytes(8))], 1)
    with pytest.raises(TypeError, match="not one of numbers"):
        columns.parse_column(numbers, "en")
    with pytest.raises(ValueError, match="was released"):
        columns.format_column(numbers, "en")
    with pytest.raises(TypeError, match="not texts"):
        columns.format_column(columns.StringColumn.from_strings(["1"]), "en")
    bad = Produced(b"u", [None, held(np.array([0, 5, 2], dtype=np.int32).tobytes()), held(b"12345")], 2)
    with pytest.raises(ValueError):
        columns.StringColumn.from_arrow(bad)
    for length, offset in [(-1, 0), (1, -1)]:
        negative = Produced(b"u", [None, held(bytes(8)), held(b"")], length, offset)
        with pytest.raises(ValueError, match="below 0"):
            columns.StringColumn.from_arrow(negative)
    with pytest.raises(TypeError, match="__arrow_c_array__"):
        columns.StringColumn.from_arrow(["1"])
    dictionary = Produced(b"i", [None, held(bytes(4))], 1)
    dictionary.array.dictionary = 1
    with pytest.raises(TypeError, match="dictionary"):
        columns.format_column(dictionary, "en")


def test_an_empty_array_without_buffers():
    for kind in [b"u", b"U", b"l"]:
        made = Produced(kind, [None, None, None][: 3 if kind != b"l" else 2], 0)
        call = columns.format_column if kind == b"l" else columns.parse_column
        assert call(made, "en").tolist() == []


def test_a_column_goes_there_and_back():
    column = columns.format_column(np.ma.array([1000, 2, 3], mask=[0, 1, 0]), "de")
    again = columns.StringColumn.from_arrow(column)
    assert again == column and again.data.ctypes.data == column.data.ctypes.data
    del column
    gc.collect()
    assert columns.parse_column(again, "de").tolist() == [1000, None, 3]


def test_pyarrow():
    pyarrow = pytest.importorskip("pyarrow")
    for large in (False, True):
        column = columns.format_column(np.ma.array([1234, -5, 0, 7], mask=[0, 0, 1, 0]), "sv", large=large)
        array = pyarrow.array(column)
        array.validate(full=True)
        assert array.to_pylist() == column.tolist() and array.buffers()[2].address == column.data.ctypes.data
        assert columns.parse_column(array[1:], "sv").tolist() == [-5, None, 7]
        assert columns.format_column(pyarrow.array([1000, None]), "en", large=large).tolist() == ["1,000", None]


def test_polars():
    polars = pytest.importorskip("polars")
    column = columns.format_column(np.ma.array([1234, -5, 0], mask=[0, 0, 1]), "sv")
    assert polars.Series(column).to_list() == column.tolist()
