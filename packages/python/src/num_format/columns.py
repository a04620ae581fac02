"""Columns of numbers: NumPy arrays to texts, and back. Needs NumPy.

An array of integers and a :class:`StringColumn` are converted by the library, without the GIL, so threads work at once.
No other thread may write an array meanwhile.

>>> import numpy as np
>>> from num_format.columns import format_column, parse_column
>>> texts = format_column(np.array([5, -1234567, 1000]), "de")
>>> texts.tolist()
['5', '-1.234.567', '1.000']
>>> parse_column(texts, "de").data
array([       5, -1234567,     1000])

A row may be null: a masked item of an array, or None, NaN or ``pandas.NA`` among objects. What is parsed is an array
that masks such rows.

>>> texts = format_column(np.ma.array([5, 0, 1000], mask=[False, True, False]), "de")
>>> texts.tolist(), parse_column(texts, "de")
(['5', None, '1.000'], masked_array(data=[5, --, 1000],
             mask=[False,  True, False],
       fill_value=999999))

Each call takes Arrow's arrays of texts and of integers in place of these, by the method ``__arrow_c_array__`` that
pyarrow's have, and a :class:`StringColumn` has it too: ``pyarrow.array(texts)`` copies nothing.
"""
from __future__ import annotations

import decimal
import functools
import itertools
import operator
from collections.abc import Iterable, Iterator, Sequence
from typing import Any, NamedTuple, overload

import numpy as np
import numpy.typing as npt

from . import _native
from ._errors import LATIN_ALONE, PLACED, Cause, FormatError, ParseError
from ._format import Format, to_format
from ._numbers import first_surrogate, parse, parse_decimal, to_scale, units_of, way_of

__all__ = [
    "WIDE",
    "ParsedColumn",
    "StringColumn",
    "format_column",
    "format_decimal_column",
    "parse_column",
    "parse_decimal_column",
    "to_pandas",
    "try_parse_column",
    "try_parse_decimal_column",
]

# The dtypes of numbers, and the library's number of each, which is the letter that Arrow has for it.
_TYPES = {np.dtype(f"{k}{n}"): getattr(_native, f"{k.upper()}{8 * n}") for k in "iu" for n in (1, 2, 4, 8)}
_ARROW = {chr(number): dtype for dtype, number in _TYPES.items()}

# The types of offsets of Arrow's texts, and of its bytes, which may be texts.
_ARROW_OFFSETS = {"u": np.int32, "z": np.int32, "U": np.int64, "Z": np.int64}

#: The dtype of the units of decimals of 128 bits, in two's complement: that of Apache Arrow's type decimal128.
WIDE = np.dtype([("low", np.uint64), ("high", np.int64)])

# What to do with floats.
_INEXACT = ": a float is not exact: round it, as numpy.rint(100 * values).astype(int) does to units of scale 2"

# In place of the scale of decimals, for integers.
_NO_SCALE = -1


class StringColumn(Sequence["str | None"]):
    """A column of texts in the layout of Apache Arrow: the bytes of all texts, and where each begins.

    Text k is ``data[offsets[k]:offsets[k + 1]]`` in UTF-8. Where there are nulls, row k is null if bit ``k % 8`` of
    ``validity[k // 8]`` is 0, the lowest bit being bit 0. By ``__arrow_c_array__`` it is an Arrow array of type string,
    or large_string where the offsets are of 64 bits, for pyarrow, polars and others, without a copy:
    ``pyarrow.array(column)``, ``polars.Series(column)``. :meth:`from_arrow` is the way back.

    >>> import numpy as np
    >>> from num_format.columns import StringColumn
    >>> column = StringColumn(np.array([0, 1, 1, 6], dtype=np.int32), b"12,345", b"\x05")
    >>> len(column), column[0], column[-1], column.tolist()
    (3, '1', '2,345', ['1', None, '2,345'])
    >>> column[1:] == StringColumn.from_strings([None, "2,345"])
    True
    >>> column[[2, 0]].tolist(), column[column.valid()].tolist()
    (['2,345', '1'], ['1', '2,345'])

    A slice with step 1 shares the bytes, and rows that are chosen by indices or by an array of bool are copied. What is
    done with either takes as long as it has rows. Columns are equal if their rows are. Bytes that are not UTF-8 raise a
    ``UnicodeDecodeError`` where they are made a ``str``.

    Args:
        offsets: One more number than there are texts, of 32 or 64 bits. The first may be above 0.
        data: The bytes: ``bytes``, an array of ``uint8``, or any other buffer. It is not copied.
        validity: A bit for each row as a buffer of bytes, or None if no row is null. It is not copied.

    Raises:
        ValueError: There is no offset; one is below 0 or below the one before it; the last is past the bytes; or
            there are fewer bits than rows.
        TypeError: The offsets are of another type.

    Attributes:
        offsets: The offsets, an array of ``int32`` or ``int64``.
        data: The bytes, an array of ``uint8``.
        validity: The bits, an array of ``uint8``, or None.
    """

    __slots__ = ("data", "offsets", "validity")

    offsets: npt.NDArray[Any]
    data: npt.NDArray[np.uint8]
    validity: npt.NDArray[np.uint8] | None

    def __init__(self, offsets: npt.ArrayLike, data: Any, validity: Any = None) -> None:
        given = _one_dimension(np.asarray(offsets), "the offsets")
        native = given.dtype.newbyteorder("=")
        if native not in (np.int32, np.int64):
            raise TypeError(f"the offsets must be int32 or int64, not {given.dtype}")
        self.offsets = np.ascontiguousarray(given, dtype=native)
        self.data = np.frombuffer(data, dtype=np.uint8)
        if len(self.offsets) == 0:
            raise ValueError("there must be one more offset than there are texts")
        if self.offsets[0] < 0 or self.offsets[-1] > len(self.data):
            raise ValueError("an offset is below 0 or past the bytes")
        falls = np.flatnonzero(self.offsets[1:] < self.offsets[:-1])
        if len(falls):
            raise ValueError(f"offset {falls[0] + 1} is below the one before it")
        self.validity = None if validity is None else np.frombuffer(validity, dtype=np.uint8)
        if self.validity is not None and 8 * len(self.validity) < len(self):
            raise ValueError("there are fewer bits of validity than rows")

    @staticmethod
    def from_strings(strings: Iterable[str | bytes | None] | npt.NDArray[Any]) -> StringColumn:
        """Returns a column of these texts: a NumPy array of dtype ``S``, ``U`` or object, or any iterable.

        A masked item of an array is null, and so are None, NaN and ``pandas.NA``. NumPy's ``S`` and ``U`` do not keep
        zeros at the end of a text.

        >>> import numpy as np
        >>> from num_format.columns import StringColumn
        >>> StringColumn.from_strings(np.array([b"1,234", b"5"])).tolist()
        ['1,234', '5']
        >>> StringColumn.from_strings(["1’234", "5"]).data.nbytes
        8

        Raises:
            TypeError: Not all texts are ``str``, and not all are ``bytes``.
            ValueError: The array has not one dimension.
            UnicodeEncodeError: A text has a lone surrogate.
        """
        if isinstance(strings, np.ndarray):
            strings, valid = _unmasked(strings, "the texts")
            if valid is not None:
                return _with_nulls(StringColumn.from_strings(strings[valid]), valid)
            if strings.dtype.kind == "U":
                strings = np.char.encode(strings, "utf-8")
            if strings.dtype.kind == "S":
                return _from_fixed(strings)
            strings = strings.tolist()
        elif isinstance(strings, (str, bytes)):
            raise TypeError("a column is needed, not one text")
        texts = list(strings)
        try:
            data, parts = _joined(texts)
            lengths = np.fromiter(map(len, parts), dtype=np.int64, count=len(parts))
        except TypeError:
            valid = _valid(texts)
            if valid.all():
                raise TypeError("each text must be a str, or each bytes") from None
            return _with_nulls(StringColumn.from_strings(itertools.compress(texts, valid)), valid)
        return _unchecked(_to_offsets(lengths), np.frombuffer(data, dtype=np.uint8))

    @staticmethod
    def from_arrow(array: Any) -> StringColumn:
        """Returns the column of an Arrow array of texts, which has the method ``__arrow_c_array__``, without a copy.

        The types are string, large_string, binary and large_binary. Of a chunked array or a polars Series,
        ``combine_chunks()`` or ``to_arrow()`` makes one. Others share the bytes, which nobody may write.

        >>> from num_format.columns import StringColumn
        >>> column = StringColumn.from_strings(["1,234", None])
        >>> StringColumn.from_arrow(column).tolist()
        ['1,234', None]

        Raises:
            TypeError: It has no such method, or is of another type.
            ValueError: The offsets are not as they have to be, or the length or the first row is below 0.
        """
        column = _from_arrow(array)
        if not isinstance(column, StringColumn):
            raise TypeError("an Arrow array of texts is needed, not one of numbers")
        return column

    def __len__(self) -> int:
        return len(self.offsets) - 1

    @overload
    def __getitem__(self, row: int) -> str | None: ...
    @overload
    def __getitem__(self, row: slice | Sequence[int] | npt.NDArray[Any]) -> StringColumn: ...
    def __getitem__(self, row: int | slice | Sequence[int] | npt.NDArray[Any]) -> str | StringColumn | None:
        count = len(self)
        if isinstance(row, slice):
            rows = range(count)[row]
            return self._part(rows.start, len(rows)) if rows.step == 1 else self._chosen(np.array(rows, dtype=np.intp))
        if not isinstance(row, (int, np.integer)):
            return self._chosen(_to_rows(np.asarray(row), count))
        if not -count <= row < count:
            raise IndexError(f"row {row} of a column of {count}")
        row = int(row) % count
        if self.validity is not None and not self.validity[row // 8] >> row % 8 & 1:
            return None
        return self.row_bytes(row).decode()

    def _part(self, start: int, count: int) -> StringColumn:
        valid = None if self.validity is None else _bits_from(self.validity, start, count)
        return _unchecked(self.offsets[start : start + count + 1], self.data, valid)

    def _chosen(self, rows: npt.NDArray[np.intp]) -> StringColumn:
        """Returns a column of these rows, which are from 0."""
        starts = self.offsets[rows].astype(np.int64)
        lengths = self.offsets[rows + 1] - starts
        offsets = _to_offsets(lengths)
        data = self.data[np.repeat(starts - offsets[:-1], lengths) + np.arange(offsets[-1])]
        if self.validity is None:
            return _unchecked(offsets, data)
        return _unchecked(offsets, data, np.packbits(self.validity[rows // 8] >> (rows % 8) & 1, bitorder="little"))

    def __iter__(self) -> Iterator[str | None]:
        return iter(self.tolist())

    def __eq__(self, other: object) -> bool:
        if not isinstance(other, StringColumn):
            return NotImplemented
        return self._rows() == other._rows()

    def buffers(self) -> tuple[npt.NDArray[Any], ...]:
        """Returns the offsets, the bytes and, where there are nulls, the bits of validity.

        >>> import numpy as np
        >>> from num_format.columns import format_column
        >>> format_column(np.ma.array([1000, 0, 2], mask=[0, 1, 0]), "en").buffers()[::2]
        (array([0, 5, 5, 6], dtype=int32), array([5], dtype=uint8))
        """
        return (self.offsets, self.data) if self.validity is None else (self.offsets, self.data, self.validity)

    def valid(self) -> npt.NDArray[np.bool_]:
        """Returns which rows are not null.

        >>> from num_format.columns import StringColumn
        >>> StringColumn.from_strings(["1", None]).valid()
        array([ True, False])
        """
        if self.validity is None:
            return np.ones(len(self), dtype=bool)
        return np.unpackbits(self.validity, count=len(self), bitorder="little").astype(bool)

    def row_bytes(self, row: int) -> bytes:
        """Returns the bytes of the text at a row from 0, also of one that is null.

        >>> from num_format.columns import StringColumn
        >>> StringColumn.from_strings(["1", "23"]).row_bytes(1)
        b'23'
        """
        return self.data[self.offsets[row] : self.offsets[row + 1]].tobytes()

    def tolist(self) -> list[str | None]:
        """Returns the texts as a list, and None for a null.

        >>> from num_format.columns import StringColumn
        >>> StringColumn.from_strings(["1", "23"]).tolist()
        ['1', '23']
        """
        offsets, data = self._own()
        ends, valid = offsets.astype(np.int64), self.valid()
        if ends[-1] == len(data) and (ends[:-1] <= ends[1:]).all():
            return _native.texts(_address(ends), _address(data), _address(valid), len(valid))
        # The offsets were changed, and are not as they have to be.
        return [None if row is None else row.decode() for row in self._rows()]

    def _rows(self) -> list[Any]:
        """Returns the bytes of each row, and None for a null."""
        offsets, data = self._own()
        ends = offsets.tolist()
        rows = map(data.tobytes().__getitem__, map(slice, ends[:-1], ends[1:]))
        if self.validity is None:
            return list(rows)
        return [row if is_valid else None for row, is_valid in zip(rows, self.valid().tolist())]

    def _own(self) -> tuple[npt.NDArray[Any], npt.NDArray[np.uint8]]:
        """Returns the bytes of the rows alone, and the offsets in these."""
        first, last = self.offsets[0], self.offsets[-1]
        return self.offsets - first, self.data[first:last]

    def __arrow_c_schema__(self) -> object:
        """Returns a capsule of the Arrow type, string or large_string."""
        return _native.export_schema(self.offsets.dtype == np.int64)

    def __arrow_c_array__(self, requested_schema: object = None) -> tuple[object, object]:
        """Returns capsules of the Arrow type and of the array, whatever type is requested.

        Raises:
            UnicodeDecodeError: A text is not UTF-8.
            ValueError: The offsets or bits were changed, and are not as they have to be.
        """
        StringColumn(*self.buffers())._check_utf8()
        nulls = 0 if self.validity is None else len(self) - int(self.valid().sum())
        validity = 0 if self.validity is None else _address(self.validity)
        # What is passed as the owner is kept until the array is released.
        passed = self.buffers(), len(self), nulls, validity, _address(self.offsets), _address(self.data)
        return self.__arrow_c_schema__(), _native.export_array(*passed)

    def _check_utf8(self) -> None:
        """Raises a UnicodeDecodeError if a text is not UTF-8: all together are not, or one begins in a character."""
        offsets, data = self._own()
        if data.max(initial=0) < 0x80:
            return
        data.tobytes().decode()
        rows = np.flatnonzero(offsets[:-1] < offsets[1:])
        for row in rows[data[offsets[rows]] & 0xC0 == 0x80][:1]:
            self.row_bytes(int(row)).decode()

    def to_object(self) -> npt.NDArray[np.object_]:
        """Returns the texts as an array of dtype object, whose items are ``str``, and None for a null.

        >>> from num_format.columns import StringColumn
        >>> StringColumn.from_strings(["1", None, "23"]).to_object()
        array(['1', None, '23'], dtype=object)
        """
        return np.array(self.tolist(), dtype=object)

    def to_bytes(self) -> npt.NDArray[np.bytes_]:
        """Returns the texts as an array of dtype ``S``, as wide as the longest text, where nulls are masked.

        >>> from num_format.columns import StringColumn
        >>> StringColumn.from_strings(["1", "23"]).to_bytes()
        array([b'1', b'23'], dtype='|S2')
        """
        lengths = np.diff(self.offsets)
        width = max(int(lengths.max(initial=0)), 1)
        rows = np.zeros((len(self), width), dtype=np.uint8)
        rows[np.arange(width) < lengths[:, np.newaxis]] = self.data[self.offsets[0] : self.offsets[-1]]
        return _masked(rows.view(f"S{width}").reshape(len(self)), self)

    def __repr__(self) -> str:
        nulls = len(self) - int(self.valid().sum())
        return f"<StringColumn of {len(self)} texts, {self.offsets.dtype} offsets, {nulls} nulls>"

    def __reduce__(self) -> tuple[Any, ...]:
        offsets, data = self._own()
        return StringColumn, (offsets, data, None if self.validity is None else _bits_from(self.validity, 0, len(self)))


class ParsedColumn(NamedTuple):
    """What :func:`try_parse_column` returns."""

    #: The numbers, as an array that masks the rows which are refused or null, and has 0 there.
    values: np.ma.MaskedArray[Any, np.dtype[Any]]
    #: 0 at a row that is parsed or null, and else a :class:`num_format.Cause`.
    causes: npt.NDArray[np.int32]


def format_column(
    values: npt.ArrayLike | Sequence[object], format: Format | str, *, large: bool = False
) -> StringColumn:
    """Returns the texts of a column of numbers under a format.

    >>> import numpy as np
    >>> from num_format.columns import format_column
    >>> column = format_column(np.array([1234, -5], dtype=np.int16), "en")
    >>> column.offsets, bytes(column.data)
    (array([0, 5, 7], dtype=int32), b'1,234-5')

    Args:
        values: An array of one dimension of any of the eight types of integers, in any byte order and stride; an Arrow
            array or a pandas column of one; or a list or an array of objects which are whole numbers, all from -2**127
            to 2**127 - 1 or all from 0 to 2**128 - 1. A masked item is null, and so is None, NaN or ``pandas.NA``
            among objects.
        format: A :class:`num_format.Format`, or the name or the tag of a locale.
        large: Whether the offsets are of 64 bits, for texts of 2**31 bytes or more.

    Raises:
        OverflowError: The texts have 2**31 bytes or more, and `large` is not set. Or an object is another number.
        TypeError: The array or an object is of another type, such as ``bool`` or ``float64``.
        ValueError: The array has not one dimension.
        FormatError: No locale is found.
    """
    struct = to_format(format)._bytes
    given, valid = _not_null(values, "the numbers")
    numbers, type_of = _to_integers(given)
    column = _printed(struct, type_of, _NO_SCALE, numbers, large)
    return column if valid is None else _with_nulls(column, valid)


def parse_column(
    column: StringColumn | Iterable[str | bytes | None] | npt.NDArray[Any],
    format: Format | str,
    dtype: npt.DTypeLike = np.int64,
    *,
    lenient: bool = False,
    typed: bool = False,
) -> np.ma.MaskedArray[Any, np.dtype[Any]]:
    """Returns the numbers for which the texts of a column are canonical, each as :func:`num_format.parse` returns it.

    The array masks the rows that are null, and has 0 there; `data` of it is the array without a mask.

    A number that the dtype has not is refused as `OUT_OF_RANGE`. With `lenient` it is refused as `NOT_A_NUMBER`,
    and so is a text of more digits, a minus sign counted as one, than the longest number of the dtype.

    >>> import numpy as np
    >>> from num_format.columns import parse_column
    >>> parse_column(["1,234", "-5"], "en", np.int16)
    masked_array(data=[1234, -5],
                 mask=[False, False],
           fill_value=999999,
                dtype=int16)
    >>> parse_column(np.array([b"1,234", b"1,2", b"x"]), "en")
    Traceback (most recent call last):
    num_format.ParseError: row 1: '1,2' is refused: it is not as its number is printed

    Args:
        column: A :class:`StringColumn`, or what its `from_arrow` or `from_strings` takes, which raise what they raise.
        format: A :class:`num_format.Format`, or the name or the tag of a locale.
        dtype: Any of the eight types of integers.
        lenient: Whether each character that is not numeric is ignored.
        typed: Whether the texts are as people type them.

    Raises:
        ParseError: A text is refused. The error is that of the first such row.
        FormatError: No locale is found, or the format is ambiguous (`AMBIGUOUS_FORMAT`), but not with `lenient`.
        TypeError: The dtype is of no integer.
        ValueError: The offsets of the column were changed, and are not as they have to be, or both `lenient` and `typed`
            are set, or `lenient` is and the format has other digits than 0 to 9.
    """
    texts = _to_column(column)
    found = try_parse_column(texts, format, dtype, lenient=lenient, typed=typed)
    _check_causes(found, texts, format, functools.partial(parse, typed=typed))
    return found.values


def try_parse_column(
    column: StringColumn | Iterable[str | bytes | None] | npt.NDArray[Any],
    format: Format | str,
    dtype: npt.DTypeLike = np.int64,
    *,
    lenient: bool = False,
    typed: bool = False,
) -> ParsedColumn:
    """Returns the numbers of a column, and for each row why it is refused.

    It takes what :func:`parse_column` takes, and raises no `ParseError`.

    >>> from num_format import Cause
    >>> from num_format.columns import try_parse_column
    >>> values, causes = try_parse_column(["1,234", "1,2", "x"], "en")
    >>> values.tolist()
    [1234, None, None]
    >>> [Cause(cause) for cause in causes[causes != 0]]
    [Cause.MISSPELLED, Cause.UNEXPECTED]
    """
    form, native = to_format(format), _integers(np.dtype(dtype))
    texts = _to_column(column)
    values = np.zeros(len(texts), dtype=native)
    causes = _parse_into(values, form, _TYPES[native], _NO_SCALE, way_of(lenient, typed), texts)
    return _parsed(values, causes, texts)


def format_decimal_column(
    units: npt.ArrayLike | Sequence[object], scale: int, format: Format | str, *, large: bool = False
) -> StringColumn:
    """Returns the texts of a column of decimals, each its units divided by 10 to the power of the scale.

    >>> import numpy as np
    >>> from num_format.columns import format_decimal_column
    >>> format_decimal_column(np.array([123450, -5]), 2, "de").tolist()
    ['1.234,50', '-0,05']
    >>> from decimal import Decimal
    >>> format_decimal_column([Decimal("1234.5"), None], 2, "de").tolist()
    ['1.234,50', None]

    Args:
        units: What :func:`format_column` takes, or an array of dtype `WIDE`, which a buffer of Arrow's type decimal128
            is as ``numpy.frombuffer(buffer, WIDE)``. Or ``Decimal`` objects: these are no units, but the numbers. A
            column has either units or ``Decimal`` objects.
        scale: How many decimals each has, from 0 to 38.
        format: A :class:`num_format.Format`, or the name or the tag of a locale.
        large: Whether the offsets are of 64 bits, for texts of 2**31 bytes or more.

    Raises:
        OverflowError: The texts have 2**31 bytes or more, and `large` is not set. Or units, those of a ``Decimal`` too,
            are not in the range from -2**127 to 2**127 - 1, or one is infinite.
        TypeError: The array is of another type, or a column has units and ``Decimal`` objects.
        ValueError: The array has not one dimension, the scale is another one, or a ``Decimal`` has a digit past the
            scale that is not 0.
        FormatError: No locale is found.
    """
    struct, scale = to_format(format)._bytes, to_scale(scale)
    given, valid = _not_null(units, "the units")
    column = _printed(struct, _native.I128, scale, _to_wide(given, scale), large)
    return column if valid is None else _with_nulls(column, valid)


def parse_decimal_column(
    column: StringColumn | Iterable[str | bytes | None] | npt.NDArray[Any],
    scale: int,
    format: Format | str,
    dtype: npt.DTypeLike = np.int64,
    *,
    typed: bool = False,
) -> np.ma.MaskedArray[Any, np.dtype[Any]]:
    """Returns the units of the decimals for which the texts of a column are canonical, each parsed as by
    :func:`num_format.parse_decimal`, at one scale. The array masks the rows that are null, and has 0 there.

    A text may have fewer decimals than the scale, or more where those past it are 0. Where one is not, the text is
    refused as `DIGITS_LOST`: nothing is rounded. Units that the dtype has not are `OUT_OF_RANGE`.

    >>> from num_format.columns import parse_decimal_column
    >>> parse_decimal_column(["1.234,50", "-0,050", "7"], 2, "de").tolist()
    [123450, -5, 700]
    >>> parse_decimal_column(["1", "0,005"], 2, "de")
    Traceback (most recent call last):
    num_format.ParseError: row 1: '0,005' is refused: a digit past the scale is not 0

    Args:
        column: What :func:`parse_column` takes.
        scale: How many decimals the units are, from 0 to 38.
        format: A :class:`num_format.Format`, or the name or the tag of a locale.
        dtype: Any of the eight types of integers, or `WIDE`, or ``object`` for ``Decimal`` objects of that scale.
        typed: Whether the texts are as people type them.

    Raises:
        ParseError: A text is refused. The error is that of the first such row.
        FormatError: No locale is found, or the format is ambiguous (`AMBIGUOUS_FORMAT`).
        TypeError: The dtype is another one.
        ValueError: The scale is another one.
    """
    texts = _to_column(column)
    found = try_parse_decimal_column(texts, scale, format, dtype, typed=typed)
    _check_causes(found, texts, format, functools.partial(parse_decimal, typed=typed))
    return found.values


def try_parse_decimal_column(
    column: StringColumn | Iterable[str | bytes | None] | npt.NDArray[Any],
    scale: int,
    format: Format | str,
    dtype: npt.DTypeLike = np.int64,
    *,
    typed: bool = False,
) -> ParsedColumn:
    """Returns the units of a column of decimals, and for each row why it is refused.

    It takes what :func:`parse_decimal_column` takes, and raises no `ParseError`.

    >>> from num_format.columns import try_parse_decimal_column
    >>> units, causes = try_parse_decimal_column(["1.5", "1.555", "x"], 2, "en")
    >>> units.tolist(), causes != 0
    ([150, None, None], array([False,  True,  True]))
    """
    form, scale = to_format(format), to_scale(scale)
    native = np.dtype(dtype) if np.dtype(dtype) in (WIDE, object) else _integers(np.dtype(dtype))
    texts = _to_column(column)
    units = np.zeros(len(texts), dtype=WIDE)
    causes = _parse_into(units, form, _native.I128, scale, way_of(False, typed), texts)
    return _parsed(_narrowed(units, causes, native, scale), causes, texts)


def to_pandas(column: StringColumn | npt.NDArray[Any]) -> Any:
    """Returns a pandas array of what a call here returns, which can be assigned to a column of a frame.

    Texts are of pandas' dtype ``string``, numbers of its ``Int64`` and the like, and what is null or masked is
    ``pandas.NA``. An array of objects, as of ``Decimal``, stays one, with None there. pandas has no dtype for units of
    `WIDE`: parse decimals with the dtype ``object``.

    >>> import pandas
    >>> from num_format.columns import format_column, parse_column, to_pandas
    >>> frame = pandas.DataFrame({"text": ["1.234", None]})
    >>> frame["n"] = to_pandas(parse_column(frame["text"], "de"))
    >>> frame["fr"] = to_pandas(format_column(frame["n"], "fr"))
    >>> frame.isna()["n"].tolist(), str(frame["n"].dtype), str(frame["fr"].dtype)
    ([False, True], 'Int64', 'string')

    Raises:
        TypeError: The array is of `WIDE`.
    """
    import pandas  # type: ignore[import]

    if isinstance(column, StringColumn):
        return pandas.array(column.to_object(), dtype="string")
    if column.dtype == object:
        return np.array(column.tolist(), dtype=object)
    if column.dtype == WIDE:
        raise TypeError("pandas has no dtype for units of WIDE: parse with the dtype `object`")
    return pandas.arrays.IntegerArray(np.ma.getdata(column), np.ma.getmaskarray(column))


def __dir__() -> list[str]:
    return __all__


def _address(array: npt.NDArray[Any]) -> int:
    """Returns where the items of an array lie, one after another."""
    if not array.flags.c_contiguous:
        raise ValueError("the array must be contiguous")
    return int(array.ctypes.data)


def _buffer(array: npt.NDArray[Any]) -> tuple[int, int]:
    """Returns what a call is passed of an array: where its bytes are, and how many."""
    return _address(array), array.nbytes


def _printed(struct: bytes, type_of: int, scale: int, numbers: npt.NDArray[Any], large: bool) -> StringColumn:
    """Returns the texts of numbers."""
    passed = struct, type_of, scale, *_buffer(numbers)
    length = _check(_native.print_column_len(*passed))
    offsets = np.empty(len(numbers) + 1, dtype=np.int64 if large else np.int32)
    if length > np.iinfo(offsets.dtype).max:
        _check(_native.TOO_MANY_BYTES)
    data = np.empty(length, dtype=np.uint8)
    _check(_native.print_column(*passed, *_buffer(offsets), _TYPES[offsets.dtype], *_buffer(data)))
    return _unchecked(offsets, data)


def _parse_into(
    values: npt.NDArray[Any], form: Format, type_of: int, scale: int, way: int, texts: StringColumn
) -> npt.NDArray[np.int32]:
    """Parses texts, writes values but of rows that are null or refused, and returns the statuses."""
    offsets, causes = texts.offsets, np.zeros(len(texts), dtype=np.int32)
    inputs = *_buffer(offsets), _TYPES[offsets.dtype], *_buffer(texts.data)
    validity = (0, 0) if texts.validity is None else _buffer(texts.validity)
    outputs = *_buffer(values), *validity, _address(causes), len(causes)
    status = _native.parse_column(form._bytes, type_of, scale, way, *inputs, *outputs)
    if status == _native.AMBIGUOUS_FORMAT:
        raise FormatError("format", repr(form), Cause(status))
    _check(status)
    return causes


class _Memory:
    """Bytes at an address, for NumPy, which keeps this object, and so their owner, with the array that it makes."""

    def __init__(self, owner: object, address: int, size: int) -> None:
        self.owner, self.size = owner, size
        self.__array_interface__ = {"data": (address, True), "shape": (size,), "typestr": "|u1", "version": 3}

    def array(self, dtype: npt.DTypeLike) -> npt.NDArray[Any]:
        # One without bytes may have no address.
        return (np.asarray(self) if self.size else np.empty(0, np.uint8)).view(dtype)


def _from_arrow(given: Any) -> StringColumn | tuple[npt.NDArray[Any], npt.NDArray[np.bool_] | None]:
    """Returns an Arrow array: its texts, or its integers and which of them are not null, or None if none is."""
    if not hasattr(given, "__arrow_c_array__"):
        raise TypeError(f"an array with the method __arrow_c_array__ is needed, not {type(given).__name__}")
    owner, kind, count, start, nulls, (bits, first, second) = _native.import_array(*given.__arrow_c_array__())
    if kind not in _ARROW and kind not in _ARROW_OFFSETS:
        raise TypeError(f"an Arrow array of texts or integers is needed, not one of type {kind!r}")
    if count < 0 or start < 0:
        raise ValueError(f"the Arrow array has {count} rows from {start} on: neither may be below 0")
    valid = None
    if bits and nulls:
        valid = _bits_from(_Memory(owner, bits, (start + count + 7) // 8).array(np.uint8), start, count)
    if kind in _ARROW:
        dtype = _ARROW[kind]
        numbers = _Memory(owner, first, (start + count) * dtype.itemsize if count else 0).array(dtype)[start:]
        is_valid = None if valid is None else np.unpackbits(valid, count=count, bitorder="little").astype(bool)
        return numbers, is_valid
    offset = np.dtype(_ARROW_OFFSETS[kind])
    offsets = np.zeros(1, dtype=offset)
    # An array without a row may have no offset.
    if first:
        offsets = _Memory(owner, first, (start + count + 1) * offset.itemsize).array(offset)[start:]
    return StringColumn(offsets, _Memory(owner, second, int(offsets[-1])).array(np.uint8), valid)


def _bits_from(bits: npt.NDArray[np.uint8], start: int, count: int) -> npt.NDArray[np.uint8]:
    """Returns so many bits from a place on, which begin a byte: a copy where they did not."""
    part = bits[start // 8 : -(-(start + count) // 8)]
    if start % 8 == 0:
        return part
    return np.packbits(np.unpackbits(part, bitorder="little")[start % 8 :][:count], bitorder="little")


def _to_rows(chosen: npt.NDArray[Any], count: int) -> npt.NDArray[np.intp]:
    """Returns the rows, from 0, that indices or an array of bool choose."""
    if chosen.dtype == bool:
        if chosen.shape != (count,):
            raise IndexError(f"the array of bool has the shape {chosen.shape}, and the column {count} rows")
        return np.flatnonzero(chosen)
    if chosen.ndim != 1 or (chosen.dtype.kind not in "iu" and len(chosen)):
        raise TypeError("rows are chosen by one dimension of integers or bool")
    outside = np.flatnonzero((chosen < -count) | (chosen >= count))
    if len(outside):
        raise IndexError(f"row {chosen[outside[0]]} of a column of {count}")
    rows = chosen.astype(np.intp)
    return np.where(rows < 0, rows + count, rows)


def _integers(dtype: np.dtype[Any]) -> np.dtype[Any]:
    """Returns the dtype of integers in the processor's byte order."""
    native = dtype.newbyteorder("=")
    if native not in _TYPES:
        inexact = _INEXACT if dtype.kind == "f" else ""
        raise TypeError(f"the dtype must be one of integers of 8 to 64 bits, not {dtype}{inexact}")
    return native


def _one_dimension(array: npt.NDArray[Any], what: str) -> npt.NDArray[Any]:
    if array.ndim != 1:
        raise ValueError(f"{what} must have one dimension, not {array.ndim}")
    return array


def _unmasked(values: npt.ArrayLike, what: str) -> tuple[npt.NDArray[Any], npt.NDArray[np.bool_] | None]:
    """Returns an array without a mask, and which items were not masked, or None if it had no mask."""
    if not isinstance(values, np.ma.MaskedArray):
        return _one_dimension(np.asarray(values), what), None
    mask = np.ma.getmaskarray(values)
    # One of `WIDE` has a mask for each half.
    return _one_dimension(values.data, what), ~(mask if mask.dtype == bool else mask["low"])


def _not_null(values: Any, what: str) -> tuple[npt.NDArray[Any] | list[Any], npt.NDArray[np.bool_] | None]:
    """Returns the numbers of a column that are not null, and which rows they are of, or None if no row is null.

    They are an array, or a list of objects.
    """
    if isinstance(values, (list, tuple)):
        items, valid = list(values), None
    else:
        given, valid = _to_array(values, what)
        if given.dtype != object:
            return (given, None) if valid is None else (given[valid], valid)
        items = given.tolist()
    if not _may_have_null(items):
        filled = np.ones(len(items), dtype=bool) if valid is None else valid
    else:
        filled = _valid(items) if valid is None else _valid(items) & valid
    return (items, None) if filled.all() else (list(itertools.compress(items, filled)), filled)


def _to_array(values: Any, what: str) -> tuple[npt.NDArray[Any], npt.NDArray[np.bool_] | None]:
    """Returns an array, and which items of it are not null, or None: of NumPy's, or one of pandas' or Arrow's."""
    if isinstance(values, np.ndarray):
        return _unmasked(values, what)
    # pandas' arrays of integers that may be null, and its columns of these.
    dtype = getattr(getattr(values, "dtype", None), "numpy_dtype", None)
    if dtype is not None and dtype.kind in "biuf":
        valid = ~np.asarray(values.isna(), dtype=bool)
        return _one_dimension(values.to_numpy(dtype=dtype, na_value=0), what), None if valid.all() else valid
    if hasattr(values, "__arrow_c_array__"):
        found = _from_arrow(values)
        if isinstance(found, StringColumn):
            raise TypeError(f"{what} must be integers, not texts")
        return found
    return _unmasked(np.asarray(values), what)


def _may_have_null(items: list[Any]) -> bool:
    """Returns whether there may be a null: by their types, which is fast where all are of one."""
    kinds = set(map(type, items))
    return not kinds <= {int, str, bytes} and (kinds != {decimal.Decimal} or any(map(decimal.Decimal.is_nan, items)))


def _valid(items: list[Any]) -> npt.NDArray[np.bool_]:
    """Returns which items are not null."""
    return np.fromiter((not _is_null(item) for item in items), dtype=bool, count=len(items))


def _is_null(item: Any) -> bool:
    """Returns whether an object is None, NaN, pandas.NA or a masked item."""
    if isinstance(item, decimal.Decimal):
        return item.is_nan()
    is_number = isinstance(item, (float, np.floating))
    return item is None or item is np.ma.masked or type(item).__name__ == "NAType" or bool(is_number and item != item)


def _to_integers(given: npt.NDArray[Any] | list[Any]) -> tuple[npt.NDArray[Any], int]:
    """Returns an array that a call is passed, and the library's number of its type."""
    if isinstance(given, np.ndarray):
        numbers = np.ascontiguousarray(given, dtype=_integers(given.dtype))
        return numbers, _TYPES[numbers.dtype]
    whole = _whole(given)
    least, largest = min(whole, default=0), max(whole, default=0)
    if least >= -(2**63) and largest < 2**63:
        return np.array(whole, dtype=np.int64), _native.I64
    if least >= 0 and largest < 2**64:
        return np.array(whole, dtype=np.uint64), _native.U64
    if least >= -(2**127) and largest < 2**127:
        return _halves(whole), _native.I128
    if least >= 0 and largest < 2**128:
        return _halves([number - (number >> 127 << 128) for number in whole]), _native.U128
    raise OverflowError("the numbers are neither all from -2**127 to 2**127 - 1 nor all from 0 to 2**128 - 1")


def _whole(items: list[Any]) -> list[int]:
    """Returns the objects as integers."""
    if set(map(type, items)) <= {int}:
        return items
    return list(map(_to_int, items))


def _to_int(item: Any) -> int:
    if not isinstance(item, (bool, np.bool_, np.ndarray)):
        try:
            return operator.index(item)
        except TypeError:
            pass
    inexact = _INEXACT if isinstance(item, (float, np.floating)) else ""
    raise TypeError(f"each number must be an integer, not of type {type(item).__name__}{inexact}")


def _halves(numbers: list[int]) -> npt.NDArray[Any]:
    """Returns numbers of 128 bits as an array."""
    return np.array([(number & 2**64 - 1, number >> 64) for number in numbers], dtype=WIDE)


def _masked(values: npt.NDArray[Any], column: StringColumn) -> npt.NDArray[Any]:
    """Returns an array that masks the rows that are null in the column, if it has bits of validity."""
    return values if column.validity is None else np.ma.array(values, mask=~column.valid())


def _with_nulls(column: StringColumn, valid: npt.NDArray[np.bool_]) -> StringColumn:
    """Returns a column with the rows of another at the valid places, and nulls at the others, which are empty."""
    places = np.zeros(len(valid) + 1, dtype=np.int64)
    np.cumsum(valid, out=places[1:])
    return _unchecked(column.offsets[places], column.data, np.packbits(valid, bitorder="little"))


def _parsed(values: npt.NDArray[Any], causes: npt.NDArray[np.int32], column: StringColumn) -> ParsedColumn:
    """Returns what was parsed of a column, in which its nulls are masked too."""
    refused = causes != 0
    mask = refused if column.validity is None else refused | ~column.valid()
    return ParsedColumn(np.ma.array(values, mask=mask), causes)


def _check_causes(found: ParsedColumn, texts: StringColumn, format: Format | str, parse: Any) -> None:
    """Raises the error of the first row of a column that is refused."""
    refused = np.flatnonzero(found.causes)
    if len(refused):
        row = int(refused[0])
        raise _refusal(texts.row_bytes(row), Cause(int(found.causes[row])), row, format, parse)


def _to_column(column: StringColumn | Iterable[str | bytes | None] | npt.NDArray[Any]) -> StringColumn:
    if isinstance(column, StringColumn):
        return column
    is_arrow = hasattr(column, "__arrow_c_array__") and not isinstance(column, np.ndarray)
    return StringColumn.from_arrow(column) if is_arrow else StringColumn.from_strings(column)


def _to_wide(units: npt.NDArray[Any] | list[Any], scale: int) -> npt.NDArray[Any]:
    """Returns units of 128 bits."""
    if isinstance(units, list):
        return _from_objects(units, scale)
    if units.dtype == WIDE:
        return np.ascontiguousarray(units)
    numbers = units.astype(_integers(units.dtype))
    wide = np.zeros(len(numbers), dtype=WIDE)
    wide["low"], wide["high"] = numbers.astype(np.uint64), -(numbers < 0).astype(np.int64)
    return wide


def _from_objects(units: list[Any], scale: int) -> npt.NDArray[Any]:
    """Returns the units of Decimals, or those that integers are."""
    if set(map(type, units)) != {decimal.Decimal}:
        are_decimals = [isinstance(each, decimal.Decimal) for each in units]
        if not any(are_decimals):
            whole = _whole(units)
            if whole and not -(2**127) <= min(whole) <= max(whole) < 2**127:
                raise OverflowError("the units are not in the range from -2**127 to 2**127 - 1")
            return _halves(whole)
        if not all(are_decimals):
            found = type(units[are_decimals.index(False)]).__name__
            raise TypeError(f"a column has either units or Decimals: one is a Decimal, and one of type {found}")
        # A class that is made of Decimal may have texts of its own.
        units = list(map(decimal.Decimal, units))
    wide, row = np.empty(len(units), dtype=WIDE), 0
    while (row := _native.take_units(units, _address(wide), row, scale)) < len(units):
        wide[row] = _halves([_units_at(units[row], scale)])[0]
        row += 1
    return wide


def _units_at(number: decimal.Decimal, scale: int) -> int:
    """Returns how many units of a scale a decimal is."""
    units, own_scale = units_of(number)
    units, lost = divmod(units * 10**scale, 10**own_scale)
    if lost:
        raise ValueError(f"{number} has a digit past the scale that is not 0")
    if not -(2**127) <= units < 2**127:
        raise OverflowError(f"the units of {number} are not in the range from -2**127 to 2**127 - 1")
    return units


def _narrowed(
    wide: npt.NDArray[Any], causes: npt.NDArray[np.int32], dtype: np.dtype[Any], scale: int
) -> npt.NDArray[Any]:
    """Returns units of the dtype, and 0 where it has them not, with a cause there."""
    if dtype == WIDE:
        return wide
    if dtype == object:
        texts = np.array(_native.plains(_address(wide), len(wide), scale), dtype=object)
        return np.asarray(np.frompyfunc(decimal.Decimal, 1, 1)(texts), dtype=object)
    limits = np.iinfo(dtype)
    signed = wide["low"].view(np.int64)
    if dtype.kind == "i":
        is_there = (wide["high"] == signed >> 63) & (signed >= limits.min) & (signed <= limits.max)
    else:
        is_there = (wide["high"] == 0) & (wide["low"] <= limits.max)
    causes[~is_there & (causes == 0)] = Cause.OUT_OF_RANGE
    return np.where(is_there, wide["low"], np.uint64(0)).astype(dtype)


def _unchecked(
    offsets: npt.NDArray[Any], data: npt.NDArray[np.uint8], validity: npt.NDArray[np.uint8] | None = None
) -> StringColumn:
    """Returns a column whose offsets are known to be good."""
    column = object.__new__(StringColumn)
    column.offsets, column.data, column.validity = offsets, data, validity
    return column


def _to_offsets(lengths: npt.NDArray[Any]) -> npt.NDArray[Any]:
    """Returns the offsets of texts of these lengths, of 32 bits where that suffices."""
    offsets = np.zeros(len(lengths) + 1, dtype=np.int64)
    np.cumsum(lengths, out=offsets[1:])
    return offsets if offsets[-1] > np.iinfo(np.int32).max else offsets.astype(np.int32)


def _joined(texts: list[Any]) -> tuple[bytes, list[Any]]:
    """Returns the bytes of all texts, and these, or what each is as bytes: as long as it has bytes."""
    if texts and isinstance(texts[0], str):
        whole = "".join(texts)
        if whole.isascii():
            return whole.encode(), texts
        texts = list(map(str.encode, texts))
    return b"".join(texts), texts


def _from_fixed(strings: npt.NDArray[np.bytes_]) -> StringColumn:
    """Returns the column of an array of dtype ``S``."""
    width = strings.dtype.itemsize
    lengths = np.char.str_len(strings)
    rows = np.ascontiguousarray(strings).view(np.uint8).reshape(len(strings), width)
    return _unchecked(_to_offsets(lengths), rows[np.arange(width) < lengths[:, np.newaxis]])


def _check(status: int) -> int:
    """Returns what a call for a column returned, and raises its error."""
    if status == _native.TOO_MANY_BYTES:
        raise OverflowError("the texts have 2**31 bytes or more: set large=True")
    if status == _native.BAD_OFFSETS:
        raise ValueError("an offset is below the one before it, or past the bytes")
    if status == _native.BAD_FORMAT:
        raise ValueError(LATIN_ALONE)
    if status < 0:
        raise AssertionError(f"status {status}")
    return status


def _refusal(text: bytes, cause: Cause, row: int, format: Format | str, parse: Any) -> ParseError:
    """Returns the error of a row. An unexpected character, as strict parsing finds, is where it is for one text."""
    shown = text.decode("utf-8", "surrogateescape")
    at = strictly = None
    if cause is Cause.NOT_UTF8:
        at = first_surrogate(shown)
    elif cause in PLACED:
        try:
            parse(shown, format)
        except ParseError as error:
            at, strictly = error.at, error._strictly
    return ParseError(shown, cause, at, row, strictly)
