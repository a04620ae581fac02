"""Single numbers: printed, and parsed."""
from __future__ import annotations

import decimal
import operator
from collections.abc import Callable
from decimal import Decimal
from typing import SupportsIndex, TypeVar, overload

from . import _native
from ._errors import CAUSES, LATIN_ALONE, PLACED, Cause, FormatError, ParseError
from ._format import Format, locale_format, to_format
from ._native import LENIENT, STRICT, TYPED, parse_int, print_int, print_plain, print_units
from ._native import parse_decimal as _parse_decimal

_Call = TypeVar("_Call", bound=Callable[..., object])

# The least and the largest number of units that a decimal has.
_UNITS_MIN, _UNITS_MAX = -(2**127), 2**127 - 1

# The most decimals of a decimal, and the most digits after the first that its units can have.
MOST_DECIMALS = 38

_TOO_MANY_DIGITS = "the digits of the Decimal are not in the range from -2**127 to 2**127 - 1"
_TOO_MANY_DECIMALS = "the Decimal has more than 38 decimals"

# In which each number of at most 39 digits before its mark is rounded, whatever the user's context says.
_ROUNDING = decimal.Context(
    prec=2 * MOST_DECIMALS + 2, rounding=decimal.ROUND_HALF_EVEN, Emin=decimal.MIN_EMIN, Emax=decimal.MAX_EMAX, traps=[]
)

# As `Decimal` of a text of at most 39 digits, which it is faster than.
_exact = _ROUNDING.create_decimal

# Characters that no column has: marks of direction, as in the minus sign of `he`.
_INVISIBLE = "\u200e", "\u200f", "\u061c"

# As `str`, also for a class that is made of Decimal and has another one.
_plain = Decimal.__str__


def _quick(function: _Call) -> _Call:
    """Puts a C function in the place of one here, which it calls for what it does not take itself."""
    name, code = function.__name__, function.__code__  # type: ignore[attr-defined]
    named = [f"{each}={value!r}" for each, value in function.__kwdefaults__.items()]  # type: ignore[attr-defined]
    parameters = ", ".join([*code.co_varnames[: code.co_argcount], "*", *named])
    return _native.quick(name, function, f"{name}({parameters})\n--\n\n{function.__doc__ or ''}")


@overload
def format(number: SupportsIndex | Decimal, format: Format | str, *, decimals: None = None) -> str: ...
@overload
def format(number: SupportsIndex | Decimal | float, format: Format | str, *, decimals: SupportsIndex) -> str: ...
@_quick
def format(
    number: SupportsIndex | Decimal | float, format: Format | str, *, decimals: SupportsIndex | None = None
) -> str:
    """Returns the text of a number under a format. It is `format_number` too, a name that hides no builtin.

    >>> import num_format
    >>> num_format.format(-1234567, "de")
    '-1.234.567'
    >>> num_format.format(1234567, num_format.Format(separator="_", grouping="Myriad"))
    '123_4567'

    A ``Decimal`` keeps its decimals, zeros at the end too. With `decimals` a number has so many: its exact value,
    also that of a ``float``, is rounded half to even. A negative zero is printed as zero.

    >>> from decimal import Decimal
    >>> num_format.format(Decimal("1234.50"), "de"), num_format.format(1234.5, "de", decimals=2)
    ('1.234,50', '1.234,50')
    >>> num_format.format(Decimal("2.675"), "de", decimals=2), num_format.format(2.675, "de", decimals=2)
    ('2,68', '2,67')
    >>> Decimal(2.675)
    Decimal('2.67499999999999982236431605997495353221893310546875')

    Args:
        number: An ``int`` from -2**127 to 2**128 - 1, or what has one as its `__index__`, such as NumPy's
            integers; or a ``Decimal`` of at most 38 decimals, whose digits without the mark are a number from
            -2**127 to 2**127 - 1. With `decimals` also a ``float``, or NumPy's of at most 64 bits.
        format: A :class:`Format`, or the name of a locale, or a language tag such as ``"de_DE"``.
        decimals: To how many decimals the number is rounded, from 0 to 38; or None for those that it has.

    Raises:
        OverflowError: The number is none of these, or is infinite.
        ValueError: The number is NaN, or `decimals` is another number.
        FormatError: No locale is found.
        TypeError: The number is of another type. A ``bool`` is refused, and so is a ``float`` without `decimals`.
    """
    if decimals is not None:
        return _rounded_text(number, format, decimals)
    struct = to_format(format)._bytes
    if type(number) is int:
        return print_int(struct, number)
    if isinstance(number, Decimal):
        return _decimal_text(number, struct)
    return print_int(struct, _index(number))


format_number = _format = format


def _index(number: object) -> int:
    """Returns the int that is such a number."""
    # NumPy's bool has an `__index__` too.
    if isinstance(number, bool) or getattr(number, "dtype", None) == bool:
        raise TypeError("a bool is not printed as a number")
    try:
        return operator.index(number)  # type: ignore[arg-type]
    except TypeError:
        pass
    if _is_float(number):
        raise TypeError("a float is not exact: decimals=2 rounds it to 2 decimals, or make it a decimal.Decimal")
    raise TypeError(f"the number must be an int or a decimal.Decimal, not {type(number).__name__}")


def _is_float(number: object) -> bool:
    """Returns whether a number is a float, or one of NumPy's that is exactly a float."""
    dtype = getattr(number, "dtype", None)
    return isinstance(number, float) or (getattr(dtype, "kind", "") == "f" and getattr(dtype, "itemsize", 16) <= 8)


def _rounded(number: object, decimals: SupportsIndex) -> Decimal:
    """Returns the number that has so many decimals and is nearest to this one, half to even."""
    scale = to_scale(decimals, "decimals")
    if isinstance(number, Decimal):
        exact = number
    else:
        exact = Decimal(float(number)) if _is_float(number) else Decimal(_index(number))  # type: ignore[arg-type]
    _check_finite(exact)
    if exact and exact.adjusted() > MOST_DECIMALS:
        raise OverflowError(_TOO_MANY_DIGITS)
    return exact.quantize(Decimal((0, (1,), -scale)), context=_ROUNDING)


def _rounded_text(number: object, format: Format | str, decimals: SupportsIndex) -> str:
    """Returns the text of a number that is rounded."""
    struct = (format if type(format) is Format else to_format(format))._bytes
    return _decimal_text(_rounded(number, decimals), struct)


def to_scale(scale: SupportsIndex, what: str = "the scale") -> int:
    """Returns how many decimals a number has."""
    if not 0 <= operator.index(scale) <= MOST_DECIMALS:
        raise ValueError(f"{what} must be from 0 to {MOST_DECIMALS}, not {scale}")
    return operator.index(scale)


@overload
def text_width(number: str) -> int: ...
@overload
def text_width(number: SupportsIndex | Decimal, format: Format | str, *, decimals: None = None) -> int: ...
@overload
def text_width(number: SupportsIndex | Decimal | float, format: Format | str, *, decimals: SupportsIndex) -> int: ...
def text_width(
    number: SupportsIndex | Decimal | float | str,
    format: Format | str | None = None,
    *,
    decimals: SupportsIndex | None = None,
) -> int:
    """Returns how many columns the text of a number takes where each character takes one, or those of a text.

    Characters that take none do not count: U+200E, U+200F and U+061C, which are in the minus sign of some locales.

    >>> import num_format
    >>> num_format.text_width(-1234567, "fr"), len(num_format.format(-1234567, "fr").encode())
    (10, 14)
    >>> num_format.text_width(-1234, "he"), len(num_format.format(-1234, "he")), num_format.text_width("1 234")
    (6, 7, 5)

    Args:
        number: What `format` takes, or a text.
        format: What `format` takes. A text needs none.
        decimals: What `format` takes.
    """
    if isinstance(number, str):
        text = number
    elif format is None:
        raise TypeError("the width of a number depends on a format")
    else:
        text = _format(number, format, decimals=decimals)  # type: ignore[arg-type]
    return len(text) - sum(map(text.count, _INVISIBLE))


def _check_finite(number: Decimal) -> None:
    if number.is_nan():
        raise ValueError("the number is NaN")
    if number.is_infinite():
        raise OverflowError("the number is infinite")


def units_of(number: Decimal) -> tuple[int, int]:
    """Returns the units and the scale of a decimal."""
    _check_finite(number)
    # Looks at the exponent first, since 1E+999999 has as many digits.
    if number and number.adjusted() > MOST_DECIMALS:
        raise OverflowError(_TOO_MANY_DIGITS)
    if number.adjusted() < -MOST_DECIMALS:
        raise OverflowError(_TOO_MANY_DECIMALS)
    whole, _, decimals = f"{number:f}".partition(".")
    if len(decimals) > MOST_DECIMALS:
        raise OverflowError(_TOO_MANY_DECIMALS)
    units = int(whole + decimals)
    if not _UNITS_MIN <= units <= _UNITS_MAX:
        raise OverflowError(_TOO_MANY_DIGITS)
    return units, len(decimals)


def _decimal_text(number: Decimal, struct: bytes) -> str:
    """Returns the text of a decimal."""
    text = print_plain(struct, _plain(number))
    # One with an exponent, or of more digits than always fit, is looked at here.
    return text if text is not None else print_units(struct, *units_of(number))


def way_of(lenient: bool, typed: bool) -> int:
    """Returns the number of a way to parse."""
    if lenient and typed:
        raise ValueError("a text is parsed leniently or as it is typed, not both")
    return LENIENT if lenient else TYPED if typed else STRICT


@_quick
def parse(text: str, format: Format | str, *, lenient: bool = False, typed: bool = False) -> int:
    """Returns the number for which a text is canonical.

    The text has to be exactly as the number is printed, with its separators or without any.

    >>> import num_format
    >>> num_format.parse("-1.234.567", "de"), num_format.parse("-1234567", "de")
    (-1234567, -1234567)
    >>> num_format.parse("1.23", "de")
    Traceback (most recent call last):
    num_format.ParseError: '1.23' is refused: it is not as its number is printed

    With `typed`, it may be as a person types it (no data type is meant): a space, an apostrophe, a comma or a point
    stands for the character of its kind that the format has, a hyphen for its minus sign, and blanks at the ends and a
    plus sign are dropped. Use this for what people typed, and the first for what programs wrote.

    >>> num_format.parse(" 1 234", "fr", typed=True), num_format.parse("-5", "sv", typed=True)
    (1234, -5)
    >>> num_format.parse("1,23", "en", typed=True)
    Traceback (most recent call last):
    num_format.ParseError: '1,23' is refused: it is not as its number is printed

    With `lenient`, the number is that of the digits 0 to 9 in order, negated if the text begins with the
    minus sign, and **each character that is not numeric is ignored**, a decimal mark too:

    >>> num_format.parse(" 1 234,50 EUR", "de", lenient=True)
    123450

    Args:
        text: A number from -2**127 to 2**128 - 1 as digits.
        format: A :class:`Format`, or the name or the tag of a locale.
        lenient: Whether each character that is not numeric is ignored.
        typed: Whether the text is as a person types it.

    Raises:
        ParseError: The text is refused. The error has the cause and, for an unexpected character or a numeral of
            another digit set, its index.
        FormatError: No locale is found, or the format is ambiguous (`AMBIGUOUS_FORMAT`), but not with `lenient`.
        TypeError: The text is no ``str``.
        ValueError: Both `lenient` and `typed` are set, or `lenient` is and the format has other digits than 0 to 9.
    """
    struct = to_format(format)._bytes
    found = parse_int(struct, text, way_of(lenient, typed))
    if isinstance(found, int):
        return found
    raise _refusal(text, format, *found, None if lenient or typed else (struct, True))


@_quick
def parse_decimal(text: str, format: Format | str, *, typed: bool = False) -> Decimal:
    """Returns the decimal for which a text is canonical.

    The text has to be exactly as the decimal is printed, with its separators or without any. The result has
    as many decimals as the text, and is exact, whatever the precision of the context is.

    >>> import num_format
    >>> num_format.parse_decimal("1.234,50", "de")
    Decimal('1234.50')
    >>> num_format.parse_decimal("1.234.50", "de")
    Traceback (most recent call last):
    num_format.ParseError: '1.234.50' is refused: it is not as its number is printed

    With `typed`, it may be as a person types it (no data type is meant), as by :func:`parse`:

    >>> num_format.parse_decimal("1'234.50", "de-CH", typed=True)
    Decimal('1234.50')

    Args:
        text: A decimal of at most 38 decimals, whose digits without the mark are a number from -2**127 to
            2**127 - 1.
        format: A :class:`Format`, or the name or the tag of a locale.
        typed: Whether the text is as a person types it.

    Raises:
        ParseError: The text is refused. The error has the cause and, for an unexpected character, its index.
        FormatError: No locale is found, or the format is ambiguous (`AMBIGUOUS_FORMAT`).
        TypeError: The text is no ``str``.
    """
    try:
        struct = format._bytes  # type: ignore[union-attr]
    except AttributeError:
        struct = to_format(format)._bytes
    found = _parse_decimal(struct, text, _exact, TYPED if typed else STRICT)
    if type(found) is tuple:
        raise _refusal(text, format, *found, None if typed else (struct, False))
    return found  # type: ignore[return-value]


def first_surrogate(text: str) -> int:
    """Returns the index of the first lone surrogate."""
    return next(k for k, each in enumerate(text) if "\ud800" <= each <= "\udfff")


def _refusal(
    text: str, format: Format | str, status: int, at: int, strictly: tuple[bytes, bool] | None
) -> ValueError:
    """Returns the error of a text that was refused with the status: at the byte, if the cause is at one."""
    if status == _native.BAD_FORMAT:
        return ValueError(LATIN_ALONE)
    cause = CAUSES[status]
    if status == _native.AMBIGUOUS_FORMAT:
        return FormatError("format", repr(format), cause)
    if status == _native.NOT_UTF8:
        return ParseError(text, cause, first_surrogate(text))
    index = None
    if cause in PLACED:
        index = at if text.isascii() else len(text.encode()[:at].decode())
    return ParseError(text, cause, index, None, strictly)


_native.know(Format, "_bytes", locale_format, Decimal, _exact, _rounded_text, _refusal)


for _public in (format, text_width, parse, parse_decimal):
    _public.__module__ = "num_format"
