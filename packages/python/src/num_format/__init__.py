"""Numbers with separators between groups of digits, by locale or by a format of your own, and back.

>>> import num_format
>>> num_format.format(-1234567, "de")
'-1.234.567'
>>> num_format.parse("-1.234.567", "de")
-1234567

:mod:`num_format.columns` has the same for NumPy arrays. Calls may be made from any thread.
"""
from . import _native
from ._errors import Cause, FormatError, NumFormatError, ParseError
from ._format import Format, Grouping, locales, lookup
from ._numbers import format, format_number, parse, parse_decimal, text_width

__all__ = [
    "Cause",
    "Format",
    "FormatError",
    "Grouping",
    "NumFormatError",
    "ParseError",
    "format",
    "format_number",
    "locales",
    "lookup",
    "parse",
    "parse_decimal",
    "text_width",
]

__version__ = f"{_native.VERSION // 10_000}.{_native.VERSION // 100 % 100}.{_native.VERSION % 100}"


def __dir__() -> list[str]:
    return [*__all__, "__version__", "columns"]
