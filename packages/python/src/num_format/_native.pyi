# What _native.c has. An int below 0 in place of a result is a status; of a text that is parsed, with the position.
from collections.abc import Callable
from typing import TypeVar

_Made = TypeVar("_Made")
_Call = TypeVar("_Call", bound=Callable[..., object])

LOCALES: int
VERSION: int
STANDARD: int
INDIAN: int
POSIX: int
MYRIAD: int
SPARSE: int
I8: int
U8: int
I16: int
U16: int
I32: int
U32: int
I64: int
U64: int
I128: int
U128: int
NOT_UTF8: int
NOT_A_NUMBER: int
UNKNOWN_LOCALE: int
TOO_LONG: int
BAD_GROUPING: int
UNEXPECTED: int
NO_DIGIT: int
MISSPELLED: int
OUT_OF_RANGE: int
TOO_MANY_DECIMALS: int
DIGITS_LOST: int
AMBIGUOUS_FORMAT: int
TEXT_TOO_LONG: int
UNKNOWN_DIGITS: int
OTHER_NUMERAL: int
STRICT: int
LENIENT: int
TYPED: int
TOO_MANY_BYTES: int
BAD_FORMAT: int
TOO_SMALL: int
BAD_OFFSETS: int

# Formats, each the bytes of a struct.
def custom(grouping: int, separator: str, minus_sign: str, decimal_mark: str, digits: str) -> bytes | int: ...
def locale(tag: str) -> bytes | int: ...
def parts(format: bytes) -> tuple[str, str, str, str, int]: ...
def name(place: int) -> str: ...
def lookup_name(tag: str) -> str | int: ...
def reads_back(format: bytes) -> bool: ...
def prints_alike(first: bytes, second: bytes) -> bool: ...

# One number. A plain text is as Python writes a Decimal; print_plain takes it without an exponent, else it returns None.
def print_int(format: bytes, number: int) -> str: ...
def parse_int(format: bytes, text: str, way: int) -> int | tuple[int, int]: ...
def print_plain(format: bytes, plain: str) -> str | None: ...
def print_units(format: bytes, units: int, scale: int) -> str: ...
def parse_decimal(format: bytes, text: str, made: Callable[[str], _Made], way: int) -> _Made | tuple[int, int]: ...

# Returns the C function of a name, with its documentation, which calls this one for what it does not take itself; and
# keeps what these take of Python.
def quick(name: str, function: _Call, documentation: str) -> _Call: ...
def know(
    format: type,
    struct: str,
    locale: Callable[[str], object],
    decimal: type,
    exact: Callable[[str], object],
    rounded: Callable[..., str],
    refusal: Callable[..., ValueError],
) -> None: ...

# Writes the units of Decimals from a row on, and returns the first row that it has to leave to Python.
def take_units(numbers: list[object], units: int, row: int, scale: int) -> int: ...
def plains(units: int, rows: int, scale: int) -> list[str]: ...

# The texts of rows, by the addresses of offsets of 64 bits, the bytes and a bool for each row: None where it is not.
def texts(offsets: int, data: int, valid: int, rows: int) -> list[str | None]: ...

# Columns, by addresses and sizes in bytes. The scale of integers is -1. They return a length, or a status.
def print_column_len(format: bytes, type: int, scale: int, values: int, values_size: int) -> int: ...
def print_column(
    format: bytes,
    type: int,
    scale: int,
    values: int,
    values_size: int,
    offsets: int,
    offsets_size: int,
    offset_type: int,
    bytes: int,
    capacity: int,
) -> int: ...
def parse_column(
    format: bytes,
    type: int,
    scale: int,
    way: int,
    offsets: int,
    offsets_size: int,
    offset_type: int,
    bytes: int,
    bytes_size: int,
    values: int,
    values_size: int,
    validity: int,
    validity_size: int,
    statuses: int,
    statuses_length: int,
) -> int: ...

# Capsules of Arrow's C data interface.
def export_schema(large: bool) -> object: ...
def export_array(owner: object, rows: int, nulls: int, validity: int, offsets: int, data: int) -> object: ...
def import_array(schema: object, array: object) -> tuple[object, str, int, int, int, tuple[int, int, int]]: ...
