"""The formats."""
from __future__ import annotations

import enum
import functools
import re
from typing import Any, final

from . import _native
from ._errors import Cause, FormatError

# The most bytes of each text of a format.
_MOST_BYTES = 8

# The digits of a format that names no others.
_LATIN = "0123456789"


class Grouping(enum.Enum):
    """Where separators are among the digits. The values are the names that num-format has for them.

    >>> import num_format
    >>> for grouping in num_format.Grouping:
    ...     text = num_format.format(12345678, num_format.Format(grouping=grouping))
    ...     print(f"{text:>11} {grouping.value}")
     12,345,678 Standard
    1,23,45,678 Indian
       12345678 Posix
      1234,5678 Myriad
     12,345,678 Sparse
    """

    #: Groups of three digits.
    STANDARD = "Standard"
    #: Three digits, and before them groups of two.
    INDIAN = "Indian"
    #: No separator.
    POSIX = "Posix"
    #: Groups of four digits.
    MYRIAD = "Myriad"
    #: Groups of three digits, and no separator in a number of four digits.
    SPARSE = "Sparse"

    @classmethod
    def _missing_(cls, value: object) -> Grouping | None:
        return cls.__members__.get(value.upper()) if isinstance(value, str) else None

    def __repr__(self) -> str:
        return f"Grouping.{self.name}"


_NUMBERS = {grouping: getattr(_native, grouping.name) for grouping in Grouping}
_GROUPINGS = {number: grouping for grouping, number in _NUMBERS.items()}


@final
class Format:
    """How numbers are printed: a separator between groups of digits, a minus sign, a decimal mark and ten digits.

    A text has at most 8 bytes in UTF-8, and may be empty. Formats do not change, compare by their texts,
    grouping and digits, can be keys, and can be copied and pickled.

    >>> import num_format
    >>> from num_format import Format
    >>> swiss = Format(separator="'")
    >>> num_format.format(-1234567, swiss)
    "-1'234'567"
    >>> swiss
    Format(separator="'", grouping=Grouping.STANDARD, minus_sign='-', decimal_mark='.')
    >>> swiss == Format(separator="'", grouping="Standard")
    True

    With `digits` numbers have the digits of another script, and are parsed in these alone:

    >>> persian = Format("fa", digits="arabext")
    >>> num_format.format(1234, persian), num_format.parse("۱٬۲۳۴", persian), num_format.format(1234, "fa-u-nu-arabext")
    ('۱٬۲۳۴', 1234, '۱٬۲۳۴')
    >>> num_format.parse("۱٬۲3۴", persian)
    Traceback (most recent call last):
    num_format.ParseError: '۱٬۲3۴' is refused: numeral of another digit set at index 3

    Args:
        locale: The name or the tag of a locale, which has what is not given.
        separator: What is between two groups of digits.
        grouping: How many digits are in a group: a :class:`Grouping`, or its name as ``"Indian"``, in any case.
        minus_sign: What is before the digits of a number below 0.
        decimal_mark: What is before the decimals of a :class:`decimal.Decimal`.
        digits: A set of ten digits: the name that the CLDR has for it, as ``"deva"``, or all ten.

    Raises:
        FormatError: A text has more than 8 bytes (`TOO_LONG`) or a lone surrogate (`NOT_UTF8`), or there is no such
            grouping (`BAD_GROUPING`), digit set (`UNKNOWN_DIGITS`) or locale (`UNKNOWN_LOCALE`).
        TypeError: A text is no ``str``.
    """

    __slots__ = ("_bytes",)

    _bytes: bytes

    def __init__(
        self,
        locale: str = "en",
        /,
        *,
        separator: str | None = None,
        grouping: Grouping | str | None = None,
        minus_sign: str | None = None,
        decimal_mark: str | None = None,
        digits: str | None = None,
    ) -> None:
        given = {"separator": separator, "minus_sign": minus_sign, "decimal_mark": decimal_mark, "digits": digits}
        *parts, number = _native.parts(Format.locale(locale)._bytes)
        texts = {name: part if text is None else text for (name, text), part in zip(given.items(), parts)}
        lengths = {name: _length(name, text) for name, text in texts.items()}
        try:
            number = number if grouping is None else _NUMBERS[Grouping(grouping)]
        except ValueError:
            raise FormatError("grouping", str(grouping), Cause.BAD_GROUPING) from None
        made = _native.custom(number, *texts.values())
        if made == Cause.UNKNOWN_DIGITS:
            raise FormatError("digits", texts["digits"], Cause.UNKNOWN_DIGITS)
        if isinstance(made, int):
            name = next(name for name, length in lengths.items() if length > _MOST_BYTES)
            raise FormatError(name, texts[name], Cause(made))
        self._bytes = made

    @staticmethod
    def locale(name: str) -> Format:
        """Returns the format of a locale.

        The name is one of :func:`locales`, or a language tag or a browser's header for which :func:`lookup` finds one.

        >>> from num_format import Format
        >>> Format.locale("de_CH.UTF-8")
        Format(separator='’', grouping=Grouping.STANDARD, minus_sign='-', decimal_mark='.')

        Raises:
            FormatError: No locale is found (`UNKNOWN_LOCALE`), the name has a lone surrogate (`NOT_UTF8`), or names
                no digit set after ``-u-nu-`` (`UNKNOWN_DIGITS`).
            TypeError: The name is no ``str``.
        """
        if not isinstance(name, str):
            raise TypeError(f"the name must be a str, not {type(name).__name__}")
        return locale_format(name)

    @property
    def separator(self) -> str:
        """What is between two groups of digits."""
        return _native.parts(self._bytes)[0]

    @property
    def minus_sign(self) -> str:
        """What is before the digits of a number below 0."""
        return _native.parts(self._bytes)[1]

    @property
    def decimal_mark(self) -> str:
        """What is before the decimals of a ``Decimal``."""
        return _native.parts(self._bytes)[2]

    @property
    def grouping(self) -> Grouping:
        """How many digits are in a group."""
        return _GROUPINGS[_native.parts(self._bytes)[4]]

    @property
    def digits(self) -> str:
        """The ten digits, from zero to nine."""
        return _native.parts(self._bytes)[3]

    def reads_back(self) -> bool:
        """Returns whether every ``int`` that is printed under the format parses as the same number again.

        It is true for each locale. It is false for a format without a minus sign, for example. Where it is false, no
        text is parsed strictly under the format, which is refused as `AMBIGUOUS_FORMAT`.

        >>> from num_format import Format
        >>> Format.locale("sv").reads_back(), Format(minus_sign="").reads_back()
        (True, False)
        """
        return _native.reads_back(self._bytes)

    def prints_alike(self, other: Format) -> bool:
        """Returns whether each ``int`` has the same text under both formats.

        >>> from num_format import Format
        >>> Format.locale("en").prints_alike(Format.locale("ja"))
        True
        """
        if not isinstance(other, Format):
            raise TypeError(f"the other must be a Format, not {type(other).__name__}")
        return _native.prints_alike(self._bytes, other._bytes)

    def __eq__(self, other: object) -> bool:
        if not isinstance(other, Format):
            return NotImplemented
        return self._bytes == other._bytes

    def __hash__(self) -> int:
        return hash(self._bytes)

    def __repr__(self) -> str:
        parts = ["separator", "grouping", "minus_sign", "decimal_mark"] + ["digits"] * (self.digits != _LATIN)
        return f"Format({', '.join(f'{part}={getattr(self, part)!r}' for part in parts)})"

    def __copy__(self) -> Format:
        return self

    def __deepcopy__(self, memo: object) -> Format:
        return self

    def __reduce__(self) -> tuple[Any, ...]:
        return _from_parts, (self.separator, self.grouping, self.minus_sign, self.decimal_mark, self.digits)


def _length(argument: str, text: str) -> int:
    """Returns how many bytes a text has in UTF-8."""
    if not isinstance(text, str):
        raise TypeError(f"the {argument} must be a str, not {type(text).__name__}")
    try:
        return len(text.encode())
    except UnicodeEncodeError:
        raise FormatError(argument, text, Cause.NOT_UTF8) from None


def _from_parts(
    separator: str, grouping: Grouping, minus_sign: str, decimal_mark: str, digits: str = _LATIN
) -> Format:
    """Returns a pickled format."""
    return Format(
        separator=separator, grouping=grouping, minus_sign=minus_sign, decimal_mark=decimal_mark, digits=digits
    )


@functools.lru_cache(maxsize=1024)
def locale_format(name: str) -> Format:
    """Returns the format of a locale. A name is the tag for which it is found itself. What is raised is not kept."""
    _length("locale", name)
    found = _native.locale(_preferred(name))
    if isinstance(found, int):
        raise FormatError("locale", name, Cause(found))
    made = object.__new__(Format)
    made._bytes = found
    return made


def to_format(format: Format | str) -> Format:
    """Returns the format, or that of the locale of this name or tag."""
    if type(format) is Format:
        return format
    if not isinstance(format, str):
        raise TypeError(f"the format must be a Format or a str, not {type(format).__name__}")
    return locale_format(format)


@functools.cache
def locales() -> tuple[str, ...]:
    """Returns the names of all locales, with hyphens, in rising order.

    >>> import num_format
    >>> len(num_format.locales()), num_format.locales()[:4]
    (542, ('af', 'af-NA', 'agq', 'ak'))
    """
    return tuple(map(_native.name, range(_native.LOCALES)))


def lookup(tag: str) -> str | None:
    """Returns the name of the locale for a language tag, as an environment or a browser gives one, or None.

    What follows the first ``.`` or ``@`` does not count, nor does the case of ASCII letters, and an underscore counts
    as a hyphen. From what is left, subtags are taken away at the end until it is a name: ``de-DE`` becomes ``de``.
    ``C`` and ``POSIX`` are the locale en-US-POSIX. What takes a name of a locale takes such a tag too.

    >>> import num_format
    >>> num_format.lookup("de_DE.UTF-8"), num_format.lookup("zh-hant-TW"), num_format.lookup("english")
    ('de', 'zh-Hant', None)

    Of a browser's header Accept-Language, the tag of the highest weight for which there is a locale is looked up.

    >>> num_format.lookup("tlh, pt-BR;q=0.8, en;q=0.9, *;q=0.1"), num_format.lookup("de,en;q=0.9")
    ('en', 'de')

    Digits that the tag names do not count, as of ``fa-u-nu-arabext``, where they are known.

    Raises:
        FormatError: The tag has a lone surrogate (`NOT_UTF8`), or names unknown digits (`UNKNOWN_DIGITS`).
        TypeError: The tag is no ``str``.
    """
    _length("tag", tag)
    found = _native.lookup_name(_preferred(tag))
    if found == Cause.UNKNOWN_DIGITS:
        raise FormatError("tag", tag, Cause.UNKNOWN_DIGITS)
    return found if isinstance(found, str) else None


# A tag in a header, and its weight.
_WEIGHTED = re.compile(r"[ \t]*([^ \t;]+)[ \t]*(?:;[ \t]*[qQ]=(0(?:\.[0-9]{0,3})?|1(?:\.0{0,3})?)[ \t]*)?")


def _preferred(tag: str) -> str:
    """Returns the tag, or of a header with several the best for which there is a locale, or an empty text."""
    if "," not in tag and ";" not in tag:
        return tag
    found = [each.groups(default="1") for each in map(_WEIGHTED.fullmatch, tag.split(",")) if each]
    known = [(name, float(weight)) for name, weight in found if _native.lookup_name(name) != Cause.UNKNOWN_LOCALE]
    # Of equal weights the first.
    return max([each for each in known if each[1]], key=lambda each: each[1], default=("", 0))[0]


for _public in (Grouping, Format, locales, lookup):
    _public.__module__ = "num_format"
