"""Why a text is refused, and the exceptions that say so."""
from __future__ import annotations

import enum

from . import _native


class Cause(enum.IntEnum):
    """Why a text is refused. The values are the statuses of ``num_format.h``.

    >>> import num_format
    >>> try:
    ...     num_format.parse("1,23", "en")
    ... except num_format.ParseError as error:
    ...     error.cause, error.cause.reason
    (Cause.MISSPELLED, 'it is not as its number is printed')

    Attributes:
        NOT_UTF8: The text is not UTF-8: the ``str`` has a lone surrogate.
        NOT_A_NUMBER: Lenient parsing: there is no digit, a numeric character is none of 0 to 9, there are more digits
            than the longest number has, or the number is none of the type.
        UNKNOWN_LOCALE: No locale has the name, and none is found for it as a language tag.
        TOO_LONG: A text of a format has more than 8 bytes in UTF-8.
        BAD_GROUPING: There is no such grouping.
        UNEXPECTED: A character is of no minus sign, digit, separator or decimal mark, as the x of 12x. The error says
            where.
        NO_DIGIT: There is no digit, as in an empty text.
        MISSPELLED: The text is not as its number is printed, grouped or not: under ``en`` as 01, 1,23, 1234,567 and -0.
        OUT_OF_RANGE: The text is as its number is printed, and the number is below the least of the type or above its
            largest.
        TOO_MANY_DECIMALS: More than 38 digits follow the decimal mark.
        DIGITS_LOST: In a column, a digit past the scale is not 0.
        AMBIGUOUS_FORMAT: A text can be misread under the format: the minus sign is empty, or it or a separator that is
            printed has a numeric character. For decimals, also where the decimal mark is empty, has one, or is such a
            separator. For texts as people type them, also where that separator and the mark have two unlike spaces,
            apostrophes, commas or points, as ' and U+2019, or the minus sign has one of the kinds that these two have.
            Also where it, without marks of the direction of writing at its ends, is empty or begins with a blank, a
            line end or a plus sign.
        TEXT_TOO_LONG: A text as a person types it, or one in a digit set, is longer than that of any number.
        UNKNOWN_DIGITS: No digit set has the name, as one after ``-u-nu-`` in a language tag.
        OTHER_NUMERAL: A numeric character is no digit of the format's set, as 3 among Arabic-Indic digits. The error
            says where.
    """

    NOT_UTF8 = _native.NOT_UTF8
    NOT_A_NUMBER = _native.NOT_A_NUMBER
    UNKNOWN_LOCALE = _native.UNKNOWN_LOCALE
    TOO_LONG = _native.TOO_LONG
    BAD_GROUPING = _native.BAD_GROUPING
    UNEXPECTED = _native.UNEXPECTED
    NO_DIGIT = _native.NO_DIGIT
    MISSPELLED = _native.MISSPELLED
    OUT_OF_RANGE = _native.OUT_OF_RANGE
    TOO_MANY_DECIMALS = _native.TOO_MANY_DECIMALS
    DIGITS_LOST = _native.DIGITS_LOST
    AMBIGUOUS_FORMAT = _native.AMBIGUOUS_FORMAT
    TEXT_TOO_LONG = _native.TEXT_TOO_LONG
    UNKNOWN_DIGITS = _native.UNKNOWN_DIGITS
    OTHER_NUMERAL = _native.OTHER_NUMERAL

    @property
    def reason(self) -> str:
        """A line of English, as messages have it. A program of another language has its own lines, by cause."""
        return _REASONS[self]

    def __repr__(self) -> str:
        return f"Cause.{self.name}"

    __str__ = __repr__


_REASONS = {
    Cause.NOT_UTF8: "it is not UTF-8",
    Cause.NOT_A_NUMBER: "it has no digit, a numeral other than 0 to 9, too many digits, or a number out of range",
    Cause.UNKNOWN_LOCALE: "no locale has this name, and none is found for it as a language tag",
    Cause.TOO_LONG: "it has more than 8 bytes",
    Cause.BAD_GROUPING: "there is no such grouping",
    Cause.UNEXPECTED: "unexpected character",
    Cause.NO_DIGIT: "it has no digit",
    Cause.MISSPELLED: "it is not as its number is printed",
    Cause.OUT_OF_RANGE: "the number is below the type's least value or above its largest",
    Cause.TOO_MANY_DECIMALS: "it has too many decimals",
    Cause.DIGITS_LOST: "a digit past the scale is not 0",
    Cause.AMBIGUOUS_FORMAT: "a text can be misread under the format",
    Cause.TEXT_TOO_LONG: "it is longer than any number's text",
    Cause.UNKNOWN_DIGITS: "no digit set has this name",
    Cause.OTHER_NUMERAL: "numeral of another digit set",
}

# Each cause by its status.
CAUSES = {cause.value: cause for cause in Cause}

# The causes that are at a place in a text.
PLACED = Cause.UNEXPECTED, Cause.OTHER_NUMERAL

# Why the library refuses a format: no other than one in the digits of another script is refused.
LATIN_ALONE = "lenient parsing takes the digits 0 to 9 alone"

# The most characters of a refused text that a message shows.
_SHOWN = 60


def _shown(text: str) -> str:
    return repr(text) if len(text) <= _SHOWN else repr(text[:_SHOWN]) + "..."


class NumFormatError(ValueError):
    """A text is refused. The base of :class:`ParseError` and :class:`FormatError`.

    Attributes:
        text: The text.
        cause: Why it is refused.
    """

    def __init__(self, text: str, cause: Cause) -> None:
        super().__init__(text, cause)
        self.text = text
        self.cause = cause

    def __str__(self) -> str:
        return f"{_shown(self.text)} is refused: {self.cause.reason}"


class ParseError(NumFormatError):
    """A text is no number under a format.

    >>> import num_format
    >>> num_format.parse("12.50", "en")
    Traceback (most recent call last):
    num_format.ParseError: '12.50' is refused: unexpected character at index 2
    >>> num_format.parse("1 234", "fr")
    Traceback (most recent call last):
    num_format.ParseError: '1 234' is refused: unexpected character at index 1, U+0020 for U+202F: typed=True reads it

    Attributes:
        text: The text. In a column, bytes that are not UTF-8 are lone surrogates in it.
        cause: Why it is refused.
        at: The index in `text` of the first unexpected character, or of the first numeral of another digit set, or
            None if neither is the cause. With ``NOT_UTF8``, the index of the first lone surrogate.
        row: The row of a column, or None.
    """

    def __init__(
        self,
        text: str,
        cause: Cause,
        at: int | None = None,
        row: int | None = None,
        strictly: tuple[bytes, bool] | None = None,
    ) -> None:
        # NumFormatError's is not called, which takes as long as all of this.
        self.args = text, cause, at, row
        self.text = text
        self.cause = cause
        self.at = at
        self.row = row
        # The bytes of the format under which it was parsed strictly, and whether as a whole number.
        self._strictly = strictly

    def __str__(self) -> str:
        place = "" if self.at is None else f" at index {self.at}"
        row = "" if self.row is None else f"row {self.row}: "
        return f"{row}{super().__str__()}{place}{self._advice()}"

    def _advice(self) -> str:
        """Returns that the text is one as a person types it, if so, and which character the format has there."""
        if self._strictly is None or self.cause not in (Cause.UNEXPECTED, Cause.MISSPELLED):
            return ""
        struct, is_whole = self._strictly
        plain = _native.parse_decimal(struct, self.text, str, _native.TYPED)
        if not isinstance(plain, str) or (is_whole and "." in plain):
            return ""
        printed, at, wanted = _native.print_plain(struct, plain) or "", self.at or 0, ""
        symbols = [*"".join(_native.parts(struct)[:3])]
        if self.at is not None and printed[:at] == self.text[:at] and printed[at : at + 1] in symbols:
            wanted = f", U+{ord(self.text[at]):04X} for U+{ord(printed[at]):04X}"
        return f"{wanted}: typed=True reads it"


class FormatError(NumFormatError):
    """A text or a grouping can be no part of a format, no locale is found, or nothing is parsed under the format.

    >>> import num_format
    >>> num_format.Format.locale("xx")
    Traceback (most recent call last):
    num_format.FormatError: locale 'xx' is refused: no locale has this name, and none is found for it as a language tag
    >>> num_format.Format(separator="123456789")
    Traceback (most recent call last):
    num_format.FormatError: separator '123456789' is refused: it has more than 8 bytes
    >>> num_format.parse("5", num_format.Format(grouping="Posix", minus_sign=""))
    Traceback (most recent call last):
    num_format.FormatError: Format(separator=',', grouping=Grouping.POSIX, minus_sign='', decimal_mark='.') is ambiguous

    Attributes:
        argument: ``"locale"``, ``"tag"``, the name of the argument of :class:`Format`, or ``"format"``.
        text: The text, or the `repr` of the format.
        cause: Why it is refused.
    """

    def __init__(self, argument: str, text: str, cause: Cause) -> None:
        super().__init__(text, cause)
        self.args = argument, text, cause
        self.argument = argument

    def __str__(self) -> str:
        if self.cause is Cause.AMBIGUOUS_FORMAT:
            return f"{self.text} is ambiguous"
        return f"{self.argument} {super().__str__()}"


# Tracebacks and pickles name the classes as users import them.
for _public in (Cause, NumFormatError, ParseError, FormatError):
    _public.__module__ = "num_format"
