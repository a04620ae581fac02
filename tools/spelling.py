"""What strict parsing is to return of a text, by the definition: nothing of num_format is asked.

A text spells a number if it is the number's text under a format, or that without separators. Python
prints the number, and compares. The place of an unexpected byte is where a regular expression ends that
matches digits and separators. Which characters are numeric is what Python's tables of Unicode say.
"""
import re
import unicodedata
from typing import NamedTuple

# The places among digits where a separator stands, by what follows there.
PLACES = {
    "Standard": rb"(?<=\d)(?=(\d{3})+$)",
    "Indian": rb"(?<=\d)(?=(\d\d)*\d{3}$)",
    "Myriad": rb"(?<=\d)(?=(\d{4})+$)",
    "Sparse": rb"(?<=\d)(?=(\d{3})+$)",
}


class Format(NamedTuple):
    """What the text of a number depends on. The texts are bytes."""

    separator: bytes
    grouping: str
    minus_sign: bytes


def printed(number, form):
    """The text of a number under a format."""
    digits = str(abs(number)).encode()
    is_grouped = form.grouping in PLACES and not (form.grouping == "Sparse" and len(digits) < 5)
    body = re.sub(PLACES[form.grouping], lambda _: form.separator, digits) if is_grouped else digits
    return form.minus_sign + body if number < 0 else body


def is_ambiguous(form):
    """Whether a text can be misread: there is no minus sign, or it or a separator that is printed has a numeral."""
    printed_texts = form.minus_sign + (b"" if form.grouping == "Posix" else form.separator)
    return not form.minus_sign or any(unicodedata.category(each)[0] == "N" for each in printed_texts.decode())


def strict_result(text, form, is_in_range):
    """The result in the words of the cases. `is_in_range` says whether a number is a value of the type."""
    if is_ambiguous(form):
        return "err AmbiguousFormat"
    is_negative = text.startswith(form.minus_sign)
    separators = [] if form.grouping == "Posix" or not form.separator else [re.escape(form.separator)]
    expected = re.compile(b"(?:" + b"|".join([*separators, rb"\d"]) + b")*")
    at = expected.match(text, len(form.minus_sign) if is_negative else 0).end()
    if at < len(text):
        return f"err Unexpected {{ at: {at} }}"
    digits = b"".join(re.findall(rb"\d", text))
    if not digits:
        return "err NoDigit"
    number = -int(digits) if is_negative else int(digits)
    if text not in [printed(number, form), printed(number, form._replace(grouping="Posix"))]:
        return "err Misspelled"
    return f"ok {number}" if is_in_range(number) else "err OutOfRange"


def is_value(type_name, number):
    """Whether the number is one of an integer type."""
    kind, bits = re.fullmatch(r"(u|i|NonZeroU)(\d+|size)", type_name).groups()
    bits = 64 if bits == "size" else int(bits)
    if kind == "i":
        return -(2 ** (bits - 1)) <= number < 2 ** (bits - 1)
    return (kind == "NonZeroU") <= number < 2**bits
