"""Numbers whose texts have each possible length, under each grouping.

A text is put together by spelling.py from the plain decimal digits, so no result of num_format is in it.
"""
from spelling import Format, printed

# The separator and the minus sign that others are prefixes of: as many bytes as fit.
SEPARATOR = "abcdefgh"
MINUS_SIGN = "ABCDEFGH"

# The digits that others are prefixes of: those of the greatest `i128`.
DIGITS = str(2**127 - 1)

# The length of the longest text of an `i128` under each grouping, in bytes.
LONGEST = {"Standard": 143, "Indian": 191, "Posix": 47, "Myriad": 119, "Sparse": 143}


def under(grouping):
    """For each length from 1 on: the separator, the minus sign, the number, and its text of that length."""
    found = {}
    for separator in prefixes(SEPARATOR):
        for minus_sign in prefixes(MINUS_SIGN):
            for digits in prefixes(DIGITS)[1:]:
                text = printed(int(digits), Format(separator.encode(), grouping, b"")).decode()
                found.setdefault(len(text), (separator, minus_sign, int(digits), text))
                case = (separator, minus_sign, -int(digits), minus_sign + text)
                found.setdefault(len(case[-1]), case)
    assert sorted(found) == list(range(1, LONGEST[grouping] + 1))
    return [found[length] for length in sorted(found)]


def prefixes(text):
    return [text[:length] for length in range(len(text) + 1)]
