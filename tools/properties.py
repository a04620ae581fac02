#!/usr/bin/env python3
"""Writes inputs of the program test_properties to standard output.

    python3 tools/properties.py > crates/test_properties/stdin
    python3 tools/properties.py --count 1000000 --seed 7 | crates/test_properties/out/test_properties

The bytes follow from `--count` and `--seed`. The first command writes the inputs of the stored run.
crates/test_properties/src/input.rt has the rule by which the program reads them. Most inputs are
at an edge: limits of the types, powers of ten, texts of no byte and of as many as fit, digits and minus
signs in separators and decimal marks, names of locales with a change, numerals of other scripts. The
others are any bytes. After them come numbers whose texts have each length from 1 to the longest, under
each grouping, and with them each locale.
"""
import argparse
import itertools
import random
import sys

import lengths
from locales import rows

RECORD_LEN = 98
TYPES = 18
LONGEST_SIGN = 8
LONGEST_TEXT = 47

# The largest scale of a decimal, and the scales that most decimals have.
MAX_SCALE = 38
SCALES = [0, 1, 2, 3, 6, 18, 19, 37, 38]

ROWS = sorted(rows(), key=lambda row: row["name"])
NAMES = [row["name"] for row in ROWS]

# The groupings and the type `i128`, by their places.
GROUPINGS = ["Standard", "Indian", "Posix", "Myriad", "Sparse"]
I128 = 10

# The bits of the integer types.
BITS = [8, 16, 32, 64, 128]

# A decimal mark of as many bytes as fit. At scale 1 a number of 39 digits has its longest text.
LONGEST_MARK = b"stuvwxyz"

# Texts for separators, minus signs and decimal marks.
SIGNS = [
    *["", ",", ".", "'", " ", "-", "--", "\u2212", "\u061c-", "\u200e-", "\u202f", "\u2019", "\u066c"],
    *["0", "7", "-0", "5x", "9-", "x5", "12345678", "abcdefgh", "\0", '"', "\\", "\n", "\x7f"],
    *["\u00e9\u00e9\u00e9\u00e9", "\U0001f600", "\U0001f600\U0001f600", "\U0002070e", "\u0663", "\u00b2"],
    *["\u2167", "\u3007", "\U0001d7d9", "\u0f30", "\u4e00", "\u0300", "\ufeff", "1\u202f", "2,"],
]

# Pieces of texts.
PIECES = [*SIGNS, "1", "9", "00", "000", "123", "255", "256", "1e3", "+", "one", "en", "_", "-"]


def magnitudes():
    """The absolute values at the limits of the types, and about the powers of ten and of two."""
    edges = [2**bits for bits in BITS] + [2 ** (bits - 1) for bits in BITS]
    edges += [10**power for power in range(39)] + [0, 5]
    return sorted({edge + step for edge in edges for step in (-1, 0, 1) if edge + step >= 0})


MAGNITUDES = magnitudes()


def number(rng):
    """An integer, of which a type has the low bits."""
    if rng.random() < 0.6:
        return rng.choice(MAGNITUDES) * rng.choice([1, -1])
    return rng.getrandbits(rng.randint(1, 128)) * rng.choice([1, -1])


def sign(rng):
    """A separator, a minus sign or a decimal mark, as bytes that may not be UTF-8."""
    chance = rng.random()
    if chance < 0.75:
        return rng.choice(SIGNS).encode()
    if chance < 0.9:
        return "".join(rng.choices(PIECES, k=3)).encode()[:LONGEST_SIGN]
    return rng.randbytes(rng.randint(0, LONGEST_SIGN))


def name(rng):
    """The name of a locale, or one with a change."""
    text = rng.choice(NAMES)
    change = rng.randrange(6)
    if change == 1:
        text = text.replace("-", "_")
    elif change == 2:
        text = text.replace("-", "_", 1)
    elif change == 3:
        text = text.swapcase()
    elif change == 4:
        text = text[: rng.randrange(len(text) + 1)]
    elif change == 5:
        text += rng.choice(PIECES)
    return text


def signs(rng, row):
    """A separator, a minus sign and a decimal mark: those of a locale, or any if there is none."""
    if row:
        return [row["sep"].encode(), row["min"].encode(), row["dec"].encode()]
    return [sign(rng), sign(rng) if rng.random() < 0.7 else b"-", sign(rng) if rng.random() < 0.5 else b"."]


def spelled(value, scale, separator, minus_sign, mark):
    """The text of a decimal, with groups of three digits."""
    whole, decimals = divmod(abs(value), 10**scale)
    grouped = f"{whole:,}".encode().replace(b",", separator)
    decimals = mark + str(decimals).zfill(scale).encode() if scale else b""
    return (minus_sign if value < 0 else b"") + grouped + decimals


def text(rng, value, scale, separator, minus_sign, mark):
    """A text to parse or to find a locale by."""
    chance = rng.random()
    if chance < 0.25:
        return name(rng).encode()
    if chance < 0.5:
        return spelled(value, rng.choice([0, scale]), separator, minus_sign, mark)
    if chance < 0.55:
        return b"0" * rng.randint(0, 20) + str(value).encode()
    if chance < 0.65:
        # With the next character, a minus sign.
        return minus_sign.decode(errors="ignore")[:-1].encode()
    if chance < 0.9:
        return "".join(rng.choices(PIECES, k=rng.randint(0, 12))).encode()
    return rng.randbytes(rng.randint(0, LONGEST_TEXT))


def field(content, length):
    """The bytes of a text: how many they are, these, and zeros up to the length."""
    content = content[:length]
    return bytes([len(content)]) + content.ljust(length, b"\0")


def record(rng):
    """One input."""
    if rng.random() < 0.05:
        return rng.randbytes(RECORD_LEN)
    value = number(rng)
    scale = rng.choice([*SCALES, rng.randint(0, MAX_SCALE)])
    places = [rng.randrange(TYPES), rng.randrange(len(GROUPINGS)), rng.randrange(4)]
    locale = rng.randrange(len(NAMES))
    separator, minus_sign, mark = signs(rng, None if places[2] else ROWS[locale])
    # Most texts stand once, some long enough for an error to truncate them.
    repeated = rng.choice([0, 0, 0, 0, rng.randrange(8)])
    content = text(rng, value, scale, separator, minus_sign, mark)
    return packed(places, locale, separator, minus_sign, value, repeated, content, scale, mark)


def packed(places, locale, separator, minus_sign, value, repeated, content, scale, mark):
    """The bytes of an input."""
    return b"".join(
        [
            bytes(places),
            locale.to_bytes(2, "little"),
            field(separator, LONGEST_SIGN),
            field(minus_sign, LONGEST_SIGN),
            (value % 2**128).to_bytes(16, "little"),
            bytes([repeated]),
            field(content, LONGEST_TEXT),
            bytes([scale]),
            field(mark, LONGEST_SIGN),
        ]
    )


def of_each_length():
    """The inputs whose numbers have a text of each length, under custom formats."""
    locales = itertools.cycle(range(len(NAMES)))
    for place, grouping in enumerate(GROUPINGS):
        for separator, minus_sign, value, _ in lengths.under(grouping):
            texts = [separator.encode(), minus_sign.encode()]
            content = str(value).encode()
            yield packed([I128, place, 1], next(locales), *texts, value, 0, content, 1, LONGEST_MARK)


def main():
    parser = argparse.ArgumentParser(description=__doc__.splitlines()[0])
    parser.add_argument("--count", type=int, default=3000, help="how many of the first inputs")
    parser.add_argument("--seed", type=int, default=1, help="which inputs")
    arguments = parser.parse_args()
    rng = random.Random(arguments.seed)
    for _ in range(arguments.count):
        sys.stdout.buffer.write(record(rng))
    for input_of_length in of_each_length():
        sys.stdout.buffer.write(input_of_length)


if __name__ == "__main__":
    main()
