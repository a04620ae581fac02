#!/usr/bin/env python3
"""Records how Python and GNU tools print numbers with separators, in grouped_texts.txt beside this file.

    python3 tools/grouped_texts.py

It needs `printf` and `numfmt` of GNU coreutils, and `localedef` with the sources of the locales en_US
and en_IN, which Debian has in its package `locales`. tools/tables.py makes cases of the texts.
"""
import os
import platform
import subprocess
import tempfile
from pathlib import Path

DATA = Path(__file__).resolve().parent / "grouped_texts.txt"

HEADER = """\
# Written by tools/grouped_texts.py; do not edit. A line has a number and its text by:
# Python's format(n, ",") and format(n, "_"), printf "%'d" and numfmt --grouping in the locale en_US, and
# printf in the locale en_IN. The last three are left out past 64 bits.
# {versions}
"""

LOCALES = ["en_US", "en_IN"]

# The most digits of a number.
MOST_DIGITS = 38


def numbers():
    """Numbers of each length, of other digits than zeros, of nines and of a one with zeros, of both signs."""
    for length in range(1, MOST_DIGITS + 1):
        sign = (-1) ** length
        yield sign * int(("1234567890" * 4)[:length])
        yield -sign * (10**length - 1)
        yield sign * 10 ** (length - 1)
    yield from [0, 2**63 - 1, -(2**63)]


def output(words, folder=None, locale="C"):
    """What a command prints, in a locale of that folder."""
    env = {**os.environ, "LC_ALL": f"{locale}.UTF-8", **({"LOCPATH": folder} if folder else {})}
    return subprocess.run(words, env=env, check=True, capture_output=True, text=True).stdout


def texts_by_gnu(small):
    """The texts of numbers by each of the three commands."""
    words = [str(number) for number in small]
    with tempfile.TemporaryDirectory() as folder:
        for locale in LOCALES:
            output(["localedef", "-i", locale, "-f", "UTF-8", f"{folder}/{locale}.UTF-8"])
        for command, locale in [
            (["printf", "%'d\n"], "en_US"),
            (["numfmt", "--grouping", "--"], "en_US"),
            (["printf", "%'d\n"], "en_IN"),
        ]:
            yield output([*command, *words], folder, locale).splitlines()


def versions():
    """The versions of what printed the texts."""
    first = [output([name, "--version"]).splitlines()[0] for name in ("printf", "numfmt", "localedef")]
    return "; ".join([f"Python {platform.python_version()}", *first])


def main():
    every = sorted(set(numbers()))
    small = [number for number in every if -(2**63) <= number < 2**63]
    by_gnu = dict(zip(small, zip(*texts_by_gnu(small), strict=True), strict=True))
    rows = [
        "\t".join([str(number), format(number, ","), format(number, "_"), *by_gnu.get(number, [])])
        for number in every
    ]
    lines = [HEADER.format(versions=versions()), *(f"{row}\n" for row in rows)]
    DATA.write_text("".join(lines), encoding="utf-8")


if __name__ == "__main__":
    main()
