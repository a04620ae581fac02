#!/usr/bin/env python3
"""Compares numfmt_rows.tsv with GNU numfmt; the cases of regroup-lines take its rows.

    python3 tests/numfmt_rows.py            # runs numfmt on each row, and compares what it does
    python3 tests/numfmt_rows.py --write    # writes what it does, for a row that is new or has other words or input

A row has the locale, the words for regroup-lines, those for numfmt, the input, and numfmt's status and output. Words
are joined by a blank; a blank in one, and a character that is not printable ASCII, is escaped as in Python. numfmt and
the sources of locales are Debian's `coreutils` and `locales`: without them there is nothing to compare with. Where the
two programs differ, no row can be:

- numfmt ends at a line at fault with a message and status 2, and prints the line without its newline before that.
  regroup-lines has status 1, and does not print the line.
- numfmt takes blanks for ends of fields where no delimiter is given, as --blanks takes spaces, and pads a number up to
  the width that it had with its blanks. With a delimiter it refuses blanks after a number.
- numfmt computes in floating point: it prints 1,234.06 of `1234.05`, and refuses numbers of 20 digits. It prints 0 of
  `-0`, 7 of `007` and 0.5 of `.5`, which regroup-lines refuses.
- numfmt writes numbers with a separator that is the delimiter too. regroup-lines refuses such a format.
- Where the input is grouped, numfmt refuses it, and regroup-lines parses it exactly as FROM prints it.
"""
import os
import subprocess
import sys
import tempfile
from pathlib import Path

from case_files import Case
from tally import Tally, heading, run

DATA = Path(__file__).resolve().with_suffix(".tsv")
NEEDED = Path("/usr/share/i18n/locales/en_US")


def unescaped(text):
    return text.encode().decode("unicode_escape")


def escaped(text):
    return text.encode("unicode_escape").decode().replace(" ", r"\x20")


def rows():
    """The rows of the data."""
    lines = DATA.read_text(encoding="utf-8").splitlines()
    return [line.split("\t") for line in lines if not line.startswith("#")]


def cases():
    """What regroup-lines has to do: the same, but that it does not print a line at fault, and that its status is 1. Rows
    of two formats alone, whose lines do not depend on each other, are one case."""
    joined = {}
    for _, words, _, text, status, output in rows():
        text, output = unescaped(text), unescaped(output)
        if status != "0" and "abort" in words:
            output = output[: output.rfind("\n") + 1]
        is_joined = status == "0" and words.count(" ") == 1
        given, out = joined.pop((words, status), ("", "")) if is_joined else ("", "")
        joined[words, status if is_joined else (status, text)] = given + text, out + output
    for (words, status), (given, out) in joined.items():
        words = [unescaped(word).encode() for word in words.split(" ")]
        name = f"as numfmt: {b' '.join(words).decode()} {escaped(given[:24])}"
        yield Case(name, words, given.encode(), int(status not in ("0", ("0", given))), out.encode(), None)


def by_numfmt():
    """The rows with what numfmt does now."""
    every = rows()
    with tempfile.TemporaryDirectory() as folder:
        for locale in sorted({row[0] for row in every}):
            words = ["localedef", "-i", locale, "-f", "UTF-8", f"{folder}/{locale}.UTF-8"]
            subprocess.run(words, check=True, capture_output=True)
        for locale, words, others, text, *_ in every:
            env = {**os.environ, "LOCPATH": folder, "LC_ALL": f"{locale}.UTF-8"}
            command = ["numfmt", *map(unescaped, others.split(" "))]
            ended = run(command, input=unescaped(text).encode(), capture_output=True, env=env)
            yield [locale, words, others, text, str(ended.returncode), escaped(ended.stdout.decode())]


def main():
    tally = Tally()
    heading("rows of numfmt")
    if sys.argv[1:] == ["--write"]:
        head = [line for line in DATA.read_text(encoding="utf-8").splitlines() if line.startswith("#")]
        lines = [*head, *map("\t".join, by_numfmt()), ""]
        DATA.write_text("\n".join(lines), encoding="utf-8")
    elif not NEEDED.is_file():
        tally.skip("numfmt_rows.tsv", f"there is no {NEEDED}, to ask numfmt")
    else:
        differ = [two for two in zip(by_numfmt(), rows()) if two[0] != two[1]]
        tally.compare("numfmt_rows.tsv", differ[:3], [])
    tally.end()


if __name__ == "__main__":
    main()
