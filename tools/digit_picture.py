#!/usr/bin/env python3
"""Draws docs/digits.svg: a number in the digits of six scripts, as the cases by hand of printing_digits.tsv have it.

    python3 tools/digit_picture.py            # writes the picture
    python3 tools/digit_picture.py --check    # ends with status 1 if it is another
"""
import sys
from html import escape

import digit_texts

PICTURE = digit_texts.ROOT / "docs" / "digits.svg"

# The names of the scripts. A reader's system has the fonts of Debian's fonts-noto-core, or its own for each script.
SCRIPTS = {"latn": "Latin", "arab": "Arabic", "arabext": "Persian", "deva": "Devanagari", "beng": "Bengali", "tibt": "Tibetan"}
FONTS = "Noto Sans, Noto Sans Arabic, Noto Sans Devanagari, Noto Sans Bengali, Noto Serif Tibetan, DejaVu Sans, sans-serif"

# In pixels: the picture, a row, and where its three columns start.
WIDTH, ROW, COLUMNS = 640, 48, (24, 150, 360)


def row(place, tag, text):
    y = place * ROW + 32
    script = SCRIPTS[tag.rpartition("-")[2]]
    yield f'<text x="{COLUMNS[0]}" y="{y}" font-size="16">{script}</text>'
    yield f'<text x="{COLUMNS[1]}" y="{y}" font-size="16" font-family="DejaVu Sans Mono, monospace" fill="#555">{tag}</text>'
    yield f'<text x="{COLUMNS[2]}" y="{y}" font-size="28">{escape(text)}</text>'


def picture():
    found = list(digit_texts.by_hand())
    height = len(found) * ROW
    yield f'<svg xmlns="http://www.w3.org/2000/svg" width="{WIDTH}" height="{height}" viewBox="0 0 {WIDTH} {height}"'
    yield f' font-family="{FONTS}">'
    yield '<rect width="100%" height="100%" fill="#fff"/>'
    for place, (tag, _, text) in enumerate(found):
        if place > 0:
            yield f'<path d="M{COLUMNS[0]} {place * ROW}H{WIDTH - COLUMNS[0]}" stroke="#ddd"/>'
        yield from row(place, tag, text)
    yield "</svg>\n"


def main():
    drawn = "\n".join(picture())
    if sys.argv[1:] != ["--check"]:
        PICTURE.write_text(drawn)
    elif PICTURE.read_text() != drawn:
        sys.exit("docs/digits.svg is not by the table: run python3 tools/digit_picture.py")


if __name__ == "__main__":
    main()
