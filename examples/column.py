"""Reads a column of numbers back, and prints their sum.

    python3 column.py LIBRARY LOCALE FILE
"""
import sys

import num_format

num_format.load(sys.argv[1])
form = num_format.Format(sys.argv[2])
total = 0
with open(sys.argv[3], encoding="utf-8") as column:
    for line in column.read().splitlines():
        try:
            number = form.parse_strict(line)
        except ValueError as error:
            print(f"{line}: {error}")
            continue
        print(f"{line}: {number}")
        total += number
print("total", form.print(total))
