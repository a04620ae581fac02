"""The type hints, as mypy reads them."""
import doctest
import subprocess
import sys
from pathlib import Path

import pytest

import num_format

pytest.importorskip("mypy")
pytest.importorskip("numpy")

RIGHT = """
from decimal import Decimal
import numpy as np
import num_format
from num_format.columns import StringColumn, WIDE, format_column, format_decimal_column, parse_column

text: str = num_format.format(5, "de")
text = num_format.format(Decimal("1.5"), num_format.Format(separator="'"))
text = num_format.format(np.int64(5), num_format.lookup("de_DE.UTF-8") or "en")
text = num_format.Format("fa", digits="arabext").digits
number: int = num_format.parse("5", "de", lenient=True)
decimal: Decimal = num_format.parse_decimal("5", "de")
column: StringColumn = format_column(np.array([1]), "de")
column = format_column([1, 2], "de", large=True)
column = format_decimal_column(np.zeros(2, WIDE), 2, "de")
column = format_decimal_column([decimal, None], 2, "de")[1:]
width: int = num_format.text_width(decimal, "de_DE") + num_format.text_width("1 234")
text = num_format.format(5.0, "de", decimals=2) + num_format.format_number(decimal, "de", decimals=2)
column = StringColumn.from_arrow(column[[0, 1]])[np.array([True, False])]
reason: str = num_format.Cause.NO_DIGIT.reason
text_or_null: str | None = column[0]
parse_column(["1", None], "de", np.int8)
try:
    num_format.parse("x", "de")
except num_format.ParseError as error:
    at: int | None = error.at
"""

# Lines that are each refused.
WRONG = [
    'num_format.format("5", "de")',
    "num_format.format(5.0, 'de')",
    "num_format.format(5)",
    "num_format.format(5.0, 'de', 2)",
    "num_format.format(5, 'de', decimals='2')",
    "num_format.text_width(5)",
    "num_format.parse(5, 'de')",
    "num_format.parse(b'5', 'de')",
    "num_format.parse('5', 5)",
    "num_format.parse('5', 'de', True)",
    "number = num_format.format(5, 'de')",
    "text = num_format.lookup('de_DE')",
    "num_format.Format('de', '.')",
    "num_format.Format('fa', digits=4)",
    "num_format.Format(separator=5)",
    "text = column[0]",
    "column = parse_column(column, 'de')",
]


def mypy(folder, *words):
    """What mypy prints."""
    run = [sys.executable, "-m", "mypy", "--cache-dir", folder / "cache", "--no-error-summary", *words]
    return subprocess.run(run, capture_output=True, text=True, check=False).stdout.splitlines()


def test_the_package(tmp_path):
    assert mypy(tmp_path, Path(num_format.__file__).parent) == []


def test_readme(tmp_path):
    readme = Path(__file__).resolve().parents[1] / "README.md"
    program = tmp_path / "readme.py"
    program.write_text(doctest.script_from_examples(readme.read_text(encoding="utf-8")))
    assert mypy(tmp_path, program) == []


def test_a_program(tmp_path):
    program = tmp_path / "program.py"
    program.write_text("\n".join([RIGHT, *WRONG]))
    wrong = range(RIGHT.count("\n") + 2, RIGHT.count("\n") + 2 + len(WRONG))
    refused = [int(line.split(":")[1]) for line in mypy(tmp_path, program) if ": error: " in line]
    assert sorted(set(refused)) == list(wrong)
