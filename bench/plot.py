"""Draws speed.svg: what printing and strict parsing take, by the table of README.md. tables.py calls it."""
import math
from html import escape
from pathlib import Path

CHART = Path(__file__).resolve().parent / "speed.svg"

# The rows: a language, the name that the chart shows, what prints, what parses, and whether both are this library's.
ROWS = [
    ("C", "num_format.h", "`num_format_print_i64`", "`num_format_parse_strict_i64`", True),
    ("C", "snprintf, sscanf", "`snprintf` of `%'ld`", "`sscanf` of `%'ld`", False),
    ("C++", "format.print, format.parse", "`format.print(n)`", "`format.parse<", True),
    ("C++", "num_put, num_get", "`out << n`", "`in >> n`", False),
    ("Rust", "write_formatted, parse_strict", "`buffer.write_formatted(", "`text.parse_strict(&format)", True),
    ("Rust", "num-format 0.4.4, not strict", "num-format 0.4.4", "num-format 0.4.4", False),
    ("SQLite", "num_format, num_parse", "`num_format(n,", "`num_parse(t,", True),
    ("SQLite", "printf, CAST(replace ..)", "`printf('%,d'", "`CAST(replace(t,", False),
    ("PostgreSQL", "num_format, num_parse", "`num_format(n,", "`num_parse(t,", True),
    ("PostgreSQL", "to_char, to_number", "`to_char(n,", "`to_number(t,", False),
    ("Python", "format_column, parse_column", "`format_column(", "`parse_column(", True),
    ("Python", "format, parse", "`num_format.format(", "`num_format.parse(", True),
    ("Python", 'f"{n:,}", int(replace ..)', '`f"{n:,}"`', "`int(text.replace(", False),
    ("Python", "babel.numbers", "`babel.numbers.format_decimal(", "`babel.numbers.parse_number(", False),
    ("JavaScript", "form.format, form.parse", "`form.format(n)`", "`form.parse(text)", True),
    ("JavaScript", "Intl, Number(replaceAll ..)", "`intl.format(n)`", "`Number(text.replaceAll(", False),
]

# In pixels: the chart, where names end, where each panel starts and how wide it is, where rows start, and a row.
WIDTH, NAMES, PANELS, PANEL, TOP, ROW = 800, 282, (300, 556), 206, 104, 23
# The nanoseconds at both ends of the scale, and those with a line.
FROM, TO, LINES = 20, 20_000, [100, 1_000, 10_000]
BOTTOM = TOP + ROW * len(ROWS)
BOLD = ' font-weight="bold"'

HEAD = f"""<svg xmlns="http://www.w3.org/2000/svg" width="{WIDTH}" height="{BOTTOM + 54}"
 viewBox="0 0 {WIDTH} {BOTTOM + 54}" font-family="DejaVu Sans, Verdana, sans-serif" font-size="12">
<rect width="100%" height="100%" fill="#fff"/>"""


def time(rows, language, call, does):
    """The nanoseconds of the first call that begins so, where it prints or parses, or None."""
    of_language = [row for row in rows if row.language == language and does in row.does]
    calls = [pair for row in of_language for pair in [(row.ours, row.ns), (row.beside, row.beside_ns)]]
    found = next((ns for name, ns in calls if name.startswith(call)), "-")
    return None if found == "-" else float(found.replace(",", ""))


def across(panel, nanoseconds):
    return PANELS[panel] + PANEL * math.log(nanoseconds / FROM) / math.log(TO / FROM)


def text(x, y, shown, anchor="start", more=""):
    return f'<text x="{x:.1f}" y="{y:.1f}" text-anchor="{anchor}"{more}>{escape(shown, quote=False)}</text>'


def mark(x, y, is_ours):
    if is_ours:
        return f'<circle cx="{x:.1f}" cy="{y}" r="5" fill="#0072b2"/>'
    return f'<rect x="{x - 4.5:.1f}" y="{y - 4.5}" width="9" height="9" fill="#d55e00"/>'


def frame(below):
    """The titles, the legend and the scale of both panels."""
    yield text(14, 24, "Nanoseconds to print and to parse an integer of 64 bits", more=f' font-size="16"{BOLD}')
    yield text(14, 44, "of 1 to 19 digits under the locale en, on a logarithmic scale: left is faster")
    yield text(14, BOTTOM + 42, below, more=' fill="#555"')
    yield mark(20, 66, True) + text(32, 70, "this library, which parses strictly")
    yield mark(276, 66, False) + text(288, 70, "what people use without it")
    for panel, title in enumerate(["printed", "parsed"]):
        yield text(PANELS[panel], TOP - 10, title, more=BOLD)
        for line in LINES:
            x = across(panel, line)
            yield f'<path d="M{x:.1f} {TOP - 4}V{BOTTOM}" stroke="#ddd"/>' + text(x, BOTTOM + 18, f"{line:,}", "middle")


def chart(rows, below):
    """The chart of these rows, with what is said of the run."""
    parts, before = [HEAD, *frame(below.split(", load")[0])], None
    for place, (language, name, *calls, is_ours) in enumerate(ROWS):
        y = TOP + ROW * place + ROW / 2
        if language != before:
            parts.append(f'<path d="M14 {y - ROW / 2}H{WIDTH - 14}" stroke="#bbb"/>')
            parts.append(text(14, y + 4, language, more=BOLD))
            before = language
        parts.append(text(NAMES, y + 4, name, "end"))
        for panel, (call, does) in enumerate(zip(calls, ["print", "parse"])):
            if found := time(rows, language, call, does):
                x = across(panel, found)
                parts.append(mark(x, y, is_ours) + text(x + 9, y + 4, f"{found:,.0f}"))
    return "\n".join([*parts, "</svg>", ""])
