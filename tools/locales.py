#!/usr/bin/env python3
"""Writes the generated files of crates/num_format_cldr and num_format_locale, from the definitions in specs/."""
import bisect
import re
import textwrap
import unicodedata
from functools import cache
from itertools import chain, product
from pathlib import Path
from string import ascii_lowercase

HERE = Path(__file__).resolve().parent
CRATES = HERE.parent / "crates"
TABLE = CRATES / "num_format_cldr"
WRITTEN = HERE / "locales_written.txt"
MARK = "Written by tools/locales.py from specs/; do not edit."
PIECE = 64  # rows in one module at most
GROUPINGS = {"standard": 0, "indian": 1, "posix": 2}
LINE_LENGTH = 100  # columns of a line with several names
TOKEN = re.compile(r'"[^"]*"|[()]|[^\s()]+')


def text(name, **given):
    """The file of that name, with what is given filled in."""
    parts = re.split(r"^\[(\w+)\]\n", WRITTEN.read_text(encoding="utf-8"), flags=re.MULTILINE)
    template = dict(zip(parts[1::2], parts[2::2]))[name]
    return re.sub(r"%(\w+)", lambda match: str({**given, "mark": MARK}[match[1]]), template)


def unescaped(text):
    return re.sub(r"\\u\{([0-9a-f]+)\}", lambda m: chr(int(m[1], 16)), text)


def is_plain(character):
    """Whether a literal has it unescaped: visible ASCII, and letters written from left to right."""
    category = unicodedata.category(character)
    is_letter = category.startswith("L") or category == "Po"
    return " " < character <= "~" and character not in '"\\' or is_letter and unicodedata.bidirectional(character) == "L"


def literal(text):
    """A string of Rust, with an escape for each character that is not plain."""
    return '"' + "".join(c if is_plain(c) else f"\\u{{{ord(c):x}}}" for c in text) + '"'


def filled(entries, indent):
    """The lines of an array, as many of its entries on a line as fit."""
    # No entry is broken at its blank.
    words = " ".join(f"{entry},".replace(" ", "\0") for entry in entries)
    lines = textwrap.fill(words, LINE_LENGTH, initial_indent=indent, subsequent_indent=indent, break_on_hyphens=False)
    return lines.replace("\0", " ") + "\n"


def has_stem(stem, name):
    return name == stem or name.startswith(stem + "-")


# What words mean in an expression of the specs. Any other stands for itself: a class, a grouping, a definition.
WORDS = {
    "[]": [],
    "codes": lambda text: text,
    "signs": lambda minus, plus: (minus, plus),
    "same": lambda word: (word, None),
    "own": lambda word, its_class: (word, its_class),
    "family": lambda stem, its_class, words: [
        (stem, its_class), *((f"{stem}-{word}", own_class or its_class) for word, own_class in words)
    ],
    "for_names": lambda names, value: (names.__contains__, value),
    "for_stem": lambda stem, value: (lambda name: has_stem(stem, name), value),
    "for_stem_but": lambda stem, names, value: (lambda name: has_stem(stem, name) and name not in names, value),
    "value_for": lambda name, definition, usual: (definition, usual),
}


def applied(function, *arguments):
    return function(*arguments) if arguments else function


def evaluated(tokens):
    """The value of an expression, up to the bracket that closes it or to its end."""
    items, terms = [], []
    for token in tokens:
        if token == ")":
            break
        if token == "∷":
            items.append(applied(*terms))
            terms = []
        elif token == "++":
            return applied(*terms) + "".join(evaluated(tokens))
        elif token == "(":
            terms.append(evaluated(tokens))
        elif token.startswith('"'):
            terms.append(unescaped(token[1:-1]))
        else:
            terms.append(chr(int(token, 16)) if token.startswith("0x") else WORDS.get(token, token))
    last = applied(*terms)
    return items + last if items else last


@cache
def definition(file, left):
    """The value of the definition with that left side: the rest of its line, and the indented lines after it."""
    source = (TABLE / "specs" / file).read_text(encoding="utf-8")
    right = re.search(rf"^{left} =(.*(?:\n .*)*)", source, re.MULTILINE)[1]
    return evaluated(iter(TOKEN.findall(right)))


def values(file, function):
    """The function of that name, from the name of a locale to its value."""
    lines, usual = definition(file, f"{function} name")
    lines = definition(file, lines)
    return lambda name: next((value for is_for, value in lines if is_for(name)), usual)


def rows():
    """The rows in order, as `Row` has them."""
    grouping_of = values("Groupings.antt", "grouping_of")
    infinity_of = values("Infinities.antt", "infinity_of")
    nan_of = values("Nans.antt", "nan_of")
    signs_of = values("Signs.antt", "signs_of")
    for name, its_class in chain.from_iterable(definition("Families.antt", "families")):
        minus, plus = signs_of(name)
        yield {
            "name": name,
            "dec": definition("Classes.antt", f"decimal_mark_of {its_class}"),
            "group": GROUPINGS[grouping_of(name)],
            "inf": infinity_of(name),
            "min": minus,
            "nan": nan_of(name),
            "plus": plus,
            "sep": definition("Classes.antt", f"separator_of {its_class}"),
        }


def row_line(row):
    fields = (f"{field}: {value if field == 'group' else literal(value)}" for field, value in row.items())
    return "    Row { " + ", ".join(fields) + " },\n"


def module_name(piece):
    return "from_" + piece[0]["name"].lower().replace("-", "_")


def piece_source(number, piece):
    start = number * PIECE
    lines = "".join(row_line(row) for row in piece)
    ends = {"first": piece[0]["name"], "last": piece[-1]["name"], "start": start, "end": start + len(piece) - 1}
    return text("piece", **ends, len=len(piece), lines=lines, number=number)


def dispatch_source(modules):
    declarations = "".join(f"mod {module};\n" for module in modules)
    arms = "".join(f"        {number} => {module}::rows(),\n" for number, module in enumerate(modules))
    return text("dispatch", piece=PIECE, declarations=declarations, count=len(modules), arms=arms)


def constant_name(name):
    """The name with underscores for hyphens; `as` is a keyword."""
    return "as_" if name == "as" else name.replace("-", "_")


def constants_source(names):
    lines = "".join(
        f"    pub const {constant_name(name)}: Locale = Locale {{ place: {place} }};\n" for place, name in enumerate(names)
    )
    constants = filled((literal(constant_name(name)) for name in names), " " * 4)
    return text("constants", lines=lines, len=len(names), names=constants)


def places_source(names):
    pairs = [first + second for first, second in product(ascii_lowercase, repeat=2)]
    places = [bisect.bisect_left(names, pair) for pair in pairs] + [len(names)]
    width = len(ascii_lowercase)
    lines = "".join(
        "    " + ", ".join(map(str, places[start:start + width])) + ",\n" for start in range(0, len(places), width)
    )
    return text("places", len=len(places), lines=lines)


def generated_files():
    """Each file that this script writes, with its text."""
    table = list(rows())
    names = [row["name"] for row in table]
    pieces = [table[start:start + PIECE] for start in range(0, len(table), PIECE)]
    modules = [module_name(piece) for piece in pieces]
    files = {
        "num_format_cldr/src/rows.rt": dispatch_source(modules),
        "num_format_cldr/src/name_list.rt": text("names", len=len(names), lines=filled(map(literal, names), " " * 4)),
        "num_format_locale/src/locale/constants.rt": constants_source(names),
        "num_format_locale/src/search/pair_list.rt": places_source(names),
    }
    for number, (module, piece) in enumerate(zip(modules, pieces)):
        files[f"num_format_cldr/src/rows/{module}.rt"] = piece_source(number, piece)
        files[f"num_format_cldr/proofs/rows/{module}/rows/Answers.antt"] = text("answers", module=module)
    return files


def main():
    files = generated_files()
    for path in [*TABLE.glob("src/rows/*.rt"), *TABLE.glob("proofs/rows/*/rows/Answers.antt")]:
        if path.relative_to(CRATES).as_posix() not in files:
            path.unlink()
    for name, text in files.items():
        path = CRATES / name
        path.parent.mkdir(parents=True, exist_ok=True)
        path.write_text(text, encoding="utf-8")


if __name__ == "__main__":
    main()
