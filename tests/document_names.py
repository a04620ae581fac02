"""What documents say of names, files and results. readme_code.py shows what differs.

- Each name of several words between backticks in README.md, CONTRIBUTING.md, docs/ or crates/ stands in a file that is
  no document, each file there is one of the repository, and each option is one that regroup-lines or a script takes.
- Each single word between backticks in docs/THEOREMS.md is defined in a crate, as a clause, a definition or a call.
- docs/ARCHITECTURE.md has each crate, and no other.
- A recipe of CONTRIBUTING.md names each file, or its crate, that has all groupings, or all causes of rejection.
- Each size in its table of calls that may fail stands in a file that the row names, or is the length of a text there.
- The results in docs/GUIDE.md are those of the models by which tools/ writes cases.
"""
import os
import re
from pathlib import Path
from urllib.parse import unquote_to_bytes

import case_files
from tally import ROOT

import locales
import spelling
import typed_texts

# A name of several words, an option, and a file.
NAME = re.compile(
    r"(?<![\w-])--[a-z]+(?:-[a-z]+)*|(?<![\w-])[a-z]+-[a-z]\w*|\b[a-z]\w*_\w+|\b[A-Z][a-z]+\w*[A-Z]\w*"
)
FILE = re.compile(r"(?:[\w.-]+/)*[\w.-]+\.(?:antt|c|cases|cpp|edit|h|hpp|md|py|rs|rt|tsv|txt)\b")

# What a document names of pandas, of the kit, of pip and of numfmt, and a file that stands for all of its kind.
OTHERS = {"read_csv", "--allow-holes", "--only", "--no-build-isolation", "--grouping", "--test"}
EXAMPLE = "crates/NAME/must-fail/WRONG_BEHAVIOUR.edit"

# An option where it is taken: by regroup-lines, and by a script.
TAKEN = re.compile(r"(?:\bnew\(alloc, |\.long\(|flag\(\s*alloc,\s*)\"([a-z-]+)\"|\"--([a-z-]+)\"|'--([a-z-]+)'")

# Where a clause, a definition or a call is defined, and words of Rust and of the prover.
DEFINED = re.compile(
    r"\b(?:fn|ensures|ghost|struct|enum|trait|type|const|mod)\s+(\w+)|"
    r"^\s*(?:pub |abbrev |unfoldable |record |data )*(\w+)\s*:|"
    r"\b(?:record|data|abbrev) (?:pub )?(\w+)|^\s+([A-Z]\w+)\b",
    re.MULTILINE,
)
WORDS = {"Debug", "Display", "IfErr", "OnErr", "bool", "elim", "i128", "result", "true"}

# The recipes whose places are counted, with what a file has that lists them all.
RECIPES = {
    "**A grouping.**": ("indian", "posix", "myriad", "sparse"),
    "**A cause of rejection**": ("unexpected", "nodigit", "misspelled", "outofrange", "toomanydecimals"),
}


def text_of(path):
    return path.read_text(encoding="utf-8", errors="ignore")


def files():
    """The files of the repository."""
    for folder, folders, names in os.walk(ROOT):
        folders[:] = [name for name in folders if name not in {".git", "__pycache__", "out", "target"}]
        yield from map(Path(folder).joinpath, names)


def quoted(path):
    """What stands between backticks in a document, but for its blocks."""
    return re.findall(r"`([^`]+)`", re.sub(r"^```.*?^```$", "", text_of(path), flags=re.DOTALL | re.MULTILINE))


def options():
    """The options that regroup-lines and the scripts take."""
    sources = [ROOT / "crates/regroup_lines_cli/src/command_line.rt", *ROOT.glob("t*/*"), *ROOT.glob("bench/*")]
    return {f"--{''.join(found)}" for path in sources if path.is_file() for found in TAKEN.findall(text_of(path))}


def is_data(path):
    """Whether a file is a document or a table, or this one: what it names need not be there."""
    return path.suffix in {".md", ".tsv"} or path == Path(__file__).resolve()


def gone_names(paths, every):
    """The names, files and options of documents that are nowhere else."""
    found = {name for path in every if not is_data(path) for name in [path.stem, *NAME.findall(text_of(path))]}
    found = {name for name in found if not name.startswith("--")} | OTHERS | options()
    ends = {EXAMPLE}
    ends |= {"/".join(path.parts[start:]) for path in every for start in range(len(ROOT.parts), len(path.parts))}
    for path in paths:
        for code in quoted(path):
            for name in sorted(set(NAME.findall(code)) - found | set(FILE.findall(code)) - ends):
                yield f"{path.relative_to(ROOT)}: there is no {name}"


def undefined():
    """The single words between backticks in docs/THEOREMS.md that no crate defines."""
    sources = [*ROOT.glob("crates/*/src/**/*.rt"), *ROOT.glob("crates/*/specs/**/*.antt")]
    found = {name for path in sources for names in DEFINED.findall(text_of(path)) for name in names}
    found |= {path.stem for path in sources} | WORDS
    words = {code for code in quoted(ROOT / "docs/THEOREMS.md") if re.fullmatch(r"[A-Za-z]\w+", code)}
    yield from (f"docs/THEOREMS.md: no crate defines {word}" for word in sorted(words - found))


def other_crates():
    """The crates that the table of docs/ARCHITECTURE.md does not have, or has though they are not there."""
    cells = re.findall(r"^\|((?:num_format|regroup|uses|test)[\w, ]*)\|", text_of(ROOT / "docs/ARCHITECTURE.md"), re.M)
    listed = {name for cell in cells for name in cell.split(", ")}
    for name in sorted(listed ^ {path.name for path in (ROOT / "crates").iterdir() if path.is_dir()}):
        yield f"docs/ARCHITECTURE.md: {name} is a row and no crate, or a crate and no row"


def left_out(every):
    """The files that have all that a recipe is about, and that it does not name."""
    recipes = text_of(ROOT / "CONTRIBUTING.md")
    for start, words in RECIPES.items():
        recipe = recipes[recipes.index(start):]
        recipe = recipe[: recipe.index("\n**", 1)]
        for path in every:
            place, text = path.relative_to(ROOT), re.sub(r"[_ ]", "", text_of(path).lower())
            is_named = path.name in recipe or place.parts[0] == "crates" and place.parts[1] in recipe
            if all(word in text for word in words) and not is_named and not is_data(path):
                yield f"CONTRIBUTING.md: {start} does not name {place}"


# A row of the table of calls that may fail, a size, and what it names: crates, files of cases, tables and scripts.
SIZES = re.compile(r"^\|(?!Call\||-)([^|]+)\|([^|]+)\|$", re.MULTILINE)
SIZE = re.compile(r"(?<![\w-])(\d[\d,]*)(?: ([KM])iB)?")
PLACE = re.compile(r"\b(test_\w+|num_format_vectors|[\w/]+\.(?:py|tsv|cases))\b")


def numbers_at(place):
    """The numbers that a file or the sources of a crate have, the lengths of texts there too."""
    if place.endswith(".cases"):
        for path in (ROOT / "crates").glob(f"*/cases/{place}"):
            yield from re.findall(r"\d+", text_of(path))
            cases, files = case_files.read(path)
            for case in cases:
                texts = [*case.words, case.given, case.out or b"", case.err or b""]
                yield from (str(len(text.rstrip(b"\n"))) for text in texts)
            yield from (str(len(content)) for content in files.values())
    elif place.endswith(".tsv"):
        lines = text_of(ROOT / "tests" / "cases" / place).splitlines()
        yield from (str(len(unquote_to_bytes(field))) for line in lines for field in line.split("\t"))
    else:
        paths = [ROOT / place] if place.endswith(".py") else (ROOT / "crates" / place / "src").glob("*.rt")
        for path in paths:
            yield from re.findall(r"\d+", text_of(path).replace("_", ""))


def untested_sizes():
    """The sizes in CONTRIBUTING.md that no file which their row names has."""
    table = text_of(ROOT / "CONTRIBUTING.md").partition("|Call|Its largest size|\n")[2]
    calls = SIZES.findall(table.partition("\n\n")[0])
    for call, sizes in calls:
        found = {number for place in PLACE.findall(sizes) for number in numbers_at(place)}
        for number, unit in SIZE.findall(sizes):
            size = int(number.replace(",", "")) * {"": 1, "K": 1024, "M": 1024**2}[unit]
            if str(size) not in found:
                yield f"CONTRIBUTING.md: no file of its row has the size {number}: {call}"
    if not calls:
        yield "CONTRIBUTING.md has no table of largest sizes"


def rows(title):
    """The rows of texts of the table below a heading of docs/GUIDE.md: the texts, and all cells."""
    section = text_of(ROOT / "docs/GUIDE.md").split(f"## {title}\n")[1].split("\n## ")[0]
    for line in section.splitlines():
        cells = line.strip("|").split("|")
        if line.startswith("|`"):
            yield re.findall(r"`([^`]+)`", cells[0].split(", as ")[0]), cells


def causes(cell, count):
    """The results of so many texts by a cell: a number, or a cause, with a place for each text."""
    cause, places = re.match(r"`(\w+)`", cell), re.findall(r"\d+", cell)
    if not cause:
        return count * [cell]
    return [f"{cause[1]} {{ at: {place} }}" for place in places] if places else count * [cause[1]]


def typed_result(text, name):
    """What a text is typed for under a locale: a number, or a cause."""
    row = next(row for row in locales.rows() if row["name"] == name)
    found = typed_texts.parsed(text.encode(), typed_texts.Format(row["sep"], row["min"], row["dec"]), True)
    if isinstance(found, str):
        return found
    units, scale = found
    return f"{units // 10**scale}.{units % 10**scale:0{scale}}" if scale else str(units)


def other_results():
    """The results in docs/GUIDE.md that are not those of the models."""
    en = spelling.Format(b",", "Standard", b"-")
    for texts, (_, cell, _) in rows("Strict and lenient"):
        found = [spelling.strict_result(text.encode(), en, lambda n: n < 300 or n > 999) for text in texts]
        wanted = [f"ok {text.replace(',', '')}" if cell == "the number" else None for text in texts]
        if found != wanted and found != [f"err {cause}" for cause in causes(cell, len(texts))]:
            yield f"docs/GUIDE.md, {texts}: {found}"
    for texts, (_, under, cell) in rows("Texts as people type them"):
        name = (re.findall(r"`([^`]+)`", under) or ["en"])[0]
        found = [typed_result(text, name) for text in texts]
        if found != causes(cell.removesuffix(", as strictly"), len(texts)):
            yield f"docs/GUIDE.md, {texts}: {found}"


def problems():
    """All of these."""
    every = [path for path in files() if path.is_file()]
    patterns = "README.md", "CONTRIBUTING.md", "docs/*.md", "crates/*.md"
    paths = [path for pattern in patterns for path in sorted(ROOT.glob(pattern)) if path.name != "DIFFERENCES.md"]
    yield from gone_names(paths, every)
    for found in undefined(), other_crates(), left_out(every), untested_sizes(), other_results():
        yield from found
