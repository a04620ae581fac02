#!/usr/bin/env python3
"""Runs the examples of the doc comments, by `rt try`, which needs no proof.

    python3 tests/doc_examples.py          # runs them
    python3 tests/doc_examples.py --show   # prints what each line shows, and compares nothing

An example is a block of the language `rust`. Its lines are run as they are, but for these, which have to show what
their comment says, up to a comma or a colon and words:

    EXPRESSION                  // VALUE    as `{:?}` shows it, a decimal as it is displayed
    let NAME = EXPRESSION;      // VALUE    the same of the name
    println!(rt; "{}", ..)      // TEXT     with or without quotes

In a value the type before a variant or a constant may stand, as in `Locale::de`. `rt` and `alloc` are there, and
what the example names is imported. Examples share nothing. A block of `text` is a sketch, a layout or an output: it is
listed, and not run. A block of another language, or one of `rust` in a crate that LIBRARIES lacks, fails.
"""
import re
import subprocess
import sys

from proofs import copied, read_crates
from tally import ROOT, RUN_SECONDS, Tally, heading, run

from api_page import CRATES, USE, sections

NAME = "doc_examples"


def is_library(name):
    """Whether other crates stand on a crate, which is none of tests."""
    is_test = name.startswith("test_") or name == "num_format_vectors"
    return not is_test and any(name in below for below in read_crates(ROOT).values())



# The libraries whose doc comments are read. What users call comes first.
LIBRARIES = [*CRATES, *(name for name in read_crates(ROOT) if name not in CRATES and is_library(name))]

# What is imported into each example, and by its name where an example has that.
ALWAYS = ["num_format::ToFormattedStr", "num_format::ToFormattedString", "num_format::WriteFormatted",
          "num_format::parsing::FromFormattedStr", "num_format::parsing::ParseFormatted",
          "num_format_decimal::ParseDecimal", "anyhow::Result"]
OTHERS = {"Value": "serde_json::Value", "str::from_utf8": "std::str", "Cursor": "std::io::Cursor",
          "BufWriter": "std::io::BufWriter", "io::ErrorKind": "std::io",
          "BoundedString": "num_format_text::bounded_string::BoundedString",
          "copy_bytes": "num_format_int::buffer::copy_bytes",
          "one_digit": "num_format_int::to_formatted_str::one_digit",
          "two_digits": "num_format_int::to_formatted_str::two_digits",
          "is_plain": "num_format_parsing::symbols::is_plain",
          "parse_text": "num_format_decimal::TextParser",
          "digits_size": "num_format_writers::formatted::digits_size",
          "digit_count": "num_format_writers::formatted::digit_count",
          "no_break_space_len": "regroup_lines::rules::no_break_space_len"}

BLOCK = re.compile(r"^( *//[/!]) ?```(\w*)\n(.*?)^\1 ?```$", re.DOTALL | re.MULTILINE)
SHOWN = re.compile(r"(.*?)\s*// (.*)", re.DOTALL)
BOUND = re.compile(r"let (?:mut )?(\w+)(?::[^=]*)? = ")
DECIMAL = re.compile(r"Decimal \{ units: (-?)(\d+), scale: (\d+) \}")


def names_of(crate):
    """The path of each name that a crate has for others."""
    if crate in CRATES:
        paths = [path for _, pairs in sections(crate).values() for item, path in pairs if item.lines[0] != " "]
        return {path.split("::")[-1]: path for path in paths}
    text = (ROOT / "crates" / crate / "src" / "lib.rt").read_text(encoding="utf-8")
    found = re.findall(r"^pub (?:fn|struct|enum|const) (\w+)", text, re.MULTILINE)
    for _, path, names in USE.findall(text):
        found += re.findall(r"\w+", names or path.split("::")[-1])
    return {name: f"{crate}::{name}" for name in found}


def lines_of(block):
    """The statements of an example, each as one text."""
    part = []
    for line in block:
        part.append(line)
        if "// " in line or line.rstrip().endswith((";", "{", "}")):
            yield "\n".join(part)
            part = []
    if part:
        yield "\n".join(part)


def statement(line, place):
    """A line of an example as it is run, and what it has to show, if anything."""
    shown = SHOWN.fullmatch(line)
    if not shown:
        return line if line.rstrip().endswith((";", "{", "}")) else f"{line};", None
    code, expected = shown.groups()
    mark = f'println!(rt; "=={place}")?; '
    bound = BOUND.match(code)
    if bound:
        return f'{code} {mark}println!(rt; "{{:?}}", {bound[1]})?;', expected
    if code.startswith("println!"):
        return f"{mark}{code}?;", expected
    return f'{mark}println!(rt; "{{:?}}", {code})?;', expected


def displayed(match):
    """A decimal as it is displayed."""
    sign, digits, scale = match[1], match[2], int(match[3])
    digits = digits.rjust(scale + 1, "0")
    return sign + (f"{digits[:-scale]}.{digits[-scale:]}" if scale else digits)


def is_shown(expected, found):
    """Whether a line showed what its comment says."""
    found = DECIMAL.sub(displayed, found)
    short = re.sub(r"\b[A-Z]\w*::", "", expected)
    return any(
        text == shown or text.startswith((f"{shown}, ", f"{shown}: "))
        for text in (expected, short)
        for shown in (found, f'"{found}"')
    )


class Examples:
    """The crate of all examples, what each line has to show, and the blocks that are not run: sketches and others."""

    def __init__(self):
        self.expected, self.modules, self.calls, self.sketches, self.others = {}, {}, [], [], []
        self.paths = {crate: names_of(crate) for crate in LIBRARIES}
        for crate in [*LIBRARIES, *(crate for crate in read_crates(ROOT) if crate not in LIBRARIES)]:
            for file in sorted((ROOT / "crates" / crate / "src").rglob("*.rt")):
                self.read(crate, file)

    def read(self, crate, file):
        text = file.read_text(encoding="utf-8")
        for prefix, language, block in BLOCK.findall(text):
            number = text[: text.index(block)].count("\n") + 1
            place = f"{file.relative_to(ROOT)}:{number}"
            if language != "rust" or crate not in LIBRARIES:
                (self.sketches if language == "text" else self.others).append(place)
                continue
            lines = [line.removeprefix(prefix).removeprefix(" ") for line in block.splitlines()]
            self.add(crate, place, lines)

    def add(self, crate, place, lines):
        known = {name: path for paths in reversed(self.paths.values()) for name, path in paths.items()}
        known |= self.paths[crate] | OTHERS
        code = "\n".join(lines)
        used = [path for name, path in known.items() if re.search(rf"\b{name}\b", code)]
        body = [f"    use {path};" for path in sorted({*ALWAYS, *used})]
        for number, line in enumerate(lines_of(lines)):
            mark = f"{place} {number}"
            ran, expected = statement(line, mark)
            if expected is not None:
                self.expected[mark] = (line, expected)
            body.append(f"    {ran}")
        name = f"example_{len(self.calls) + 1}"
        function = f"pub fn {name}(rt: &HostRuntime) -> anyhow::Result<()> {{\n"
        function += "    let alloc = rt.alloc();\n" + "\n".join(body) + "\n    Ok(())\n}\n"
        self.modules.setdefault(crate, []).append(function)
        self.calls.append(f"    of_{crate}::{name}(&rt)?;")

    def write(self, copy):
        """Writes the crate into a copy of the repository."""
        folder = copy / "crates" / NAME / "src"
        folder.mkdir(parents=True)
        for crate, functions in self.modules.items():
            (folder / f"of_{crate}.rt").write_text("//! Examples.\n" + "\n".join(functions), encoding="utf-8")
        main = "//! Examples.\n#![tactic(auto)]\n" + "".join(f"mod of_{crate};\n" for crate in self.modules)
        main += "fn main(rt: HostRuntime) -> anyhow::Result<()> {\n" + "\n".join(self.calls) + "\n    Ok(())\n}\n"
        (folder / "main.rt").write_text(main, encoding="utf-8")
        listed = read_crates(copy)
        with open(copy / "crates.txt", "a", encoding="utf-8") as file:
            file.write(f"{NAME}: {' '.join(name for name in LIBRARIES if name in listed)} anyhow serde_json\n")
        return folder.parent


def check_all(tally, show=False):
    """Runs the examples, and compares what they show."""
    heading("the examples of the doc comments")
    examples = Examples()
    with copied(False) as copy:
        crate = examples.write(copy)
        ended = run(["rt", "try"], cwd=crate, stdout=subprocess.PIPE, stderr=subprocess.PIPE, text=True, timeout=RUN_SECONDS)
    parts = re.split(r"^==(\S+ \d+)\n", ended.stdout, flags=re.MULTILINE)
    found = {mark: text.removesuffix("\n") for mark, text in zip(parts[1::2], parts[2::2])}
    if show or ended.returncode:
        print(*(f"{mark}: {text}" for mark, text in found.items()), sep="\n")
    if ended.returncode:
        tally.add(NAME, f"status {ended.returncode}: {ended.stdout[-1500:]} {ended.stderr[-1500:]}")
    for mark, (line, expected) in examples.expected.items():
        text = found.get(mark, "nothing")
        tally.add(f"{mark.split()[0]} {line}", None if is_shown(expected, text) else f"it shows {text}")
    for place in examples.others:
        tally.add(place, "this example is not run")
    for place in examples.sketches:
        print(f"not run, a block of `text`: {place}")


def main():
    tally = Tally()
    check_all(tally, "--show" in sys.argv)
    tally.end()


if __name__ == "__main__":
    main()
