#!/usr/bin/env python3
"""Writes a page of HTML: the public items of the crates that users call, with their contracts and doc comments.

    python3 tools/api_page.py FOLDER     # writes FOLDER/index.html and its style.css
    python3 tools/api_page.py --check    # writes nothing

The exit status is 1 where a link has no end.
"""
import functools
import os
import re
import shutil
import sys
from collections import namedtuple
from html import escape
from itertools import product
from pathlib import Path
from textwrap import dedent

ROOT = Path(__file__).resolve().parent.parent
# What stands before the path of a file of this repository in a link, till the page has a folder.
TOP = "../.."
STYLE = ROOT / "tools" / "api_page.css"
HEAD = """<!DOCTYPE html><html lang="en"><meta charset="utf-8"><meta name="viewport" content="width=device-width">
<title>num_format for Rattle: public calls</title><link rel="stylesheet" href="style.css">
<nav id="index"><b>Public calls in Rattle</b>{nav}</nav><a class="top" href="#index">Index</a>
<main><p>The calls in Rattle, which is Rust with contracts. C, C++, Python, Rust and SQL have others: see the
<a href="../../README.md">README</a>. Below a call is its contract, which is proved;
<a href="../../docs/THEOREMS.md">THEOREMS</a> says how to read one, and names in it link to their definitions.{main}</main>"""
CRATES = ["num_format", "num_format_decimal", "num_format_typed", "num_format_digits", "num_format_affixes"]
LAWS = "laws"
# The files in the order in which a reader needs them; others follow.
ORDER = """lib buffer to_formatted_str to_formatted_string formatted write_formatted decimal parsing strict locale
custom_format custom_format_builder format grouping strings certificates json error error_kind printing parser rounding
arithmetic comparing length marks""".split()

Item = namedtuple("Item", "file kind name trait docs lines inner")
ITEM = r"((?:^{0}///.*\n)*)(?:^{0}#.*\n)*^({0}(?:{1}) (?s:.+?)(?:;|(?=\s*\{{)))(?:\s*\{{(?:\n((?:.*\n)*?){0})?\}})?$"
NAMES = re.compile(r"(impl)(?:<[^>]*>)? (?:.*?(\w+)(?:<.*>)? for )?.*?(\w+)(?:<.*>|\])*$| *(?:pub )?(\w+) (\w+)", re.M)
GHOST = re.compile(r"^    ghost (?!use )(?:.*\n)*?.*;$", re.M)
USE = re.compile(r"^( *)pub (?:use|mod) ([\w:]+?)(?:::\{([^}]*)\})?;", re.M)
MODULE = re.compile(r"^pub mod (\w+) \{", re.M)
SPEC = re.compile(r"ghost use Rattle\.(num_format\w*)\.specs\.([\w.]+)\.\{([^}]*)\};")
TYPES = re.compile(r"^(?:use (?:crate|num_format)[^;]*;|pub (?:struct|enum|trait|const|type) \w+)", re.M)
CONSTANT = re.compile(r"^pub (?:const|trait) (\w+)", re.M)
WORD = re.compile(r"///.*|(?<!ensures )(?<!requires )(?<!io::)(?<!fmt::)\b[A-Za-z_][\w-]*")
LINK = re.compile(r"\[(<code>([^<]+)</code>)\](?!\()|\[([^]]+)\]\(([^)]+)\)")


def items(file, text, indent="", starts=r"pub(?= (?:struct|enum|trait|fn|const|type))|impl(?:<[^>]*>)?"):
    """The items of a text that begin so at that indentation, each with its lines up to the body."""
    for docs, lines, body in re.findall(ITEM.format(indent, starts), text, re.M):
        impl, trait, of, kind, name = NAMES.match(lines).groups()
        own = "(?:pub )?fn" if trait or kind else "pub fn"
        inner = list(items(file, body, "    ", own)) if impl or kind == "trait" else []
        lines = "\n".join([lines, *GHOST.findall(body)]) + (f" {{\n{body}}}" if kind == "enum" else "")
        docs = "\n".join(one.docs for one in inner) if trait else re.sub("^ */// ?", "", docs, flags=re.M)
        yield Item(file, impl or kind, name or of, trait, docs, lines, inner)


def passed(file, inside=""):
    """What a file re-exports: the file that has it, its name, or nothing for each item, and the path to it."""
    text = file.read_text()
    for found in USE.finditer(text):
        place, path, names = found.groups("")
        around = MODULE.findall(text, 0, found.start())
        for name in re.findall(r"\w+", names) or [""]:
            parts = f"{path}::{name}".strip(":").removeprefix("crate::").split("::")
            owner, module, *name = parts if parts[0].startswith("num_format") else [file.parts[-3], *parts]
            source = ROOT / "crates" / owner / "src" / f"{module}.rt"
            yield source, "".join(name), f"::{around[-1]}" if place else inside if name else f"::{module}"
            yield from [] if name else passed(source, f"::{module}")


@functools.cache
def sections(crate):
    """The modules of a crate, each with its file and what it has or re-exports, with the path to each item."""
    lib = ROOT / "crates" / crate / "src" / "lib.rt"
    wanted, found, paths = {lib: {"": ""}}, {}, {}
    for file, name, inside in passed(lib):
        wanted.setdefault(file, {}).setdefault(name, inside)
    for file, names in sorted(wanted.items(), key=lambda pair: [*ORDER, pair[0].stem].index(pair[0].stem)):
        pairs = found.setdefault(next(iter(names.values())).strip(":") or file.stem, (file, []))[1]
        # The six texts of a format are names for one type.
        names.setdefault("BoundedStr", names.get("DecimalStr", names.get("")))
        for item in items(file, file.read_text()):
            inside = names.get(item.name, names.get(""))
            if item.kind != "impl" and inside is not None:
                paths[item.name] = f"{crate}{inside}::{item.name}"
            path = paths.get(item.name) or paths.get(item.trait)
            pairs += [(item, path)] if path and item.docs and (item.trait or item.kind != "impl") else []
            pairs += [(one, f"{path}::{one.name}") for one in item.inner if path and not item.trait]
    return found


@functools.cache
def links(crate):
    """What a name in a doc comment or a contract of a crate links to: what the crate has, the others, or a source."""
    files = sorted((ROOT / "crates").glob("num_format_*/src/*.rt"))
    found = {name: f"{TOP}/{file.relative_to(ROOT)}" for file in files for name in CONSTANT.findall(file.read_text())}
    for other in sorted(CRATES, key=lambda name: name == crate):
        paths = [f"{other}::{module}".removesuffix("::lib") for module in sections(other)]
        paths += [path for _, pairs in sections(other).values() for _, path in pairs]
        for path in sorted(paths, key=lambda path: -path.count(":")):
            found |= {"::".join(path.split("::")[-2:]): f"#{path}", path.split("::")[-1]: f"#{path}"}
    return found


def anchor(href, shown):
    return f'<a href="{href}">{shown}</a>' if href else shown


def markdown(crate, text):
    """The HTML of a doc comment."""

    def linked(match):
        parts = (match[4] or match[2]).split("::")
        tails = ["::".join(parts[-2:]), parts[-1], parts[-2:][0]] if parts[0] not in ("io", "fmt", "std") else []
        return anchor(next((links(crate)[tail] for tail in tails if tail in links(crate)), ""), match[1] or match[3])

    out = ""
    for place, part in enumerate(re.split(r"^```\w*\n((?:.*\n)*?)```$", text, flags=re.M)):
        html = re.sub(r"\*\*?([^*\s][^*]*)\*\*?", r"<em>\1</em>", escape(part, quote=False))
        html = LINK.sub(linked, re.sub(r"`([^`]+)`", r"<code>\1</code>", html)).strip()
        for block in re.split(r"\n\n+", html) if html and place % 2 == 0 else []:
            entries = "".join(f"<li>{entry}" for entry in re.split(r"(?:^|\n)- ", block)[1:])
            out += f"<h5>{block[2:]}</h5>" if block[:2] == "# " else f"<ul>{entries}</ul>" if entries else f"<p>{block}"
        out += f"<pre>{escape(part)}</pre>" if place % 2 else ""
    return out


def section(crate, item, path):
    """The HTML of an item. Its lines link to types on the page and to the definitions of its contract."""
    known = set(re.findall(r"\b[A-Z]\w*", " ".join(TYPES.findall(item.file.read_text())))) - {item.name}
    found = {name: href for name, href in links(crate).items() if name in known}
    for owner, module, names in SPEC.findall(item.file.read_text()):
        spec = f"{TOP}/crates/{owner}/specs/{module.replace('.', '/')}.antt"
        found |= {name: spec for name in names.split(", ") if (ROOT / spec.removeprefix(f"{TOP}/")).is_file()}
    lines = WORD.sub(lambda word: anchor(found.get(word[0]), word[0]), escape(dedent(item.lines), quote=False))
    out = f"<pre class=signature>{lines}</pre>{markdown(crate, item.docs)}\n"
    level, shown = (4, "::".join(path.split("::")[-2:])) if item.lines[0] == " " else (3, path)
    title = f'<h{level} id="{path}">{item.kind} <code>{shown}</code></h{level}>' if item.kind != "impl" else ""
    return f"<section class=method>{title}{out}</section>" if level == 4 else title + out


def heading(path):
    """The last name of a path, and of a crate's laws the whole path."""
    return path if path.endswith(f"::{LAWS}") else path.split("::")[-1]


def main():
    page = nav = ""
    # Laws come after all calls.
    for laws, crate in product([False, True], CRATES):
        for module, (file, pairs) in sections(crate).items():
            if (module == LAWS) != laws:
                continue
            path = f"{crate}::{module}".removesuffix("::lib")
            tag = "h2" if "::" in path else "h1"
            page += f'<{tag} id="{path}">{anchor(f"{TOP}/{file.relative_to(ROOT)}", heading(path))}</{tag}>'
            page += markdown(crate, "".join(re.findall(r"^//! ?(.*\n)", file.read_text(), re.M)))
            page += "".join(section(crate, *pair) for pair in pairs)
    # Methods are named in the index only where a module has no type of its own.
    has_types = False
    for tag, path in re.findall(r'<(h[1-4]) id="([^"]*)"', page):
        has_types = tag == "h3" or has_types and tag == "h4"
        if tag != "h4" or not has_types:
            shown = {"h1": "<h2>{}</h2>", "h2": "<p>{}"}.get(tag, " {}")
            nav += shown.format(anchor(f"#{path}", heading(path)))
    page = HEAD.format(nav=nav, main=page)
    ends = re.findall('id="([^"]*)"', page)
    wrong = [f"no #{name}" for name in re.findall('href="#([^"]*)"', page) if name not in ends]
    if sys.argv[1:] != ["--check"]:
        folder = Path(sys.argv[1])
        folder.mkdir(parents=True, exist_ok=True)
        page = page.replace(f'href="{TOP}/', f'href="{os.path.relpath(ROOT, folder)}/')
        (folder / "index.html").write_text(page, encoding="utf-8")
        shutil.copy(STYLE, folder / "style.css")
    sys.exit("\n".join(wrong) or 0)


if __name__ == "__main__":
    if len(sys.argv) != 2:
        sys.exit(__doc__)
    main()
