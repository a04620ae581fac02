"""The files of cases, crates/NAME/cases/*.cases: what a program has to do with words and input.

A case is a block of lines, and a blank line ends it:

    # A field is a number of a line whose fields end at tabs.
    $ regroup-lines --field 2 en de
    < a\\t1,234.50
    < b\\tx
    > a\\t1.234,50
    ! regroup-lines: -:2: field 2: 'x': not a number at byte 1
    ? 1

`$` is a command in a shell's words, and several have each to do the same; `<` is a line of standard input, `>` one of
standard output, `!` one of standard error, and `?` the exit status, 0 where it is left out. A line ends with a newline,
but for one that ends in `\\c`. `\\n \\t \\r \\0 \\\\ \\xFF` are bytes, in words between single quotes too, and `{3*ab}` is
`ababab`. In an expected line `[..]` stands for any bytes but a newline. A block `= NAME` with lines `|` is a file of the
folder in which each case of the crate is run. Lines that begin with `#` are comments.
"""
import re
import shlex
import sys
from typing import NamedTuple

from tally import ROOT

ESCAPE = re.compile(rb"\{(\d+)\*((?:[^}\\]|\\.)*)\}|\\(?:x([0-9a-fA-F]{2})|(.))", re.DOTALL)
ESCAPED = {b"n": b"\n", b"t": b"\t", b"r": b"\r", b"0": b"\0", b"\\": b"\\", b"c": b""}


class Case(NamedTuple):
    """A command: where it stands, its words, its input, and how it has to end. An output that is None may be any."""

    name: str
    words: list
    given: bytes = b""
    status: int = 0
    out: bytes | None = b""
    err: bytes | None = b""


def unescaped(text):
    """The bytes that a text of a case stands for."""

    def replaced(match):
        times, part, code, letter = match.groups()
        if times:
            return int(times) * unescaped(part)
        return bytes([int(code, 16)]) if code else ESCAPED[letter]

    return ESCAPE.sub(replaced, text if isinstance(text, bytes) else text.encode())


def repeated(command):
    """A command with each `{3*ab}` written out."""
    return re.sub(r"\{(\d+)\*([^}]*)\}", lambda match: int(match[1]) * match[2], command)


def line(text):
    return unescaped(text) + (b"" if text.endswith("\\c") else b"\n")


def read(path):
    """The cases of a file, and its files by their names."""
    cases, files = [], {}
    number = 1
    for block in path.read_text(encoding="utf-8").split("\n\n"):
        lines = [text for text in block.split("\n") if text and text[0] != "#"]
        parts = {mark: [text[2:] for text in lines if text[0] == mark] for mark in "$<>!?=|"}
        unknown = [text for text in lines if text[0] not in parts or text[1:2] not in ("", " ")]
        if unknown or bool(parts["$"]) + bool(parts["="]) != bool(lines):
            sys.exit(f"{path}:{number}: no case: {(unknown or [block])[0]}")
        given, out, err, content = (b"".join(map(line, parts[mark])) for mark in "<>!|")
        for name in parts["="]:
            files[name] = content
        for command in parts["$"]:
            words = [unescaped(word) for word in shlex.split(repeated(command))[1:]]
            status = int((parts["?"] or ["0"])[0])
            cases.append(Case(f"{path.name}:{number}: {command[:90]}", words, given, status, out, err))
        number += block.count("\n") + 2
    return cases, files


def of_crate(crate):
    """The cases of the files of a crate's folder, and the files that they are run beside."""
    cases, files = [], {}
    for path in sorted((ROOT / "crates" / crate / "cases").glob("*.cases")):
        some, more = read(path)
        cases += some
        twice = [name for name in more if files.get(name, more[name]) != more[name]]
        if twice:
            sys.exit(f"{path}: another file is named {twice[0]}")
        files |= more
    return cases, files


def is_as(expected, found):
    """Whether an output is as a case says."""
    if expected is None:
        return True
    if b"[..]" not in expected:
        return found == expected
    return re.fullmatch(b"[^\n]*".join(map(re.escape, expected.split(b"[..]"))), found) is not None


def shown(text):
    return repr(text if len(text) <= 400 else text[:200] + b" .. " + text[-100:])


def problem(case, status, out, err):
    """Why a case fails that ended like this, or nothing."""
    found = []
    if status != case.status:
        found.append(f"status {status} in place of {case.status}")
    for name, output, expected in [("output", out, case.out), ("error", err, case.err)]:
        if not is_as(expected, output):
            found.append(f"standard {name} {shown(output)} in place of {shown(expected)}")
    return "; ".join(found)
