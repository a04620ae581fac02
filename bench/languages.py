"""Builds what measures each language, and runs it. Each function builds, and gives a function that measures."""
import itertools
import os
import re
import shutil
import subprocess
import sys
from functools import partial
from pathlib import Path
from typing import NamedTuple

from cells import ROOT, SHOWN

HERE = Path(__file__).resolve().parent
PACKAGES = ROOT / "packages"
CRATE = ROOT / "crates" / "num_format_c"

sys.path += [str(PACKAGES / "python"), str(PACKAGES / "postgresql")]

import environment
import server

# How the names of the calls of a copy of the library begin.
COPY = "copy_"

# GNU's names of the locales that C has for `en` and `fr`.
LOCALES = ["en_US", "fr_FR"]

# Debian's crates for Rust, for where no others are named.
REGISTRY = "/usr/share/cargo/registry"
DEBIANS = f'[source.crates-io]\nreplace-with = "debian"\n[source.debian]\ndirectory = "{REGISTRY}"\n'


class Lack(Exception):
    """What is missing for a language."""


class Line(NamedTuple):
    """What was measured: what is done, the cell, whose call it is, the call, and the nanoseconds for a number, or
    `differs`."""

    operation: str
    cell: str
    role: str
    call: str
    time: str


class Given(NamedTuple):
    """What all measurements are given: the library, `regroup-lines`, words for Cargo, a folder for all that is made, which
    has what cells.py writes, the seconds for each call in a cell, the turns of queries and programs, and the lines for
    programs."""

    library: Path
    program: Path
    cargo: list
    folder: Path
    seconds: float
    turns: int
    lines: int

    @property
    def copy(self):
        """A copy of the library, whose calls have other names."""
        return self.folder / "libcopy.a"


def output(*words, **how):
    """What a command prints, which has to end with status 0."""
    return subprocess.run(list(map(str, words)), stdout=subprocess.PIPE, text=True, check=True, **how).stdout


def need(*tools):
    for tool in tools:
        if shutil.which(tool) is None:
            raise Lack(f"there is no `{tool}`")


def prepare(given):
    """Makes the copy of the library, and the locales that there are."""
    listed = output("nm", "-g", "--defined-only", "--format=posix", given.library).splitlines()
    names = sorted({line.split()[0] for line in listed if line and not line.endswith(":")})
    (given.folder / "names_of_copy").write_text("".join(f"{name} {COPY}{name}\n" for name in names), encoding="utf-8")
    renamed(given, given.library, given.copy)
    os.environ["LOCPATH"] = str(given.folder)
    for name in LOCALES if shutil.which("localedef") else []:
        subprocess.run(["localedef", "-i", name, "-f", "UTF-8", given.folder / f"{name}.UTF-8"], check=False)


def renamed(given, source, target):
    """Copies an object or a library, with the names of the library's calls those of the copy."""
    output("objcopy", f"--redefine-syms={given.folder / 'names_of_copy'}", source, target)


def lines_of(printed):
    """The lines that a program printed, and what it skipped and why."""
    lines = [Line(*line.split("\t")) for line in printed.splitlines() if "\t" in line]
    return lines, [line.removeprefix("skipped: ") for line in printed.splitlines() if line.startswith("skipped: ")]


def measured(*words, given, **how):
    return lines_of(output(*words, given.folder, given.seconds, **how))


def compiled(given, source, *flags):
    """Compiles a source over the library and over its copy, and links both into one program."""
    made = given.folder / source.suffix[1:]
    objects = [made.with_suffix(".o"), made.with_suffix(".copy.o")]
    for target, more in zip(objects, [[], ["-DIS_COPY"]]):
        output(*flags, "-Wall", "-Wextra", "-Werror", "-O2", "-I", CRATE, *more, "-c", source, "-o", target)
    renamed(given, objects[1], objects[1])
    return made, objects


def in_c(given):
    need("cc", "objcopy")
    asked = ["pkg-config", "--exists", "icu-i18n"]
    has_icu = shutil.which(asked[0]) and not subprocess.run(asked, check=False).returncode
    flags = ["-DHAS_ICU"] if has_icu else []
    made, objects = compiled(given, HERE / "c.c", "cc", "-std=gnu11", *flags)
    libraries = output("pkg-config", "--libs", "icu-i18n").split() if has_icu else []
    output("cc", *objects, given.library, given.copy, *libraries, "-o", made)

    def measure():
        lines, skipped = measured(made, given=given)
        return lines, skipped + ([] if has_icu else ["ICU: pkg-config knows no icu-i18n"])

    return measure


def in_cpp(given):
    need("c++", "objcopy")
    made, objects = compiled(given, HERE / "cpp.cpp", "c++", "-std=c++20", "-I", PACKAGES / "c")
    output("c++", *objects, given.library, given.copy, "-o", made)
    return partial(measured, made, given=given)


def in_python(given):
    python, lacking = environment.find_python([*environment.NEEDED, "numpy"], ["babel", "pandas"])
    if lacking:
        raise Lack(f"Python lacks {', '.join(lacking)}")
    made = environment.install(python, given.folder, given.library)
    if made is None:
        raise RuntimeError("the package was not installed")
    return partial(measured, made, HERE / "in_python.py", given=given)


def in_javascript(given):
    need("node", "wasm-opt")
    module, package = given.library.parent / "wasm" / "num_format_c.wasm", given.folder / "js"
    if not module.is_file():
        raise Lack(f"there is no {module}: tools/build library --target wasm")
    shutil.copytree(PACKAGES / "js", package, ignore=shutil.ignore_patterns("tests", "*.wasm"))
    output(PACKAGES / "js" / "build", module, package / "num_format.wasm")
    return partial(measured, "node", HERE / "in_javascript.mjs", package / "src" / "node.js", given=given)


def copied_crate(given):
    """Copies the crate that measures, that of the package, and that once more as `num-format-copy` over the copy of the
    library."""
    packages, ignored = given.folder / "packages", shutil.ignore_patterns("target", "Cargo.lock", "__pycache__")
    shutil.copytree(HERE / "rust", given.folder / "bench" / "rust", ignore=ignored)
    for name in "rust", "rust-copy":
        shutil.copytree(PACKAGES / "rust", packages / name, ignore=ignored)
    copy = packages / "rust-copy"
    edit(copy / "Cargo.toml", {'"num-format-proved"': '"num-format-copy"', "links = .*": 'links = "num_format_copy"'})
    edit(copy / "build.rs", {r'"NUM_FORMAT_LIBRARY"': '"NUM_FORMAT_COPY"'})
    for path in (copy / "src").rglob("*.rs"):
        edit(path, {r"\bnum_format_(?=\w)": f"{COPY}num_format_"})
    return given.folder / "bench" / "rust"


def edit(path, changes):
    text = path.read_text(encoding="utf-8")
    for old, new in changes.items():
        text = re.sub(old, new, text)
    path.write_text(text, encoding="utf-8")


def in_rust(given):
    need("cargo")
    crate, skipped = copied_crate(given), []
    env = {"NUM_FORMAT_LIBRARY": str(given.library), "NUM_FORMAT_COPY": str(given.copy)}
    # The processor that the library is compiled for.
    env |= {"RUSTFLAGS": "-Ctarget-cpu=x86-64-v2", "CARGO_TARGET_DIR": str(given.folder / "target")}
    how = {"cwd": crate, "env": {**os.environ, **env}}
    words = given.cargo
    if subprocess.run(["cargo", "fetch", "--quiet", *words], check=False, stderr=subprocess.DEVNULL, **how).returncode:
        # Without num-format, all else is measured where Debian's packages have it.
        skipped.append("num-format 0.4.4: cargo finds none")
        edit(crate / "Cargo.toml", {r"(?m)^original = \{.*\n": "", r'"original"': ""})
        (given.folder / "debian.toml").write_text(DEBIANS, encoding="utf-8")
        words = ["--offline", "--config", given.folder / "debian.toml"]
        if subprocess.run(["cargo", "fetch", "--quiet", *words], check=False, **how).returncode:
            raise Lack(f"cargo finds no itoa, serde and rust_decimal, neither in {REGISTRY}")
    # Where no time counts, what is built sooner.
    profile, folder = (["--release"], "release") if given.seconds else ([], "debug")
    output("cargo", "build", "--quiet", *profile, *words, **how)

    def measure():
        lines, more = measured(given.folder / "target" / folder / "bench", given=given)
        return lines, skipped + more

    return measure


# What is done by which calls in SQL: whose each is, the call, the column that it reads, and that of what it is to return.
IN_SQLITE = [
    ("print", "ours", "num_format(n, 'en')", "n", "t"),
    ("print", "other", "printf('%,d', n)", "n", "t"),
    ("parse, strict", "ours", "num_parse(t, 'en')", "t", "n"),
    ("parse, strict", "other", "CAST(replace(t, ',', '') AS INTEGER)", "t", "n"),
    ("decimal, print", "ours", "num_format(d, 'en')", "d", "td"),
    ("decimal, parse", "ours", "num_parse_decimal(td, 'en')", "td", "d"),
    ("decimal, parse", "other", "CAST(replace(td, ',', '') AS REAL)", "td", "d"),
]
IN_POSTGRESQL = [
    ("print", "ours", "num_format(n, 'en')", "n", "t"),
    ("print", "other", "to_char(n, 'FM9,999,999,999,999,999,999')", "n", "t"),
    ("parse, strict", "ours", "num_parse(t, 'en')", "t", "n"),
    ("parse, strict", "other", "to_number(t, '9,999,999,999,999,999,999')", "t", "n"),
    ("parse, strict", "other", "replace(t, ',', '')::bigint", "t", "n"),
    ("decimal, print", "ours", "num_format(d, 'en')", "d", "td"),
    ("decimal, print", "other", "to_char(d, 'FM99,999,999,999,999,990.00')", "d", "td"),
    ("decimal, parse", "ours", "num_parse_decimal(td, 'en')", "td", "d"),
    ("decimal, parse", "other", "to_number(td, '99,999,999,999,999,990.00')", "td", "d"),
    ("decimal, parse", "other", "replace(td, ',', '')::numeric", "td", "d"),
]


def calls_in_sql(listed):
    """The calls, with ours once more as a copy, and those that do the same side by side."""
    copies = [(operation, "copy", *rest) for operation, role, *rest in listed if role == "ours"]
    return sorted([*listed, *copies], key=lambda call: call[0])


def lines_in_sql(listed, seconds, different, turns, rows):
    """The lines of calls in SQL, by the seconds of each query: in each turn those of a column and of a call over it. Of
    each call is given how many of its results differ."""
    if len(seconds) != 2 * len(listed) * turns or len(different) != len(listed):
        raise RuntimeError(f"{len(seconds)} times and {len(different)} comparisons of {len(listed)} calls")
    best = [min(map(float, seconds[place :: 2 * len(listed)])) for place in range(2 * len(listed))]
    for (operation, role, call, *_), alone, whole, wrong in zip(listed, best[::2], best[1::2], different):
        shown = "differs" if wrong != "0" else f"{max((whole - alone) * 1e9 / rows, 0.1):.1f}"
        yield Line(operation, SHOWN, role, f"`{call}`", shown)


def rows_for_sql(given):
    """Writes the numbers, texts and decimals for SQL, with `|` between them, and returns the file and how many they are.
    The decimals are those of up to 15 digits, which floating point has."""
    rows = [line.split("\t") for line in (given.folder / "rows").read_text(encoding="ascii").splitlines()]
    decimals = itertools.cycle(row[5:] for row in rows if len(row[0]) <= 15)
    written = ("|".join([row[0], row[2], *next(decimals)]) + "\n" for row in rows)
    (given.folder / "rows_for_sql").write_text("".join(written), encoding="ascii")
    return given.folder / "rows_for_sql", len(rows)


def in_sqlite(given):
    need("cc", "make", "sqlite3")
    out, listed = given.folder / "sqlite", calls_in_sql(IN_SQLITE)
    output("make", "-s", "-C", PACKAGES / "sqlite", f"LIBRARY={given.library}", f"OUT={out}")

    def measure():
        file, rows = rows_for_sql(given)
        script = f".load {out / 'num_format'}\nCREATE TABLE numbers(n INTEGER, t TEXT, d TEXT, td TEXT);\n.separator |\n"
        script += f".import {file} numbers\n"
        for _, _, call, _, expected in listed:
            script += f"SELECT 'different', count(*) FROM numbers WHERE {call} IS NOT {expected};\n"
        script += ".timer on\n"
        for _, _, call, column, _ in listed * given.turns:
            # With `+`, SQLite reads the column, and not its type alone.
            script += f"SELECT max(typeof(+{column})) FROM numbers;\nSELECT max(typeof({call})) FROM numbers;\n"
        printed = output("sqlite3", ":memory:", input=script)
        different, times = re.findall(r"different\|(\d+)", printed), re.findall(r"user ([0-9.]+)", printed)
        return list(lines_in_sql(listed, times, different, given.turns, rows)), []

    return measure


def in_postgresql(given):
    if why := server.lack():
        raise Lack(why)
    folder, listed = given.folder / "postgresql", calls_in_sql(IN_POSTGRESQL)
    folder.mkdir()
    os.chmod(given.folder, 0o755)
    status, printed = server.make(folder / "build", "install", given.library, f"DESTDIR={folder}/root")
    if status:
        raise RuntimeError(printed)

    def measure():
        file, rows = rows_for_sql(given)
        made = "CREATE EXTENSION num_format;\nCREATE TABLE numbers(n bigint, t text, d numeric, td text);\n"
        made += f"\\copy numbers FROM '{file}' (DELIMITER '|')\nVACUUM ANALYZE numbers;\n"
        for _, _, call, _, expected in listed:
            made += f"SELECT 'different', count(*) FROM numbers WHERE {call} IS DISTINCT FROM {expected};\n"
        turn = "SET max_parallel_workers_per_gather = 0;\nSET jit = off;\n"
        turn += "SET client_min_messages = log;\nSET log_executor_stats = on;\n"
        for _, _, call, column, _ in listed:
            turn += f"SELECT count({column}) FROM numbers;\nSELECT count({call}) FROM numbers;\n"
        shutil.rmtree(folder / "data", ignore_errors=True)
        with server.started(folder) as running:
            scripts = [made, *given.turns * [turn]]
            printed = "\n".join(line for script in scripts for line in running.psql(script))
        different = re.findall(r"different\|(\d+)", printed)
        times = re.findall(r"([0-9.]+) s user, [0-9.]+ s system, [0-9.]+ s elapsed", printed)
        if "ERROR" in printed:
            raise RuntimeError(printed[:1000])
        return list(lines_in_sql(listed, times, different, given.turns, rows)), []

    return measure
