#!/usr/bin/env python3
"""Compares the code in README.md and docs/ with that of the crates and of examples/ that have it, and runs commands.

    python3 tests/readme_code.py
    python3 tests/readme_code.py --run [TOP]    # runs the commands that are shown, over programs that are built there

Each block of the language `rust` has to stand in a file of test_readme, of a crate
`uses_NAME`, of num_format_vectors or of test_printing, line after line, and each of `c` and `python` in a file of
examples/; or its lines stand in this order in the README of a package, whose test runs it. docs/CALLERS.md has to have a
text block that is the stdout of test_readme. The exit status is 1 where one differs.

Each command in a block of `sh` that runs `regroup` or `regroup-lines`, in README.md and in those of examples/ and
packages/, has to end with status 0, and to print what is shown: after `prints` in its comment, or in the block of
`text` after it, or in NAME.expected where it reads NAME.tsv. `rt run --` and `rt try --` run the program that is built. So does
`tools/install PREFIX`. A block of `sh` in docs/GUIDE.md is one script, and runs in a folder that has examples/. Each other
command that README.md, docs/CALLERS.md or the README of a package shows in a block of `sh` is one of ELSEWHERE: a test
that runs it. Each link to a file has an end. What document_names.py compares agrees. Where a README of packages/ shows
other code or what it prints, the test of that package has to name README.md.
"""
import os
import re
import sys
import tempfile
from pathlib import Path
from textwrap import dedent

import document_names
from tally import ROOT, Tally, heading, run

EXAMPLES = ROOT / "crates" / "test_readme"
CALLERS = ROOT / "docs" / "CALLERS.md"
GUIDE = ROOT / "docs" / "GUIDE.md"
CRATES = [
    EXAMPLES,
    *sorted((ROOT / "crates").glob("uses_*")),
    ROOT / "crates" / "num_format_vectors",
    ROOT / "crates" / "test_printing",
]

# The documents whose links have to have an end.
DOCUMENTS = ["*.md", "docs/*.md", "bench/*.md", "crates/*.md", "examples/**/*.md", "packages/*/*.md", "tests/*.md",
             "tools/*.md"]

# The files that a block of each language may stand in.
FILES = {
    "rust": [path for crate in CRATES for path in sorted((crate / "src").glob("*.rt"))],
    "c": sorted((ROOT / "examples").glob("*.c")),
    "python": sorted((ROOT / "examples").glob("*.py")),
    "sql": [],
}

# The packages whose README may have the lines of a block of each language.
PACKAGES = {"rust": "rust", "c": "c", "python": "python", "sql": "sqlite"}


def blocks(path, language):
    """The code blocks of a document in that language."""
    text = path.read_text(encoding="utf-8")
    return re.findall(rf"^```{language}\n(.*?)^```$", text, re.DOTALL | re.MULTILINE)


def is_part(block, source):
    """Whether the lines of the block stand in the source, one after another, indented alike."""
    lines, wanted = source.splitlines(), block.splitlines()
    parts = (lines[start : start + len(wanted)] for start in range(len(lines)))
    return any(dedent("\n".join(part)) == "\n".join(wanted) for part in parts)


def is_excerpt(block, source):
    """Whether the lines of the block stand in the source, in this order."""
    lines = map(str.strip, source.splitlines())
    return all(wanted.strip() in lines for wanted in block.splitlines())


# How other commands begin, with the test that runs them.
ELSEWHERE = {
    "python3 tools/test.py": ".ci/run",
    ".ci/run": ".ci/run",
    "python3 tools/own_project.py": "tools/own_project.py",
    "cd ../shop/crates/example && rt check": "tools/own_project.py",
    "(cd crates/num_format_c && rt lib)": "tools/test.py",
    "tools/build": "packages/release/checks",
    "cp -r bin lib": "packages/release/checks",
    "export PKG_CONFIG_PATH": "packages/release/checks",
    "packages/c/install": "packages/c/test",
    "cc program.c": "packages/c/test",
    "pip install": "packages/python/test",
    "python3 -m venv": "packages/python/test",
    "/usr/bin/python3 -m venv": "packages/python/test",
    "make -C packages/sqlite": "packages/sqlite/test",
    "make -C packages/postgresql": "packages/postgresql/test",
    "sqlite3 ": "packages/sqlite/test",
    "psql ": "packages/postgresql/test",
    "packages/": "tools/test.py",
    "python3 examples/dask_column.py": "packages/python/tests/test_programs.py",
}

# A block of commands with the block of text after it, a command that is run, and what it is to print.
COMMANDS = re.compile(r"^```sh\n(.*?)^```\n(?:(?!```)[^\n]*\n){0,4}(?:^```text\n(.*?)^```)?", re.DOTALL | re.MULTILINE)
RUN = re.compile(r"(?:.*\| )?(?:regroup|regroup-lines) |\(cd crates/regroup\w* && rt (?:run|try) -- ")
PRINTS = re.compile(r"#.*\bprints (.*)")
TABLE = re.compile(r"< (\S+)\.tsv$")

# The programs by their names.
SHELL = """
regroup() { "$TOP/crates/regroup/out/regroup" "$@"; }
regroup-lines() { "$TOP/crates/regroup_lines_cli/out/regroup_lines_cli" "$@"; }
rt() { "$PWD/out/${PWD##*/}" "${@:3}"; }
"""


def commands(path):
    """The commands of a document that run a program, with what each is to print, or None."""
    for block, text in COMMANDS.findall(path.read_text(encoding="utf-8")):
        for line in block.replace("\\\n", " ").splitlines():
            if RUN.match(line):
                prints, table = PRINTS.search(line), TABLE.search(line)
                expected = f"{prints[1]}\n" if prints else text or None
                if not expected and table:
                    expected = (ROOT / f"{table[1]}.expected").read_text(encoding="utf-8")
                yield line, expected


def not_run(path):
    """The commands of README.md or of a package that no test runs."""
    lines = [line for block in blocks(path, "sh") for line in block.replace("\\\n", " ").splitlines()]
    for line in map(str.strip, lines):
        if not RUN.match(line) and not any(line.startswith(start) for start in ELSEWHERE):
            yield f"{path.relative_to(ROOT)}: no test runs: {line}"
    is_shown = re.search(r"^```(?!sh|toml|cmake)\w", path.read_text(encoding="utf-8"), re.MULTILINE)
    tests = [path.with_name("test"), path.with_name("checks"), *path.parent.glob("tests/*.py")]
    reads = (test for test in tests if test.is_file() and "README" in test.read_text(encoding="utf-8"))
    if path.parent.parent == ROOT / "packages" and is_shown and not any(reads):
        yield f"{path.relative_to(ROOT)}: its test does not read it"


def dead_links(path):
    """The links of a document to files that are not there."""
    for link in re.findall(r"\]\(([^)#:\s]+)[^):]*\)", path.read_text(encoding="utf-8")):
        if not (path.parent / link).exists():
            yield f"{path.relative_to(ROOT)}: there is no {link}"


def check_install(tally, top):
    """Installs the programs that were built in that copy of the repository, and removes them."""
    files = ["NOTICE", "regroup", "regroup-lines", "regroup-lines", "regroup-lines.1", "regroup.1"]
    with tempfile.TemporaryDirectory() as prefix:
        how = {"env": {**os.environ, "DESTDIR": prefix}, "capture_output": True, "text": True}
        for words, expected in [(["/usr"], files), (["--uninstall", "/usr"], [])]:
            ended = run([top / "tools" / "install", *words], **how)
            found = sorted(path.name for path in Path(prefix).rglob("*") if path.is_file())
            tally.compare(f"tools/install {words[0]}", (ended.returncode, ended.stderr, found), (0, "", expected))


def check_commands(tally, top):
    """Runs the commands over the programs that were built in that copy of the repository."""
    heading("the commands in README.md")
    others = sorted([*ROOT.glob("examples/**/README.md"), *ROOT.glob("packages/*/README.md")])
    first = list(commands(ROOT / "README.md"))
    tally.compare("README.md has commands", bool(first), True)
    for line, expected in [*first, *(command for file in others for command in commands(file))]:
        how = {"cwd": top, "env": {**os.environ, "TOP": str(top)}, "capture_output": True, "text": True}
        ended = run(["bash", "-c", f"set -eu{SHELL}{line}"], **how)
        output = ended.stdout if expected is not None else None
        tally.compare(line, (ended.returncode, output, ended.stderr), (0, expected, ""))
    check_install(tally, top)


def check_guide(tally, top):
    """Runs each block of commands of docs/GUIDE.md over the programs that were built in that copy of the repository."""
    heading("the commands in docs/GUIDE.md")
    programs = {"regroup": "regroup", "regroup-lines": "regroup_lines_cli"}
    with tempfile.TemporaryDirectory() as folder:
        for name, crate in programs.items():
            os.symlink(Path(top, "crates", crate, "out", crate).resolve(), Path(folder, name))
        os.symlink(ROOT / "examples", Path(folder, "examples"))
        environment = {**os.environ, "PATH": f"{folder}:{os.environ['PATH']}", "LC_ALL": "C"}
        how = {"cwd": folder, "env": environment, "capture_output": True, "text": True}
        for block, text in COMMANDS.findall(GUIDE.read_text(encoding="utf-8")):
            name = block.splitlines()[0]
            if "parallel" in block and tally.lacks("parallel", name):
                continue
            ended = run(["bash", "-c", f"set -euo pipefail\n{block}"], **how)
            tally.compare(name, (ended.returncode, ended.stdout, ended.stderr), (0, text, ""))


def main():
    if "--run" in sys.argv:
        tally = Tally()
        top = Path(sys.argv[2]) if len(sys.argv) > 2 else ROOT
        check_commands(tally, top)
        check_guide(tally, top)
        tally.end()
    readme = ROOT / "README.md"
    different = []
    for language, files in FILES.items():
        sources = [path.read_text(encoding="utf-8") for path in files]
        package = (ROOT / "packages" / PACKAGES[language] / "README.md").read_text(encoding="utf-8")
        for path in [readme, *sorted((ROOT / "docs").glob("*.md"))]:
            for block in blocks(path, language):
                if not any(is_part(block, source) for source in sources) and not is_excerpt(block, package):
                    different.append(f"{path.relative_to(ROOT)}: no file has:\n{block}")
    if (EXAMPLES / "stdout").read_text(encoding="utf-8") not in blocks(CALLERS, "text"):
        different.append("docs/CALLERS.md: no block has the stdout of test_readme")
    for path in [readme, CALLERS, *sorted(ROOT.glob("packages/*/README.md"))]:
        different += not_run(path)
    for path in [path for pattern in DOCUMENTS for path in sorted(ROOT.glob(pattern))]:
        different += dead_links(path)
    different += document_names.problems()
    different += [f"{file} is not there" for file in ELSEWHERE.values() if not (ROOT / file).is_file()]
    tally = Tally()
    tally.add("the code and commands of README.md, docs/ and packages/", "\n".join(different))
    tally.end()


if __name__ == "__main__":
    main()
