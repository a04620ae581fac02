#!/usr/bin/env python3
"""Makes a repository of one's own that stands on the library.

    python3 tools/own_project.py FOLDER [CRATE ..]             # with num_format, or with these crates
    python3 tools/own_project.py --update FOLDER [CRATE ..]    # brings them to this version, or adds crates
    python3 tools/own_project.py --test                        # proves the example in such a repository

FOLDER gets the folders of these crates and of those below them, and their lines of crates.txt, which are printed, with
HANDLES, NOTICE and this version, in num_format.version. It gets a crate `example` over num_format, which has a contract
of its own, its `ghost use` lines and a file of specs/: crates/uses_settings under another name. `rt check` in
crates/example proves it, and first what it stands on. The test does so over what runs in this repository have proved.

An update replaces the folders of the crates that come from here, but for their out/, and adds those that lack. It
leaves all other crates and their lines of crates.txt as they are.
"""
import argparse
import re
import shutil
import subprocess
import sys
import tempfile
from pathlib import Path

sys.path.append(str(Path(__file__).resolve().parent.parent / "tests"))

from proofs import read_crates  # noqa: E402
from tally import ROOT, Tally, heading, run  # noqa: E402

# The crate that serves as the example, and its name in the new repository.
SOURCE, EXAMPLE = "uses_settings", "example"

# What needs no place in the new repository.
LEFT_OUT = shutil.ignore_patterns("must-fail", "out", "__pycache__")


def below(listed, names):
    """The crates of that name and all below them that this repository has."""
    found, left = set(), list(names)
    while left:
        name = left.pop()
        if name in listed and name not in found:
            found.add(name)
            left += listed[name]
    return found


def make(folder, names, is_update=False):
    """Makes or updates the repository. Returns its lines of crates.txt that come from here."""
    listed = read_crates(ROOT)
    unknown = [name for name in names if name not in listed]
    if unknown:
        sys.exit(f"no crate is named {unknown[0]}: crates.txt has all")
    crates, list_file = folder / "crates", folder / "crates.txt"
    if crates.exists() != is_update:
        sys.exit(f"{crates} is {'there: --update updates it' if crates.exists() else 'not there'}")
    if is_update:
        present = [name for name in read_crates(folder) if name in listed]
        own = [line for line in list_file.read_text(encoding="utf-8").splitlines() if name_of(line) not in listed]
        wanted = below(listed, [*names, *present])
    else:
        crates.mkdir(parents=True)
        own = [f"{EXAMPLE}: {' '.join(listed[SOURCE])}"]
        wanted = below(listed, [*names, *listed[SOURCE]])
        copy(ROOT / "crates" / SOURCE, crates / EXAMPLE)
        for file in (crates / EXAMPLE).rglob("*.*t"):
            text = file.read_text(encoding="utf-8")
            file.write_text(text.replace(SOURCE, EXAMPLE), encoding="utf-8")
    lines = (ROOT / "crates.txt").read_text(encoding="utf-8").splitlines()
    kept = [line for line in lines if name_of(line) in wanted]
    list_file.write_text("\n".join([*kept, *own, ""]), encoding="utf-8")
    for name in wanted:
        copy(ROOT / "crates" / name, crates / name)
    for name in ["HANDLES", "NOTICE"]:
        if not (is_update and name == "HANDLES"):
            shutil.copy(ROOT / name, folder)
    shutil.copy(ROOT / "VERSION", folder / "num_format.version")
    return kept


def name_of(line):
    """The crate of a line of crates.txt."""
    return re.split("[ :]", line)[0]


def copy(crate, to):
    """Copies a crate, in place of an earlier copy, of which out/ stays."""
    for part in to.iterdir() if to.is_dir() else []:
        if part.name != "out":
            shutil.rmtree(part) if part.is_dir() else part.unlink()
    shutil.copytree(crate, to, ignore=LEFT_OUT, dirs_exist_ok=True)


def check_all(tally):
    """Proves the example in a repository of its own."""
    heading("a repository of one's own")
    with tempfile.TemporaryDirectory(prefix="num-format-own-") as folder:
        own = Path(folder) / "own"
        make(own, ["num_format"])
        before = files_of(own)
        make(own, [], is_update=True)
        tally.compare("an update to the same version", files_of(own), before)
        make(own, ["num_format_decimal"], is_update=True)
        tally.compare("a crate that is added", (own / "crates" / "num_format_decimal" / "src").is_dir(), True)
        # What is proved of the crates that come from here.
        for kept in (ROOT / "crates").glob("*/out/rlib"):
            crate = own / "crates" / kept.parents[1].name
            if crate.is_dir():
                shutil.copytree(kept, crate / "out" / "rlib")
        # The top of a repository.
        (own / ".git").mkdir()
        how = {"stdout": subprocess.PIPE, "stderr": subprocess.STDOUT, "text": True, "timeout": None}
        ended = run(["rt", "check"], cwd=own / "crates" / EXAMPLE, **how)
        tally.add("rt check", f"status {ended.returncode}: {ended.stdout[-900:]}" if ended.returncode else None)


def files_of(folder):
    """The bytes of each file of a folder, by its path."""
    return {path.relative_to(folder): path.read_bytes() for path in folder.rglob("*") if path.is_file()}


def main():
    parser = argparse.ArgumentParser(description="Makes a repository of one's own that stands on the library.")
    parser.add_argument("--test", action="store_true", help="prove the example in such a repository")
    parser.add_argument("--update", action="store_true", help="bring the crates there to this version, or add crates")
    parser.add_argument("words", nargs="*", metavar="FOLDER")
    given = parser.parse_args()
    if given.test:
        tally = Tally()
        check_all(tally)
        tally.end()
    if not given.words:
        parser.error("FOLDER is missing")
    folder, *names = given.words
    lines = make(Path(folder), names if given.update else names or ["num_format"], given.update)
    print(*lines, "", sep="\n")
    if not given.update:
        print(f"`rt check` in {folder}/crates/{EXAMPLE} proves these {len(lines)} crates and the example: the first time")
        print("some 15 to 20 minutes on four processors, with 2.8 GB of memory.")
        if "num_format_decimal" not in map(name_of, lines):
            print("For decimals name num_format_decimal too.")


if __name__ == "__main__":
    main()
