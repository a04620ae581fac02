#!/usr/bin/env python3
"""Tests everything, in minutes, or proves and tests everything.

    python3 tools/test.py                    # the tests, unproved: minutes
    python3 tools/test.py --prove            # proves what users need, and runs every test: about an hour
    python3 tools/test.py --prove --edits    # proves the tests too, and tries the must-fail edits: two hours

With --anew nothing counts that an earlier run on this machine proved.

The first needs the kit alone, and runs by `rt try`, side by side: the tests of each crate that has some, the stored run
and the cases of programs (commands.py), the tables of cases (tests/replay.py), the examples of the doc comments
(doc_examples.py) and the code of README.md (readme_code.py). Nothing is proved by it. Programs that were built before
replay the tables too, and over a library for C that was built before each language does.

With --prove, side by side:

- `rt ci` has every proof, the tests, and each program as two compilers build it. It works on a copy of the repository,
  from which the programs go to crates/NAME/out here, so that tools/install and tools/release prove nothing again.
  With --edits that has all; else it has no must-fail edits, not the library for C, and not the crates of tests that
  trials.py names: those run unproved meanwhile, as do the examples of the doc comments.
- Once a program is proved, the cases of commands.py and the tables of tests/cases run on it as each compiler built it,
  and what no case can say: program_checks.py, filter_checks.py, stream_checks.py, memory_checks.py, which refuses
  memory, and the READMEs' commands.
- `rt lib` proves and builds the library for C in this repository, and tools/build that for WebAssembly. `rt lib` proves
  again what the library stands on. It can't stand on what `rt ci` built in the copy: `rt ci` cuts a library to its
  statements and leaves it without the stamp by which the other commands of `rt` take one, and it builds no library for
  C. Over them run the tables in C and C++, the tests of each package, which but for C replay them in its language, the
  programs of examples/ and two of packages/c/tests (library_checks.py), digits beside ICU and Python (digit_checks.py),
  the counts of instructions (work_checks.py), with the programs those of a release (packages/release/checks) and of
  what is measured (bench/test), and own_project.py, which proves a crate in a repository of its own over what `rt lib`
  proved.

The log has the time at which each crate was proved, and for each edit the error that refused it. At its end a table has
what each crate took (bench/proof_times.py). The last lines name each check that was skipped and why, and say how many
passed and failed. The exit status is 1 where one failed.
"""
import argparse
import sys
import threading
from pathlib import Path

TOOLS = Path(__file__).resolve().parent
sys.path += [str(TOOLS.parent / "tests"), str(TOOLS.parent / "bench")]

import library_checks  # noqa: E402
import memory_checks  # noqa: E402
import trials  # noqa: E402
from case_files import of_crate  # noqa: E402
from jobs import Jobs  # noqa: E402
from library_checks import LIBRARY  # noqa: E402
from proof_times import Watch  # noqa: E402
from proofs import copied, keep, prove, read_crates  # noqa: E402
from tally import ROOT, Tally, heading  # noqa: E402

# How the name of a program ends as each of the two compilers builds it.
COMPILERS = ["", ".by-rattle"]

# The scripts that run programs once they are proved, by their crates.
BUILT = {
    "regroup": ["commands.py", "program_checks.py"],
    "regroup_lines_cli": ["commands.py", "filter_checks.py", "stream_checks.py"],
    "uses_ledger": ["commands.py", "program_checks.py"],
    "test_readme": ["commands.py", "program_checks.py"],
    "test_properties": ["program_checks.py"],
}

# What replays the tables of cases, by the crates of programs.
REPLAYED = {"test_oracle": "rattle", "regroup": "regroup", "regroup_lines_cli": "regroup-lines"}
REPLAY = ROOT / "tests" / "replay.py"

# The packages whose test replays the tables in their language.
REPLAYING = ["python", "rust", "js", "sqlite", "postgresql"]

# The library for WebAssembly, over which are a package and a release.
WASM = ["tools/build", "library", "--target", "wasm"]

# How nice to `rt ci`, which has the longer way to go, is all else.
SOON = 5

# The crate after which few others are left to prove, one after the other.
IDLE_AFTER = "regroup_lines"


def has_tests(crate):
    return any("#[test]" in file.read_text(encoding="utf-8") for file in (crate / "src").rglob("*.rt"))


def start_documents(jobs):
    jobs.script("the code in README.md and docs/", "readme_code.py")
    jobs.script("the page of public calls", TOOLS / "api_page.py", "--check", is_counted=False)
    jobs.script("the picture of digits", TOOLS / "digit_picture.py", "--check", is_counted=False)
    jobs.script("the table of times", ROOT / "bench" / "tables.py", "--check", is_counted=False)
    jobs.script("the times in README.md", ROOT / "bench" / "times.py", "--check", is_counted=False)


def start_unproved(jobs):
    """Starts what needs no proof: first what takes longest, the program with most cases, and tests."""
    crates = sorted(path for path in (ROOT / "crates").iterdir() if (path / "src").is_dir())
    programs = [path.name for path in crates if (path / "src" / "main.rt").is_file()]
    jobs.script("the tables of cases by rattle", REPLAY, "rattle")
    first, *others = sorted(programs, key=lambda name: -len(of_crate(name)[0]))
    jobs.script(f"cases of {first}", "commands.py", "--try", first)
    for crate in [path for path in crates if has_tests(path)]:
        jobs.script(f"tests of {crate.name}", "trials.py", crate.name)
    jobs.script("the examples of the doc comments", "doc_examples.py")
    # Fewer cases are longer ones. What replays the tables has run.
    for name in [name for name in reversed(others) if REPLAYED.get(name) != "rattle"]:
        jobs.script(f"cases of {name}", "commands.py", "--try", name)
    for name in "regroup", "regroup-lines", "c", "c++":
        jobs.script(f"the tables of cases by {name}", REPLAY, "--built", "--quick", name)
    for package in REPLAYING:
        name = f"the tables of cases by {package}"
        if LIBRARY.is_file():
            jobs.script(name, ROOT / "packages" / package / "test", "--cases", LIBRARY)
        else:
            jobs.tally.skip(name, "the library for C was not built: --prove does that")
    start_documents(jobs)


def unproved(is_whole):
    """The commands that need no proof, as `waiting` gives those that do. They wait for a crate after which processors are idle."""
    for name in [] if is_whole else trials.TESTS:
        yield {IDLE_AFTER}, f"tests of {name}", "trials.py", name
    if not is_whole:
        yield {IDLE_AFTER}, "the tables of cases by rattle", REPLAY, "rattle"
    for name in [] if is_whole else [name for name in trials.PROGRAMS if REPLAYED.get(name) != "rattle"]:
        yield {IDLE_AFTER}, f"cases of {name}", "commands.py", "--try", name
    yield {IDLE_AFTER}, "the examples of the doc comments", "doc_examples.py"


def waiting(top):
    """The commands that wait for crates of that copy of the repository, and for the library for C: these, a name, words."""
    programs = {"regroup", "regroup_lines_cli"}
    for ending in COMPILERS:
        built = {crate: top / "crates" / crate / "out" / f"{crate}{ending}" for crate in [*BUILT, *programs]}
        for crate in [name for name in BUILT if (top / "crates" / name).is_dir()]:
            for script in BUILT[crate]:
                words = ["--program", built[crate], crate] if script == "commands.py" else [built[crate]]
                yield {crate}, f"{script} {built[crate].name}", script, *words
        for crate in [name for name in REPLAYED if (top / "crates" / name).is_dir()]:
            program = top / "crates" / crate / "out" / f"{crate}{ending}"
            yield {crate}, f"the tables of cases by {program.name}", REPLAY, "--program", program, REPLAYED[crate]
        needed = {*programs, f"{memory_checks.CRATE}: tests"}
        yield needed, f"memory_checks.py regroup{ending}", "memory_checks.py", top, ending
    yield programs, "the commands of the READMEs", "readme_code.py", "--run", top
    for name in "c", "c++":
        yield {"library"}, f"the tables of cases by {name}", REPLAY, "--program", LIBRARY, name
    yield {"library"}, "a repository of one's own", TOOLS / "own_project.py", "--test"
    for test in sorted((ROOT / "packages").glob("*/test")):
        needed = {"library", "wasm"} if test.parent.name == "js" else {"library"}
        yield needed, str(test.relative_to(ROOT)), test, LIBRARY
    for script in "library_checks.py", "digit_checks.py", "work_checks.py":
        yield {"library"}, script, script, LIBRARY
    files = [LIBRARY, *(top / "crates" / crate / "out" / crate for crate in sorted(programs))]
    yield {"library", "wasm", *programs}, "packages/release/checks", ROOT / "packages" / "release" / "checks", *files
    yield {"library", *programs}, "bench/test", ROOT / "bench" / "test", files[0], files[-1]


def test(tally, is_whole, is_anew):
    """Proves all, or what users need, and runs every test and program. Shows what the proofs took."""
    with copied(is_whole) as copy, Watch(copy) as watch, Jobs(tally, shows_all=True, beside=4) as jobs:
        left, there, lock = [*unproved(is_whole), *waiting(copy)], set(), threading.Lock()

        def start(*names):
            """Starts what waits for these, and for nothing that is not there."""
            with lock:
                there.update(names)
                for due in [one for one in left if one[0] <= there]:
                    left.remove(due)
                    jobs.script(*due[1:], nice=SOON)

        start_documents(jobs)
        jobs.script("numfmt", "numfmt_rows.py")
        def lower():
            """Starts what waits for the library for C, and builds that for WebAssembly, which is proved as it is."""
            start("library")
            jobs.start(" ".join(WASM), ["nice", "-n", str(SOON), *WASM], is_counted=False, then=lambda: start("wasm"))

        built = {"is_counted": False, "then": lower, "cwd": library_checks.CRATE}
        jobs.start("rt lib", ["nice", "-n", str(SOON), "rt", "lib"], **built)
        for name in prove(tally, copy, is_anew):
            keep(copy, name)
            start(name)
        # What waits for a crate that is not proved says what is missing.
        start(*(name for needed, *_ in left for name in needed - {"library", "wasm"}))
    heading("what the proofs took")
    print("\n".join(watch.report(read_crates(ROOT))), flush=True)


def main():
    parser = argparse.ArgumentParser(description="Tests everything, in minutes, or proves and tests everything.")
    parser.add_argument("--prove", action="store_true", help="prove what users need, and run every test")
    parser.add_argument("--edits", action="store_true", help="prove the tests too, and try the must-fail edits")
    parser.add_argument("--anew", action="store_true", help="take nothing that an earlier run proved")
    given = parser.parse_args()
    if (given.edits or given.anew) and not given.prove:
        parser.error("--edits and --anew go with --prove")
    tally = Tally()
    if given.prove:
        test(tally, given.edits, given.anew)
    else:
        heading("the tests, unproved")
        with Jobs(tally, shows_all=False) as jobs:
            start_unproved(jobs)
        print("nothing is proved by this: python3 tools/test.py --prove does that")
    tally.end()


if __name__ == "__main__":
    main()
