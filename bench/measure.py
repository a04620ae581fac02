"""Builds what measures each language, side by side, and measures one after the other."""
from concurrent.futures import ThreadPoolExecutor

import cells
import languages
from programs import in_programs

CRATES = cells.ROOT / "crates"
LIBRARY = CRATES / "num_format_c" / "out" / "libnum_format_c.a"
PROGRAM = CRATES / "regroup_lines_cli" / "out" / "regroup_lines_cli"

LANGUAGES = {
    "Rust": languages.in_rust,
    "C": languages.in_c,
    "C++": languages.in_cpp,
    "Python": languages.in_python,
    "JavaScript": languages.in_javascript,
    "SQLite": languages.in_sqlite,
    "PostgreSQL": languages.in_postgresql,
    "Programs": in_programs,
}


def build_all(given):
    """A function that measures, for each language, or what is missing for it."""
    languages.prepare(given)
    with ThreadPoolExecutor() as pool:
        started = {name: pool.submit(build, given) for name, build in LANGUAGES.items()}
    built, missing = {}, {}
    for name, future in started.items():
        try:
            built[name] = future.result()
        except languages.Lack as lack:
            missing[name] = str(lack)
    return built, missing


def measure_all(built):
    """The lines of each language, and what was skipped and why."""
    found, skipped = {}, []
    for name, measure in built.items():
        found[name], lacks = measure()
        skipped += lacks
    return found, skipped


def different(found):
    """Each call that has another result than Python, with the language, what it does and the cell."""
    return [" ".join([name, *line[:4]]) for name, lines in found.items() for line in lines if line.time == "differs"]
