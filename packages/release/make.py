"""Makes what users without Rattle's kit install, from what is proved and built.

    tools/release FOLDER [LIBRARY REGROUP REGROUP_LINES]

FOLDER gets a tarball with the programs and the library for C, a wheel for Python, a Debian package with what the
tarball has, a Rust crate and an npm package, which are tarballs too, and a tarball each with the extension of SQLite
and with that of the PostgreSQL of `pg_config`. Each has NOTICE, docs/GUIDE.md and examples, which for Rust and SQL are
the code in the package's README. Without the files of the library and of the programs, they are those that tools/build
builds, which proves what is missing. Two runs write the same bytes: all times are SOURCE_DATE_EPOCH, or else that of
the last commit, or of VERSION. What lacks a tool or a header here is left out, with a line.
"""
import gzip
import os
import re
import shutil
import subprocess
import sys
import tarfile
import tempfile
from pathlib import Path

ROOT = Path(__file__).resolve().parents[2]
PYTHON = ROOT / "packages" / "python"
RUST = ROOT / "packages" / "rust"
JS = ROOT / "packages" / "js"
SQLITE = ROOT / "packages" / "sqlite"
POSTGRESQL = ROOT / "packages" / "postgresql"
HERE = ROOT / "packages" / "release"
sys.path[:0] = [str(PYTHON), str(POSTGRESQL)]

import environment
import server

VERSION = (ROOT / "VERSION").read_text(encoding="utf-8").strip()
NAME = f"num-format-{VERSION}"
CRATES = ROOT / "crates"
BUILT = [CRATES / "num_format_c/out/libnum_format_c.a", CRATES / "regroup/out/regroup"]
BUILT += [CRATES / "regroup_lines_cli/out/regroup_lines_cli"]

# The library for WebAssembly, beside that for C.
WASM = Path("wasm/num_format_c.wasm")

# A link of a document to a file of the repository, and a README's code, traps and section of calls.
LINK = re.compile(r"\[([^]]*)\]\((?!https?:|#)([^)#\s]*)(#[^)]*)?\)")
CODE = re.compile(r"^```(?:rust|sql)\n(.*?)^```$", re.MULTILINE | re.DOTALL)
CALLS = re.compile(r"^(\*\*Traps\*\*.*?)^\*\*\[Times\].*?(^## Calls.*?)^## Install", re.MULTILINE | re.DOTALL)

# No debug information, which has paths of this machine.
PLAIN = f"-g0 -ffile-prefix-map={ROOT}=."

# A version of the C library that a file needs, and the first that a tag of a wheel names.
GLIBC = re.compile(r"\bGLIBC_2\.(\d+)")
FIRST_GLIBC = 17

CONTROL = f"""Package: num-format
Version: {VERSION}
Architecture: amd64
Maintainer: the authors of num-format, proved <num-format@localhost>
Section: libs
Priority: optional
Depends: libc6 (>= 2.{{glibc}})
Installed-Size: {{size}}
Description: whole numbers and decimals with separators between groups of digits
 The programs regroup and regroup-lines, and the library for C and C++, shared and
 static. Proved is what the library's calls return and write, what regroup writes,
 and what regroup-lines writes of lines. Only tested are headers, and its command
 line and sums. It needs a processor of level x86-64-v2.
"""


def date():
    """The time that all files have."""
    given = os.environ.get("SOURCE_DATE_EPOCH")
    words = ["git", "-C", ROOT, "log", "-1", "--format=%ct"]
    found = given or subprocess.run(words, capture_output=True, text=True, check=False).stdout
    return int(found) if found else int((ROOT / "VERSION").stat().st_mtime)


def glibc(folder):
    """The least minor version of the C library, 2, that all programs and libraries in a folder can run on."""
    needed = [FIRST_GLIBC]
    for file in folder.rglob("*"):
        if file.is_file() and not file.is_symlink() and file.read_bytes()[:4] == b"\x7fELF":
            read = subprocess.run(["readelf", "-V", file], stdout=subprocess.PIPE, text=True, check=True)
            needed += map(int, GLIBC.findall(read.stdout))
    return max(needed)


def install(built, prefix, libdir="lib", destdir=""):
    """Installs the library and the programs."""
    env = {**os.environ, "LIBDIR": libdir, "DESTDIR": str(destdir)}
    subprocess.run([ROOT / "packages" / "c" / "install", prefix, built[0]], env=env, check=True)
    subprocess.run([ROOT / "tools" / "install", prefix, *built[1:]], env=env, check=True)


def write(to, text):
    """Writes a document, of whose links to files of the repository only that to the guide stays a link."""
    text = LINK.sub(lambda it: f"[{it[1]}](GUIDE.md{it[3] or ''})" if it[2].endswith("GUIDE.md") else it[1], text)
    to.write_text(text, encoding="utf-8")


def add_documents(to, examples):
    """Adds the guide, and files as examples."""
    (to / "examples").mkdir(parents=True)
    write(to / "GUIDE.md", (ROOT / "docs" / "GUIDE.md").read_text(encoding="utf-8"))
    for file in filter(Path.is_file, examples):
        shutil.copy(file, to / "examples")


def programs():
    """The examples of the library for C and of the programs."""
    return [file for file in (ROOT / "examples").iterdir() if file.name not in ("README.md", "run")]


def make_tarball(built, folder, made, time):
    top = made / NAME
    install(built, top)
    text = (HERE / "tarball.md").read_text(encoding="utf-8")
    needed = f"glibc 2.{glibc(top / 'bin')} or later for the programs, 2.{glibc(top / 'lib')} for the library;"
    write(top / "README.md", text.replace("glibc;", needed))
    shutil.copy(ROOT / "NOTICE", top)
    add_documents(top, programs())
    return [pack(top, folder / f"{NAME}-linux-x86_64-v2.tar.gz", time)]


def pack(top, to, time):
    """Makes a tarball of a folder, and returns its path."""

    def plain(member):
        member.uid = member.gid = 0
        member.uname = member.gname = "root"
        member.mtime, member.mode = time, member.mode & 0o755
        return member

    # `add` goes through a folder in the order of its names.
    with to.open("wb") as file, gzip.GzipFile("", "wb", 9, file, mtime=time) as packed:
        with tarfile.open(fileobj=packed, mode="w", format=tarfile.GNU_FORMAT) as tar:
            tar.add(top, top.name, filter=plain)
    return to


def make_crate(built, folder, made, time):
    """Makes a crate of the Rust package without its tests, with the static library in it."""
    top = made / f"num-format-proved-{VERSION}"
    ignored = shutil.ignore_patterns("target", "Cargo.lock", "tests", "test", "*.py", "__pycache__", ".*")
    shutil.copytree(RUST, top, ignore=ignored)
    (top / "lib").mkdir()
    shutil.copy(built[0], top / "lib" / "libnum_format.a")
    shutil.copy(ROOT / "NOTICE", top)
    for manifest in top.rglob("Cargo.toml"):
        text = manifest.read_text(encoding="utf-8").replace("../../NOTICE", "NOTICE")
        manifest.write_text(re.sub(r"\n[^\n]*\n\[\[test\]\]\n.*", "", text, flags=re.DOTALL), encoding="utf-8")
    add_documents(top, [])
    program = CODE.findall((RUST / "README.md").read_text(encoding="utf-8"))[1]
    (top / "examples" / "calls.rs").write_text(program, encoding="utf-8")
    return [pack(top, folder / f"{top.name}.crate", time)]


def make_npm(built, folder, made, time):
    """Makes a package as `npm pack` does, of the package for JavaScript without its tests, with the module in it."""
    module = built[0].parent / WASM
    missing = [] if module.is_file() else ["the library for WebAssembly"]
    missing += [] if shutil.which("wasm-opt") else ["`wasm-opt`"]
    if missing:
        print(f"no npm package: {' and '.join(missing)} is missing")
        return []
    top = made / "package"
    shutil.copytree(JS, top, ignore=shutil.ignore_patterns("build", "test", "tests", "*.wasm", "__pycache__"))
    subprocess.run([JS / "build", module, top / "num_format.wasm"], stdout=subprocess.DEVNULL, check=True)
    write(top / "README.md", (top / "README.md").read_text(encoding="utf-8"))
    shutil.copy(ROOT / "NOTICE", top)
    add_documents(top, (ROOT / "examples" / "web").iterdir())
    page = top / "examples" / "index.html"
    page.write_text(page.read_text(encoding="utf-8").replace("../../packages/js/", "../"), encoding="utf-8")
    return [pack(top, folder / f"num-format-proved-{VERSION}.tgz", time)]


def make_wheel(built, folder, made, time):
    python, lacking = environment.find_python(environment.NEEDED, [])
    if lacking:
        print(f"no wheel: {', '.join(lacking)} is missing")
        return []
    package, to = made / "python", made / "wheel"
    environment.copy(package)
    add_documents(package / "src" / "num_format" / "docs", [PYTHON / "pandas.md", *(PYTHON / "examples").iterdir()])
    flags = {"CFLAGS": "-g0", "LDFLAGS": "-Wl,-s", "SOURCE_DATE_EPOCH": str(time), "PYTHONDONTWRITEBYTECODE": "1"}
    # build_native.py looks for the header beside the library.
    library = shutil.copy(built[0], made)
    shutil.copy(CRATES / "num_format_c" / "num_format.h", made)
    how = {"cwd": package, "env": {**os.environ, **flags, "NUM_FORMAT_LIBRARY": library}}

    def setup(*words):
        # It warns of its own settings.
        ended = subprocess.run([python, "setup.py", *words], capture_output=True, text=True, check=False, **how)
        if ended.returncode:
            sys.exit(f"setup.py {words[0]}: status {ended.returncode}\n{ended.stdout}{ended.stderr}")

    setup("build")
    tag = f"manylinux_2_{glibc(package / 'build')}_x86_64"
    setup("bdist_wheel", "--skip-build", "--plat-name", tag, "--dist-dir", to)
    return [Path(shutil.copy(wheel, folder)) for wheel in to.glob("*.whl")]


def make_debian(built, folder, made, time):
    if shutil.which("dpkg-deb") is None:
        print("no Debian package: there is no `dpkg-deb`")
        return []
    top = made / "debian"
    install(built, "/usr", "lib/x86_64-linux-gnu", top)
    notices = top / "usr" / "share" / "doc"
    (notices / "num-format").mkdir()
    shutil.copy(ROOT / "NOTICE", notices / "num-format" / "copyright")
    add_documents(notices / "num-format", programs())
    size = sum(file.lstat().st_size for file in top.rglob("*")) // 1024
    (top / "DEBIAN").mkdir()
    (top / "DEBIAN" / "control").write_text(CONTROL.format(glibc=glibc(top), size=size), encoding="utf-8")
    # The loader finds the shared library.
    (top / "DEBIAN" / "triggers").write_text("activate-noawait ldconfig\n", encoding="utf-8")
    for file in [top, *top.rglob("*")]:
        os.utime(file, (time, time), follow_symlinks=False)
    to = folder / f"num-format_{VERSION}_amd64.deb"
    # Parts that xz makes side by side would depend on how many processors there are.
    words = ["dpkg-deb", "-Zgzip", "--root-owner-group", "--build", top, to]
    subprocess.run(words, env={**os.environ, "SOURCE_DATE_EPOCH": str(time)}, stdout=subprocess.DEVNULL, check=True)
    return [to]


def pack_extension(name, package, head, top, folder, time):
    """Makes a tarball of a folder that has the files of an extension, with a README that begins with that head."""
    top = top.rename(top.with_name(f"num-format-{name}-{VERSION}"))
    readme = (package / "README.md").read_text(encoding="utf-8")
    head = head.replace("glibc;", f"glibc 2.{glibc(top)} or later;")
    write(top / "README.md", head + "\n" + "".join(CALLS.search(readme).groups()))
    shutil.copy(ROOT / "NOTICE", top)
    add_documents(top, [])
    (top / "examples" / "calls.sql").write_text(CODE.search(readme)[1], encoding="utf-8")
    return [pack(top, folder / f"{top.name}-linux-x86_64-v2.tar.gz", time)]


def make_sqlite(built, folder, made, time):
    compiled = [os.environ.get("CC", "cc"), "-fsyntax-only", "-include", "sqlite3ext.h", "-xc", os.devnull]
    has_tools = shutil.which("make") and shutil.which(compiled[0])
    if not has_tools or subprocess.run(compiled, stderr=subprocess.DEVNULL, check=False).returncode:
        print("no extension of SQLite: a C compiler, `make` or sqlite3ext.h is missing")
        return []
    top = made / "sqlite"
    settings = [f"OUT={top}/", f"LIBRARY={built[0]}", f"CFLAGS=-O2 -s {PLAIN}"]
    subprocess.run(["make", "-s", "-C", SQLITE, *settings], check=True)
    return pack_extension("sqlite", SQLITE, (HERE / "sqlite.md").read_text(encoding="utf-8"), top, folder, time)


def make_postgresql(built, folder, made, time):
    if why := server.lack_to_build():
        print(f"no extension of PostgreSQL: {why}")
        return []
    top, build = made / "postgresql", made / "build"
    status, said = server.make(build, "install", built[0], f"COPT={PLAIN}", f"DESTDIR={made}/root")
    if status:
        sys.exit(said)
    top.mkdir()
    for file in filter(Path.is_file, (made / "root").rglob("num_format*[!E]")):
        shutil.copy(file, top)
    major = server.major()
    head = (HERE / "postgresql.md").read_text(encoding="utf-8").replace("PostgreSQL N", f"PostgreSQL {major}")
    return pack_extension(f"postgresql{major}", POSTGRESQL, head, top, folder, time)


def main():
    words = sys.argv[1:]
    if words in (["--help"], ["-h"]):
        print(__doc__, end="")
        return
    if len(words) not in (1, 4) or words[0].startswith("-"):
        sys.exit("usage: tools/release FOLDER [LIBRARY REGROUP REGROUP_LINES]")
    folder, *built = [Path(word).resolve() for word in words]
    if not built and not all(file.is_file() for file in BUILT):
        # It says what is missing.
        if subprocess.run([ROOT / "tools" / "build"], check=False).returncode:
            sys.exit(1)
    if not built and shutil.which("wasm-opt") and not (BUILT[0].parent / WASM).is_file():
        subprocess.run([ROOT / "tools" / "build", "library", "--target", "wasm"], check=False)
    built, time = built or BUILT, date()
    folder.mkdir(parents=True, exist_ok=True)
    os.umask(0o022)
    with tempfile.TemporaryDirectory() as name:
        made = Path(name)
        for make in make_tarball, make_wheel, make_debian, make_crate, make_npm, make_sqlite, make_postgresql:
            print("".join(f"{file}\n" for file in make(built, folder, made, time)), end="", flush=True)


if __name__ == "__main__":
    main()
