"""The programs beside the package, and how it is built."""
import importlib.metadata
import importlib.util
import os
import re
import shutil
import subprocess
import sys
import zipfile
from pathlib import Path

import pytest

import num_format

PACKAGE = Path(__file__).resolve().parents[1]

# Compiles nothing: it runs what finds the library.
HOW = "import build_native; print(build_native.library, build_native.include)"


def run(*words, python=sys.executable, **env):
    """A program's status and what it prints, without the library's name in the environment."""
    kept = {name: value for name, value in os.environ.items() if not name.startswith(("NUM_FORMAT", "PKG_CONFIG"))}
    how = {"env": kept | env, "cwd": PACKAGE, "capture_output": True, "text": True, "timeout": 1500}
    ended = subprocess.run([python, *words], check=False, **how)
    return ended.returncode, ended.stdout, ended.stderr


def test_dask():
    pytest.importorskip("numpy")
    pytest.importorskip("dask.array")
    pytest.importorskip("distributed")
    status, output, errors = run(PACKAGE / "examples" / "dask_column.py", "200000", "sv")
    assert (status, output.splitlines()[-1:]) == (0, ["200,000 numbers, 200,000 equal"]), errors


def test_version():
    version = (Path(os.environ["NUM_FORMAT_REPOSITORY"]) / "VERSION").read_text().strip()
    assert num_format.__version__ == importlib.metadata.version("num-format") == version


def test_library_by_its_path():
    library = os.environ["NUM_FORMAT_LIBRARY"]
    status, output, errors = run("-c", HOW, NUM_FORMAT_LIBRARY=library)
    assert (status, output.split()[0]) == (0, library), errors


def test_library_by_pkg_config(tmp_path):
    if shutil.which("pkg-config") is None:
        pytest.skip("there is no `pkg-config`")
    (tmp_path / "libnum_format.a").touch()
    (tmp_path / "include").mkdir()
    (tmp_path / "include" / "num_format.h").touch()
    places = f"libdir={tmp_path}\nincludedir={tmp_path}/include\n"
    (tmp_path / "num_format.pc").write_text(f"{places}Name: num_format\nDescription: -\nVersion: 0.1.0\n")
    status, output, errors = run("-c", HOW, PKG_CONFIG_PATH=str(tmp_path))
    assert (status, output.split()) == (0, [f"{tmp_path}/libnum_format.a", f"{tmp_path}/include"]), errors


def test_no_library(tmp_path):
    """The copy of the package that is tested is in no repository."""
    status, _, errors = run("-c", HOW, PKG_CONFIG_LIBDIR=str(tmp_path))
    assert status == 1
    assert "Build it by `tools/build library`, or set NUM_FORMAT_LIBRARY to its path." in errors
    missing = str(tmp_path / "missing.a")
    status, _, errors = run("-c", HOW, NUM_FORMAT_LIBRARY=missing)
    assert status == 1 and f"NUM_FORMAT_LIBRARY is {missing}, which is no file" in errors


def test_no_header(tmp_path):
    library = tmp_path / "a" / "b" / "libnum_format_c.a"
    library.parent.mkdir(parents=True)
    library.touch()
    status, _, errors = run("-c", HOW, NUM_FORMAT_LIBRARY=str(library))
    assert status == 1 and "no num_format.h" in errors


def make_wheel(name, folder):
    """Makes the wheel that a registry would have of an installed distribution, which needs no other."""
    found = importlib.metadata.distribution(name)
    info = f"{name}-{found.version}.dist-info"
    specs = map(importlib.util.find_spec, (found.read_text("top_level.txt") or name).split())
    with zipfile.ZipFile(folder / f"{name}-{found.version}-py3-none-any.whl", "w") as wheel:
        for origin in [Path(spec.origin) for spec in specs if spec]:
            is_package = origin.stem == "__init__"
            for path in origin.parent.rglob("*.*") if is_package else [origin]:
                if path.is_file() and path.suffix != ".pyc":
                    wheel.write(path, path.relative_to(origin.parents[is_package]))
        lines = ["Metadata-Version: 2.1", f"Name: {name}", f"Version: {found.version}"]
        wheel.writestr(f"{info}/METADATA", "\n".join(lines))
        wheel.writestr(f"{info}/WHEEL", "Wheel-Version: 1.0\nRoot-Is-Purelib: true\nTag: py3-none-any\n")
        wheel.writestr(f"{info}/entry_points.txt", found.read_text("entry_points.txt") or "")
        record = f"{info}/RECORD"
        wheel.writestr(record, "".join(f"{path},,\n" for path in [*wheel.namelist(), record]))


def test_plain_pip_install(tmp_path):
    """With wheels of a folder in place of a network, pip takes what pyproject.toml names, and nothing that is here."""
    for name in ["setuptools", "wheel"]:
        make_wheel(name, tmp_path)
    environment = tmp_path / "environment"
    status, _, errors = run("-m", "venv", environment)
    assert status == 0, errors
    made, library = environment / "bin" / "python", os.environ["NUM_FORMAT_LIBRARY"]
    words = ["-m", "pip", "install", "--quiet", "--no-index", "--find-links", tmp_path, "--no-cache-dir", PACKAGE]
    status, _, errors = run(*words, python=made, NUM_FORMAT_LIBRARY=library)
    assert status == 0, errors
    status, output, errors = run("-c", "import num_format; print(num_format.format(1234567, 'de'))", python=made)
    assert (status, output) == (0, "1.234.567\n"), errors


def test_build(tmp_path):
    """The archive of sources has what the wheel that is built of it needs."""
    pytest.importorskip("build.__main__")
    library = os.environ["NUM_FORMAT_LIBRARY"]
    words = ["-m", "build", "--no-isolation", "--outdir", tmp_path, PACKAGE]
    status, output, errors = run(*words, NUM_FORMAT_LIBRARY=library)
    assert status == 0, output + errors
    (wheel,) = tmp_path.glob("*.whl")
    names = {name.split(".")[0] for name in zipfile.ZipFile(wheel).namelist()}
    assert {"num_format/_native", "num_format/columns", "num_format/py"} <= names
    metadata = zipfile.ZipFile(wheel).read(next(name for name in zipfile.ZipFile(wheel).namelist() if "METADATA" in name))
    # The wheel takes no other package but for columns.
    assert all("extra ==" in need for need in re.findall("Requires-Dist: (.*)", metadata.decode()))
