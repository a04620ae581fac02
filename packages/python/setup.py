"""Compiles the extension module. All else is in pyproject.toml."""
import importlib.util
import shutil
import sys
from pathlib import Path

from setuptools import setup

# A build without isolation takes this of the environment, and would fail without a word of it.
if not any(importlib.util.find_spec(name) for name in ["wheel", "setuptools.command.bdist_wheel"]):
    raise SystemExit(
        "num-format: this Python lacks wheel. With a network `pip install packages/python` takes it; without, use a "
        "Python that has it, as Debian's with python3-setuptools and python3-wheel"
    )

# Pip does not look into this folder for modules.
sys.path.insert(0, str(Path(__file__).resolve().parent))

from build_native import module, serves_all

# The repository has one NOTICE, at its top, and the package takes it with it.
notice = Path(__file__).resolve().parents[2] / "NOTICE"
if notice.is_file():
    shutil.copy(notice, ".")

setup(ext_modules=[module], options={"bdist_wheel": {"py_limited_api": "cp310"}} if serves_all else {})
