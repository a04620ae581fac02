"""An environment of Python that has the package over a static library, in a temporary folder.

It needs a `python3` with its headers, setuptools, wheel, pip and venv, and a C compiler. Of those on the path and
/usr/bin/python3, the one that lacks the least is taken. Nothing is written into the repository, and no network is
used.
"""
import os
import shutil
import subprocess
from pathlib import Path

HERE = Path(__file__).resolve().parent
LIBRARY = HERE.parents[1] / "crates" / "num_format_c" / "out" / "libnum_format_c.a"

# What the package cannot be installed without.
NEEDED = ["setuptools", "wheel", "pip", "venv"]

# What the copy of the package leaves out.
IGNORED = shutil.ignore_patterns("__pycache__", "build", "*.egg-info", "_native.*.so")


def missing(python, modules):
    """The modules that a Python lacks, or None if it does not run."""
    code = "import sys, importlib.util as u; print(*[m for m in sys.argv[1:] if u.find_spec(m) is None])"
    try:
        ended = subprocess.run([python, "-c", code, *modules], capture_output=True, text=True, check=False)
    except OSError:
        return None
    return ended.stdout.split() if ended.returncode == 0 else None


def find_python(needed, wanted):
    """The Python that lacks the least of what is needed, and then of what is wanted; and what it needs and lacks."""
    folders = dict.fromkeys([*os.environ.get("PATH", "").split(os.pathsep), "/usr/bin"])
    pythons = [Path(folder) / "python3" for folder in folders if (Path(folder) / "python3").is_file()]
    lacking = {python: missing(python, needed + wanted) for python in pythons}
    able = [python for python in pythons if lacking[python] is not None]
    tools = [] if shutil.which(os.environ.get("CC", "cc")) else ["cc"]
    if not able:
        return None, ["python3", *tools]
    best = min(able, key=lambda python: (len(set(needed) & set(lacking[python])), len(lacking[python])))
    return best, [module for module in needed if module in lacking[best]] + tools


def copy(to):
    """Copies the package, with NOTICE, of which the repository has one."""
    shutil.copytree(HERE, to, ignore=IGNORED)
    shutil.copy(HERE.parents[1] / "NOTICE", to)


def install(python, folder, library):
    """Installs a copy of the package in a new environment. Returns its Python, or None if that failed."""
    package = folder / "package"
    copy(package)
    environment = folder / "environment"
    made = environment / "bin" / "python"
    env = {**os.environ, "NUM_FORMAT_LIBRARY": str(library), "PIP_DISABLE_PIP_VERSION_CHECK": "1"}
    # No cache of pip's, no settings of the user's.
    env |= {"HOME": str(folder), "PIP_CONFIG_FILE": os.devnull, "CFLAGS": os.environ.get("CFLAGS", "") + " -Werror"}
    pip = [made, "-m", "pip", "install", "--quiet", "--no-index", "--no-build-isolation", "--no-cache-dir", package]
    for words in [[python, "-m", "venv", "--system-site-packages", environment], pip]:
        if subprocess.run(words, env=env, check=False).returncode:
            return None
    return made
