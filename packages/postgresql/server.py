"""A server of PostgreSQL that has the extension, in a temporary folder, for as long as it is needed.

The extension is installed into that folder, and the server looks for it there by its setting
extension_destdir, which Debian's servers have. So nothing is written elsewhere. The server listens on a Unix
socket in the folder, and on nothing else. Where root runs this, the user nobody runs the server.
"""
import os
import pwd
import shutil
import subprocess
from contextlib import contextmanager
from pathlib import Path

HERE = Path(__file__).resolve().parent
LIBRARY = HERE.parent.parent / "crates/num_format_c/out/libnum_format_c.a"

PG_CONFIG = os.environ.get("PG_CONFIG", "pg_config")

# The most seconds for a run.
RUN_SECONDS = 1500

SETTINGS = """
listen_addresses = ''
unix_socket_directories = '{folder}'
extension_destdir = '{folder}/root'
fsync = off
max_worker_processes = 8
max_parallel_workers = 8
shared_buffers = 256MB
"""


def run(words, **how):
    """Runs a command, and returns its status and what it printed."""
    how = {"stdout": subprocess.PIPE, "stderr": subprocess.STDOUT, "timeout": RUN_SECONDS, **how}
    ended = subprocess.run(words, check=False, text=True, **how)
    return ended.returncode, ended.stdout


def asked(what):
    """What pg_config says."""
    return Path(run([PG_CONFIG, what])[1].strip())


def as_server(words):
    """The words that run a command as a user who may run a server."""
    if os.geteuid() != 0:
        return words
    nobody = pwd.getpwnam("nobody")
    return ["setpriv", f"--reuid={nobody.pw_uid}", f"--regid={nobody.pw_gid}", "--clear-groups", *words]


def major():
    """The first number of the server's version."""
    return run([PG_CONFIG, "--version"])[1].split()[1].partition(".")[0]


def lack_to_build():
    """What is missing to build the extension, if anything is."""
    for tool in ["cc", "make", PG_CONFIG]:
        if shutil.which(tool) is None:
            return f"there is no `{tool}`"
    if not (asked("--includedir-server") / "postgres.h").is_file():
        return "there is no header postgres.h"
    return None


def lack():
    """What is missing to build the extension and run a server, if anything is."""
    if why := lack_to_build():
        return why
    for tool in ["initdb", "pg_ctl", "postgres", "psql"]:
        if not (asked("--bindir") / tool).is_file():
            return f"there is no `{asked('--bindir') / tool}`"
    if "extension_destdir" not in run(as_server([asked("--bindir") / "postgres", "--describe-config"]))[1]:
        return "the server has no setting extension_destdir, as Debian's has"
    return None


def make(build, target, library, *settings, **how):
    """Runs make in the folder `build`, and returns its status and what it printed."""
    words = ["make", "-s", "-f", HERE / "Makefile", target, f"PG_CONFIG={PG_CONFIG}", f"LIBRARY={library}"]
    build.mkdir(exist_ok=True)
    return run([*words, *settings], cwd=build, **how)


class Server:
    """A running server, which has the extension, but in no database yet."""

    def __init__(self, folder):
        self.folder = folder

    def psql(self, script, database="postgres", user="postgres"):
        """Runs a script of SQL, and returns the lines that it prints, with those of errors."""
        words = [asked("--bindir") / "psql", "-X", "-q", "-A", "-t", "-P", "null=NULL", "-h", self.folder, "-U", user]
        return run([*words, "-d", database], input=script)[1].splitlines()


@contextmanager
def started(folder):
    """Starts a server in the folder, below whose `root` the extension is installed, and stops it at the end."""
    data = folder / "data"
    data.mkdir()
    if os.geteuid() == 0:
        for owned in [folder, data]:
            shutil.chown(owned, "nobody")
    words = ["-D", data, "-U", "postgres", "-A", "trust", "-E", "UTF8", "--locale=C", "--no-sync"]
    status, shown = run(as_server([asked("--bindir") / "initdb", *words]))
    if status:
        raise RuntimeError(shown)
    with open(data / "postgresql.conf", "a", encoding="utf-8") as settings:
        settings.write(SETTINGS.format(folder=folder))
    control = [asked("--bindir") / "pg_ctl", "-D", data, "-w"]
    try:
        status, shown = run(as_server([*control, "-l", data / "log", "start"]))
        if status:
            raise RuntimeError(shown + (data / "log").read_text(encoding="utf-8"))
        yield Server(folder)
    finally:
        run(as_server([*control, "-m", "fast", "stop"]))
