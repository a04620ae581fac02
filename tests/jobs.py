"""Runs commands side by side, and counts the checks that each says passed and failed in its last line."""
import os
import re
import subprocess
import sys
import tempfile
import threading
import time
from concurrent.futures import ThreadPoolExecutor
from pathlib import Path

from tally import ROOT, elapsed

# A skipped check, and the last line.
SKIPPED = re.compile(r"^skipped:? (.*?): (.*)$", re.M)
COUNTED = re.compile(r"(\d+) passed, (\d+) failed(?:, \d+ skipped)?\n\Z")
# What is always shown: what failed, and how many cases were replayed.
SHOWN = re.compile(r"^(?:FAILED .*|\S+: \d+ cases, and .*)$", re.M)


class Jobs:
    """Commands by their names. As many run at once as there are processors, and some more beside, in the order in which
    they are started."""

    def __init__(self, tally, shows_all, beside=0):
        self.tally, self.shows_all = tally, shows_all
        self.pool = ThreadPoolExecutor(len(os.sched_getaffinity(0)) + beside)
        self.printing, self.left = threading.Condition(), 0

    def __enter__(self):
        return self

    def __exit__(self, *_):
        """Waits for the commands, and for those that are started meanwhile."""
        with self.printing:
            self.printing.wait_for(lambda: not self.left)
        self.pool.shutdown()

    def script(self, name, *words, nice=0, **how):
        """Starts a script of tests/ with these words, or a program, which is a path."""
        program = [words[0]] if isinstance(words[0], Path) else [sys.executable, ROOT / "tests" / words[0]]
        self.start(name, ["nice", "-n", str(nice), *program, *words[1:]], **how)

    def start(self, name, words, is_counted=True, then=None, cwd=ROOT):
        """Starts a command. One that is not counted is a check itself. Where it has ended, `then` is called."""
        with self.printing:
            self.left += 1
        self.pool.submit(self.run, name, words, is_counted, then, cwd)

    def run(self, name, words, is_counted, then, cwd):
        began = time.monotonic()
        self.say(f"{elapsed()} {name} ..")
        try:
            with tempfile.TemporaryFile("w+", errors="replace") as log:
                how = {"stdin": subprocess.DEVNULL, "stdout": log, "stderr": subprocess.STDOUT, "cwd": cwd}
                status = subprocess.run(list(map(str, words)), check=False, **how).returncode
                log.seek(0)
                printed = log.read()
            with self.printing:
                self.add(name, status, printed, is_counted, int(time.monotonic() - began))
            if then:
                then()
        finally:
            with self.printing:
                self.left -= 1
                self.printing.notify_all()

    def say(self, text):
        with self.printing:
            print(text, flush=True)

    def add(self, name, status, printed, is_counted, seconds):
        """Adds what a command counts, and shows it."""
        for what, why in SKIPPED.findall(printed):
            self.tally.skip(f"{name}: {what}", why)
        counted = COUNTED.search(printed)
        passed, failed = map(int, counted.groups()) if counted else (0, 0)
        self.tally.count(passed, failed)
        shown = printed if self.shows_all else "".join(f"{line}\n" for line in SHOWN.findall(printed))
        print(f"{shown}{elapsed()} {name}: {passed} passed, {failed} failed in {seconds} s", flush=True)
        if not is_counted:
            self.tally.add(name, f"status {status} after {printed[-900:]}" if status else None)
        elif not counted or bool(status) != bool(failed):
            self.tally.add(name, f"status {status} after {printed[-900:]}")
