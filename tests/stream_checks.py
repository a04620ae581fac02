#!/usr/bin/env python3
"""Runs `regroup-lines` where its system calls count: how much it writes and reads at once. Compares its options with those
of the man page.

    python3 tests/stream_checks.py [PROGRAM]    # crates/regroup_lines_cli/out/regroup_lines_cli

A socket and a pipe of packets keep each write apart. Of a packet that is longer than a read of it, the rest is lost.
"""
import os
import re
import select
import socket
import subprocess
import sys
import tempfile
from pathlib import Path

from filter_checks import PROGRAM, regroup
from tally import ROOT, RUN_SECONDS, Tally, heading

# The bytes of a block of the output, and of what one read asks for.
BLOCK = 65_536

# Lines of more than one block, and what is written of them.
LINES = 100_000 * [b"1,000\n"]
WRITTEN = 100_000 * [b"1.000\n"]

# An option in the man page, and in what --help prints: its letter, its name and its value.
MAN_OPTION = re.compile(r"^\.It (?:Fl (\w) , )?Fl -([\w-]+)(?: Ar (\w+))?$", re.M)
HELP_OPTION = re.compile(r"^ +(?:-(\w), )?--([\w-]+)(?: <(\w+)>)?", re.M)


def packets():
    """The two ends of a socket that keeps packets apart."""
    return socket.socketpair(socket.AF_UNIX, socket.SOCK_SEQPACKET)


def writes_of(program, words, text):
    """The exit status of a run over a file with this text, and each of its writes to standard output."""
    ours, its = packets()
    with tempfile.TemporaryFile() as given:
        given.write(text)
        given.seek(0)
        with subprocess.Popen([program, *words], stdin=given, stdout=its) as ended:
            its.close()
            writes = list(iter(lambda: ours.recv(2 * BLOCK), b""))
            ours.close()
    return ended.returncode, writes


def check_writes(tally, program):
    heading("the writes to standard output")
    text, whole = b"".join(LINES), b"".join(WRITTEN)
    status, writes = writes_of(program, ["en", "de"], text)
    tally.compare("all that is written", (status, b"".join(writes) == whole), (0, True))
    # A block is written where it has no space for a line more, and what is held before each read.
    tally.compare("the longest write", BLOCK - len(WRITTEN[0]) < max(map(len, writes)) <= BLOCK, True)
    tally.compare("two writes a block at most", len(writes) <= 2 * -(-len(whole) // BLOCK) + 1, True)
    status, writes = writes_of(program, ["--line-buffered", "en", "de"], text)
    tally.compare("--line-buffered", (status, len(writes), writes == WRITTEN), (0, len(WRITTEN), True))


def check_reads(tally, program):
    heading("the reads of an input")
    line, expected = b"1,000 \r\n", b"1.000 \r\n"
    ours, its = packets()
    with subprocess.Popen([program, "en", "de"], stdin=its, stdout=subprocess.PIPE) as ended:
        its.close()
        ours.sendall(BLOCK // len(line) * line)
        ours.close()
        found = (ended.stdout.read() == BLOCK // len(line) * expected, ended.wait(RUN_SECONDS))
    tally.compare("standard input", found, (True, 0))
    given, sender = os.pipe2(os.O_DIRECT)
    words = [program, "en", "de", f"/dev/fd/{given}"]
    with subprocess.Popen(words, stdout=subprocess.PIPE, pass_fds=[given]) as ended:
        count = select.PIPE_BUF // len(line)
        os.write(sender, count * line)
        os.close(sender)
        found = (ended.stdout.read() == count * expected, ended.wait(RUN_SECONDS))
        os.close(given)
    tally.compare("a file", found, (True, 0))


def check_options(tally, program):
    heading("the options")
    page = MAN_OPTION.findall((ROOT / "man" / "regroup-lines.1").read_text(encoding="utf-8"))
    printed = HELP_OPTION.findall(regroup(program, ["--help"], b"").stdout.decode())
    tally.compare("those of --help are those of the man page", sorted(printed), sorted(page))
    completed = (ROOT / "tools" / "regroup-lines.bash").read_text(encoding="utf-8")
    missing = [name for _, name, _ in page if f"--{name}" not in completed.split('"')[1].split()]
    tally.compare("tools/regroup-lines.bash completes each", (len(page) > 9, missing), (True, []))


def main():
    program = Path(sys.argv[1]).resolve() if len(sys.argv) > 1 else PROGRAM
    tally = Tally()
    for check in check_writes, check_reads, check_options:
        check(tally, program)
    tally.end()


if __name__ == "__main__":
    main()
