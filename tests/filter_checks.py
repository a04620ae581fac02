#!/usr/bin/env python3
"""Runs `regroup-lines` where a case cannot say it: records that Python's csv writes and reads, the sum of the man page,
rejected lines in a file, outputs and inputs that fail, a closed pipe, a slow input, long input in little memory, and the
engines of examples/engines.

    python3 tests/filter_checks.py [PROGRAM]    # crates/regroup_lines_cli/out/regroup_lines_cli
"""
import csv
import io
import itertools
import os
import random
import re
import resource
import subprocess
import sys
import tempfile
from decimal import Decimal
from pathlib import Path

from case_files import shown
from tally import ROOT, RUN_SECONDS, Tally, compare_failed, heading, run

PROGRAM = ROOT / "crates" / "regroup_lines_cli" / "out" / "regroup_lines_cli"
ENGINES = ROOT / "examples" / "engines" / "run"

# What is said of an output that fails, where it is full and where it is closed.
WRITE_ERRORS = [b"regroup-lines: write error: No space left on device\n", b"regroup-lines: write error\n"]

# Words, standard input, the output that fails, and what the other output receives in both.
FAILURES = [
    (["en", "de"], b"1000\n", "stdout", WRITE_ERRORS),
    (["en", "de"], 100_000 * b"1000\n", "stdout", WRITE_ERRORS),
    (["en", "de"], b"1000\nx\n", "stdout", WRITE_ERRORS),
    (["--line-buffered", "en", "de"], b"1000\n", "stdout", WRITE_ERRORS),
    (["en", "de"], b"1000\nx\n", "stderr", 2 * [b"1.000\n"]),
    (["--invalid=fail", "en", "de"], b"1000\nx\n", "stderr", 2 * [b"1.000\n"]),
    (["en", "xx"], b"", "stderr", 2 * [b""]),
    (["en", "de", "missing", "-"], b"1000\n", "stderr", 2 * [b"1.000\n"]),
    (["--invalid=fail", "en", "de", "missing", "-"], b"1000\nx\n", "stderr", 2 * [b"1.000\n"]),
    (["en", "de", "/", "-"], b"1000\n", "stderr", 2 * [b"1.000\n"]),
    (["en", "@missing"], b"", "stderr", 2 * [b""]),
    (["en"], b"", "stderr", 2 * [b""]),
    (["--nope", "en", "de"], b"", "stderr", 2 * [b""]),
    (["--field", "0", "en", "de"], b"", "stderr", 2 * [b""]),
    (["--field", "1", "-d", "ab", "en", "de"], b"", "stderr", 2 * [b""]),
    (["--csv", "--field", "1", "-d", '"', "en", "de"], b"", "stderr", 2 * [b""]),
    (["--help"], b"", "stdout", 2 * [b""]),
    (["--version"], b"", "stdout", 2 * [b""]),
]

# Mounts two file systems, prints the numbers of a file of each, and rejects the lines of the first into the second.
TWO_DEVICES = """mkdir one two; mount -t tmpfs none one; mount -t tmpfs none two
printf '1,000\\nx\\n' > one/given; : > two/rejects; stat -c %i one/given two/rejects | paste -s
"$0" --rejects two/rejects --invalid ignore en de one/given; cat two/rejects"""

# What is said of the format `xx`.
UNKNOWN = b"regroup-lines: 'xx' names no format\nTry 'regroup-lines --help' for more information.\n"

# How many lines a long input has, and how many of them stand before the line at fault.
LINES = 2_500_000
SOUND_LINES = 2_400_000

# How many records a text of them has.
RECORDS = 2000

# A line that no block of the output holds.
LONG_LINE = 100_000 * b"x" + b"\n"

# Regroups the third column of a table on many processes, and passes its header on.
TABLE_BY_PARALLEL = """head -n 1 "$1"
tail -n +2 "$1" | parallel --pipe --block 10M -k --halt never "$0" --invalid fail --field 3 en de"""

# The memory in bytes that the program may have, with its code: less than the long input.
MEMORY = 8 * 1024 * 1024

# How many lines the engines regroup, and a program that is not to be split: it writes one line more in each process.
ENGINE_LINES = 100_000
PREFIXED = "#!/bin/sh\necho first\nexec cat\n"
# What stands in place of a number of `en`, and what is one.
AMOUNTS = ['"1,234"', "-12345", "98765", " 4000 ", '"-1,234,567"', '" 4,000\t"', '""', "", "1234.5", '"1234.50"']
AMOUNTS += ["12x", '"1\n000"', '5"', '"5" ', ' "5"', "1.0", '"7"\t']
AMOUNT = re.compile(r"-?(\d{1,3}(,\d{3})+|\d+)(\.\d+)?")
RANDOM_RECORDS = 8000

# The words of the sum in the man page.
COMMAND = re.compile(r"^\.Dl regroup-lines (.*--sum.*)$", re.MULTILINE)


def compare(tally, name, ended, status, out, err):
    """Counts a check of a run. Long outputs are not shown."""
    if ended.stdout != out:
        tally.add(name, f"standard output {shown(ended.stdout)} in place of {shown(out)}")
    else:
        tally.compare(name, (ended.returncode, ended.stderr), (status, err))


def regroup(program, words, text, **how):
    """Runs the program over this input, which goes through a pipe."""
    return run([program, *words], stdin=None, input=text, capture_output=True, **how)


def check_open_input(tally, program):
    """Words that do not name two formats end the program before it reads, so an open input is no matter."""
    read_end, write_end = os.pipe()
    ended = run([program, "en", "xx"], stdin=read_end, capture_output=True)
    os.close(read_end)
    os.close(write_end)
    compare(tally, "an input that stays open", ended, 2, b"", UNKNOWN)


def check_records(tally, program):
    """Regroups records that Python's `csv` writes, there and back, and compares their fields as Python's `csv` reads them."""
    heading("records that Python's csv writes and reads")
    randomly = random.Random(4180)
    for quoting, line_end in itertools.product([csv.QUOTE_MINIMAL, csv.QUOTE_ALL], ["\r\n", "\n"]):
        rows = [row_of(randomly) for _ in range(RECORDS)]
        text = written(rows, quoting, line_end)
        name = f"quoting {quoting}, {line_end!r}"
        words = ["--csv", "--field", "2,4"]
        there = regroup(program, [*words, "en", "de"], text)
        expected = [[first, german(second), third, german(fourth)] for first, second, third, fourth in rows]
        compare_records(tally, name, there, expected)
        compare_records(tally, f"{name}, back", regroup(program, [*words, "de", "en"], there.stdout), rows)
        compare(tally, f"{name}, each byte", regroup(program, [*words, "en", "en"], text), 0, text, b"")


def check_random_records(tally, program):
    """Regroups random records, of which some have bare quotes and several lines, and compares the fields that Python's `csv`
    reads of them."""
    heading("random records, as Python's csv reads them")
    randomly = random.Random(8000)
    text = "".join(random_record(randomly) for _ in range(RANDOM_RECORDS))
    ended = regroup(program, ["--csv", "--field", "2,4", "--empty", "--invalid", "warn", "en", "de"], text.encode())
    expected, lines_at_fault = [], []
    for line, raw, fields in records_of(text):
        converted = with_german(fields)
        if converted is None:
            lines_at_fault.append(line)
        expected.append((raw, fields) if converted is None else (None, converted))
    found = [(raw, fields) for _, raw, fields in records_of(ended.stdout.decode())]
    pairs = itertools.zip_longest(found, expected)
    differ = next((pair for pair in pairs if None in pair or pair[0][1] != pair[1][1] or pair[1][0] not in (None, pair[0][0])), None)
    named = [int(message.split(":")[2]) for message in ended.stderr.decode().splitlines()]
    tally.compare("fields", (ended.returncode, len(found), differ), (0, RANDOM_RECORDS, None))
    tally.compare("lines at fault", named, lines_at_fault)


def check_random_fields(tally, program):
    """Writes random records with another delimiter and the quotes that they need, and those at fault to a file. Python's `csv`
    writes the same bytes of the fields that it reads."""
    heading("random records with other delimiters and quotes")
    randomly = random.Random(4711)
    text = "".join(random_record(randomly) for _ in range(RANDOM_RECORDS))
    expected, rejected = io.StringIO(newline=""), []
    for _, raw, fields in records_of(text):
        converted = with_german(fields)
        if converted is None:
            rejected.append(raw)
            continue
        end = "\r\n" if raw.endswith("\r\n") else "\n"
        csv.writer(expected, delimiter="\t", lineterminator=end).writerow(converted)
    with tempfile.TemporaryDirectory() as folder:
        words = ["--csv", "--field", "2,4", "--empty", "--quote", "necessary", "--output-delimiter", "\\t"]
        words += ["--invalid", "ignore", "--rejects", "rejected.csv", "en", "de"]
        ended = regroup(program, words, text.encode(), cwd=folder)
        found = (Path(folder) / "rejected.csv").read_bytes()
    compare(tally, "records", ended, 0, expected.getvalue().encode(), b"")
    tally.compare("records at fault", found == "".join(rejected).encode(), True)


def check_sum(tally, program):
    """The command of the man page sums what Python sums of a table that Python's `csv` wrote."""
    heading("the sum of the man page")
    page = (ROOT / "man" / "regroup-lines.1").read_text(encoding="utf-8")
    words = COMMAND.search(page)[1].split()
    randomly = random.Random(56)
    rows = [row_of(randomly) for _ in range(RECORDS)]
    table = [["name", "note", "amount"], *([first, third, second] for first, second, third, _ in rows)]
    total = sum(Decimal(second.replace(",", "")) for _, second, _, _ in rows)
    with tempfile.TemporaryDirectory() as folder:
        for quoting in [csv.QUOTE_MINIMAL, csv.QUOTE_ALL]:
            (Path(folder) / words[-1]).write_bytes(written(table, quoting, "\r\n"))
            ended = regroup(program, words, b"", cwd=folder)
            compare(tally, f"quoting {quoting}", ended, 0, f"{total:.2f}\n".encode(), b"")


def check_rejects(tally, program):
    """The file of rejected lines is emptied, and is none of those that are read or written."""
    heading("the file of rejected lines")
    with tempfile.TemporaryDirectory() as folder:
        given, rejects = Path(folder, "given"), Path(folder, "rejects")
        given.write_bytes(b"1,000\nx\n")
        rejects.write_bytes(100 * b"before\n")
        message = b"regroup-lines: given:2: 'x': not a number at byte 1\n"
        for count in range(1, 3):
            ended = run([program, "en", "de", *(count * ["given"]), "--rejects=rejects"], capture_output=True, cwd=folder)
            found = (ended.returncode, ended.stdout, ended.stderr, rejects.read_bytes())
            tally.compare(f"{count} inputs", found, (1, count * b"1.000\n", count * message, count * b"x\n"))
        in_use = b"regroup-lines: given: rejects file is input or output file\n"
        with given.open("r+b") as stream:
            for way in ["stdin", "stdout"]:
                streams = {"stdin": subprocess.DEVNULL, "stdout": subprocess.DEVNULL, way: stream}
                ended = run([program, "en", "de", "--rejects=given"], stderr=subprocess.PIPE, cwd=folder, **streams)
                found = (ended.returncode, ended.stderr, given.read_bytes())
                tally.compare(f"the file of {way}", found, (2, in_use, b"1,000\nx\n"))
        with rejects.open("ab") as stream:
            ended = run([program, "en", "de", "given", "--rejects=rejects"], stdout=subprocess.PIPE, stderr=stream, cwd=folder)
            found = (ended.returncode, ended.stdout, rejects.read_bytes())
            tally.compare("the file of stderr", found, (2, b"", 2 * b"x\n" + in_use.replace(b"given", b"rejects", 1)))
        kept = rejects.read_bytes()
        ended = run([program, "en", "xx", "given", "--rejects=rejects"], capture_output=True, cwd=folder)
        found = (ended.returncode, ended.stderr, rejects.read_bytes())
        tally.compare("a format that is refused", found, (2, UNKNOWN, kept))
        check_new_rejects(tally, program, folder)


def check_new_rejects(tally, program, folder):
    """The file of rejected lines is not there yet: it is no input once it is, nor a standard stream that is closed."""
    message = b"regroup-lines: new: input file is output file\n"
    for names in [["new"], ["-", "new"]]:
        Path(folder, "new").unlink(missing_ok=True)
        words = [program, "--line-buffered", "--rejects=new", "--invalid=ignore", "en", "de", *names]
        ended = run(words, stdin=None, input=b"x\n", capture_output=True, cwd=folder)
        rejected = b"x\n" if "-" in names else b""
        found = (ended.returncode, ended.stdout, ended.stderr, Path(folder, "new").read_bytes()[:9])
        tally.compare(f"a new file of rejected lines that is an input: {names}", found, (1, b"", message, rejected))
    for descriptor, status, others in [(0, 3, (b"", b"regroup-lines: -: read error\n")), (1, 3, None), (2, 3, None)]:
        Path(folder, "new").unlink(missing_ok=True)
        words = [program, "--rejects=new", "en", "de"] + (["given"] if descriptor else [])
        ended = run(words, preexec_fn=lambda fd=descriptor: os.close(fd), capture_output=True, cwd=folder)
        # A line whose message cannot be written is not written either.
        rejected = b"x\n" if descriptor == 1 else b""
        found = (ended.returncode, Path(folder, "new").read_bytes())
        tally.compare(f"descriptor {descriptor} is closed", found, (status, rejected))
        if others:
            tally.compare(f"descriptor {descriptor} is closed: outputs", (ended.stdout, ended.stderr), others)


def check_two_devices(tally, program):
    """Files that have the same number on two devices are two: one is read, and the other has the rejected lines."""
    if tally.lacks("unshare", "files of two devices"):
        return
    with tempfile.TemporaryDirectory() as folder:
        ended = run(["unshare", "-rm", "sh", "-ec", TWO_DEVICES, program], capture_output=True, cwd=folder)
    numbers, _, rest = ended.stdout.partition(b"\n")
    if len(set(numbers.split())) != 1:
        tally.skip("files of two devices", "no two file systems can be mounted, or their files have other numbers")
    else:
        tally.compare("files of two devices", (ended.returncode, rest, ended.stderr), (0, b"1.000\nx\n", b""))


def random_record(randomly):
    """A record with numbers, or what is none, in its second and fourth fields, if it has as many."""
    fields = [random_field(randomly), randomly.choice(AMOUNTS), random_field(randomly), randomly.choice(AMOUNTS)]
    count = randomly.choice([3, 4, 4, 4, 4])
    return ",".join(fields[:count]) + randomly.choice(["\n", "\r\n"])


def random_field(randomly):
    """A field in quotes, which bytes may follow, or with quotes that open nothing."""
    if randomly.random() < 0.35:
        return "".join(randomly.choices(["a", ";", " ", "7", "\u20ac", 'x"', 'y"z', "\t"], k=randomly.randrange(5)))
    inner = "".join(randomly.choices(["a", ",", '""', "\n", "\r\n", ";", " ", "\u20ac"], k=randomly.randrange(6)))
    return '"' + inner + '"' + randomly.choice(["", "", "", "", " ", "x", 'x"y', 'b"c'])


def records_of(text):
    """The records of a text: the number of the first line, the text and the fields that Python's `csv` reads."""
    lines = io.StringIO(text, newline="").readlines()
    reader = csv.reader(lines)
    before = 0
    for fields in reader:
        yield before + 1, "".join(lines[before : reader.line_num]), fields
        before = reader.line_num


def with_german(fields):
    """The fields with the amounts in the second and the fourth as `de` writes them, or nothing if there are none."""
    converted = list(fields)
    for at in [1, 3]:
        amount = fields[at].strip() if at < len(fields) else "none"
        if amount and not AMOUNT.fullmatch(amount):
            return None
        if amount:
            converted[at] = fields[at].replace(amount, german(f"{Decimal(amount.replace(',', '')):,}"))
    return converted


def row_of(randomly):
    """A record with two amounts, as `en` writes them."""
    others = ["".join(randomly.choices('a,";\n \u20ac', k=randomly.randrange(6))) for _ in range(2)]
    amounts = [f"{randomly.randrange(-10**8, 10**8) / 100:,.2f}" for _ in range(2)]
    return [others[0], amounts[0], others[1], amounts[1]]


def german(amount):
    """The same amount as `de` writes it."""
    return amount.translate(str.maketrans(",.", ".,"))


def written(rows, quoting, line_end):
    """The bytes that Python's `csv` writes of the rows."""
    out = io.StringIO(newline="")
    csv.writer(out, quoting=quoting, lineterminator=line_end).writerows(rows)
    return out.getvalue().encode()


def compare_records(tally, name, ended, rows):
    """Counts a check of the fields that Python's `csv` reads of the output of a run."""
    found = list(csv.reader(io.StringIO(ended.stdout.decode(), newline="")))
    differ = next((pair for pair in itertools.zip_longest(found, rows) if pair[0] != pair[1]), None)
    tally.compare(name, (ended.returncode, ended.stderr, differ), (0, b"", None))


def check_failures(tally, program):
    heading("outputs and inputs that fail")
    for words, text, output, others in FAILURES:
        compare_failed(tally, [program, *words], output, [(3, received) for received in others], input=text)
    words = [program, "en", "de"]
    ended = run(words, preexec_fn=lambda: os.close(0), capture_output=True)
    compare(tally, "a closed input", ended, 3, b"", b"regroup-lines: -: read error\n")
    folder = os.open(ROOT, os.O_RDONLY)
    ended = run(words, stdin=folder, capture_output=True)
    os.close(folder)
    compare(tally, "a folder as the input", ended, 3, b"", b"regroup-lines: -: read error: Is a directory\n")


def check_closed_pipe(tally, program):
    """Reads one line of a long output, and closes it."""
    heading("a pipe that is closed after one line")
    runs = [([], LINES * b"1,000\n", b"1.000\n"), (["--line-buffered"], LINES * b"1,000\n", b"1.000\n")]
    runs += [(["--invalid=ignore"], 200 * LONG_LINE, LONG_LINE)]
    for options, text, first in runs:
        with tempfile.TemporaryFile() as given:
            given.write(text)
            given.seek(0)
            how = {"stdin": given, "stdout": subprocess.PIPE, "stderr": subprocess.PIPE}
            with subprocess.Popen([program, *options, "en", "de"], **how) as ended:
                line = ended.stdout.readline()
                ended.stdout.close()
                found = (ended.wait(RUN_SECONDS), ended.stderr.read())
        tally.compare(f"{options}: the line", line == first, True)
        tally.compare(f"{options}: the end", found, (141, b""))


def check_output_is_input(tally, program):
    """A file that is read and written has no end, so it is left out."""
    heading("an output that is an input")
    with tempfile.TemporaryDirectory() as folder:
        written, other = Path(folder, "written"), Path(folder, "other")
        other.write_bytes(b"2,000\n")
        for names in [["written", "other"], ["-", "other"]]:
            written.write_bytes(b"1,000\n")
            with written.open("rb") as given, written.open("ab") as out:
                how = {"stdin": given, "stdout": out, "stderr": subprocess.PIPE, "cwd": folder}
                ended = run([program, "en", "de", *names], **how)
            message = f"regroup-lines: {names[0]}: input file is output file\n".encode()
            found = (ended.returncode, written.read_bytes(), ended.stderr)
            tally.compare(names[0], found, (1, b"1,000\n2.000\n", message))


def check_slow_input(tally, program):
    """Reads each line of the output before the next one of the input is written."""
    heading("a slow input")
    for options in [[], ["--line-buffered"]]:
        lines = []
        words = [program, *options, "--field=2", "en", "de"]
        with subprocess.Popen(words, stdin=subprocess.PIPE, stdout=subprocess.PIPE) as ended:
            for line in [b"a\t1,000\tb\n", b"c\t2,000.5\td\n"]:
                ended.stdin.write(line)
                ended.stdin.flush()
                lines.append(ended.stdout.readline())
            ended.stdin.close()
            found = (lines, ended.stdout.read(), ended.wait(RUN_SECONDS))
        name = " ".join(options) or "no option"
        tally.compare(name, found, ([b"a\t1.000\tb\n", b"c\t2.000,5\td\n"], b"", 0))
    with tempfile.TemporaryDirectory() as folder:
        words = [program, "--line-buffered", "--rejects=rejects", "--invalid=ignore", "en", "de"]
        with subprocess.Popen(words, stdin=subprocess.PIPE, stdout=subprocess.PIPE, cwd=folder) as ended:
            ended.stdin.write(b"x\n1,000\n")
            ended.stdin.flush()
            found = (ended.stdout.readline(), Path(folder, "rejects").read_bytes())
            ended.stdin.close()
        tally.compare("a rejected line", found, (b"1.000\n", b"x\n"))


def check_long(tally, program):
    heading("input of any length")
    limited = {"preexec_fn": limit_memory}
    for lines in [10, 1_000_000, LINES]:
        name = f"{lines} lines in {MEMORY} bytes of memory"
        ended = regroup(program, ["en", "de"], lines * b"1,000\n", **limited)
        compare(tally, name, ended, 0, lines * b"1.000\n", b"")
    text = SOUND_LINES * b"1,000\n" + b"x\n" + (LINES - SOUND_LINES - 1) * b"1,000\n"
    message = b"regroup-lines: -:2400001: 'x': not a number at byte 1\n"
    ended = regroup(program, ["en", "de"], text, **limited)
    compare(tally, "a fault in line 2400001", ended, 1, SOUND_LINES * b"1.000\n", message)


def limit_memory():
    resource.setrlimit(resource.RLIMIT_AS, (MEMORY, MEMORY))


def engines(program, lines):
    """The exit status, and the result of each engine by its name."""
    how = {"env": {**os.environ, "REGROUP_LINES": str(program)}, "capture_output": True, "text": True, "timeout": RUN_SECONDS}
    ended = run([ENGINES, str(lines)], **how)
    rows = (line.split("  ") for line in ended.stdout.splitlines()[2:])
    return ended.returncode, {row[0]: row[-1].strip() for row in rows}


def check_engines(tally, program):
    """Compares each engine with one process, and sees that another output is found."""
    heading("regroup-lines on many processes")
    status, results = engines(program, ENGINE_LINES)
    for name, result in results.items():
        if result.startswith("there is no"):
            tally.skip(f"regroup-lines by {name}", result)
        else:
            tally.compare(f"{name}, {ENGINE_LINES} lines", result, "the same")
    tally.compare("examples/engines/run", (status, len(results)), (0, 3))
    with tempfile.TemporaryDirectory() as folder:
        other = Path(folder) / "prefixed"
        other.write_text(PREFIXED, encoding="utf-8")
        other.chmod(0o755)
        status, results = engines(other, 1000)
    is_run = [result for result in results.values() if not result.startswith("there is no")]
    expected = (1 if is_run else 0, len(is_run) * ["status 0, other bytes"])
    tally.compare("a program that is not to be split", (status, is_run), expected)


def check_header(tally, program):
    """The command of examples/engines for a table with a header and bad lines."""
    if tally.lacks("parallel", "a table by GNU parallel"):
        return
    table = ROOT / "examples" / "sales.tsv"
    expected = (ROOT / "examples" / "sales.expected").read_bytes()
    ended = run(["bash", "-c", TABLE_BY_PARALLEL, program, table], capture_output=True)
    found = (ended.returncode, ended.stdout, ended.stderr.count(b"not a number"))
    tally.compare("a table by GNU parallel", found, (1, expected, 2))


# An option in what --help prints: how it is written, and what is said of it, but for the values that it takes.
OPTION = re.compile(r"^ +((?:-\w, )?--[\w-]+(?: <\w+>)?)  +(.*?)(?: \[default: .*| \[possible values: .*)?$", re.M)


def options_of_page():
    """The options of the man page: how each is written, and what is said of it, as plain text."""
    page = (ROOT / "man" / "regroup-lines.1").read_text(encoding="utf-8")
    for entry in page.split("The options are:\n", 1)[1].split("\n.El\n", 1)[0].split("\n.It ")[1:]:
        head, *lines = entry.splitlines()
        words = re.sub(r"Ar (\w+)", r"<\1>", re.sub(r"Fl (\S+)", r"-\1", head)).replace(" ,", ",")
        yield words, " ".join(re.sub(r"^\.[A-Z][a-z] ", "", line) for line in lines).replace("\\e", "\\")


def check_help(tally, program):
    """Each option of --help is one of the man page, where what is said of it begins so; and the version of CHANGELOG.md."""
    ended = regroup(program, ["--help"], b"")
    found = (ended.returncode, b"Usage: regroup-lines" in ended.stdout, ended.stderr)
    tally.compare("--help", found, (0, True, b""))
    options, page = dict(OPTION.findall(ended.stdout.decode())), dict(options_of_page())
    tally.compare("the options of --help and of the man page", sorted(options), sorted(page))
    for words, said in options.items():
        tally.compare(f"--help: {words}", page.get(words, "")[: len(said)], said)
    changes = (ROOT / "CHANGELOG.md").read_text(encoding="utf-8")
    first = next(line for line in changes.splitlines() if line.startswith("## "))
    version = (ROOT / "VERSION").read_text(encoding="utf-8").strip()
    tally.compare("the first version of CHANGELOG.md", first.split()[1], version)


def main():
    program = Path(sys.argv[1]).resolve() if len(sys.argv) > 1 else PROGRAM
    tally = Tally()
    checks = [check_help, check_open_input, check_records, check_random_records, check_random_fields, check_sum, check_rejects]
    checks += [check_two_devices, check_failures, check_closed_pipe, check_slow_input, check_output_is_input, check_long, check_engines]
    for check in *checks, check_header:
        check(tally, program)
    tally.end()


if __name__ == "__main__":
    main()
