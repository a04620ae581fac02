"""Times `regroup-lines` beside what people use on lines: numfmt, awk, Python and Miller."""
import os
import random
import shutil
import subprocess
import time

from languages import Lack, Line, need

# What Python does with each line: digits, decimals, some of the fields, and a field of CSV.
PYTHON = "import sys\nfor line in sys.stdin: print(f'{int(line):,}')"
PYTHON_DECIMAL = "import sys\nfrom decimal import Decimal\nfor line in sys.stdin: print(f'{Decimal(line[:-1]):,}')"
PYTHON_FIELDS = """
import sys
for line in sys.stdin:
    fields = line.split("\\t")
    for field in %s:
        fields[field - 1] = f"{int(fields[field - 1]):,}"
    sys.stdout.write("\\t".join(fields))
"""
PYTHON_CSV = """
import csv, sys
writer = csv.writer(sys.stdout, lineterminator="\\n")
for fields in csv.reader(sys.stdin):
    fields[2] = fields[2].replace(",", ".")
    writer.writerow(fields)
"""

# What awk does. It prints whole numbers as `%d` up to 31 bits alone.
AWK = """{ printf "%%'.%df\\n", $1 }"""
AWK_FIELD = """$%d = sprintf("%%'.0f", $%d);"""

MILLER = ["mlr", "-S", "--csv", "--implicit-csv-header", "--headerless-csv-output", "put", '$3 = gsub($3, ",", ".")']


def awk_fields(fields):
    return ["awk", 'BEGIN { FS = OFS = "\\t" } { %s print }' % " ".join(AWK_FIELD % (field, field) for field in fields)]


def python(script, name="Python"):
    return [name, "python3", "-c", script]


def table(numbers, chosen, text, delimiter="\t"):
    """Lines of ten fields, of which those chosen have the number's text."""
    for number in numbers:
        shown = text(number)
        yield delimiter.join(shown if field in chosen else f"field {field}" for field in range(1, 11))


def plain(number):
    return str(number)


def grouped(number):
    return f"{number:,}"


def quoted(number):
    return f'"{number:,}"' if abs(number) >= 1000 else str(number)


def dotted(number):
    return f"{number:,}".replace(",", ".")


def decimal(number, whole="{}"):
    """A hundredth of the number."""
    return f"{'-' if number < 0 else ''}{whole.format(abs(number) // 100)}.{abs(number) % 100:02}"


def grouped_decimal(number):
    return decimal(number, "{:,}")


def tasks(numbers):
    """What is done, the lines given, those expected, the words for regroup-lines, and the name and the words of others."""
    yield "lines", map(plain, numbers), map(grouped, numbers), ["plain", "en"], [
        ["`numfmt`", "numfmt", "--grouping"],
        ["`awk`", "awk", AWK % 0],
        python(PYTHON),
    ]
    for fields in [3], [3, 5, 7]:
        listed = ",".join(map(str, fields))
        name = f"field{'s' * (len(fields) > 1)} {listed} of 10"
        yield name, table(numbers, fields, plain), table(numbers, fields, grouped), ["--field", listed, "plain", "en"], [
            ["`numfmt`", "numfmt", "-d", "\t", "--field", listed, "--grouping"],
            ["`awk`", *awk_fields(fields)],
            python(PYTHON_FIELDS % fields),
        ]
    words = ["--csv", "--quote", "necessary", "--field", "3", "en", "de"]
    yield "CSV with quotes", table(numbers, [3], quoted, ","), table(numbers, [3], dotted, ","), words, [
        python(PYTHON_CSV, "Python's `csv`"),
        ["Miller", *MILLER],
    ]
    yield "decimals", map(decimal, numbers), map(grouped_decimal, numbers), ["plain", "en"], [
        ["`awk`", "awk", AWK % 2],
        python(PYTHON_DECIMAL),
    ]


def numbers(count):
    """Numbers of 1 to 15 digits, which awk and numfmt have in floating point."""
    chance = random.Random(72)
    return [chance.choice([1, -1]) * chance.randrange(1, 10 ** chance.randint(1, 15)) for _ in range(count)]


def in_programs(given):
    if not given.program.is_file():
        raise Lack(f"there is no {given.program}")
    copy = shutil.copy(given.program, given.folder / "copied_program")

    def measure():
        lines, missing = [], {}
        for task, before, after, words, others in tasks(numbers(given.lines)):
            ways = [("ours", f"`regroup-lines {' '.join(words)}`", [given.program, *words]), ("copy", "", [copy, *words])]
            missing |= {f"{name}: there is no `{words[0]}`": 0 for name, *words in others if not shutil.which(words[0])}
            ways += [("other", name, words) for name, *words in others if shutil.which(words[0])]
            before, after = ("".join(f"{line}\n" for line in texts) for texts in (before, after))
            lines += compared(task, before, after, ways, given)
        return lines, list(missing)

    return measure


def compared(task, before, after, ways, given):
    """The lines of programs over these lines, in turns, each started anew, by the best run."""
    source = given.folder / "lines"
    source.write_text(before, encoding="ascii")
    env, best, count = {**os.environ, "LC_ALL": "en_US.UTF-8"}, [float("inf")] * len(ways), before.count("\n")
    for _ in range(given.turns):
        for place, (_, _, words) in enumerate(ways):
            with open(source, encoding="ascii") as lines:
                start = time.perf_counter()
                subprocess.run(words, stdin=lines, stdout=subprocess.DEVNULL, env=env, check=False)
                best[place] = min(best[place], (time.perf_counter() - start) * 1e9 / count)
    for (role, name, words), nanoseconds in zip(ways, best):
        with open(source, encoding="ascii") as lines:
            ended = subprocess.run(words, stdin=lines, stdout=subprocess.PIPE, text=True, env=env, check=False)
        is_right = (ended.returncode, ended.stdout) == (0, after)
        yield Line(task, "lines", role, name, f"{nanoseconds:.1f}" if is_right else "differs")
