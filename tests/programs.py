"""Replays the tables of cases by programs: `regroup` and `regroup-lines`, and the replayer of each language.

What a program is to be asked follows from the arguments of a case alone, so each is asked once, and its answers are
compared with right and wrong tables.
"""
import re
import subprocess
from collections import Counter
from concurrent.futures import ThreadPoolExecutor
from pathlib import Path
from urllib.parse import unquote_to_bytes

from tally import run

from spelling import is_value
from tables import form, is_ambiguous, rows

# How many fields of a case of each table are arguments.
ARGUMENTS = {
    "alike": 2, "builders": 1, "decimals_at_scale": 3, "decimals_computed": 3, "decimals_parsed": 2, "decimals_printed": 3,
    "json": 2, "lenient": 3, "locales": 1, "names": 1, "padded": 6, "printing": 3, "reads_back": 1, "strict": 3, "tags": 1,
    "typed": 3, "typed_decimals": 2,
}

# The tables in digit sets.
DIGITS = ["printing", "decimals_printed", "strict", "decimals_parsed", "decimals_at_scale", "typed", "typed_decimals"]
ARGUMENTS |= {f"{name}_digits": ARGUMENTS[name] for name in DIGITS}

LOW, HIGH = -(2**127), 2**127 - 1

# The decimal mark of each locale.
OF_LOCALES = {name: unquote_to_bytes(mark) for name, _, mark, *_ in rows("locales")}

# A line that regroup-lines names, and where an unexpected byte is.
CAUSE = rb"not a number(?: at byte (\d+)(?:: U\+\w+(?:, where FROM has U\+\w+|( is no digit of FROM)))?)?"
CAUSE += rb"|not as it is printed|longer than any number"
NAMED = re.compile(rb"^regroup-lines: -:(\d+): .*: (?:%s)(?:: see --typed)?(?:: a header.*)?$" % CAUSE)


def decoded(fields):
    return b"\t".join(map(unquote_to_bytes, fields))


def of_tables(folder):
    """Each table with its cases, as lines."""
    for path in sorted(folder.glob("*.tsv")):
        lines = path.read_text(encoding="ascii").splitlines()
        yield path.stem, [line for line in lines if not line.startswith("#")]


def arguments(folder):
    """The name of the table and the arguments of each case."""
    for name, lines in of_tables(folder):
        for line in lines:
            yield name, line.split("\t")[: ARGUMENTS[name]]


class Unsaid(str):
    """Why a case cannot be said."""


class Asked:
    """Compares what was answered, once, with the results of tables."""

    def replay(self, folder):
        """The status and the lines of a replayer."""
        printed, any_differs = [], False
        for name, lines in of_tables(folder):
            reasons, differ = Counter(), 0
            for line in lines:
                fields = line.split("\t")
                expected = decoded(fields[ARGUMENTS[name]:])
                returned = self.returned(name, fields[: ARGUMENTS[name]])
                if returned is None and expected.startswith(b"err "):
                    returned = Unsaid("cause not told")
                if isinstance(returned, Unsaid):
                    reasons[returned] += 1
                elif not self.is_as(returned, expected):
                    differ += 1
                    if differ <= 5:
                        printed.append(f"  {name}.tsv: {line}: returned {returned}")
            unsaid = sum(reasons.values())
            why = f" ({', '.join(f'{reason}: {count}' for reason, count in reasons.items())})" if unsaid else ""
            printed.append(f"{name}.tsv: ran {len(lines) - unsaid}, cannot say {unsaid}{why}, differ {differ}")
            any_differs |= differ > 0
        return int(self.has_failed or any_differs), "\n".join(printed) + "\n"

    has_failed = False

    @staticmethod
    def is_as(returned, expected):
        return returned == expected


class Replayer(Asked):
    """A command that reads the name of the table and the arguments of each case, and writes the fields of its result, of
    which `?` stands for any bytes, or `! REASON`."""

    def __init__(self, command, folders):
        asked = ["\t".join([name, *given]) for name, given in arguments(folders[0])]
        how = {"input": "".join(f"{line}\n" for line in asked), "stdout": subprocess.PIPE, "text": True, "errors": "replace"}
        ended = run(command, **how)
        answers = (ended.stdout or "").splitlines()
        self.has_failed = ended.returncode != 0 or len(answers) != len(asked)
        if self.has_failed:
            print(f"status {ended.returncode}, {len(answers)} answers to {len(asked)} cases: {answers[-3:]}")
        self.answers = dict(zip(asked, answers))

    def returned(self, name, given):
        answer = self.answers.get("\t".join([name, *given]), "")
        return Unsaid(answer[2:]) if answer.startswith("! ") else answer

    @staticmethod
    def is_as(returned, expected):
        parts = map(unquote_to_bytes, returned.split("?"))
        return re.fullmatch(b".*".join(map(re.escape, parts)), expected, re.DOTALL) is not None


class Program(Asked):
    """A command that is run with words and input that follow from the arguments of all cases."""

    def __init__(self, command, folders):
        requests = {}
        for name, given in arguments(folders[0]):
            request = self.request(name, given)
            if not isinstance(request, str):
                words, line = request
                requests.setdefault(words, {})[line] = None

        def ended(request):
            words, given = request
            how = run([*command, *words], input=b"".join(filter(None, given)), capture_output=True)
            return self.told(words, list(given), how.returncode, how.stdout, how.stderr)

        self.answers = {}
        with ThreadPoolExecutor() as pool:
            for answers in pool.map(ended, requests.items()):
                self.answers.update(answers)

    def returned(self, name, given):
        request = self.request(name, given)
        return Unsaid(request) if isinstance(request, str) else self.result(name, given, self.answers[request])


def is_word(*texts):
    """Whether texts may be words of a command, and stand in a line of output."""
    return not any(set(text) & set(b"\0\n") for text in map(unquote_to_bytes, texts))


class Regroup(Program):
    """`regroup`: a command for each case."""

    def request(self, name, arguments):
        """The words that ask for the result of a case, with no input, or why none do."""
        if name in ("printing", "lenient"):
            type_name, format_name, given = arguments
        if name == "printing":
            if not LOW <= int(given) <= HIGH:
                return "past the numbers of signed bits"
            kind, *texts = format_name.split(":")
            texts = texts if kind == "locale" else texts[:3]
            command = "print" if kind == "locale" else "custom"
            words = [command, *texts, given]
        elif name == "lenient":
            if type_name != "i128":
                return "another type"
            if not format_name.startswith("locale:"):
                return "a custom format"
            words = ["read", format_name.partition(":")[2], given]
        elif name == "names":
            words = ["print", *arguments, "0"]
        elif name in ("reads_back", "alike"):
            if any(format_name.startswith("custom:") for format_name in arguments):
                return "a custom format"
            words = ["check" if name == "reads_back" else "alike", *(each.partition(":")[2] for each in arguments)]
        else:
            return "no command"
        return (tuple(map(unquote_to_bytes, words)), None) if is_word(*words) else "a newline or zero byte in a word"

    @staticmethod
    def told(words, given, status, out, err):
        return {(words, None): (status, out, err)}

    @staticmethod
    def result(name, arguments, answer):
        status, out, err = answer
        text = unquote_to_bytes(arguments[-1])
        if status == 0 and name == "names":
            return b"ok " + text.replace(b"_", b"-")
        if status == 0:
            return (b"ok " if name == "lenient" else b"") + out[:-1]
        cause = {"names": rb"ParseLocale", "lenient": rb"ParseNumber"}.get(name, b"none")
        kept = re.fullmatch(rb"Failed to parse (.*) into a (?:valid locale|number)\.\n", err, re.S)
        is_kept = status == 1 and kept and text.startswith(kept[1])
        return b"err %s %d" % (cause, len(kept[1])) if is_kept else b"%d %s" % (status or 0, err)


class RegroupLines(Program):
    """`regroup-lines`: a run for each format, with a line of its input for each case."""

    def request(self, name, arguments):
        """The words and the line that ask for the result of a case, or why none do."""
        name = name.removesuffix("_digits")
        parsing = {"strict": [b"--invalid", b"fail"], "typed_decimals": [b"--invalid", b"fail", b"--typed"]}
        parsing["decimals_parsed"] = parsing["strict"]
        if name not in ("printing", "decimals_printed", *parsing):
            return "no such call"
        *type_name, format_name, given = arguments if name != "decimals_printed" else arguments[:2]
        kind, *parts = format_name.split(":")
        if kind == "custom" and (not is_word(*parts) or any(b":" in unquote_to_bytes(part) for part in parts)):
            return "a colon, newline or zero byte in a format"
        named = parts[0].encode() if kind == "locale" else b":".join([b"custom", *map(unquote_to_bytes, parts)])
        format_name = format_name.partition("-u-nu-")[0]
        if name in parsing:
            text = unquote_to_bytes(given)
            if text.strip() != text or b"\n" in text or text.startswith(b"\xef\xbb\xbf"):
                return "whitespace around a number"
            if type_name in (["u128"], ["NonZeroU128"]):
                return "past the numbers of signed bits"
            has_mark = mark_of(format_name) in text
            if name == "strict" and (has_mark or is_misread(format_name) and not is_ambiguous(form(format_name))):
                return "decimals are parsed too"
            return (*parsing[name], b"--", named, b"plain"), text + b"\n"
        if is_misread(format_name):
            return "an ambiguous format"
        if not LOW <= int(given) <= HIGH:
            return "past the numbers of signed bits"
        scale = int(arguments[2]) if name == "decimals_printed" else 0
        sign, digits = "-" if given.startswith("-") else "", given.lstrip("-").zfill(scale + 1)
        text = sign + (f"{digits[:-scale]}.{digits[-scale:]}" if scale else digits)
        return (b"--", b"plain", named), text.encode() + b"\n"

    @staticmethod
    def told(words, given, status, out, err):
        """Of each line what is written of it, or the place of an invalid one, 0 for another cause, and whether a digit is
        of another set."""
        named = filter(None, map(NAMED.fullmatch, err.split(b"\n")))
        invalid = {int(number): (int(at or 0), other) for number, at, other in (match.groups() for match in named)}
        lines = out.split(b"\n") if status in (0, 1) else []
        lines += [b"status %d" % (status or 0)] * (len(given) - len(lines))
        return {(words, line): invalid.get(k + 1, lines[k]) for k, line in enumerate(given)}

    @staticmethod
    def result(name, arguments, answer):
        name = name.removesuffix("_digits")
        if name in ("printing", "decimals_printed"):
            return answer
        if answer == b"status 2":
            return b"err AmbiguousFormat"
        if isinstance(answer, tuple):
            at, other = answer
            return b"err %s %d" % (b"OtherNumeral" if other else b"Unexpected", at - 1) if at else None
        whole, _, decimals = answer.partition(b".")
        if name != "strict":
            units = whole + decimals
            return b"ok %d/%d" % (int(units), len(decimals)) if units else answer
        return b"ok %s" % answer if is_value(arguments[0], int(whole or b"0")) else b"err OutOfRange"


def mark_of(format_name):
    kind, *parts = format_name.split(":")
    return OF_LOCALES[parts[0]] if kind == "locale" else unquote_to_bytes(parts[3])


def is_misread(format_name):
    """Whether decimals can be misread under a format."""
    one, mark = form(format_name), mark_of(format_name)
    is_separator = mark == one.separator and one.grouping != "Posix"
    return is_ambiguous(one) or not mark or is_separator or is_ambiguous(one._replace(minus_sign=mark))


# The crate of each program, and how it is asked.
OF = {
    "rattle": ("test_oracle", Replayer),
    "regroup": ("regroup", Regroup),
    "regroup-lines": ("regroup_lines_cli", RegroupLines),
}
