"""Texts as people type them, and a model of how they are parsed, of which tables.py makes cases.

The model does not rewrite a text: it prints the number that the digits of the text write, and compares character by
character, where two characters of one class are equal. Python knows which characters are spaces. The place of an
unexpected byte is where a regular expression ends. The texts are the same in each run.
"""
import random
import re
import unicodedata
from typing import NamedTuple

SPACES = "".join(c for c in map(chr, range(0x10000)) if unicodedata.category(c) == "Zs" and c != "\u1680")
APOSTROPHES = "'`\u00b4\u02bc\u2018\u2019\uff07"
COMMAS = ",\ufe50\uff0c"
POINTS = ".\ufe52\uff0e"
CLASSES = [SPACES, APOSTROPHES, COMMAS, POINTS]
MINUSES = "-\u2010\u2011\u2012\u2013\u2212\ufe63\uff0d"
PLUSES = "+\ufe62\uff0b"
MARKS = "\u061c\u200e\u200f\u202a\u202b\u202c\u2066\u2067\u2068\u2069"
ENDS = SPACES + MARKS + "\t\n\r"

# Characters of no class, which no text of a number has.
OTHERS = "x\u2014\u066b\u066c\u200b\ufeff\u202d\u1680()_\u0663\u00b2%"


class Format(NamedTuple):
    separator: str
    minus: str
    mark: str
    grouping: str = "Standard"

    @property
    def printed(self):
        return "" if self.grouping == "Posix" else self.separator

    @property
    def core(self):
        return self.minus.strip(MARKS)

    def is_unambiguous(self):
        return self.minus != "" and not has_numeral(self.minus + self.printed)

    def is_typable(self):
        symbols = set(self.printed + self.mark)
        alone = all(len(symbols & set(of_class)) <= 1 for of_class in CLASSES)
        core = self.core
        shared = any(symbols & set(of_class) and set(core) & set(of_class) for of_class in CLASSES)
        return self.is_unambiguous() and alone and core != "" and core[0] not in ENDS + PLUSES and not shared

    def marks_decimals(self):
        return self.mark != "" and not has_numeral(self.mark) and self.mark != self.printed

    def alike(self, c):
        """The characters that may be typed for one that is printed."""
        return next((of_class for of_class in CLASSES if c in of_class), c)

    def own(self, c):
        """The character that stands for one that was typed."""
        return next((own for own in self.printed + self.mark if own in self.alike(c)), c)

    def pattern(self, symbol):
        return "".join(f"[{re.escape(self.alike(c))}]" for c in symbol)


def has_numeral(text):
    return any(unicodedata.category(c) in ("Nd", "Nl", "No") for c in text)


# Formats of locales, and the odd ones: some are typed, and some refused.
LOCALES = [
    Format(separator, minus, mark)
    for separator, mark in [",.", ".,", "\u00a0,", "\u202f,", "\u066c\u066b", "\u2019.", "\u2019,", "\u00a0."]
    for minus in ["-", "\u2212", "\u200e-", "\u061c-", "\u200f-", "\u200e-\u200e", "\u200e\u2212"]
]
LOCALES += [Format(",", "-", ".", "Indian"), Format(",", "-", ".", "Posix"), Format("\u00a0", "\u2212", ",", "Indian")]
ODD = [
    Format(*symbols)
    for symbols in [
        ("'", "-", "\u2019x"), ("\u2019", "-", "'."), ("\u00a0", "-", "- "), (", ", "-", "\uff0c"), (",", " ", "."),
        (",", "\u061c", "."), (",", "+", "."), ("\u2019", "-", ","), ("-", "-", "."), (" ", "-", ","), (", ", "-", "."),
        ("\u202f;", "-", ","), (",", "minus ", "."), (",", "\u200e-\u200e", "."), ("\u200e,", "-", "."), (",", "\u2014", "."),
        (",", "--", "."), ("", "- ", "."), (", ", "-", ","), (",", "", "."), (",", "-", ""), (",", "-", ","), ("7", "-", "."),
        (",", "-1", "."), (",", "-", "\u0663"), (",", "-", ",", "Posix"), ("'", "-", "\u2019", "Posix"), ("\uff0c", "\u2010", "\ufe52"),
        (",", "-+", "."), (",", " -", "."),
    ]
]


def with_separators(digits, form):
    """Digits in groups."""
    if form.printed == "":
        return digits
    size = 2 if form.grouping == "Indian" else 3
    groups, digits = [digits[-3:]], digits[:-3]
    while digits:
        groups, digits = [digits[-size:]] + groups, digits[:-size]
    return form.printed.join(groups)


def spells(body, printed, form):
    return len(body) == len(printed) and all(form.own(c) == p for c, p in zip(body, printed))


class Text(NamedTuple):
    """A text taken apart: the number of bytes before its body, whether its sign is a minus sign, and its body."""

    start: int
    is_negative: bool
    body: str


def parts(text, form):
    inner = text.strip(ENDS)
    sign = re.match(f"({re.escape(form.core)}|[{re.escape(MINUSES)}])?[{re.escape(PLUSES)}]?", inner)
    taken = sign.group(1) if sign.group(1) is not None else sign.group(0)
    rest = inner[len(taken):]
    body = rest.lstrip(MARKS)
    front = len(text) - len(text.lstrip(ENDS))
    before = text[:front] + inner[:len(inner) - len(body)]
    return Text(len(before.encode()), sign.group(1) is not None, body)


def parsed(data, form, is_decimal):
    """The sign, the digits and the scale of the number, or the cause of the refusal."""
    if not form.is_typable() or is_decimal and not form.marks_decimals():
        return "AmbiguousFormat"
    try:
        text = data.decode()
    except UnicodeDecodeError:
        return "NotUtf8"
    start, is_negative, body = parts(text, form)
    own = "".join(map(form.own, body))
    is_signed = is_negative and re.search("[1-9]", own) is not None or body.startswith(form.core)
    if len(((form.minus if is_signed else "") + own).encode()) > 199:
        return "TooLong"
    mark = own.rfind(form.mark) if is_decimal else -1
    for at in sorted({mark, -1}, reverse=True):
        decimals = "" if at < 0 else own[at + len(form.mark):]
        whole = own if at < 0 else own[:at]
        digits = "".join(c for c in whole if c in "0123456789")
        if not re.fullmatch("0|[1-9][0-9]*", digits) or not re.fullmatch("[0-9]*", decimals) or at >= 0 and decimals == "":
            continue
        after = form.mark + decimals if at >= 0 else ""
        if len(decimals) <= 38 and any(spells(body, p + after, form) for p in (digits, with_separators(digits, form))):
            if not body.startswith(form.core):
                return (-1 if is_signed else 1) * int(digits + decimals), len(decimals)
    return cause(start, body, form, is_decimal)


def cause(start, body, form, is_decimal):
    separator = form.pattern(form.printed) + "|" if form.printed else ""
    regex = f"(?:{separator}[0-9])*"
    after = 0
    end = re.match(regex, body).end()
    if is_decimal:
        mark = re.compile(form.pattern(form.mark)).match(body, end)
        if mark:
            after = len("".join(map(form.own, body[mark.end():])).encode())
            end = re.compile("[0-9]*").match(body, mark.end()).end()
    if end < len(body):
        return f"Unexpected {{ at: {start + len(body[:end].encode())} }}"
    if not re.search("[0-9]", body):
        return "NoDigit"
    return "TooManyDecimals" if after > 38 else "Misspelled"


def some_number(chance, form):
    digits = str(chance.choice([0, 7, 1234, 2**63 - 1, 2**127, chance.randrange(10 ** chance.randrange(1, 41))]))
    shown = chance.choice([digits, with_separators(digits, form)])
    if chance.randrange(2) and form.mark:
        count = chance.choice([1, 2, 3, 38, chance.randrange(1, 41)])
        shown += form.mark + "".join(chance.choice("0123456789") for _ in range(count))
    return (form.minus if chance.randrange(3) == 0 else "") + shown


def typed(chance, shown, form):
    """A text as it could be typed: other characters of the classes, another sign, and ends."""
    negative = form.core != "" and shown.startswith(form.minus)
    body = "".join(chance.choice(form.alike(c)) for c in (shown[len(form.minus):] if negative else shown))
    sign = chance.choice([*MINUSES, form.core, form.minus]) if negative else chance.choice(["", "", *PLUSES])
    ends = ["".join(chance.choice(ENDS) for _ in range(chance.randrange(3))) for _ in range(2)]
    inner = chance.choice(["", "", chance.choice(MARKS)])
    return ends[0] + sign + inner + body + ends[1]


def changed(chance, text, form):
    everything = SPACES + APOSTROPHES + COMMAS + POINTS + MINUSES + PLUSES + MARKS + OTHERS + "07\t"
    parts = [form.separator, form.mark, form.minus, form.core, chance.choice(everything), chance.choice(everything)]
    place = chance.randrange(len(text) + 1)
    end = place + chance.randrange(2)
    return text[:place] + chance.choice(["", *parts, *parts]) + text[end:]


def some_row(chance):
    form = chance.choice(LOCALES if chance.randrange(4) else ODD)
    text = some_number(chance, form)
    if chance.randrange(5):
        text = typed(chance, text, form)
    for _ in range(chance.choice([0, 0, 1, 1, 2, 3])):
        text = changed(chance, text, form)
    data = text.encode()
    if chance.randrange(60) == 0:
        data = data + bytes([chance.choice([0xFF, 0xC3])]) + data
    return data, form


def fixed_rows():
    """Texts whose results say most, under en, fr and sv, and one in which rewriting would make a second sign."""
    texts = ["", " ", "\u200e", "-", "+", " - 5", "--5", "-+5", "+-5", "+5", "+0", "-0", "-0,00", "-0.00", "-00", "1\u200e234"]
    texts += ["\u2066-5\u2069", "5\r\n", "5\u200b", "\ufeff5", "\u202d5", "(5)", "5-", "5 \u20ac", "\u20ac 5", "5%", "1e6", ".5", "5."]
    texts += ["1 234", "1\u00a0234 567", "1  234", "1 ,5", "1,23", "1,234", "1 234,50", " " * 1000, "x" * 1000, "1" * 199, "1" * 200]
    texts += [" " * 300 + "5" + " " * 300, "0" * 199, "-" + "1" * 199, "+" + "1" * 199]
    for form in [LOCALES[0], LOCALES[21], Format("\u00a0", "\u2212", ",")]:
        for text in texts:
            yield text.encode(), form
    yield "+minus\u20035".encode(), Format(" ", "minus ", ".")


def rows(count):
    """Texts, as bytes, and their formats."""
    chance, made = random.Random(7), list(fixed_rows())
    return made + [some_row(chance) for _ in range(count - len(made))]


def at_keyboard(shown):
    """A text as a keyboard has it: with its space, apostrophe and hyphen, and no marks of the direction of writing."""
    for characters, key in (SPACES, " "), (APOSTROPHES, "'"), (MINUSES, "-"), (MARKS, ""):
        shown = re.sub(f"[{re.escape(characters)}]", key, shown)
    return shown
