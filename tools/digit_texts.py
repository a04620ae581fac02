#!/usr/bin/env python3
"""Writes the lines of test_digits, and what is to be printed for them.

    python3 tools/digit_texts.py

The lines go into crates/test_digits/stdin, and the expected output into crates/test_digits/stdout. Numbers, texts and
results are those of the tables of tests/cases, in the digits of one set after the other, which Python's unicodedata
has. It also says which characters are numeric. What ICU prints by default is in icu_digits.tsv. Some of the lines are
cases for each language too, under a language tag that names the set: tables.py writes them.
"""
import itertools
import re
import unicodedata
from itertools import cycle, islice
from pathlib import Path
from urllib.parse import quote, unquote

ROOT = Path(__file__).resolve().parent.parent
CRATE = ROOT / "crates" / "test_digits"

# The sets by the names of their zeros in Unicode 14, without " DIGIT ZERO".
SETS = """adlm ADLAM, ahom AHOM, arab ARABIC-INDIC, arabext EXTENDED ARABIC-INDIC, bali BALINESE, beng BENGALI,
bhks BHAIKSUKI, brah BRAHMI, cakm CHAKMA, cham CHAM, deva DEVANAGARI, diak DIVES AKURU, fullwide FULLWIDTH,
gong GUNJALA GONDI, gonm MASARAM GONDI, gujr GUJARATI, guru GURMUKHI, hmng PAHAWH HMONG, hmnp NYIAKENG PUACHUE HMONG,
java JAVANESE, kali KAYAH LI, khmr KHMER, knda KANNADA, lana TAI THAM HORA, lanatham TAI THAM THAM, laoo LAO,
lepc LEPCHA, limb LIMBU, mathbold MATHEMATICAL BOLD, mathdbl MATHEMATICAL DOUBLE-STRUCK,
mathmono MATHEMATICAL MONOSPACE, mathsanb MATHEMATICAL SANS-SERIF BOLD, mathsans MATHEMATICAL SANS-SERIF,
mlym MALAYALAM, modi MODI, mong MONGOLIAN, mroo MRO, mtei MEETEI MAYEK, mymr MYANMAR, mymrshan MYANMAR SHAN,
mymrtlng MYANMAR TAI LAING, newa NEWA, nkoo NKO, olck OL CHIKI, orya ORIYA, osma OSMANYA, rohg HANIFI ROHINGYA,
saur SAURASHTRA, segment SEGMENTED, shrd SHARADA, sind KHUDAWADI, sinh SINHALA LITH, sora SORA SOMPENG,
sund SUNDANESE, takr TAKRI, talu NEW TAI LUE, tamldec TAMIL, telu TELUGU, thai THAI, tibt TIBETAN, tirh TIRHUTA,
tnsa TANGSA, vaii VAI, wara WARANG CITI, wcho WANCHO"""
ZEROS = {n: unicodedata.lookup(f"{u} DIGIT ZERO") for n, u in (each.split(maxsplit=1) for each in SETS.split(","))}
ZEROS["latn"] = "0"

# The most bytes of a text with 0 to 9 for its digits.
LONGEST = 199

# The group sizes of this locale are those of CLDR 36, and of ICU 72 others.
OTHER_GROUPS = "ks"

# What tags name, by hand and by UTS 35, section 3: the case of letters does not count, and an underscore counts as a
# hyphen. traditio, finance and roman are no sets of ten digits.
TAGS = """fa-IR-U-Nu-deva=deva en-t-ja-u-nu-thai-x-u-nu-beng=thai de-x-u-nu-deva=none fa-nu-deva=none nu=none nu-u=none
u-nu-deva=deva no-such-u-nu-arab=arab fa-u-nu=UnknownDigits fa-u-nu-=UnknownDigits fa-u-nu-deva-nu-deva=UnknownDigits
fa-u-nu-nu-deva=UnknownDigits fa-u-nu-DEVA=deva zh-u-nu-traditio=UnknownDigits zh-u-nu-finance=UnknownDigits
la-u-nu-roman=UnknownDigits zh-u-nu-hanidec=UnknownDigits xx-u-nu-native=UnknownDigits fa-u-ca-nu-latn=latn
fa-u-nu-ARABEXT=arabext fa-u-nu-arabext.UTF-8=arabext fa_u_nu_deva=deva fa-IR_u-nu_Deva=deva fa_IR.UTF-8-u-nu-deva=none
FA_U_CA_PERSIAN_NU_FullWide_CO_PHONEBK@euro=fullwide fa-u-nu-Native=arabext ne_NP_U_NU_NATIVE.UTF-8=deva C=none
sr_RS@latin-u-nu-deva=none fa-u-nu.deva=UnknownDigits fa-u-nu-@deva=UnknownDigits fa-u-nu-deva@nu-deva=deva @=none
fa-u_nu_deva-NU-latn=UnknownDigits fa-u-nu-arab-X-nu-deva=arab fa_x_u_nu_deva=none fa-u-nu-arabextra=UnknownDigits
fa-u-nu-arabe=UnknownDigits zh_u_nu_TRADITIO=UnknownDigits POSIX-u-nu-native=UnknownDigits =none"""


def in_set(text, name):
    return "".join(chr(ord(ZEROS[name]) + int(c)) if c in "0123456789" else c for c in text)


def rows(name):
    for line in (ROOT / "tests" / "cases" / name).read_text().splitlines():
        if not line.startswith("#"):
            yield [unquote(field) for field in line.split("\t")]


def refused(result, text, shown):
    """Returns the error of a table's row, with its place in the text that is parsed."""
    cause, _, at = result.removeprefix("err ").partition(" ")
    if not at:
        return f"Number({cause})"
    before = text.encode()[: int(at)].decode()
    return f"Number({cause} {{ at: {len(shown[: len(before)].encode())} }})"


def first_other(text, name):
    """Returns how many bytes are before the first numeric character that is no digit of the set."""
    for place, c in enumerate(text):
        if unicodedata.category(c)[0] == "N" and not 0 <= ord(c) - ord(ZEROS[name]) < 10:
            return len(text[:place].encode())
    return None


def result_of(call, text, result, shown, name):
    at = first_other(shown, name)
    if at is not None:
        return f"OtherNumeral {{ at: {at} }}"
    if len(text.encode()) > LONGEST:
        return "TooLong"
    if result.startswith("ok "):
        return result.removeprefix("ok ")
    return f"Number({refused(result, text, shown)})" if call.startswith("typed") else refused(result, text, shown)


def texts_in(text, name):
    """Returns a text in a set, and that with its last digit as it was. Of a text with digits of the set it is neither."""
    if any(c in text for c in in_set("0123456789", name)):
        return []
    shown = in_set(text, name)
    cut = max(map(text.rfind, "0123456789"))
    return [shown, shown[:cut] + text[cut:]] if cut >= 0 else [shown]


def parsed(names, tables):
    for call, table in tables.items():
        for *kind, form, text, result in rows(table):
            if not form.startswith("locale:") or kind not in ([], ["i64"]):
                continue
            name = next(names)
            for each in texts_in(text, name):
                fields = [call, name, form.removeprefix("locale:"), each.encode().hex()]
                yield fields, result_of(call, text, result, each, name)


def at_scale(names):
    for form, text, scale, result in rows("decimals_at_scale.tsv"):
        if form.startswith("locale:"):
            name = next(names)
            for each in texts_in(text, name):
                fields = ["at scale", name, form.removeprefix("locale:"), each.encode().hex(), scale]
                yield fields, result_of("at scale", text, result, each, name)


def printed(names):
    for kind, form, number, text in rows("printing.tsv"):
        if kind == "i64" and form.startswith("locale:"):
            name = next(names)
            yield ["print", name, form.removeprefix("locale:"), number], in_set(text, name)
    for form, units, scale, text in rows("decimals_printed.tsv"):
        if form.startswith("locale:"):
            name = next(names)
            yield ["print", name, form.removeprefix("locale:"), f"{units}/{scale}"], in_set(text, name)


def lines():
    """Returns the lines of numbers and texts in sets, of texts as people type them, and of decimals at a scale."""
    names = cycle(ZEROS)
    strict = [*parsed(names, {"whole": "strict.tsv", "decimal": "decimals_parsed.tsv"}), *printed(names)]
    typed = [*parsed(names, {"typed": "typed.tsv", "typed decimal": "typed_decimals.tsv"})]
    return strict, typed, [*islice(at_scale(cycle(ZEROS)), 0, None, 9)]


# The tables of cases in digit sets: a call of the lines, whether of whole numbers, and how few of the lines stand there.
CASES = {
    "printing_digits": ("print", True, 1), "decimals_printed_digits": ("print", False, 5),
    "strict_digits": ("whole", True, 1), "decimals_parsed_digits": ("decimal", False, 10),
    "typed_digits": ("typed", True, 1), "typed_decimals_digits": ("typed decimal", False, 4),
    "decimals_at_scale_digits": ("at scale", False, 1),
}


def by_hand():
    """Returns the tag, the number and the text of each case of printing_digits.tsv that is by hand."""
    table = (ROOT / "tests" / "cases" / "printing_digits.tsv").read_text()
    for line in table.partition("# Written by")[0].splitlines():
        if line[0] != "#":
            _, form, number, text = line.split("\t")
            yield form.removeprefix("locale:"), number, unquote(text)


def cases(table):
    """Returns the cases of a table, as fields."""
    wanted, is_whole, every = CASES[table]
    both = [(fields, result) for fields, result in itertools.chain(*lines()) if fields[0] == wanted]
    found = [line for line in both if wanted != "print" or ("/" in line[0][3]) is not is_whole]
    for (_, name, form, given, *scale), result in islice(found, 0, None, every):
        fields = ["i64"] * is_whole + [f"locale:{form}-u-nu-{name}"]
        if wanted == "print":
            yield [*fields, *given.split("/"), quote(result)]
        else:
            error = re.sub(r" \{ at: (\d+) \}", r" \1", re.sub(r"Number\(|\)", "", result))
            yield [*fields, quote(bytes.fromhex(given)), *scale, f"err {error}" if error[0].isalpha() else f"ok {error}"]


def by_default():
    table = (ROOT / "tools" / "icu_digits.tsv").read_text().splitlines()
    found = dict((name, more) for name, *more in (line.split("\t") for line in table if line[0] != "#"))
    for name, *_ in rows("locales.tsv"):
        digits, *texts = found.get(name, ["latn"])
        yield ["locale", name], ZEROS[digits]
        yield ["tag", name], "none"
        yield ["tag", f"{name}-u-nu-native"], ZEROS[digits]
        for number, text in zip(["-1234567", "12345675/1"], texts):
            if name != OTHER_GROUPS:
                yield ["print", digits, name, number], text.encode().decode("unicode_escape")


def others():
    for tag in TAGS.split():
        tag, result = tag.split("=")
        yield ["tag", tag], ZEROS.get(result, result)
    for tag, number, text in by_hand():
        name, _, digits = tag.partition("-u-nu-")
        yield ["print", digits, name, number], text
    for name, zero in ZEROS.items():
        yield ["tag", f"fa-u-ca-persian-nu-{name}-co-phonebk"], zero
        yield ["text", f"-a²{in_set('7', name)}3"], zero
        yield ["whole", name, "en", in_set("9" * 200, name).encode().hex()], "TooLong"
    yield ["text", "-Ⅳ²一"], "none"


def main():
    strict, typed, scaled = lines()
    # A table has the units alone of what is parsed at a scale.
    scaled = [(fields, result if result[0].isalpha() else f"{result}/{fields[-1]}") for fields, result in scaled]
    both = [*strict, *by_default(), *others(), *typed, *scaled]
    (CRATE / "stdin").write_text("".join("\t".join(fields) + "\n" for fields, _ in both))
    (CRATE / "stdout").write_text("".join(result + "\n" for _, result in both))


if __name__ == "__main__":
    main()
