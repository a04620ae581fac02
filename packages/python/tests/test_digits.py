"""Digits of other scripts."""
import copy
import os
import pickle
import unicodedata
from decimal import Decimal
from pathlib import Path

import pytest

import num_format
from num_format import Cause, Format, FormatError, Grouping, ParseError

# Sets by the names that Unicode has for their digits, one of each length in UTF-8.
SETS = {"arab": "ARABIC-INDIC", "deva": "DEVANAGARI", "fullwide": "FULLWIDTH", "mathbold": "MATHEMATICAL BOLD"}
NAMES = ["ZERO", "ONE", "TWO", "THREE", "FOUR", "FIVE", "SIX", "SEVEN", "EIGHT", "NINE"]
TEN = {name: "".join(unicodedata.lookup(f"{script} DIGIT {each}") for each in NAMES) for name, script in SETS.items()}
NUMBERS = [0, 7, -1234567, 2**63, 2**128 - 1, -(2**127), Decimal("-12345.67"), Decimal("0.05")]


def shown(text, name):
    return text.translate(dict(zip(map(ord, "0123456789"), TEN[name])))


@pytest.mark.parametrize("name", TEN)
def test_texts_are_those_in_0_to_9_with_other_digits(name):
    for locale in ["en", "de-CH", "hi", "fa", "he", "en-US-POSIX"]:
        form = Format(locale, digits=name)
        assert form == Format.locale(f"{locale}-u-nu-{name}") and form.digits == TEN[name] and form.reads_back()
        for number in NUMBERS:
            text = shown(num_format.format(number, locale), name)
            assert num_format.format(number, form) == text
            call = num_format.parse_decimal if isinstance(number, Decimal) else num_format.parse
            assert call(text, form) == call(text, form, typed=True) == number
            assert num_format.text_width(number, form) == num_format.text_width(number, locale)


def test_names():
    assert Format().digits == Format(digits="latn").digits == "0123456789"
    assert Format("fa-u-nu-native") == Format("fa", digits="arabext") == Format("fa-u-nu-deva", digits="arabext")
    assert Format("de-u-nu-native") == Format("de") == Format("de-u-nu-arab", digits="latn")
    assert num_format.lookup("fa-u-nu-arabext") == num_format.lookup("de-u-nu-roman;q=0.5,fa") == "fa"
    assert not Format("fa").prints_alike(Format("fa-u-nu-native"))
    for name in ["", "Arab", "roman", "hanidec", "native", "arab\0", "0123456788", "\u0660", "\u0301", "x" * 5000]:
        with pytest.raises(FormatError) as caught:
            Format(digits=name)
        assert (caught.value.argument, caught.value.text) == ("digits", name)
        assert caught.value.cause is Cause.UNKNOWN_DIGITS
    for word in ["roman", "traditio", "finance", "", "deva-nu-deva", "nu", "x-nu-deva"]:
        tag = f"zh-u-nu-{word}"
        for call, argument in (lambda tag: num_format.format(1, tag), "locale"), (num_format.lookup, "tag"):
            with pytest.raises(FormatError, match="no digit set has this name") as caught:
                call(tag)
            assert (caught.value.argument, caught.value.text, caught.value.cause) == (argument, tag, Cause.UNKNOWN_DIGITS)
    with pytest.raises(FormatError, match="tag 'fa-u-nu-roman,en;q=0.5' is refused: no digit set"):
        num_format.lookup("fa-u-nu-roman,en;q=0.5")
    with pytest.raises(FormatError) as caught:
        Format(digits="\ud800")
    assert (caught.value.argument, caught.value.cause) == ("digits", Cause.NOT_UTF8)
    with pytest.raises(TypeError):
        Format(digits=b"arab")


def test_native_digits_are_those_of_icu():
    table = Path(os.environ["NUM_FORMAT_REPOSITORY"]) / "tools" / "icu_digits.tsv"
    rows = [line.split("\t") for line in table.read_text(encoding="ascii").splitlines() if line[0] != "#"]
    assert len(rows) == 46
    for name, digits, *texts in rows:
        form = Format(f"{name}-u-nu-native")
        assert form == Format(name, digits=digits) != Format(name)
        shown = [num_format.format(number, form) for number in (-1234567, Decimal("1234567.5"))]
        # The group sizes of ks are those of an older CLDR.
        assert name == "ks" or shown == [text.encode().decode("unicode_escape") for text in texts]
    others = set(num_format.locales()) - {name for name, *_ in rows}
    assert all(Format(f"{name}-u-nu-native") == Format(name) for name in others)


def test_copies():
    for name in TEN:
        form = Format("fa", digits=name)
        assert eval(repr(form), {"Format": Format, "Grouping": Grouping}) == Format(digits=TEN[name], **parts(form))
        assert pickle.loads(pickle.dumps(form)) == copy.copy(form) == form != Format("fa")
    assert "digits" not in repr(Format("fa"))


def parts(form):
    return {name: getattr(form, name) for name in ("separator", "grouping", "minus_sign", "decimal_mark")}


@pytest.mark.parametrize(
    ("text", "cause", "at"),
    [
        ("\u0661\u066c\u0662" + "3\u0664", Cause.OTHER_NUMERAL, 3),
        ("\u0661\u06f2", Cause.OTHER_NUMERAL, 1),
        ("\U0001d7cf\u0661", Cause.OTHER_NUMERAL, 0),
        ("\u0661\u00b2", Cause.OTHER_NUMERAL, 1),
        ("x\u2163", Cause.OTHER_NUMERAL, 1),
        ("\u0661\U0001f600", Cause.UNEXPECTED, 1),
        ("\u0661\u0301", Cause.UNEXPECTED, 1),
        ("\u0301", Cause.UNEXPECTED, 0),
        ("\u4e00", Cause.UNEXPECTED, 0),
        ("\u0661\ud800", Cause.NOT_UTF8, 1),
        ("", Cause.NO_DIGIT, None),
        ("\u0660\u0661", Cause.MISSPELLED, None),
        ("\u0661\u066c\u0662\u0663", Cause.MISSPELLED, None),
        ("\u0661" * 200, Cause.TEXT_TOO_LONG, None),
        ("\u0661" * 40, Cause.OUT_OF_RANGE, None),
    ],
)
def test_refused_texts(text, cause, at):
    for way in [{}, {"typed": True}]:
        for call in [num_format.parse, num_format.parse_decimal]:
            with pytest.raises(ParseError) as caught:
                call(text, "ar-EG-u-nu-arab", **way)
            assert (caught.value.cause, caught.value.at) == (cause, at)


def test_messages():
    with pytest.raises(ParseError, match="unexpected character at index 1, U\\+0020 for U\\+202F: typed=True reads it"):
        num_format.parse("\u0661 \u0662\u0663\u0664", "fr-u-nu-arab")
    for text, form, at in [("+\u0661", "ar-EG-u-nu-arab", 0), ("\u0661 ", "fr-u-nu-arab", 1), ("1 ", "fr", 1)]:
        with pytest.raises(ParseError, match=f"unexpected character at index {at}: typed=True reads it"):
            num_format.parse(text, form)


def test_order_of_errors():
    form = Format("ar-EG", minus_sign="", digits="arab")
    assert not form.reads_back()
    for text in ["1", "\u0661"]:
        with pytest.raises(FormatError) as caught:
            num_format.parse(text, form)
        assert caught.value.cause is Cause.AMBIGUOUS_FORMAT


def test_lenient_parsing_takes_0_to_9():
    with pytest.raises(ValueError, match="lenient parsing takes the digits 0 to 9 alone"):
        num_format.parse("\u0661", "ar-EG-u-nu-arab", lenient=True)


def test_columns():
    np = pytest.importorskip("numpy")
    from num_format import columns

    form = Format("ar-EG", digits="arab")
    texts = columns.format_column(np.ma.array([1234, 0, -5], mask=[0, 1, 0]), form)
    assert texts.tolist() == [num_format.format(1234, form), None, num_format.format(-5, form)]
    prices = columns.format_decimal_column([Decimal("1.50"), Decimal("-0.05")], 2, form)
    assert prices.tolist() == [num_format.format(price, form) for price in (Decimal("1.50"), Decimal("-0.05"))]
    for way in [{}, {"typed": True}]:
        assert columns.parse_column(texts, form, **way).tolist() == [1234, None, -5]
        assert columns.parse_decimal_column(prices, 3, form, object, **way).tolist() == [Decimal("1.500"), Decimal("-0.050")]
        for call in [columns.parse_column, lambda *given, **way: columns.parse_decimal_column(given[0], 2, *given[1:], **way)]:
            with pytest.raises(ParseError, match="row 1: .* numeral of another digit set at index 1") as caught:
                call(["\u0665", "\u0661" "2"], form, **way)
            assert (caught.value.cause, caught.value.at, caught.value.row) == (Cause.OTHER_NUMERAL, 1, 1)
    given = ["\u0661\u066c\u0662", "1", "x", "\udcff", "", "\u0661" * 40, "\u0661" * 200]
    refused = [*(text.encode("utf-8", "surrogateescape") for text in given), None]
    causes = [Cause.MISSPELLED, Cause.OTHER_NUMERAL, Cause.UNEXPECTED, Cause.NOT_UTF8, Cause.NO_DIGIT, Cause.OUT_OF_RANGE,
              Cause.TEXT_TOO_LONG, 0]
    assert columns.try_parse_column(refused, form).causes.tolist() == causes
    assert columns.try_parse_decimal_column(refused, 0, form).causes.tolist() == causes
    assert columns.try_parse_decimal_column(["\u0661\u066b\u0665"], 0, form).causes.tolist() == [Cause.DIGITS_LOST]
    with pytest.raises(ValueError, match="lenient parsing takes the digits 0 to 9 alone"):
        columns.parse_column(texts, form, lenient=True)
