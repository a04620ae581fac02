"""Formats, locales and their errors."""
import copy
import inspect
import pickle

import pytest

import num_format
from num_format import Cause, Format, FormatError, Grouping


@pytest.mark.parametrize(
    ("header", "name"),
    [
        ("de,en;q=0.9", "de"),
        ("de;q=0.9", "de"),
        ("en;q=0.5, de;q=0.9", "de"),
        ("en-US,en", "en"),
        ("en-US,en;q=0.9,de;q=0.8", "en"),
        ("tlh, pt-BR;q=0.8, *;q=0.5", "pt"),
        ("da, en-GB;q=0.8, en;q=0.7", "da"),
        ("fr;q=0.5,de;q=0.5", "fr"),
        ("fr;q=0, de;q=0.001", "de"),
        ("fr ; q=0.7 ,\tde ; Q=1.000", "de"),
        ("fr;q=1.5, de;q=0.1", "de"),
        ("fr;q=x;y, de", "de"),
        (",,de,", "de"),
        ("*", None),
        ("*,en;q=0", None),
        ("fr;q=0", None),
        (",", None),
        ("tlh,xx-YY;q=0.3", None),
    ],
)
def test_headers_of_browsers(header, name):
    """Accept-Language of RFC 9110: a weight is from 0 to 1 with at most three decimals, 1 if there is none, and 0 is no."""
    assert num_format.lookup(header) == name
    if name:
        assert Format.locale(header) == Format.locale(name) and num_format.format(5, header) == "5"
    else:
        with pytest.raises(FormatError) as caught:
            Format.locale(header)
        assert (caught.value.cause, caught.value.text) == (Cause.UNKNOWN_LOCALE, header)


def test_tags_in_place_of_names():
    for tag, text in {"de_DE": "1.234", "EN": "1,234", "pt_BR.UTF-8": "1.234", "C": "1234"}.items():
        assert num_format.format(1234, tag) == text and num_format.parse(text, tag) == 1234


def test_tags_that_are_refused():
    with pytest.raises(FormatError) as caught:
        num_format.lookup("de\ud800")
    assert (caught.value.cause, caught.value.argument, caught.value.text) == (Cause.NOT_UTF8, "tag", "de\ud800")
    for tag in (None, b"de", 1):
        with pytest.raises(TypeError):
            num_format.lookup(tag)


def test_locales_are_in_order():
    assert len(num_format.locales()) == 542
    assert list(num_format.locales()) == sorted(set(num_format.locales()))


def test_defaults_are_those_of_en():
    assert Format() == Format.locale("en")
    assert Format().grouping is Grouping.STANDARD


def test_equality_and_hash():
    dots = Format(separator=".", decimal_mark=",")
    assert dots == Format.locale("de") and hash(dots) == hash(Format.locale("de"))
    assert dots != Format(separator=".")
    assert dots != Format(separator=".", decimal_mark=",", minus_sign="\u2212")
    assert dots != Format(separator=".", decimal_mark=",", grouping="Indian")
    assert Format(separator="") != Format(separator="\0")
    assert dots != "de" and (dots == 1) is False
    assert len({dots, Format.locale("de"), Format.locale("da"), Format.locale("en")}) == 2


def test_repr_makes_the_same_format():
    for name in num_format.locales():
        form = Format.locale(name)
        assert eval(repr(form), {"Format": Format, "Grouping": Grouping}) == form


def test_copies():
    for form in [Format(), Format.locale("sv"), Format(separator="", grouping="Myriad", minus_sign="")]:
        assert copy.copy(form) == copy.deepcopy(form) == form
        for protocol in range(pickle.HIGHEST_PROTOCOL + 1):
            assert pickle.loads(pickle.dumps(form, protocol)) == form
    for grouping in Grouping:
        assert pickle.loads(pickle.dumps(grouping)) is grouping


def test_formats_do_not_change():
    form = Format.locale("de")
    for name in ["separator", "grouping", "minus_sign", "decimal_mark", "other"]:
        with pytest.raises(AttributeError):
            setattr(form, name, ",")


def test_texts_of_up_to_8_bytes():
    form = Format(separator="12345678", minus_sign="\u20ac\u20acab", decimal_mark="\U0001f600\U0001f600")
    assert form.separator == "12345678"
    assert num_format.format(-1000, form) == "\u20ac\u20acab112345678000"
    assert Format(separator="", minus_sign="", decimal_mark="").separator == ""


@pytest.mark.parametrize("argument", ["separator", "minus_sign", "decimal_mark"])
def test_refused_texts(argument):
    long, also_long, bad = "123456789", "\u20ac" * 3, "\ud800"
    for text, cause in [(long, Cause.TOO_LONG), (also_long, Cause.TOO_LONG), (bad, Cause.NOT_UTF8)]:
        with pytest.raises(FormatError) as caught:
            Format(**{argument: text})
        error = caught.value
        assert (error.argument, error.text, error.cause) == (argument, text, cause)
        assert argument in str(error)
    for text in [1, b","]:
        with pytest.raises(TypeError):
            Format(**{argument: text})


def test_groupings_by_name():
    for grouping in Grouping:
        for name in [grouping.value, grouping.name, grouping.value.lower()]:
            assert Grouping(name) is Format(grouping=name).grouping is grouping


def test_refused_groupings():
    for grouping in ["thirds", "", 1, []]:
        with pytest.raises(FormatError) as caught:
            Format(grouping=grouping)
        assert (caught.value.argument, caught.value.cause) == ("grouping", Cause.BAD_GROUPING)


def test_formats_that_begin_with_a_locale():
    assert Format("de") == Format.locale("de_DE.UTF-8") and Format("de", separator="'").decimal_mark == ","
    assert Format("sv", minus_sign="-", grouping="Indian") == Format(
        separator="\u00a0", grouping="Indian", decimal_mark=","
    )
    with pytest.raises(FormatError) as caught:
        Format(",")
    assert (caught.value.argument, caught.value.cause) == ("locale", Cause.UNKNOWN_LOCALE)
    with pytest.raises(TypeError):
        Format("de", ",")


def test_refused_names():
    for name in [[], None, 1, b"de"]:
        with pytest.raises(TypeError, match="must be a str, not"):
            Format.locale(name)
    for name in ["", "xx", "english", "de\0", "de" * 1000]:
        with pytest.raises(FormatError, match="and none is found for it as a language tag") as caught:
            num_format.format(1, name)
        assert caught.value.text == name
    with pytest.raises(FormatError) as caught:
        Format.locale("\udcff")
    assert caught.value.cause is Cause.NOT_UTF8


def test_wrong_types_of_another_format():
    with pytest.raises(TypeError):
        Format().prints_alike("en")


def test_errors_are_pickled():
    errors = [
        num_format.ParseError("1x", Cause.UNEXPECTED, 1),
        num_format.ParseError("1,2", Cause.MISSPELLED, None, 7),
        FormatError("locale", "xx", Cause.UNKNOWN_LOCALE),
        FormatError("format", repr(Format(minus_sign="")), Cause.AMBIGUOUS_FORMAT),
    ]
    for error in errors:
        again = pickle.loads(pickle.dumps(error))
        assert type(again) is type(error) and vars(again) == vars(error) and str(again) == str(error)
    assert str(errors[0]) == "'1x' is refused: unexpected character at index 1"
    assert str(errors[1]) == "row 7: '1,2' is refused: it is not as its number is printed"


def test_messages_are_short():
    long = "9" * 5000
    for error in [num_format.ParseError(long, Cause.OUT_OF_RANGE), FormatError("locale", long, Cause.UNKNOWN_LOCALE)]:
        assert len(str(error)) < 170


def test_each_cause_has_a_message():
    assert len({cause.reason for cause in Cause}) == len(Cause)
    for cause in Cause:
        assert str(num_format.ParseError("1", cause)) == f"'1' is refused: {cause.reason}"
        assert eval(repr(cause)) is cause
        # help() has a line of each.
        assert f"\n    {cause.name}: " in inspect.getdoc(Cause)


def test_the_base_of_the_errors():
    error = num_format.NumFormatError("x", Cause.NO_DIGIT)
    assert (error.text, error.cause, str(error)) == ("x", Cause.NO_DIGIT, "'x' is refused: it has no digit")
    with pytest.raises(TypeError):
        num_format.NumFormatError("x")
