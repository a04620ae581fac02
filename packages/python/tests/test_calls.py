"""The public calls for one number, which are C functions that leave to Python what they do not take."""
import copy
import inspect
import pickle
import sys
from decimal import Decimal
from functools import partial

import pytest

import num_format
from num_format import Cause, Format, FormatError, ParseError

CALLS = [num_format.format, num_format.parse, num_format.parse_decimal]


class Name(str):
    __slots__ = ()


@pytest.mark.parametrize("form", [Format.locale("de"), Format("de"), "de", "de_DE.UTF-8", Name("de")])
def test_ways_to_pass_arguments(form):
    """The format by its place and its name, and what only Python takes: the first argument by its name."""
    for call, name, given, result in [
        (num_format.format, "number", -1234567, "-1.234.567"),
        (num_format.format, "number", 2**128 - 1, f"{2**128 - 1:,}".replace(",", ".")),
        (num_format.format, "number", Decimal("1234.50"), "1.234,50"),
        (num_format.format, "number", Decimal("1E+3"), "1.000"),
        (num_format.format, "number", type("Subclass", (Decimal,), {"__str__": lambda _: "7"})("1234.50"), "1.234,50"),
        (num_format.parse, "text", "-1.234.567", -1234567),
        (num_format.parse, "text", Name(2**128 - 1), 2**128 - 1),
        (num_format.parse_decimal, "text", "-1.234,50", Decimal("-1234.50")),
        (num_format.parse_decimal, "text", f"-{2**127}", Decimal(-(2**127))),
        (num_format.parse_decimal, "text", f"0,{'0' * 37}7", Decimal("7E-38")),
    ]:
        found = call(given, form), call(given, format=form), call(**{name: given, "format": form})
        assert found == (result, result, result) and {type(each) for each in found} == {type(result)}
    for typed in [True, 1, False, 0]:
        assert num_format.parse("1.234", form, typed=typed) == num_format.parse(text="1234", format=form, typed=typed)
        assert num_format.parse_decimal("1.234,50", form, typed=typed).as_tuple() == Decimal("1234.50").as_tuple()
    assert num_format.parse("1 234", "fr", typed=True) == num_format.parse("x1234", form, lenient=True) == 1234
    assert num_format.parse_decimal(" +1 234,50 ", "fr", typed=True).as_tuple() == Decimal("1234.50").as_tuple()


@pytest.mark.parametrize("call", CALLS, ids=lambda call: call.__name__)
def test_wrong_arguments(call):
    """They are refused as those of a Python function are."""
    name = f"{call.__name__}()"
    for given, named, said in [
        ((), {}, "missing 2 required positional arguments"),
        (("5",), {}, "missing 1 required positional argument: 'format'"),
        (("5",), {"typo": "de"}, "got an unexpected keyword argument 'typo'"),
        (("5", "de", True), {}, "takes 2 positional arguments but 3 were given"),
        (("5", "de"), {"format": "de"}, "got multiple values for argument 'format'"),
    ]:
        with pytest.raises(TypeError) as caught:
            call(*given, **named)
        assert str(caught.value).startswith(f"{name} {said}")
    with pytest.raises(TypeError, match="unexpected keyword argument 'lenient'"):
        num_format.parse_decimal("5", "de", lenient=True)
    with pytest.raises(TypeError, match="the format must be a Format or a str, not int"):
        call("5", 5)
    with pytest.raises(FormatError, match="locale 'xx' is refused"):
        call("5", "xx")


def test_refused_texts():
    """However the text is passed, the error is the same, and is raised as any other."""
    form = Format.locale("fr")
    for call in num_format.parse, num_format.parse_decimal:
        for text, cause, at in [("1\u202f23", Cause.MISSPELLED, None), ("\u202f1x", Cause.UNEXPECTED, 2)]:
            errors = []
            ways = partial(call, text, form), partial(call, text, format="fr"), partial(call, text=text, format=form)
            for passed in ways:
                try:
                    raise KeyError
                except KeyError:
                    with pytest.raises(ParseError) as caught:
                        passed()
                assert isinstance(caught.value.__context__, KeyError)
                errors.append(caught.value)
            assert {(type(each), str(each)) for each in errors} == {(ParseError, str(errors[0]))}
            assert all(vars(each) == vars(errors[0]) and each.args == (text, cause, at, None) for each in errors)
            with pytest.raises(ParseError) as caught:
                call(text, form, typed=True)
            assert "typed=True" not in str(caught.value)


@pytest.mark.parametrize("call", CALLS, ids=lambda call: call.__name__)
def test_calls_as_objects(call):
    assert pickle.loads(pickle.dumps(call)) is copy.deepcopy(call) is call
    assert pickle.loads(pickle.dumps(partial(call, format=Format("de")))).func is call
    assert inspect.isroutine(call) and call.__qualname__ == call.__name__
    assert inspect.getdoc(call).startswith("Returns the ")


def test_signatures():
    signatures = ["(number, format, *, decimals=None)", "(text, format, *, lenient=False, typed=False)"]
    assert [str(inspect.signature(call)) for call in CALLS] == [*signatures, "(text, format, *, typed=False)"]


def test_no_memory_is_lost():
    """Each call drops what it made, also where it raises."""
    form, number, text = Format.locale("de"), Decimal("1234567.50"), "1.234.567,50"

    def work():
        for given, at in [(form, form), ("de", "de")]:
            num_format.format(10**25, given), num_format.format(number, at), num_format.format(number, at, decimals=1)
            num_format.parse("1.234.567.890.123.456.789.012", given), num_format.parse("5", at, typed=True)
            num_format.parse_decimal(text, given), num_format.parse_decimal(text, at, typed=True)
        for call in CALLS:
            with pytest.raises((ParseError, TypeError)):
                call("12x", form)
            with pytest.raises((ParseError, TypeError)):
                call([5], "de")

    blocks = []
    for _ in range(6):
        for _ in range(200):
            work()
        blocks.append(sys.getallocatedblocks())
    assert min(blocks[3:]) - blocks[2] < 100, blocks
