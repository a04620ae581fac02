"""The examples in docstrings and in README.md."""
import contextlib
import doctest
import inspect
import io
import re
from pathlib import Path

import pytest

import num_format

columns = pytest.importorskip("num_format.columns")

README = Path(__file__).resolve().parents[1] / "README.md"

PUBLIC = [num_format, columns]
PUBLIC += [getattr(module, name) for module in PUBLIC for name in module.__all__ if name != "WIDE"]


@pytest.mark.parametrize("item", PUBLIC, ids=lambda item: item.__name__)
def test_docstrings(item):
    """Each public module, class, method and function has a docstring, and its examples print what they say."""
    assert inspect.getdoc(item)
    runner = doctest.DocTestRunner()
    for test in doctest.DocTestFinder().find(item, item.__name__, module=False, globs={}):
        runner.run(test)
    assert runner.failures == 0
    has_no_example = (num_format.NumFormatError, columns.ParsedColumn)
    assert item in has_no_example or runner.tries > 0


@pytest.mark.parametrize("cls", [item for item in PUBLIC if inspect.isclass(item)], ids=lambda cls: cls.__name__)
def test_methods_have_docstrings(cls):
    for name, member in vars(cls).items():
        if not name.startswith("_") and (callable(member) or isinstance(member, (property, staticmethod))):
            assert inspect.getdoc(member), name


def test_readme():
    failures, tries = doctest.testfile(str(README), module_relative=False, encoding="utf-8")
    assert failures == 0 and tries > 5


def test_the_first_lines_of_the_readme():
    """It opens with lines that can be pasted, and with what they print."""
    opening = re.match(r"# .*\n\n```python\n(.*?)```\n\n```text\n(.*?)```\n", README.read_text(encoding="utf-8"), re.S)
    assert opening[1].count("\n") == 3
    with contextlib.redirect_stdout(io.StringIO()) as printed:
        exec(opening[1], {})
    assert printed.getvalue() == opening[2]


def test_links_of_the_readme():
    """An index shows it, where a link to a file of the repository has no end."""
    links = re.findall(r"\]\(\s*([^)\s]*)\s*\)", README.read_text(encoding="utf-8"))
    assert links and all(link.startswith("https://") for link in links)


def test_pandas():
    pytest.importorskip("pandas")
    failures, tries = doctest.testfile(str(README.with_name("pandas.md")), module_relative=False, encoding="utf-8")
    assert failures == 0 and tries > 5


def test_types_are_there():
    package = Path(num_format.__file__).parent
    assert (package / "py.typed").is_file() and (package / "_native.pyi").is_file()
    for module in PUBLIC[:2]:
        for name in module.__all__:
            item = getattr(module, name)
            if inspect.isfunction(item):
                hints = inspect.signature(item)
                assert hints.return_annotation is not inspect.Signature.empty
                assert all(p.annotation is not inspect.Parameter.empty for p in hints.parameters.values())


def test_public_names():
    """`dir` shows them, and no others; each is documented as if it was of the module that users import."""
    assert dir(num_format) == sorted([*num_format.__all__, "__version__", "columns"])
    assert dir(columns) == sorted(columns.__all__)
    assert num_format.format_number is num_format.format
    for name in num_format.__all__:
        assert getattr(num_format, name).__module__ == "num_format"
