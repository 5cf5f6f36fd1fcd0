"""What a notebook shows, tables for pandas, kinds of exceptions, and the version."""

import doctest
import pathlib
import subprocess
import sys
import xml.etree.ElementTree

import pytest

import condugwa
from condugwa import library, tables

PYTHON = pathlib.Path(__file__).resolve().parents[1]
STORING = ["put 0000 h 0100", "put 0001 b 0101", "put 0101 = 3", "press start"]


@pytest.fixture
def laboratory():
    with condugwa.Laboratory() as opened:
        yield opened


def test_a_laboratory_says_how_its_machine_stands(laboratory):
    laboratory.answers("put 0000 b 0100\nput 0100 = 3\npress start\nrun 1")
    assert repr(laboratory) == "<Laboratory: going, counter 0001, accumulator 00000006, clock 129>"


def test_an_open_source_and_a_closed_laboratory_have_no_panel(laboratory):
    laboratory.answer("source")
    assert repr(laboratory) == "<Laboratory: a source is open>"
    assert laboratory._repr_html_() == "&lt;Laboratory: a source is open&gt;"
    laboratory.close()
    assert repr(laboratory) == "<Laboratory: closed>"


def test_a_notebook_shows_the_panel_as_a_table(laboratory):
    shown = laboratory._repr_html_()
    assert shown == laboratory.panel()._repr_html_()
    assert "<th style='text-align:left'>counter</th><td>0000</td>" in shown


def test_a_notebook_shows_an_account_as_a_table(laboratory):
    laboratory.answers("\n".join(STORING))
    stored, brought = laboratory.trace(2)
    assert "<td>00000000 at 0100</td>" in stored._repr_html_()
    assert "<td>b 0101</td>" in brought._repr_html_()
    assert "stored" not in brought._repr_html_()


def test_what_is_shown_is_text_and_no_markup():
    assert tables.html_table([("<b>", "&")]) == "<table><tr><th style='text-align:left'>&lt;b&gt;</th><td>&amp;</td></tr></table>"


def test_accounts_are_a_table_of_pandas(laboratory):
    pytest.importorskip("pandas")
    laboratory.answers("\n".join(STORING))
    accounts = laboratory.trace(2)
    frame = condugwa.accounts_frame(accounts)
    assert list(frame["order"]) == ["h 0100", "b 0101"]
    assert list(frame["cost"]) == [account.cost for account in accounts]
    assert list(frame["stored_at"]) == ["0100", None]
    assert condugwa.accounts_frame([]).shape == (0, 15)


def test_without_pandas_the_error_says_what_is_missing():
    program = "import sys; sys.modules['pandas'] = None; import condugwa; condugwa.accounts_frame([])"
    ended = subprocess.run([sys.executable, "-c", program], cwd=PYTHON, capture_output=True, text=True, check=False)
    assert ended.returncode == 1
    assert "accounts_frame needs pandas" in ended.stderr


def test_each_exception_has_one_name_and_a_nature_of_python():
    kinds = {name: getattr(condugwa, name) for name in condugwa.__all__ if name.endswith("Error")}
    assert len(kinds) == 15
    natures = (ValueError, LookupError, RuntimeError, OverflowError, MemoryError, OSError)
    for name, kind in kinds.items():
        assert kind.__name__ == name
        assert not hasattr(condugwa, name.removesuffix("Error"))
        assert issubclass(kind, natures) or kind is condugwa.RefusalError
    assert issubclass(condugwa.FormError, ValueError) and issubclass(condugwa.TooFarError, LookupError)


def test_a_notebook_shows_accounts_as_one_table_with_what_ended_them(laboratory):
    laboratory.answers("put 0000 b 0100\nput 0100 = 3\npress start")
    accounts = laboratory.trace(5)
    shown = accounts._repr_html_()
    assert shown.count("<tr>") == 1 + len(accounts) == 3
    assert "<td>00000006</td><td>3</td>" in shown
    assert shown.endswith("<p>2 orders; a stop order halted the machine: press start to continue</p>")
    assert "<p>" not in condugwa.accounts_of([])._repr_html_()


def test_a_notebook_shows_the_drum_as_a_picture(laboratory):
    laboratory.put("0163", 3)
    drum = laboratory.picture()
    assert drum.words == {"0163": "00000006"}
    shown = drum._repr_svg_()
    root = xml.etree.ElementTree.fromstring(shown)
    titled = {square.findtext("{*}title"): square for square in root.findall("{*}rect") if square.findtext("{*}title")}
    assert set(titled) == {"0163 00000006", "counter 0000"}
    cell = int(titled["0163 00000006"].get("width"))
    assert (titled["0163 00000006"].get("x"), titled["0163 00000006"].get("y")) == (str(63 * cell), str(cell))


def test_a_desk_says_how_it_stands():
    with condugwa.Desk() as desk:
        assert repr(desk) == "<Desk: bare, a line is next>"
        desk.type("foo")
        desk.type("quit")
        assert repr(desk) == "<Desk: bare, left by quit, a reply was a refusal>"
        desk.leave()
        assert repr(desk) == "<Desk: closed>"


def test_the_library_has_the_version_of_the_package():
    assert library.version() == condugwa.__version__


def test_the_readme_shows_what_is_answered():
    failed, tried = doctest.testfile(str(PYTHON / "README.md"), module_relative=False)
    assert (failed, tried) == (0, 2)
