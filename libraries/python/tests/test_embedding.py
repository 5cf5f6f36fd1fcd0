"""docs/EMBEDDING.md shows what the package does: its programs in Python print what stands beside each print, and draw what they say."""

import contextlib
import io
import pathlib
import re
import textwrap

import pytest

PAGE = (pathlib.Path(__file__).resolve().parents[3] / "docs" / "EMBEDDING.md").read_text()
PROGRAMS = re.findall(r"^    import condugwa\n(?:    .*\n|\n)*", PAGE, re.M)


def test_no_program_is_missing():
    assert len(PROGRAMS) == 3


@pytest.mark.parametrize("program", PROGRAMS, ids=lambda program: program.strip().splitlines()[-1])
def test_a_program_prints_what_the_page_says(program, tmp_path, monkeypatch):
    if "matplotlib" in program:
        pytest.importorskip("matplotlib").use("svg")
    monkeypatch.chdir(tmp_path)
    wanted = re.findall(r"print\(.*\) +# (.*)$", program, re.M)
    printed = io.StringIO()
    with contextlib.redirect_stdout(printed):
        exec(textwrap.dedent(program), {})
    assert len(wanted) == program.count("print(")
    assert printed.getvalue().splitlines() == wanted
    assert {path.name for path in tmp_path.iterdir()} == set(re.findall(r"savefig\(\"(.*)\"\)", program))
