"""Desks: lines that name files, what is written for them, and what is in the files then."""

import os
import pathlib

import pytest

import condugwa

EXAMPLES = pathlib.Path(__file__).resolve().parents[3] / "examples"
SESSIONS = sorted(EXAMPLES.glob("*.typed"))


@pytest.fixture
def folder(tmp_path, monkeypatch):
    monkeypatch.chdir(tmp_path)
    return tmp_path


def written_for(lines, manner="bare"):
    """What a new desk writes for lines, up to `quit`, and at its end."""
    with condugwa.Desk(manner) as desk:
        written = ""
        for line in lines:
            if not desk.has_left:
                written += desk.type(line)
        return written + desk.leave()


@pytest.mark.parametrize("session", SESSIONS, ids=lambda path: path.name)
def test_a_session_is_answered_to_the_byte(session, folder):
    lines = session.read_text("utf-8", "surrogateescape").removesuffix("\n").split("\n")
    assert written_for(lines).encode("utf-8", "surrogateescape") == session.with_suffix(".told").read_bytes()


def test_no_session_is_missing():
    assert len(SESSIONS) > 2


def test_a_drum_is_kept_and_restored(folder):
    assert written_for(["put 0050 = 3", "save drum", "put 0050 = 4", "restore drum", "words 0050 1"]) == (
        "ok\nsaved drum\nok\nrestored 1\n0050 00000006\n"
    )
    assert (folder / "drum").read_bytes() == b"0050 00000006\n"
    assert os.listdir(folder) == ["drum"]


def test_lines_and_sources_come_from_files(folder):
    (folder / "two").write_text("put 0001 = 2\ndo one\n")
    (folder / "one").write_text("jump\n")
    (folder / "code").write_text(" z\n end 0000\n")
    refusal = "? 1 Form: there is no such command; help lists them all\n        line 1 of one"
    assert written_for(["do two", "source code"]) == f"ok\n{refusal}\ncells 1 start 0000\n"
    with condugwa.Desk() as desk:
        assert desk.type_file("one").endswith("        line 1 of one\n")
        assert desk.is_refused


def test_files_that_are_refused(folder):
    (folder / "long").write_bytes(b"1" * 16_777_217)
    (folder / "folder").mkdir()
    lines = ["do none", "do folder", "tape long", b"do \xff", "save folder", "save none/drum", b"save \xff"]
    assert written_for(lines).splitlines() == [
        "? 13 File none: it cannot be opened",
        "? 13 File folder: it cannot be read",
        "? 13 File long: it has more than 16777216 bytes",
        "? 13 File \udcff: this is not a file name",
        "? 13 File folder: it cannot be written, and is unchanged",
        "? 13 File none/drum: it cannot be written, and is unchanged",
        "? 13 File \udcff: it cannot be written, and is unchanged",
    ]
    assert sorted(os.listdir(folder)) == ["folder", "long"]


def test_manners(folder):
    assert written_for(["turn 5"], "echo") == "> turn 5\nclock 5\n"
    assert written_for(["turn 5"], "json").startswith('{"line":"turn 5"')
    with condugwa.Desk("prompting") as desk:
        assert desk.prompt == "0000 halted operator> "
        desk.type("source")
        assert desk.prompt == "source> "
    with pytest.raises(ValueError, match="manner is to be one of bare, prompting, echo, json, and not 'loud'"):
        condugwa.Desk("loud")


def test_an_open_source_is_answered_at_the_end_however_long(folder):
    lines = ["source", *[" b none"] * 3000]
    assert written_for(lines).count("UnknownName") == 3000


def test_a_desk_that_was_left_is_closed(folder):
    desk = condugwa.Desk()
    assert desk.type("quit") == "" and desk.has_left
    assert desk.leave() == ""
    with pytest.raises(ValueError, match="closed"):
        desk.type("panel")
