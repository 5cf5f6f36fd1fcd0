"""The package's own tests. What a reply has to be is taken from docs/FORMATS.md and from the examples."""

import os
import pathlib
import re
import subprocess
import sys

import pytest

import condugwa

EXAMPLES = pathlib.Path(__file__).resolve().parents[3] / "examples"
SCRIPTS = sorted(EXAMPLES.rglob("*.txt"))


@pytest.mark.parametrize("script", SCRIPTS, ids=lambda path: str(path.relative_to(EXAMPLES)))
def test_an_example_is_answered_to_the_byte(script):
    replies = condugwa.run_script(script.read_bytes())
    assert replies.text.encode("utf-8", "surrogateescape") == script.with_suffix(".expected").read_bytes()


def test_no_example_is_missing():
    assert len(SCRIPTS) > 20


def test_an_empty_script_has_no_reply():
    assert condugwa.run_script("") == condugwa.Replies("", 0)


def test_questions_are_counted_and_raised():
    replies = condugwa.run_script("x\nback 1\npanel\n")
    assert replies.questions == 2
    assert [type(refusal) for refusal in replies.refusals()] == [condugwa.FormError, condugwa.TooFarError]
    assert replies.refusals()[1].detail == 0
    with pytest.raises(condugwa.FormError):
        replies.check()


def test_a_null_byte_is_a_byte_like_others():
    assert condugwa.run_script(b"\0\nwords 0000 1\n").lines() == ["? 1 Form", "0000 00000000"]


def test_replies_larger_than_the_first_room_are_whole():
    replies = condugwa.run_script("words 0000 64\n" * 200)
    assert len(replies.text) == 200 * 64 * 14
    assert replies.check() is replies


def test_a_source_is_listed():
    source = EXAMPLES / "loader-by-hand.source"
    listing = condugwa.assemble(source.read_bytes())
    assert listing.text.encode("utf-8", "surrogateescape") == source.with_suffix(".listing").read_bytes()
    assert (listing.cells, listing.start) == (7, "0100")


def test_faults_are_told_with_their_lines():
    faults = condugwa.assemble(" q 0000\n b none\n")
    assert isinstance(faults, condugwa.Faults)
    assert [(fault.line, fault.kind, fault.columns) for fault in faults.faults] == [
        (1, "UnknownOrder", (1, 2)),
        (2, "UnknownName", (3, 7)),
        (3, "NoEnd", None),
    ]
    assert str(faults.faults[1]) == "line 2: no line has this label: check the spelling, or give a line this label"


def test_the_empty_source_has_one_fault():
    faults = condugwa.assemble("")
    assert isinstance(faults, condugwa.Faults) and [(fault.line, fault.kind) for fault in faults.faults] == [(1, "NoEnd")]


def test_a_source_that_no_script_can_hold_is_refused():
    with pytest.raises(ValueError):
        condugwa.assemble(" z\n.\n end\n")
    with pytest.raises(condugwa.TooLongError):
        condugwa.assemble(";" * 5000 + "\n end\n")


def source_of_bytes(count):
    """A source of so many bytes, with a line feed at its end: two lines, and comments of at most 4,096 bytes each."""
    text = " z\n end\n"
    while len(text) < count:
        text += ";" + "x" * (min(count - len(text), 4096) - 2) + "\n"
    return text


def test_a_source_of_the_greatest_size_is_listed():
    source = source_of_bytes(1_048_576)
    assert len(source) == 1_048_576
    listing = condugwa.assemble(source)
    assert (listing.cells, listing.text.count("\n")) == (1, source.count("\n"))


def test_the_line_feed_of_the_last_line_counts():
    source = source_of_bytes(1_048_576)
    assert condugwa.assemble(source[:-1]) == condugwa.assemble(source)
    for longer in (source[:-1] + "x", source_of_bytes(1_048_578)):
        with pytest.raises(condugwa.TooLongError):
            condugwa.assemble(longer)


def test_bytes_that_are_no_text_come_back():
    listing = condugwa.assemble(b" z ; \xff\n end\n")
    assert isinstance(listing, condugwa.Faults)
    assert listing.faults[0].kind == "BadByte"


def test_a_panel_is_read_from_its_reply():
    replies = condugwa.run_script((EXAMPLES / "first-run.txt").read_bytes())
    panel = condugwa.Panel.of(replies.lines()[-2])
    assert panel == condugwa.Panel(
        "0004", "00000010", "00000000", "halted stop", "normal", "uuuuuu", False, 0, 94
    )
    with pytest.raises(ValueError):
        condugwa.Panel.of("clock 94")


def test_words_are_read_by_address():
    replies = condugwa.run_script("put 0050 000000fq\nwords 0050 2\n")
    assert replies.lines()[0] == "ok"
    words = condugwa.words_of("\n".join(replies.lines()[1:]))
    assert words == {"0050": "000000fq", "0051": "00000000"}
    assert condugwa.word_value(words["0050"]) == (10 * 16 + 14) // 2


@pytest.fixture
def laboratory():
    with condugwa.Laboratory() as laboratory:
        yield laboratory


@pytest.mark.parametrize("script", SCRIPTS, ids=lambda path: str(path.relative_to(EXAMPLES)))
def test_an_example_is_answered_line_by_line(script):
    replies = b""
    session = condugwa.library.Session()
    for line in script.read_bytes().split(b"\n")[:-1]:
        replies += session.answer(line.removesuffix(b"\r"))[0]
    # a refusal has its reason in a session alone, behind a colon
    told = re.sub(rb"(?m)^(\? \d+ \w+(?: \d+)?): .*$", rb"\1", replies + session.close())
    assert told == script.with_suffix(".expected").read_bytes()


def test_a_laboratory_keeps_what_was_done(laboratory):
    assert laboratory.answer("put 0050 = 3") == "ok\n"
    assert laboratory.words("0050", 2) == {"0050": "00000006", "0051": "00000000"}
    assert laboratory.transcript() == "put 0050 00000006\nwords 0050 2\n"


def test_a_program_is_run_and_taken_back(laboratory):
    laboratory.answers("put 0100 b 0102\nput 0101 z 0000\nput 0102 = 5\ngo 0100\n")
    assert laboratory.run(10) == condugwa.Run(2, "rest", None)
    assert laboratory.panel().accumulator == "0000000g"[:7] + "f"
    laboratory.back(1)
    assert laboratory.panel().counter == "0101"


def test_a_run_is_told(laboratory):
    laboratory.answers("put 0100 b 0102\nput 0101 z 0000\nput 0102 = 5\ngo 0100")
    clock = laboratory.panel().clock
    bring, stop = laboratory.trace(10)
    assert (bring.clock, bring.at, bring.order, bring.after) == (clock, "0100", "b 0102", "0000000f")
    assert (stop.at, stop.order, stop.clock) == ("0101", "z 0000", bring.clock + bring.cost)
    assert laboratory.panel().clock == stop.clock + stop.cost
    assert laboratory.transcript().endswith("\npress start\nrun 10\n")
    assert laboratory.back(2) == clock
    profile = laboratory.profile(10)
    assert (profile.orders, profile.times) == (2, bring.cost + stop.cost)
    assert {place.address: place.times for place in profile.places} == {"0100": bring.cost, "0101": stop.cost}
    assert laboratory.back(2) == clock
    signs = "".join(row[9:].lstrip(" ") for row in laboratory.drum(10))
    assert len(signs) == profile.times
    assert (signs.count("F"), signs.count("R")) == (2, 1)
    assert laboratory.back(2) == clock
    word = laboratory.optimum_of(10, "0102")
    assert (word.orders, word.times, word.by_sector[2]) == (2, profile.times, profile.times)
    assert laboratory.back(2) == clock
    optimum = laboratory.optimum(10)
    assert (optimum.orders, optimum.times) == (2, profile.times)
    assert (optimum.free[0].address, optimum.free[0].best, optimum.free[0].saved) == ("0102", word.best, word.saved)
    assert optimum.together == word.saved == profile.times - min(word.by_sector)
    assert laboratory.transcript().endswith("\nrun 10\nback 2\nrun 10\n")


def test_a_told_run_that_the_clock_breaks_off_is_refused(laboratory, monkeypatch):
    # no text brings the clock to its end
    monkeypatch.setattr(laboratory._session, "answer", lambda line: (b"orders 0\n? 4 ClockEnd\n", 1))
    with pytest.raises(condugwa.ClockEndError):
        laboratory.profile(1000)


@pytest.mark.parametrize("state", ["null", '"a stop order halted the machine: press start to continue"'])
def test_the_end_of_a_told_run_is_no_record_of_it(laboratory, monkeypatch, state):
    answer = laboratory.answer
    told = f'{{"ran":"0 rest","state":{state}}}\n'
    monkeypatch.setattr(laboratory, "answer", lambda line: told if "trace-data" in line else answer(line))
    assert laboratory.trace(1) == []


def test_the_paper_has_capital_letters_after_upper_case_and_tab_stops(laboratory):
    assert laboratory.paper() == ""
    orders = ["p 0800", "p =1", "p 1600", "p 0400", "p =1", "p 2400", "p =0", "z"]
    laboratory.answers("\n".join(f"put {place:04} {order}" for place, order in enumerate(orders)))
    laboratory.answer("press start")
    laboratory.run(10)
    assert laboratory.paper() == "L\n1       0"
    assert laboratory.answer("printed") == "printed 7 [08]1[16][04]1[24]0\n"


def test_a_rule_stops_a_run(laboratory):
    laboratory.answers("put 0100 u 0100\nbreak 0100\ngo 0100\n")
    assert laboratory.run(10) == condugwa.Run(1, "rule", 0)
    assert len(laboratory.trace(10)) == 1


def test_a_run_at_rest_performs_nothing(laboratory):
    assert laboratory.run(10) == condugwa.Run(0, "rest", None)
    assert laboratory.trace(10) == []
    assert laboratory.optimum(10) == condugwa.Optimum(0, 0, (), 0, (), ())
    assert laboratory.optimum_of(10, "0000") == condugwa.WordOptimum(0, 0, (), None, 0)


def test_a_refusal_is_raised_and_changes_nothing(laboratory):
    with pytest.raises(condugwa.TooFarError) as refusal:
        laboratory.back(1)
    assert refusal.value.detail == 0
    with pytest.raises(condugwa.FormError) as refusal:
        laboratory.answer("jump 0100")
    assert refusal.value.reply.startswith("? 1 Form: ")
    with pytest.raises(condugwa.BadSignError) as refusal:
        laboratory.answer("mount 12A")
    assert refusal.value.detail == 2
    assert refusal.value.reply.startswith("? 12 BadSign 2: ")
    assert laboratory.panel().clock == 0


def test_a_reply_larger_than_the_room_is_whole(laboratory):
    for _ in range(3):
        laboratory.answers("".join(f"put {track:02}00 = 1\n" for track in range(64)))
    transcript = laboratory.transcript()
    assert len(transcript) > 3 * 64 * 16
    assert condugwa.run_script(transcript).text == "ok\n" * 192


@pytest.mark.parametrize("line", ["?", "? 99", "? 7 TooFar 3", "?x"])
def test_a_transcript_is_a_text_whatever_its_lines_are(laboratory, line):
    with pytest.raises(condugwa.FormError):
        laboratory.answer(line)
    assert laboratory.transcript() == f"{line}\n"
    assert laboratory.answer(" transcript ") == f"{line}\n"
    with pytest.raises(condugwa.FormError):
        laboratory.answer("transcript 1")


ASKED = {
    "panel": lambda laboratory: laboratory.panel(),
    "words": lambda laboratory: laboratory.words("0000"),
    "run": lambda laboratory: laboratory.run(1),
    "trace": lambda laboratory: laboratory.trace(1),
    "profile": lambda laboratory: laboratory.profile(1),
    "drum": lambda laboratory: laboratory.drum(1),
    "optimum": lambda laboratory: laboratory.optimum(1),
    "optimum_of": lambda laboratory: laboratory.optimum_of(1, "0000"),
    "back": lambda laboratory: laboratory.back(1),
    "to": lambda laboratory: laboratory.to(1),
    "put": lambda laboratory: laboratory.put("0000", 1),
    "go": lambda laboratory: laboratory.go("0000"),
    "source": lambda laboratory: laboratory.source(" z\n end\n"),
    "load": lambda laboratory: laboratory.load(),
    "step": lambda laboratory: laboratory.step(),
    "why": lambda laboratory: laboratory.why("0000"),
    "numbers": lambda laboratory: laboratory.numbers("0000"),
    "labels": lambda laboratory: laboratory.labels(),
    "break_at": lambda laboratory: laboratory.break_at("0000"),
    "watch": lambda laboratory: laboratory.watch("0000"),
    "drop": lambda laboratory: laboratory.drop(0),
    "rules": lambda laboratory: laboratory.rules(),
    "picture": lambda laboratory: laboratory.picture(),
    "paper": lambda laboratory: laboratory.paper(),
    "transcript": lambda laboratory: laboratory.transcript(),
}


@pytest.mark.parametrize("ask", ASKED.values(), ids=ASKED.keys())
def test_an_open_source_takes_no_line_of_a_call(laboratory, ask):
    laboratory.answers(" source \n z\n\n source\n; panel")
    with pytest.raises(ValueError, match="a source is open"):
        ask(laboratory)
    # the source has the lines that were given and no other one
    with pytest.raises(condugwa.FaultyError):
        laboratory.answer(".")
    assert laboratory.transcript() == "source\n z\n\n source\n; panel\n.\n"


def test_a_source_that_is_closed_is_no_longer_open(laboratory):
    laboratory.answers("source\n z\n end\n.\n; source\n\n")
    assert laboratory.words("0000") == {"0000": "00000000"}
    with pytest.raises(condugwa.FormError):
        laboratory.answer("sources")
    assert laboratory.panel().clock == 0
    laboratory.answer("source")
    laboratory.close()
    with pytest.raises(ValueError, match="closed"):
        laboratory.panel()


@pytest.mark.parametrize("asked", ["condugwa.Laboratory()", "condugwa.run_script('panel')"])
def test_a_library_that_is_missing_is_told_in_one_sentence(tmp_path, asked):
    path = tmp_path / "liblgp30.so"
    ran = subprocess.run(
        [sys.executable, "-c", f"import condugwa; {asked}"],
        env={**os.environ, "CONDUGWA_LIBRARY": str(path)},
        cwd=pathlib.Path(condugwa.__file__).parents[1],
        capture_output=True,
        text=True,
    )
    assert ran.stderr.count("Traceback") == 1
    assert ran.stderr.splitlines()[-1] == (
        f"OSError: the shared library {path} was not loaded (cannot open shared object file: No such file or directory): "
        "docs/EMBEDDING.md says how it is made, and the variable CONDUGWA_LIBRARY names one that lies elsewhere"
    )


def test_a_line_has_no_line_feed(laboratory):
    with pytest.raises(ValueError):
        laboratory.answer("panel\npanel")


def test_any_bytes_and_long_lines_are_answered(laboratory):
    with pytest.raises(condugwa.FormError):
        laboratory.answer(bytes(byte for byte in range(256) if byte != 10))
    with pytest.raises(condugwa.TooLongError):
        laboratory.answer("x" * 5000)


def test_two_laboratories_are_two_machines(laboratory):
    with condugwa.Laboratory() as other:
        other.answer("put 0050 = 3")
        assert laboratory.words("0050") == {"0050": "00000000"}


def test_a_closed_laboratory_answers_nothing():
    laboratory = condugwa.Laboratory()
    laboratory.answer("source")
    assert laboratory.close() == "? 9 Faults\nline 1 NoEnd\n"
    assert laboratory.close() == ""
    with pytest.raises(ValueError):
        laboratory.panel()
