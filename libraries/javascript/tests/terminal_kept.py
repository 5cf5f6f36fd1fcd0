"""What is kept of a session: on a full disk, beside entries that cannot be read, by two sessions, cut off at every byte, and in another time zone."""

import os
import pathlib
import re

from terminal_driver import BEGUN, CTRL_C, CTRL_D, MONITOR, SCRATCH, Terminal, state_folder

SESSION = "put 0000 u 0000\npress start\nrun 3\n"


def kept(state, part="sessions"):
    return pathlib.Path(state, "condugwa", part)


def written(state, text, name="20260101T000000000Z-none-1-0", part="sessions"):
    """A state folder with a session that another program left."""
    kept(state, part).mkdir(parents=True, exist_ok=True)
    (kept(state, part) / name).write_bytes(text if isinstance(text, bytes) else text.encode())
    return state


def left(terminal):
    terminal.type(CTRL_D, "\n")
    assert terminal.status() == 0


def of_limited_files(blocks):
    """The monitor where no file may be longer than that number of blocks of 1024 bytes."""
    return ["bash", "-c", f"ulimit -f {blocks}; exec {' '.join(map(str, MONITOR))}"]


def keeping_ends_and_is_told_once():
    state = state_folder()
    written(state, SESSION)
    history = kept(state).parent / "history"
    history.write_text("words 0000 1\n" * 40)
    terminal = Terminal(of_limited_files(1), state=state)
    terminal.shown(BEGUN)
    shown = ""
    for number in range(60):
        shown += terminal.type(f"put 0000 = {number}\r", BEGUN) + terminal.type("words 0000 64\r", BEGUN)
    assert shown.count("this session is not kept any more, in ") == 1, shown[-3000:]
    assert "a file may not be longer; it is tried again with each line" in shown.replace("\n", ""), shown[-3000:]
    # what would be lost is asked for
    shown = terminal.type("new\r", BEGUN)
    assert "it would be lost; the same line again does it" in shown.replace("\n ", " "), shown
    terminal.type("words 0000 1\r", BEGUN)
    shown = terminal.type("transcript\r", BEGUN)
    assert "put 0000 00000000\n" in shown, shown
    terminal.type("new\r", BEGUN)
    shown = terminal.type("new\r", BEGUN)
    assert "new\n" in shown, shown
    # there is room for a new session
    shown = terminal.type("turn 5\r", BEGUN)
    assert "this session is kept again\n" in shown, shown
    left(terminal)
    assert [path.read_text() for path in kept(state).iterdir() if path.read_text() == "turn 5\n"]


def an_entry_that_cannot_be_read_is_passed_over():
    state = written(state_folder(), SESSION)
    (kept(state) / "20260102T000000000Z-none-1-0").mkdir()
    terminal = Terminal(state=state)
    shown = terminal.shown(BEGUN)
    assert "lines: 3): resume continues it\n" in shown and "20260102T000000000Z-none-1-0 cannot be read, and is ignored" in shown.replace("\n", " ").replace("  ", " "), shown
    terminal.type("resume\r", "0000 going> ")
    terminal.type("turn 5\r", "> ")
    left(terminal)
    assert [path for path in kept(state).iterdir() if path.is_file() and path.read_text().endswith("turn 5\n")]


def the_folder_of_another_user():
    if os.geteuid() != 0:
        return
    state = written(state_folder(), SESSION)
    kept(state, "sources").mkdir()
    os.chmod(SCRATCH, 0o755)
    os.chmod(state, 0o755)
    (kept(state) / "20260101T000000000Z-none-1-0").chmod(0o600)
    command = f"exec setpriv --reuid 65534 --regid 65534 --clear-groups {' '.join(map(str, MONITOR))}"
    terminal = Terminal(["bash", "-c", command], state=state)
    shown = terminal.shown(BEGUN)
    assert "cannot be read, and is ignored" in shown.replace("\n", ""), shown
    shown = terminal.type("turn 5\r", BEGUN)
    assert shown.replace("\n", "").count("this user may not do that there; it is tried again with each line") == 1, shown
    terminal.type("words 0000 1\r", f"0000 00000000\n{BEGUN}")
    # it goes on as soon as it may
    for path in [kept(state).parent, kept(state), kept(state, "sources")]:
        path.mkdir(exist_ok=True)
        path.chmod(0o777)
    shown = terminal.type("turn 6\r", BEGUN)
    assert "this session is kept again\n" in shown, shown
    left(terminal)
    assert [path for path in kept(state).iterdir() if path.read_text().startswith("turn 5\nwords 0000 1\nturn 6\n")]


def a_source_that_was_open():
    state = written(state_folder(), SESSION)
    terminal = Terminal(state=state)
    terminal.shown(BEGUN)
    terminal.type("source\r", "source> ")
    terminal.type("one z\r", "source> ")
    terminal.program.kill()
    terminal.program.wait()
    terminal = Terminal(state=state)
    shown = terminal.shown(BEGUN)
    assert "lines: 0, lines of an open source: 1): resume continues it" in shown, shown
    shown = terminal.type("sessions\r", BEGUN)
    assert re.search(r"  1  .*, lines: 0, lines of an open source: 1\n  2  .*, lines: 3\nresume NUMBER continues one\n", shown), shown
    terminal.type("resume 3\r", f"no session has this number; they are 2: sessions lists them\n{BEGUN}")
    terminal.type("resume\r", "lines repeated: 0\nthe source that was open is open again, lines: 1\nsource> ")
    terminal.type(" end one\r", "source> ")
    terminal.type(".\r", f"cells 1 start 0000\n{BEGUN}")
    terminal.type("resume 2\r", "0000 going> ")
    left(terminal)


def a_keeper_is_known_by_its_start():
    # numbers of processes that run, of which none keeps these
    state = state_folder()
    for number in (1, os.getpid()):
        written(state, SESSION, f"20260101T00000000{number % 10}Z-d59d0b06.1-{number}-0")
        written(state, SESSION, f"20260101T000000Z-{number}-0")
    terminal = Terminal(state=state)
    shown = terminal.shown(BEGUN)
    assert "lines: 3): resume continues it" in shown, shown
    assert terminal.type("sessions\r", BEGUN).count("lines: 3\n") == 4
    terminal.type("turn 5\r", BEGUN)
    # another one beside it is not offered what the first one keeps, nor takes it away
    other = Terminal(state=state)
    other.shown(BEGUN)
    assert other.type("sessions\r", BEGUN).count("lines: ") == 4
    other.type("turn 6\r", BEGUN)
    for each in (terminal, other):
        each.type("turn 7\r", BEGUN)
        left(each)
    texts = [path.read_text() for path in kept(state).iterdir()]
    assert "turn 5\nturn 7\n" in texts and "turn 6\nturn 7\n" in texts, texts


def the_time_is_that_of_the_place():
    state = written(state_folder(), SESSION)
    os.utime(kept(state) / "20260101T000000000Z-none-1-0", (1767225600, 1767225600))
    for zone, told in [("UTC0", "2026-01-01 00:00"), ("XST-9", "2026-01-01 09:00"), ("Asia/Tokyo", "2026-01-01 09:00"), ("America/New_York", "2025-12-31 19:00")]:
        if "/" in zone and not pathlib.Path("/usr/share/zoneinfo", zone).exists():
            continue
        terminal = Terminal(state=state, TZ=zone)
        shown = terminal.shown(BEGUN)
        assert f"({told}, by this computer's clock, lines: 3)" in shown, shown
        left(terminal)


def cut_at_every_byte():
    whole = f"{SESSION}source\none z\n end one\n.\nput 0005 z\n".encode()
    state = state_folder()
    terminal = Terminal(state=state)
    terminal.shown(BEGUN)
    for length in range(len(whole) + 1):
        written(state, whole[:length], "20990101T000000000Z-none-1-0")
        lines = whole[:length].decode().split("\n")[:-1]
        is_open = "source" in lines and "." not in lines
        repeated = lines[:lines.index("source")] if is_open else lines
        shown = terminal.type("resume 1\r", "> ")
        if not lines:
            assert "no session has been saved\n" in shown, (length, shown)
            continue
        assert f"lines repeated: {len(repeated)}" in shown, (length, shown)
        assert ("its last line was kept only in part, and was not repeated\n" in shown) == (whole[length - 1:length] != b"\n"), (length, shown)
        assert (f"is open again, lines: {len(lines) - len(repeated) - 1}\nsource> " in shown) == is_open, (length, shown)
        if is_open:
            terminal.type(CTRL_C, "a line with only a point ends it\nsource> ")
            terminal.type(CTRL_C, "> ")
    left(terminal)
    terminal = Terminal(state=written(state_folder(), b"", part="sources"))
    terminal.shown(BEGUN)
    left(terminal)


def a_folder_that_cannot_be_made():
    terminal = Terminal(state="/proc/nope")
    shown = terminal.shown(BEGUN)
    assert "nothing of this session is kept: in /proc/nope/condugwa: the folder cannot be made" in shown.replace("\n", ""), shown
    left(terminal)


def a_file_that_is_read_is_kept_as_its_lines():
    state = state_folder()
    script = pathlib.Path(state, "script.txt")
    script.write_text("turn 5\nturn 6\n")
    terminal = Terminal(state=state)
    terminal.shown(BEGUN)
    terminal.type(f"do {script}\r", BEGUN)
    terminal.type("turn 7\r", BEGUN)
    terminal.program.kill()
    terminal.program.wait()
    script.write_text("turn 9\n")
    [session] = kept(state).iterdir()
    assert session.read_text() == "turn 5\nturn 6\nturn 7\n"


CHECKS = [keeping_ends_and_is_told_once, an_entry_that_cannot_be_read_is_passed_over, the_folder_of_another_user, a_source_that_was_open, a_keeper_is_known_by_its_start,
          the_time_is_that_of_the_place, cut_at_every_byte, a_folder_that_cannot_be_made, a_file_that_is_read_is_kept_as_its_lines]
