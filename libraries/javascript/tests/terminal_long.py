"""What takes long at a terminal: it shows how far it is, Ctrl-C and Ctrl-Z are heard, and the machine is where it is said to be."""

import pathlib
import re

from terminal_driver import BEGUN, CTRL_C, CTRL_D, CTRL_Z, LAUNCHER, MONITOR, NATIVE, Terminal, scratch_file, state_folder

GOING = "put 0000 u 0000\rpress start\r"
AT_WORK = "seconds: 1 (Ctrl-C takes the line back)"
TAKEN_BACK = "stopped by Ctrl-C before it was done; it was taken back, and the machine is as it was before it\n0000 going> "


def going(columns=100, **variables):
    terminal = Terminal(columns=columns, **variables)
    terminal.shown("> ")
    terminal.type(GOING, "live\n0000 going> ")
    return terminal


def left(terminal):
    terminal.type(CTRL_D, "\n")
    assert terminal.status() == 0


def clock_of(terminal):
    return int(re.search(r'"clock":(\d+)}', terminal.type("json panel-data\r", "> ").replace("\n", "")).group(1))


def what_has_no_portions_is_taken_back():
    terminal = going()
    script = scratch_file("long.txt", "turn 5\nrun 4000000000\n")
    for line in ("profile 9999999999", "optimum 9999999999", "json profile-data 9999999999", f"do {script}"):
        terminal.raw(f"{line}\r", AT_WORK)
        terminal.type(CTRL_C, TAKEN_BACK)
        assert clock_of(terminal) == 0, line
    # nothing was lost, and it goes on
    terminal.type("words 0000 1\r", "0000 000f0000\n0000 going> ")
    shown = terminal.type("transcript\r", "going> ")
    assert "put 0000 000f0000\npress start\nwords 0000 1\n0000" in shown, shown
    terminal.type("profile 2000000\r", "0.0000000000\n0000 going> ")
    left(terminal)


def what_has_portions_is_stopped_between_two_orders():
    terminal = going()
    for line, told in [("trace 99999999", "u 0000"), ("drum 99999999", "i-x"), ("operate 4000000000", "a second (Ctrl-C stops)"), ("run 4000000000", "a second (Ctrl-C stops)")]:
        terminal.raw(f"{line}\r", told)
        shown = terminal.type(CTRL_C, "0000 going> ")
        assert re.search(r"ran \d+ limit\n        stopped early by Ctrl-C, at 0000\n", shown), shown[-500:]
    left(terminal)


def a_long_account_is_written_as_it_is_made():
    for columns, count in ((80, 300_000), (100, 2500)):
        terminal = going(columns)
        shown = terminal.type(f"trace {count}\r", "0000 going> ")
        assert len(re.findall("find +take", shown)) == 1 and shown.count("u 0000    ") == count and f"\nran {count} limit\n" in shown, shown[-500:]
        left(terminal)


def a_way_back_is_stopped():
    terminal = going()
    # some seconds, by the module and by the program
    orders = 60_000_000 if NATIVE is None else 600_000_000
    terminal.type(f"orders {orders}\r", "going> ")
    clock, script = clock_of(terminal), terminal.type("transcript\r", "going> ")
    back = f"back {orders // 6 * 5}"
    for line, wait in ((back, "seconds: 0 (Ctrl-C"), (back, "seconds: 1 (Ctrl-C"), ("back to why 0000", "seconds: 0 (Ctrl-C")):
        terminal.raw(f"{line}\r", wait)
        terminal.type(CTRL_C, TAKEN_BACK)
        assert clock_of(terminal) == clock
        assert terminal.type("transcript\r", "going> ") == script
    left(terminal)


PRINTS = "source\rfirst p =a\r z\r u first\r end first\r.\rload\r"


def operate_is_as_one_line():
    terminal = Terminal()
    terminal.shown("> ")
    terminal.type(PRINTS, "0000 going> ")
    shown = terminal.type("operate 2500\r", "stop> ")
    assert "ran 3 rest\n        started again at a z after a p: 2500\n" in shown, shown
    clock = clock_of(terminal)
    other = Terminal()
    other.shown("> ")
    other.type(PRINTS, "0000 going> ")
    # a line for programs is typed as it is
    script = scratch_file("operate.txt", "operate 2500\n")
    other.type(f"do {script}\r", "stop> ")
    assert clock_of(other) == clock
    left(terminal)
    left(other)


def stopped_within_a_run():
    terminal = Terminal(["bash", "--norc", "-i", "-c", "exec 2>&1; exec bash --norc -i"])
    terminal.shown("$ ")
    command = "CONDUGWA_RUN=module " + str(LAUNCHER) if NATIVE is None else " ".join(map(str, MONITOR))
    terminal.type(f"{command} 2>/dev/null\n", BEGUN)
    terminal.type(GOING, "live\n0000 going> ")
    for line, shown in [("run 9000000000", "(Ctrl-C stops)"), ("profile 9000000000", AT_WORK)]:
        terminal.raw(f"{line}\r", shown)
        assert "Stopped" in terminal.type(CTRL_Z, "$ ")
        terminal.raw("fg\n", "Ctrl-C")
        terminal.type(CTRL_C, "going> ")
    terminal.raw("profile 9000000000\r", AT_WORK)
    shown = terminal.type("\x1c", "$ ")
    assert "^\\" in shown, shown
    # all of it was kept
    terminal.type(f"{command} 2>/dev/null\n", BEGUN)
    terminal.type("resume\r", "0000 going> ")
    terminal.type("quit\r", "$ ")
    terminal.type("exit\n", "")
    assert terminal.status() == 0


def repeating_is_stopped():
    state = state_folder()
    kept = pathlib.Path(state, "condugwa", "sessions")
    kept.mkdir(parents=True)
    (kept / "20260101T000000000Z-none-1-0").write_text(GOING.replace("\r", "\n") + "run 3000000000\n" * 40)
    terminal = Terminal(state=state)
    shown = terminal.shown(BEGUN)
    assert "lines: 42): resume continues it" in shown, shown
    terminal.raw("resume\r", "of 42 (Ctrl-C stops)")
    shown = terminal.type(CTRL_C, "going> ")
    done, whole = map(int, re.search(r"lines repeated: (\d+) of (\d+), stopped by Ctrl-C; the session stays saved\n", shown).groups())
    assert done < whole == 42, shown
    shown = terminal.type("sessions\r", "> ")
    assert "lines: 42\n" in shown, shown
    left(terminal)


def a_plain_terminal_is_drawn_nothing_on():
    terminal = Terminal(TERM="dumb")
    terminal.type(GOING, "live\n0000 going> ")
    shown = terminal.raw("run 30000000\r", "going> ") + terminal.raw("trace 3\r", "ran 3 limit")
    assert "\x1b[K" not in shown and "(Ctrl-C" not in shown, shown
    terminal.type("profile 30000000\r", "going> ")
    left(terminal)


CHECKS = [what_has_no_portions_is_taken_back, a_way_back_is_stopped, what_has_portions_is_stopped_between_two_orders, a_long_account_is_written_as_it_is_made, operate_is_as_one_line, stopped_within_a_run,
          repeating_is_stopped, a_plain_terminal_is_drawn_nothing_on]
