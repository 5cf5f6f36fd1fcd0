#!/usr/bin/env python3
"""Types to the monitor at a terminal: prompt, completion, history, what is kept, what Ctrl-C, Ctrl-D, Ctrl-R and Ctrl-Z do, and how it ends; a script.

    terminal.py [PROGRAM]      the same over the native program, by its path
"""

import os
import pathlib
import re
import subprocess
import sys
import tempfile
import time

import terminal_kept
import terminal_long
import terminal_lines
import terminal_rlwrap
from terminal_driver import BEGUN, CTRL_C, CTRL_D, CTRL_R, CTRL_Z, LAUNCHER, MONITOR, NATIVE, PROGRAM, SCRATCH, UP, Terminal, state_folder


def lines_that_are_typed():
    terminal = Terminal()
    terminal.shown("0000 halted operator> ")
    terminal.type("put 0000 u 0000\r", "ok\n0000 halted operator> ")
    terminal.type("press start\r", "live\n0000 going> ")
    terminal.type("source\r", "source> ")
    terminal.type("one z\r", "source> ")
    terminal.type(" end\r", "source> ")
    terminal.type(".\r", "cells 1 start none\n0000 going> ")
    # no question for a prompt is left
    shown = terminal.type("transcript\r", "going> ")
    assert "put 0000 000f0000\npress start\nsource\none z\n end\n.\n0000" in shown, shown
    # commands, labels and addresses are completed
    terminal.type("pri\t", "printed ")
    terminal.type("\r", "going> ")
    terminal.type("help tran\t", "transcript ")
    terminal.type("\r", "going> ")
    terminal.type("break 0105\r", "rule 0\n0000 going> ")
    terminal.type("show on\t", "one")
    terminal.type(" 1\r", "0000 u 0000\n0000 going> ")
    terminal.type("words 01\t", "0105")
    terminal.type(" 1\r", "0105 00000000\n0000 going> ")
    # the line before comes again
    terminal.type(UP, "words 0105 1")
    terminal.type("\r", "0105 00000000\n0000 going> ")
    shown = terminal.type("transcript\r", "going> ")
    assert "printed\nbreak 0105\nshow 0000 1\nwords 0105 1\nwords 0105 1\n0000" in shown, shown
    terminal.type("new\r", f"new\nthe session before this one was saved: resume continues it\n{BEGUN}")
    terminal.type("transcript\r", f"transcript\n{BEGUN}")
    # a line that begins with # is a line as any other
    terminal.type("# a note\r", f"help lists them all\n{BEGUN}")
    terminal.type(CTRL_D, "\n")
    assert terminal.status() == 0


def what_is_completed():
    terminal = Terminal()
    terminal.shown(BEGUN)
    terminal.type("press sta\t", "start")
    terminal.type("\r", "live\n0000 going> ")
    terminal.type("press tran\t", "transfer")
    terminal.type(" d\t", "down")
    terminal.type("\r", "live\n0000 going> ")
    folder = tempfile.mkdtemp(dir=SCRATCH)
    pathlib.Path(folder, "countdown.lgp").write_text("first z\n end first\n")
    terminal.type(f"source {folder}/coun\t", "countdown.lgp")
    terminal.type("\r", "cells 1 start 0000\n0000 going> ")
    terminal.type(CTRL_D, "\n")
    assert terminal.status() == 0


def an_end():
    for keys, end in [("quit\r", "quit\n"), ("exit\r", "exit\n"), (CTRL_D, "\n"), ("foo\r", f"help lists them all\n{BEGUN}")]:
        terminal = Terminal()
        terminal.shown("> ")
        terminal.type(keys, end)
        if end.endswith(BEGUN):
            terminal.type(CTRL_D, "\n")
        # what was refused has been said; the sitting was not broken off
        assert terminal.status() == 0, (keys, terminal.status())


def a_line_is_cleared():
    terminal = Terminal()
    terminal.shown("> ")
    terminal.type(f"put 0000 u 00{CTRL_C}", f"^C\n{BEGUN}")
    terminal.type("words 0000 1\r", f"0000 00000000\n{BEGUN}")
    shown = terminal.type("transcript\r", BEGUN)
    assert shown == f"transcript\nwords 0000 1\n{BEGUN}", shown
    terminal.type(CTRL_D, "\n")
    assert terminal.status() == 0


def a_source_is_left():
    for key in (CTRL_C, CTRL_D):
        terminal = Terminal()
        terminal.shown("> ")
        terminal.type("source\r", "source> ")
        terminal.type("one z\r", "source> ")
        shown = terminal.type(key, "source> ")
        assert "a source is open, lines: 1." in shown, shown
        # another line, and it is asked again
        terminal.type("two z\r", "source> ")
        shown = terminal.type(key, "source> ")
        assert "a source is open, lines: 2." in shown, shown
        shown = terminal.type(key, BEGUN)
        kept = re.search(r"its lines are in (.+)\n", shown.replace("\n ", " ")).group(1)
        assert pathlib.Path(kept).read_text() == "one z\ntwo z\n", kept
        terminal.type("transcript\r", f"transcript\n{BEGUN}")
        terminal.type(CTRL_D, "\n")
        assert terminal.status() == 0


def a_long_run_is_stopped():
    terminal = Terminal()
    terminal.shown("> ")
    terminal.type("put 0000 u 0000\r", "> ")
    terminal.type("press start\r", "> ")
    shown = terminal.raw("run 4000000000\r", "a second (Ctrl-C stops)")
    assert re.search(r"[\d,]+ orders, [\d,]+ a second", shown), shown
    begun = time.monotonic()
    shown = terminal.type(CTRL_C, "0000 going> ")
    assert time.monotonic() - begun < 5, shown
    assert re.search(r"ran \d+ limit\n        stopped early by Ctrl-C, at 0000\n> 0000           000f0000  u 0000\n", shown), shown
    # one that ends by itself is told as one run
    for typed, told in [("run 1234567", "ran 1234567 limit"), ("orders 1234567", "orders 1234567 going")]:
        shown = terminal.type(f"{typed}\r", "0000 going> ")
        assert f"{told}\n> 0000" in shown, shown
    terminal.type("back 1\r", "> ")
    terminal.type(CTRL_D, "\n")
    assert terminal.status() == 0


def what_is_kept():
    state = state_folder()
    terminal = Terminal(state=state)
    terminal.shown("> ")
    terminal.type("put 0000 u 0000\r", "> ")
    terminal.type("press start\r", "> ")
    terminal.type("source\r", "source> ")
    terminal.type("one z\r", "source> ")
    # a killed terminal loses nothing, the source's lines among it
    terminal.program.kill()
    terminal.program.wait()
    [source] = pathlib.Path(state, "condugwa", "sources").iterdir()
    assert source.read_text() == "one z\n"
    terminal = Terminal(state=state)
    shown = terminal.shown(BEGUN)
    assert re.search(r"the last session was saved \(.*, lines: 2, lines of an open source: 1\): resume continues it", shown), shown
    terminal.type("resume\r", "lines repeated: 2\nthe source that was open is open again, lines: 1\nsource> ")
    terminal.type(" end one\r", "source> ")
    terminal.type(".\r", "cells 1 start 0000\n0000 going> ")
    shown = terminal.type("transcript\r", "going> ")
    assert "put 0000 000f0000\npress start\nsource\none z\n end one\n.\n0000" in shown, shown
    # lines typed at the terminal that was killed are still to be had
    terminal.type(f"{CTRL_R}press", "press start")
    terminal.type("\r", "oneop manual\n0000 going> ")
    terminal.type(f"{CTRL_R}put{CTRL_C}", "0000 going> ")
    file = pathlib.Path(state, "mine.script")
    terminal.type(f"transcript {file}\r", f"saved {file}, lines: 7\n0000 going> ")
    assert file.read_text() == "put 0000 000f0000\npress start\nsource\none z\n end one\n.\npress start\n"
    shown = terminal.type("transcript /nowhere/at/all\r", "going> ")
    assert "? 13 File /nowhere/at/all: it cannot be written" in shown, shown
    terminal.type("new\r", BEGUN)
    terminal.type("resume\r", "lines repeated: 7\n0000 going> ")
    terminal.type(CTRL_D, "\n")
    assert terminal.status() == 0


def nothing_can_be_kept():
    terminal = Terminal(state="/dev/null/no")
    shown = terminal.shown(BEGUN)
    assert "nothing of this session is kept: " in shown, shown
    terminal.type("source\r", "source> ")
    terminal.type("one z\r", "source> ")
    terminal.type(CTRL_C, "source> ")
    terminal.type(CTRL_C, f"the source was abandoned; its lines:\none z\n{BEGUN}")
    terminal.type(CTRL_D, "\n")
    assert terminal.status() == 0


PROGRAM_OF_FOUR = "put 0000 b 0004\rput 0001 y 0002\rput 0002 h 0000\rput 0003 z 0000\rput 0004 = 10\rpress start\r"


def where_the_machine_is():
    terminal = Terminal(columns=80)
    terminal.shown("> ")
    terminal.type(PROGRAM_OF_FOUR, "live\n0000 going> ")
    # one order, told in 80 columns; then the three words around the counter, and the accumulator
    shown = terminal.type("s\r", "0001 going> ")
    wanted = ["   clock at            order         find take seek act   sum accumulator", "       0 0000          b 0004          64    1   35   1   101 00000014",
              "        put there by hand, clock 0; before it was z 0000", "ran 1 limit", "  0000           00010010  b 0004", "> 0001           00020008  y 0002",
              "  0002           000j0000  h 0000", "  accumulator 00000014 = 10 or 0.0000000093", "0001 going> "]
    assert shown.split("\n")[1:] == wanted, shown
    # an empty line is another one
    shown = terminal.type("\r", "0002 going> ")
    assert "        0002: h 0000 = 393216 -> h 0005 = 393226\nran 1 limit\n" in shown, shown
    terminal.type("b\r", "0001 going> ")
    shown = terminal.type("c\r", "0004 halted stop> ")
    assert "ran 3 rest\n  0003           00000000  z 0000\n> 0004" in shown, shown
    # each of them stands for lines of a script
    shown = terminal.type("transcript\r", "stop> ")
    assert shown.endswith("press start\nrun 1\nrun 1\nback 1\nrun 100000\n0004 halted stop> "), shown
    for typed in ("look", "around", "around 0003 5", "words", "show 0001", "numbers"):
        shown = terminal.type(f"{typed}\r", "> ")
        assert "?" not in shown and max(map(len, shown.split("\n"))) <= 80, shown
    # at the end of the drum the last words are shown
    shown = terminal.type("around 6363 2\r", "> ")
    assert "\n  6362           00000000  z 0000\n> 6363           00000000  z 0000\n" in shown, shown
    shown = terminal.type("around x\r", "> ")
    assert "? 1 Form: x is not a label in the last source\n" in shown, shown
    for typed in ("around 0003 65", "around 0003 0", "around 0003 x"):
        shown = terminal.type(f"{typed}\r", "> ")
        assert "? 1 Form: around ttss NUMBER, at most 64\n" in shown, shown
    shown = terminal.type("trace x\r", "> ")
    assert "? 1 Form: trace NUMBER\n" in shown, shown
    terminal.type(CTRL_D, "\n")
    assert terminal.status() == 0


def what_was_printed():
    terminal = Terminal()
    terminal.shown("> ")
    terminal.type("source\r", "source> ")
    terminal.type("first p =a\r p =b\r z\r end first\r.\r", f"cells 3 start 0000\n{BEGUN}")
    terminal.type("load\r", "> ")
    shown = terminal.type("run\r", "stop> ")
    assert "  printed ab\n  " in shown, shown
    terminal.type(CTRL_D, "\n")
    assert terminal.status() == 0


def a_wide_trace():
    terminal = Terminal()
    terminal.shown("> ")
    terminal.type(PROGRAM_OF_FOUR, "live\n0000 going> ")
    shown = terminal.type("trace 1\r", "0001 going> ")
    assert "      0  0000         b 0004            64    1   35    1   101  00000000 -> 00000014\n" in shown, shown
    terminal.type(CTRL_D, "\n")
    assert terminal.status() == 0


def replies_for_people():
    terminal = Terminal()
    terminal.shown("> ")
    terminal.type("put 0100 z 0000\r", "ok\n" + BEGUN)
    shown = terminal.type("go 0100\r", "0100 going> ")
    assert "started: 0100 going\n" in shown and "live" not in shown, shown
    shown = terminal.type("press start\r", "0100 going> ")
    assert shown.endswith("dead\n        these do something now: normal oneop manual\n0100 going> "), shown
    terminal.type("press manual\r", "> ")
    terminal.type("put-listing 0012 000f0010  u loop\r", "ok\n0100 halted operator> ")
    terminal.type("words 0012 1\r", "0012 000f0010\n0100 halted operator> ")
    shown = terminal.type("put-listing 12 000f0010\r", "operator> ")
    assert "? 1 Form: column 13: " in shown, shown
    shown = terminal.type("put-listing 0012 000f001\r", "operator> ")
    assert "? 1 Form: column 18: " in shown, shown
    shown = terminal.type("transcript\r", "operator> ")
    assert "type 000f0100\npress fill\n" in shown and "put 0012 000f0010\n" in shown, shown
    terminal.type(CTRL_D, "\n")
    assert terminal.status() == 0


def help_that_teaches():
    terminal = Terminal(columns=80)
    terminal.shown("> ")
    shown = terminal.type("help\r", BEGUN)
    assert "accounts trace profile drum optimum why back last at to\n" in shown and "look around step" in shown, shown
    shown = terminal.type("?\r", BEGUN)
    assert "accounts trace profile" in shown, shown
    shown = terminal.type("help trace\r", BEGUN)
    assert "trace NUMBER\n    runs, and describes each order" in shown and "    > trace 2\n" in shown and shown.endswith(f"    ran 2 rest\n{BEGUN}"), shown
    shown = terminal.type("help orders\r", BEGUN)
    assert "b + brings the word into the accumulator\n" in shown, shown
    shown = terminal.type("help source\r", BEGUN)
    assert "org  says where the next word goes: org 0100\n" in shown, shown
    terminal.type("transcript\r", f"transcript\n{BEGUN}")
    terminal.type("help nothing\r", f"? 1 Form: help or help COMMAND\n{BEGUN}")
    terminal.type(CTRL_D, "\n")
    assert terminal.status() == 0


def lines_that_are_pasted():
    terminal = Terminal()
    terminal.shown("> ")
    terminal.type("put 0000 u 0000\npress start\nrun 3\nwords 0000 1\n", "0000 000f0000\n0000 going> ")
    # an empty line repeats the last run, and the last step back
    for typed, told in [("run 2", "ran 2 limit"), ("", "ran 2 limit"), ("b", "clock"), ("", "clock")]:
        shown = terminal.type(f"{typed}\r", "0.0000000000\n0000 going> ")
        assert f"\n{told}" in shown, shown
    terminal.type(CTRL_D, "\n")
    assert terminal.status() == 0


def colour():
    red = "\x1b[31m? 1 Form"
    assert red in Terminal(NO_COLOR="").raw("foo\r", "lists them all")
    assert red not in Terminal().raw("foo\r", "lists them all")
    assert red not in Terminal(NO_COLOR="", TERM="dumb").raw("foo\r", "lists them all")


def a_script_that_is_typed():
    terminal = Terminal(["node", PROGRAM, "lgp_lab"])
    terminal.type(f"turn 5\nturn 6\n{CTRL_D}", "clock 5\nclock 11\n")
    assert terminal.status() == 0


def faulty_source(laboratory, variables):
    source = pathlib.Path(SCRATCH, "faulty.source")
    source.write_text(" z\n q two\n end\n")
    reason = (f"{source}:2:  q two\n    UnknownOrder\n             q two\n             ^\n"
              "            there is no such operation: write one of the sixteen letters, -t, word, frac, int, org or end\n")
    for words, told in [(["asm", source], ""), (["asm", "--verbose", source], reason), (["--verbose", "asm", source], reason)]:
        call = subprocess.run([laboratory, *words], env=variables, capture_output=True, text=True, check=False)
        assert (call.returncode, call.stdout, call.stderr[-len(reason):]) == (1, "line 2 UnknownOrder\n", told), call
    terminal = Terminal(["bash", "-c", f"exec 2>&1; {laboratory} asm {source}"], CONDUGWA_RUN=variables["CONDUGWA_RUN"])
    terminal.shown(f"line 2 UnknownOrder\n{reason}")
    assert terminal.status() == 1


def refusals_of_a_script():
    script = pathlib.Path(SCRATCH, "refused.txt")
    script.write_text("turn 5\nput 0001 00000001\nput 0001 z\n")
    variables = {**os.environ, "CONDUGWA_RUN": "module" if NATIVE is None else "program"}
    laboratory = LAUNCHER.parent / "lgp_lab"
    replies = "clock 5\n? 1 Form\n? 1 Form\n"

    def reasons(name):
        return (f"{name}:2: put 0001 00000001\n    ? 1 Form: 00000001 is odd, but the last bit of a word is always 0\n"
                f"{name}:3: put 0001 z\n    ? 1 Form: only ./lgp_monitor takes this line; a script has other forms\n")

    calls = [(["script", script, "--verbose"], script), (["--verbose", "script", script], script), (["script", "--verbose", script], script), (["script", script], None), ([], None),
             (["--verbose"], "standard input"), (["script", "-"], None), (["script", "-", "--verbose"], "standard input")]
    for words, name in calls:
        with script.open() as typed:
            call = subprocess.run([laboratory, *words], env=variables, stdin=typed, capture_output=True, text=True, check=False)
        assert (call.returncode, call.stdout, call.stderr.endswith(reasons(name))) == (1, replies, name is not None), call
    # at a terminal the reasons come by themselves
    for words, name in [(f"script {script}", script), (f"< {script}", "standard input"), (f"script - < {script}", "standard input")]:
        terminal = Terminal(["bash", "-c", f"exec 2>&1; {laboratory} {words}"], CONDUGWA_RUN=variables["CONDUGWA_RUN"])
        terminal.shown(f"{replies}{reasons(name)}")
        assert terminal.status() == 1
    faulty_source(laboratory, variables)
    source = subprocess.run([laboratory, "asm", "-"], env=variables, input=" z\n end\n", capture_output=True, text=True, check=False)
    assert source.stdout == "0000 00000000  z\n               end\n", source
    folder = subprocess.run([laboratory, "script", SCRATCH], env=variables, capture_output=True, text=True, check=False)
    assert (folder.returncode, folder.stderr) == (2, f"lgp_lab: '{SCRATCH}' is a folder, and no file\n"), folder


def stopped_and_continued():
    # bash writes its prompts on standard error
    terminal = Terminal(["bash", "--norc", "-i", "-c", "exec 2>&1; exec bash --norc -i"])
    terminal.shown("$ ")
    command = "CONDUGWA_RUN=module " + str(LAUNCHER) if NATIVE is None else " ".join(map(str, MONITOR))
    terminal.type(f"{command} 2>/dev/null\n", BEGUN)
    shown = terminal.type(CTRL_Z, "$ ")
    assert "Stopped" in shown, shown
    terminal.type("fg\n", BEGUN)
    terminal.type("words 0000 1\r", f"0000 00000000\n{BEGUN}")
    terminal.type("quit\r", "$ ")
    terminal.type("exit\n", "")
    assert terminal.status() == 0


def main():
    checks = [lines_that_are_typed, what_is_completed, an_end, a_line_is_cleared, a_source_is_left, a_long_run_is_stopped, what_is_kept, nothing_can_be_kept, where_the_machine_is,
              what_was_printed, a_wide_trace, replies_for_people, help_that_teaches, lines_that_are_pasted, colour, a_script_that_is_typed, refusals_of_a_script, stopped_and_continued, *terminal_kept.CHECKS, *terminal_long.CHECKS, *terminal_lines.CHECKS, *terminal_rlwrap.CHECKS]
    for check in checks:
        if os.environ.get("ONLY", check.__name__) == check.__name__:
            check()
    print(f"terminal: {len(checks)} well")


sys.exit(main())
