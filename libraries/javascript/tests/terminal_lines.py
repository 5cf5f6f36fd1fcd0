"""Lines of the terminal's own, and what is said below a reply; pastes, edits, short names, files."""

import os
import pathlib
import stat
import tempfile

from terminal_driver import BEGUN, CTRL_C, CTRL_D, NATIVE, SCRATCH, Terminal, scratch_file, state_folder

ASKED = "a line with only a point ends it\nsource> "
PROGRAM_OF_TWO = "source\rfirst b value\r h value\r u first\rvalue int 5 30\r end first\r.\rload\r"


def begun(**options):
    terminal = Terminal(**options)
    terminal.shown(BEGUN)
    return terminal


def left(terminal):
    terminal.type(CTRL_D, "\n")
    assert terminal.status() == 0


def what_is_pasted_is_text():
    source = "source\rloop\tb\tone\r\th\tlong\r\tz\rone\tint\t5\t30\rlong\tint\t0\t30\r\tend\tloop\r.\r"
    for before, after in (("\x1b[200~", "\x1b[201~"), ("", "")):
        terminal = begun()
        terminal.type(before + source + after, "cells 5 start 0000\n" + BEGUN)
        shown = terminal.type("transcript\r", BEGUN)
        assert "source\nloop\tb\tone\n\th\tlong\n" in shown.replace("        ", "\t"), shown
        terminal.type("labels\r", f"long 0004\n{BEGUN}")
        left(terminal)
    # a mark that is cut in two, and keys that mean something when they are typed
    terminal = begun()
    for part in ("\x1b[2", "00~put 0000\x03\x12 z\rwords 00", "00 1\x1b[20"):
        os.write(terminal.end, part.encode())
    terminal.type("1~\r", f"0000 00000000\n{BEGUN}")
    left(terminal)


def a_stop_is_told():
    terminal = begun()
    terminal.type(PROGRAM_OF_TWO, "0000 going> ")
    terminal.type("watch value\r", "rule 0\n0000 going> ")
    terminal.type("break first\r", "rule 1\n0000 going> ")
    terminal.type("press manual\r", "> ")
    terminal.type("put value = 7\r", "> ")
    terminal.type("press normal\r", "> ")
    terminal.type("press start\r", "> ")
    shown = terminal.type("c\r", "going> ")
    assert "        rule 1: break 0000 first\n" in shown, shown
    # the machine is where it was, and three orders passed
    terminal.type("drop 0\r", "going> ")
    shown = terminal.type("c\r", "0000 going> ")
    assert "ran 3 rule 0\n        rule 0: break 0000 first\n" in shown and "> 0000 first " in shown, shown
    terminal.type("drop 0\r", "going> ")
    terminal.type("watch 0010\r", "going> ")
    terminal.type("change 0001 c 0010\r", "going> ")
    shown = terminal.type("c\r", "going> ")
    assert "        rule 0: watch 0010: z 0000 = 0 -> 0000000q = 7\n" in shown, shown
    shown = terminal.type("last\r", "going> ")
    assert "        rule 0: watch 0010\n" in shown, shown
    left(terminal)


def a_run_ends_where_a_condition_is_met():
    terminal = begun()
    terminal.type(PROGRAM_OF_TWO, "0000 going> ")
    shown = terminal.type("until 0002\r", "going> ")
    assert "ran 2 limit\n        the condition is met\n" in shown and "> 0002 " in shown, shown
    terminal.type("until val\t", "value")
    terminal.type(CTRL_C, "going> ")
    terminal.type("run 5 unt\t", "until ")
    shown = terminal.type("value < 9\r", "going> ")
    assert "        the condition is not met\n" in shown, shown
    # one that is never met goes on until Ctrl-C
    terminal.type("until value = 9\r", "(Ctrl-C stops)")
    shown = terminal.type(CTRL_C, "going> ")
    assert "        stopped early by Ctrl-C, at 000" in shown, shown
    shown = terminal.type("transcript\r", "going> ")
    assert "run 2\nrun 5\nrun 100000\n" in shown, shown
    # what is asked at an order's beginning changes nothing, and can be completed
    terminal.type("at 2 pan\t", "panel")
    shown = terminal.type("\r", "going> ")
    assert "counter 0002 " in shown, shown
    terminal.type("at 3 why val\t", "value")
    terminal.type(CTRL_C, "going> ")
    # and it can be gone to; the session that is left is put away
    shown = terminal.type("to 3\r", "going> ")
    assert "order 3 clock " in shown and "the session before this one was saved" in shown, shown
    shown = terminal.type("transcript\r", "going> ")
    assert shown.rstrip().split("\n")[-2].strip() == "orders 1", shown
    terminal.type("resume\r", "going> ")
    shown = terminal.type("transcript\r", "going> ")
    assert "run 2\nrun 5\nrun 100000\n" in shown, shown
    shown = terminal.type("to\r", "going> ")
    assert "? 1 Form: to NUMBER, the beginning of the order of that number" in shown, shown
    shown = terminal.type("to 9999999999\r", "going> ")
    assert "? 7 TooFar " in shown and "saved" not in shown, shown
    # from one order to the next, only what was left first is put away
    terminal.type("to last chan\t", "changed ")
    terminal.type(CTRL_C, "going> ")
    terminal.type("to la\t", "last ")
    shown = terminal.type("0001\r", "going> ")
    assert "order " in shown and "the session before this one was saved" in shown, shown
    shown = terminal.type("to last 0001\r", "going> ")
    assert "order " in shown and "saved" not in shown, shown
    shown = terminal.type("to last printed 7\r", "going> ")
    assert "? 8 NoHit " in shown and ": none of the orders meets it" in shown, shown
    terminal.type("resume\r", "going> ")
    shown = terminal.type("transcript\r", "going> ")
    assert "run 2\nrun 5\nrun 100000\n" in shown, shown
    left(terminal)
    terminal = begun()
    shown = terminal.type("until printed 1\r", BEGUN)
    assert "ran 0 rest\n        the condition is not met\n        the operator halted the machine" in shown, shown
    left(terminal)


def what_was_gone_back_over_is_gone_forward_to():
    terminal = begun()
    shown = terminal.type("forward\r", BEGUN)
    assert "nothing was gone back over: back, last and to go back\n" in shown, shown
    for line in ("put 0000 b 0003", "put 0001 u 0000", "put 0003 = 5", "go 0000", "run 20"):
        terminal.type(f"{line}\r", "> ")
    there = terminal.type("panel\r", "going> ").split("clock ")[1].split()[0]
    whole = terminal.type("transcript\r", "going> ")
    shown = terminal.type("past\r", "going> ")
    assert "orders since the session began: 21; lines that lead here: 13, bytes: " in shown, shown
    # by back, in two steps, and forward in two
    terminal.type("back 3\r", "going> ")
    terminal.type("back 4\r", "going> ")
    terminal.type("forward 5\r", "going> ")
    shown = terminal.type("transcript\r", "going> ")
    assert "run 20\npanel\nback 2\n" in shown, shown
    terminal.type("forward\r", "going> ")
    assert terminal.type("transcript\r", "going> ") == whole
    assert f" {there}" in terminal.type("json panel-data\r", "going> ").replace(":", " ").replace("}", " ")
    # by to, and an empty line goes on
    terminal.type("to 4\r", "going> ")
    shown = terminal.type("forward 2\r", "going> ")
    assert "order 6 clock " in shown, shown
    shown = terminal.type("\r", "going> ")
    assert "order 8 clock " in shown, shown
    terminal.type("forward 99\r", "going> ")
    assert terminal.type("transcript\r", "going> ") == whole
    # not where something else was done
    terminal.type("back 2\r", "going> ")
    terminal.type("put 0005 = 3\r", "going> ")
    terminal.type("press manual\r", "> ")
    shown = terminal.type("forward\r", "> ")
    assert "something else was done since then: p" in shown, shown
    shown = terminal.type("forward x\r", "> ")
    assert "x is not a number" in shown, shown
    left(terminal)


def a_subroutine_is_finished():
    terminal = begun()
    shown = terminal.type("fini\t", "finish ")
    shown = terminal.type("\r", BEGUN)
    assert "? 1 Form: finish: no subroutine is under way: no r was performed whose u was not\n" in shown, shown
    terminal.type("source\rfirst r exit\r u sub\r z\rsub b one\r a one\rexit u first\rone int 1 30\r end first\r.\rload\r", "0000 going> ")
    terminal.type("run 3\r", "going> ")
    terminal.type("break exit\r", "rule 0\n0004 going> ")
    called = "        called by r at 0000; it returns by u 0002 at 0005\n"
    shown = terminal.type("finish\r", "0005 going> ")
    assert f"{called}ran 1 rule 0\n        the condition is not met\n        rule 0: break 0005 exit\n" in shown, shown
    shown = terminal.type("finish\r", "0002 going> ")
    assert f"{called}ran 1 limit\n        the condition is met\n" in shown, shown
    shown = terminal.type("transcript\r", "going> ")
    assert "load\nrun 3\nbreak 0005\nrun 1\nrun 1\n0002" in shown, shown
    left(terminal)


def why_nothing_is_done():
    terminal = begun()
    for line in ("run", "run 3", "c 5", "run 500000"):
        shown = terminal.type(f"{line}\r", BEGUN)
        assert shown.endswith(f"ran 0 rest\n        the operator halted the machine, or has not started it: press start to continue\n{BEGUN}"), shown
    shown = terminal.type("last\r", BEGUN)
    assert "        there are no rules: break and watch add one\n" in shown, shown
    shown = terminal.type("b 5\r", BEGUN)
    assert shown.endswith(f"? 7 TooFar 0: only this many orders led here since the session began\n{BEGUN}"), shown
    terminal.type("source\rfoo z\r end\r.\r", BEGUN)
    shown = terminal.type("load\r", "stop> ")
    assert "loaded 23\n        the source has no start: go with an address or a label starts it\n" in shown, shown
    shown = terminal.type("go foo\r", "going> ")
    assert "started: 0000 going\n" in shown, shown
    left(terminal)


def each_run_waits_for_a_condition():
    terminal = begun()
    for line in ("source", "loop b count", " a one", " h count", " u loop", "count int 0 30", "one int 1 30", " end loop"):
        terminal.type(f"{line}\r", "source> ")
    terminal.type(".\r", BEGUN)
    terminal.type("load\r", "going> ")
    assert "no run waits for a condition\n" in terminal.type("when\r", "going> ")
    assert "? 1 Form: nowhere is not a label in the last source\n" in terminal.type("when nowhere\r", "going> ")
    assert "no run waits for a condition\n" in terminal.type("when none\r", "going> ")
    assert "each run ends where this is met: count = 3\n" in terminal.type("when count = 3\r", "going> ")
    assert "ran 11 limit\n        the condition is met\n" in terminal.type("run 20\r", "going> ")
    assert "each run ends where this is met: 100000 times loop\n" in terminal.type("when 100000 times loop\r", "going> ")
    assert "each run ends where this is met: 5 times loop\n" in terminal.type("break loop 5\r", "going> ")
    assert "ran 17 limit\n        the condition is met\n" in terminal.type("run 100\r", "going> ")
    assert "? 1 Form: nowhere is not a label in the last source\n" in terminal.type("break nowhere 5\r", "going> ")
    assert "each run ends where this is met: 100000 times loop\n" in terminal.type("when 100000 times loop\r", "going> ")
    assert "ran 400000 limit\n        the condition is met\n" in terminal.type("c\r", "going> ")
    assert "each run ends where this is met: 100000 times loop\n" in terminal.type("when\r", "going> ")
    terminal.type("when none\r", "going> ")
    shown = terminal.type("run 20\r", "going> ")
    assert "ran 20 limit\n" in shown and "condition" not in shown, shown
    left(terminal)


def what_goes_farther_back_is_told():
    terminal = begun()
    for line in ("put 0000 u 0000", "go 0000", "run 5000", "break 0001"):
        terminal.type(f"{line}\r", "> ")
    shown = terminal.type("why 0000\r", "> ")
    assert "0000: 000f0000 u 0000 = 327680, put there by hand, clock 0; before it was z 0000\n" in shown, shown
    told = "        earlier orders are not kept: to NUMBER and to last CONDITION go to the beginning of any order of this session\n"
    shown = terminal.type("last\r", "going> ")
    assert "? 8 NoHit 4096: this many orders are kept, and no rule hits any of them\n" + told in shown, shown
    assert told not in terminal.type("b 4096\r", "going> ")
    left(terminal)


def what_is_gone_back_to_beyond_the_kept_steps():
    terminal = begun()
    for line in ("put 0000 u 0000", "press start", "run 5000", "break 0001"):
        terminal.type(f"{line}\r", "> ")
    shown = terminal.type("b 4097\r", "going> ")
    assert "order 903 clock 57795\nthe session before this one was saved: resume continues it\n" in shown, shown
    shown = terminal.type("transcript\r", "going> ")
    assert shown == "transcript\nput 0000 000f0000\npress start\norders 903\nbreak 0001\n0000 going> ", shown
    shown = terminal.type("b 904\r", "going> ")
    assert "? 7 TooFar 903: only this many orders led here since the session began\n" in shown, shown
    terminal.type("forward\r", "going> ")
    shown = terminal.type("past\r", "going> ")
    assert "orders since the session began: 5000;" in shown, shown
    terminal.type("b t\t", "to ")
    terminal.type("wh\t", "why ")
    shown = terminal.type("0000\r", "going> ")
    assert "no order to go back to: the word at 0000 was put there by hand, clock 0; before it was z 0000\n" in shown, shown
    left(terminal)


def own_lines_are_refused_by_their_forms():
    terminal = begun()
    for line, refusal in [
            ("resume x", "resume or resume NUMBER: x is not the number of a session; sessions lists them"), ("resume 1 2", "resume or resume NUMBER: 2 is a word too many"),
            ("around 0000 2 3", "around or around ttss or around ttss NUMBER: 3 is a word too many"), ("step x", "step or step NUMBER: x is not a number"),
            ("until", "until ttss or until ttss WORD or until ttss = NUMBER or until ttss < NUMBER or until changed ttss or until printed NUMBER or until rows NUMBER or until clock NUMBER or until NUMBER times CONDITION: what to wait for is missing"),
            ("look 1", "look: 1 is a word too many"), ("sessions 1", "sessions: 1 is a word too many"), ("unalias", "unalias NAME: a name is missing"),
            ("change 0000", "change ttss WORD, and each other form of put: a word is missing"), ("edit 5", "edit or edit NUMBER or edit FILE: there is no source yet"),
            ("put-listing", "column 12: a line of a listing begins with an address, two digits for the track and two for the sector"),
            ("put-listing ", "column 13: a line of a listing begins with an address, two digits for the track and two for the sector")]:
        shown = terminal.type(f"{line}\r", BEGUN)
        assert f"? 1 Form: {refusal}\n" in shown, shown
    left(terminal)


def words_that_are_displayed_and_changed():
    terminal = begun()
    terminal.type(PROGRAM_OF_TWO, "0000 going> ")
    terminal.type("display value\r", "0003 value: 0000000f = 5 or 0.0000000047\n0000 going> ")
    shown = terminal.type("s\r", "0001 going> ")
    assert "\n  0003 value: 0000000f = 5 or 0.0000000047\n" in shown, shown
    shown = terminal.type("change value int 6 30\r", "0001 going> ")
    told = "        press manual\nlive\n        put value int 6 30\nok\n        press normal\nlive\n        press start\nlive\n"
    assert told in shown, shown
    shown = terminal.type("display\r", "> ")
    assert "0003 value: 0000000j = 6" in shown, shown
    shown = terminal.type("transcript\r", "going> ")
    assert "press manual\nput 0003 0000000j\npress normal\npress start\n0001" in shown, shown
    terminal.type("undisplay\r", "> ")
    shown = terminal.type("s\r", "going> ")
    assert "\n  0003 value: " not in shown, shown
    left(terminal)


def short_names():
    state = state_folder()
    terminal = begun(state=state)
    terminal.type("alias two trace 2\r", f"two stands for trace 2\n{BEGUN}")
    shown = terminal.type("alias run trace 2\r", BEGUN)
    assert "? 1 Form: alias or alias NAME or alias NAME LINE: run is a command\n" in shown, shown
    left(terminal)
    terminal = begun(state=state)
    terminal.type("put 0000 u 0000\rpress start\r", "going> ")
    shown = terminal.type("two\r", "going> ")
    assert "ran 2 limit\n" in shown, shown
    terminal.type("alias\r", "two  trace 2\n0000 going> ")
    terminal.type("help two\r", "two stands for trace 2\n0000 going> ")
    terminal.type("tw\t", "two ")
    terminal.type(CTRL_C, "0000 going> ")
    terminal.type("unalias two\r", "going> ")
    shown = terminal.type("two\r", "going> ")
    assert "there is no such command" in shown, shown
    for line, told in [("profile", "ran 10000 limit"), ("optimum", "ran 10000 limit"), ("drum", "ran 10 limit"), ("trace", "ran 10 limit")]:
        shown = terminal.type(f"{line}\r", "going> ")
        assert f"\n{told}\n" in shown, shown
    left(terminal)


def a_source_that_is_edited():
    editor = scratch_file("editor", "#!/bin/sh\nsed -i 's/ u two/ u one/' \"$1\"\n", 0o755)
    for variables in ({"EDITOR": str(editor)}, {"VISUAL": f"{editor} ", "EDITOR": "false"}):
        terminal = begun(**variables)
        terminal.type("source\rone z\r u two\r end one\r.\r", BEGUN)
        shown = terminal.type("edit\r", BEGUN)
        assert shown.endswith(f"cells 2 start 0000\n{BEGUN}"), shown
        shown = terminal.type("transcript\r", BEGUN)
        assert shown == f"transcript\nsource\none z\n u two\n end one\n.\nsource\none z\n u one\n end one\n.\n{BEGUN}", shown
        terminal.type("edit\r", f"the source was not changed\n{BEGUN}")
        file = scratch_file("mine.lgp", "one z\n u two\n end one\n")
        terminal.type(f"edit {file}\r", f"cells 2 start 0000\n{BEGUN}")
        assert file.read_text() == "one z\n u one\n end one\n"
        left(terminal)
    terminal = begun(EDITOR="false")
    terminal.type("edit\r", f"the editor false ended with status 1\n{BEGUN}")
    left(terminal)


def a_source_that_is_edited_by_lines():
    terminal = begun()
    terminal.type("source\rone z\r u two\r end one\r.\r", BEGUN)
    # a line is there to be changed: its last word goes, another one comes
    terminal.type("edit 2\r", "line 2>  u two")
    shown = terminal.type("\x7f\x7f\x7fone\r", BEGUN)
    assert shown.endswith(f"cells 2 start 0000\n{BEGUN}"), shown
    terminal.type("edit\r", "line 1> one z")
    terminal.type("\r", "line 2>  u one")
    terminal.type("\x15\r", "line 3>  end one")
    terminal.type("\r", "line 4> ")
    terminal.type(".\r", f"cells 1 start 0000\n{BEGUN}")
    shown = terminal.type("transcript\r", BEGUN)
    assert shown.endswith(f"source\none z\n end one\n.\n{BEGUN}"), shown
    # what is given up is kept
    terminal.type("edit\r", "line 1> one z")
    terminal.type("\x7fu one\r", "line 2>  end one")
    shown = terminal.type(CTRL_C, BEGUN).replace("\n ", " ")
    kept = pathlib.Path(shown.split("the edited lines are in ")[1].split("\n")[0])
    assert kept.read_text() == "one u one\n end one\n", kept.read_text()
    # so is what was abandoned, which is at hand then
    terminal.type("source\r", "source> ")
    terminal.type("two z\r", "source> ")
    terminal.type(CTRL_C, ASKED)
    terminal.type(CTRL_C, BEGUN)
    terminal.type("edit 1\r", "line 1> two z")
    terminal.type(CTRL_C, BEGUN)
    file = pathlib.Path(tempfile.mkdtemp(dir=SCRATCH), "new.lgp")
    terminal.type(f"edit {file}\r", "line 1> ")
    terminal.type("three z\r", "line 2> ")
    terminal.type(" end three\r", "line 3> ")
    terminal.type(".\r", f"cells 1 start 0000\n{BEGUN}")
    assert file.read_text() == "three z\n end three\n"
    left(terminal)


def what_is_completed_besides():
    terminal = begun()
    terminal.type("json sta\t", "state-data ")
    terminal.type(CTRL_C, BEGUN)
    terminal.type("json trace-data 00\t", "0000")
    terminal.type(CTRL_C, BEGUN)
    terminal.type("paper ty\t", "typed")
    shown = terminal.type("\r", BEGUN)
    assert "\npaper 0 typed 0\n" in shown, shown
    terminal.type("source\r", "source> ")
    terminal.type("looping b looping\r", "source> ")
    terminal.type(" wo\t", "word ")
    terminal.type("\r", "source> ")
    terminal.type(" u loo\t", "looping")
    terminal.type(CTRL_C, ASKED)
    terminal.type(CTRL_C, BEGUN)
    home = tempfile.mkdtemp(dir=SCRATCH)
    left(terminal)
    terminal = begun(HOME=home)
    pathlib.Path(home, "script.txt").write_text("turn 5\n")
    terminal.type("do ~/scr\t", "script.txt")
    shown = terminal.type("\r", BEGUN)
    assert "clock 5\n" in shown, shown
    left(terminal)


def files_that_are_replaced():
    terminal = begun()
    terminal.type("put 0000 u 0000\r", BEGUN)
    names = ["transcript {}", "transcript {} two"] + (["save {}"] if NATIVE is None else [])
    for form in names:
        path = scratch_file("mine.src", "one z\n", 0o600)
        spaced = path.with_name("mine.src two")
        spaced.write_text("other\n")
        file = spaced if form.endswith("two") else path
        before = file.read_text()
        line = form.format(path)
        shown = terminal.type(f"{line}\r", BEGUN)
        assert "was not written in this session: it would be replaced; the same line again does it\n" in shown.replace("\n ", " ") and file.read_text() == before, shown
        shown = terminal.type(f"{line}\r", BEGUN)
        assert "saved " in shown and file.read_text() != before, shown
        assert stat.S_IMODE(path.stat().st_mode) == 0o600
        # what this session wrote is replaced without a question
        shown = terminal.type(f"{line}\r", BEGUN)
        assert "saved " in shown, shown
        if file == spaced:
            continue
        link = path.with_name("link")
        link.symlink_to(path)
        dangling = path.with_name("dangling")
        dangling.symlink_to("made")
        for other, target in [(link, path), (dangling, path.with_name("made"))]:
            shown = terminal.type(form.format(other) + "\r", BEGUN)
            assert "saved " in shown and other.is_symlink() and target.read_text() != "one z\n", shown
        pipe = path.with_name("pipe")
        os.mkfifo(pipe)
        shown = terminal.type(form.format(pipe) + "\r", BEGUN)
        assert "it cannot be written, and is unchanged" in shown.replace("\n", "") and stat.S_ISFIFO(pipe.stat().st_mode), shown
    left(terminal)


CHECKS = [what_is_pasted_is_text, a_subroutine_is_finished, a_stop_is_told, a_run_ends_where_a_condition_is_met, what_was_gone_back_over_is_gone_forward_to, why_nothing_is_done, each_run_waits_for_a_condition, what_goes_farther_back_is_told, what_is_gone_back_to_beyond_the_kept_steps, own_lines_are_refused_by_their_forms, words_that_are_displayed_and_changed, short_names, a_source_that_is_edited,
          a_source_that_is_edited_by_lines, what_is_completed_besides, files_that_are_replaced]
