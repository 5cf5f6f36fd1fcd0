#!/usr/bin/env python3
"""Tries what the README of an installed package says beside its sessions, and says what is not so.

    .ci/packaged.py FOLDER BIN

FOLDER has the README, BIN the programs. Each program that the README lists explains itself, each file that it links to is there, as many lessons
and tasks as it names, and at a terminal the monitor completes words with the Tab key, knows short words, and keeps sessions.
"""

import pathlib
import re
import subprocess
import sys

TOP = pathlib.Path(__file__).resolve().parent.parent
FOLDER, BIN = (pathlib.Path(word).resolve() for word in sys.argv[1:3])
del sys.argv[1:]
sys.path.insert(0, str(TOP / "libraries/javascript/tests"))
from terminal_driver import BEGUN, Terminal, state_folder  # noqa: E402

NUMBERS = {"five": 5, "fifteen": 15}


def programs(readme):
    """The programs in the first column of the README's table."""
    rows = re.findall(r"^\| (`[^|]*`) \|", readme, re.M)
    return [name for row in rows for name in re.findall(r"`([\w-]+)`", row)]


def unexplained(readme):
    named = programs(readme)
    if len(named) < 5:
        yield f"only {len(named)} programs are listed"
    for name in named:
        if not (BIN / name).exists():
            yield f"there is no program {name}"
            continue
        ran = subprocess.run([BIN / name, "--help"], capture_output=True, text=True)
        if ran.returncode or name not in ran.stdout:
            yield f"{name} --help ends with status {ran.returncode}"


def absent(readme):
    for target in re.findall(r"\]\((?!https?:)([^)#]+)", readme):
        if not (FOLDER / target).exists():
            yield f"{target} is not there"


def miscounted(readme):
    there = {"lessons": len(list((FOLDER / "docs/lessons").glob("[a-z]*.md"))), "tasks": len(list((FOLDER / "tasks").glob("*/task")))}
    for number, what in re.findall(r"\b(five|fifteen) (lessons|tasks)\b", readme):
        if NUMBERS[number] != there[what]:
            yield f"{number} {what}: there are {there[what]}"


def sitting():
    """A sitting at a terminal, and one after it."""
    state = state_folder()
    first = Terminal([str(BIN / "lgp_monitor")], state)
    first.shown(BEGUN)
    first.type("put 0050 = 3\r", f"ok\n{BEGUN}")
    first.type("pri\t", "printed ")
    first.type("\r", f"printed 0\n{BEGUN}")
    first.type("look\r", BEGUN)
    first.type("exit\r", "\n")
    if first.status() != 0:
        yield f"a sitting ends with status {first.status()}"
    second = Terminal([str(BIN / "lgp_monitor")], state)
    second.shown(BEGUN)
    second.type("resume\r", BEGUN)
    if "0050 00000006" not in second.type("words 0050 1\r", BEGUN):
        yield "resume does not continue the session before"
    second.type("exit\r", "\n")


def main():
    readme = (FOLDER / "README.md").read_text()
    wrong = [*unexplained(readme), *absent(readme), *miscounted(readme), *sitting()]
    for what in wrong:
        print(f".ci/packaged.py: {what}", file=sys.stderr)
    sys.exit(1 if wrong else 0)


main()
