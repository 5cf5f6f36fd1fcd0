#!/usr/bin/env python3
"""Measures the laboratory and SIMH's simulator lgp in one run, and writes the last part of docs/COMPARISON.md: instructions of the processor that an
order takes, by callgrind, and the sectors at which a word does not delay a loop. No part of the check.

    tools/bench/compare.py            shows what it measures
    tools/bench/compare.py --write    writes it into the page, with the date

It needs lgp (Debian package simh), valgrind and node. Without the proved program the laboratory's instructions stay as the page has them.
"""

import datetime
import pathlib
import re
import subprocess
import sys
import tempfile

TOP = pathlib.Path(__file__).resolve().parents[2]
PAGE = TOP / "docs" / "COMPARISON.md"
MARKER = "<!-- What follows is written by tools/bench/compare.py --write. -->"
PROGRAM = TOP / "crates" / "lgp30" / "out" / "lgp30"
MONITOR = ["node", TOP / "libraries" / "javascript" / "terminal.mjs", "lgp_monitor"]
SHORT, LONG = 20_001, 120_001
# bring, add, hold, jump: a loop that counts up, as tools/bench/orders.sh has it
LOOP = {"0000": "000100j8", "0001": "000q00jj", "0002": "000j00j8", "0003": "000f0000", "0051": "00000002"}
USUAL = str.maketrans("fgjkqw", "ABCDEF")


def simh(lines, before=()):
    """What SIMH writes for the lines of a command file."""
    with tempfile.NamedTemporaryFile("w", suffix=".sim") as file:
        file.write("\n".join([*lines, "exit\n"]))
        file.flush()
        ran = subprocess.run([*before, "lgp", file.name], capture_output=True, text=True, stdin=subprocess.DEVNULL)
        return ran.stdout + ran.stderr


def collected(text):
    return int(re.search(r"Collected : *(\d+)", text)[1])


VALGRIND = ["valgrind", "--tool=callgrind", "--callgrind-out-file=/dev/null"]


def of_simh(orders):
    words = [f"d {address} {digits.translate(USUAL)}" for address, digits in LOOP.items()]
    return collected(simh([*words, f"step {orders}"], VALGRIND))


def of_program(orders):
    script = "".join(f"put {address} {digits}\n" for address, digits in LOOP.items()) + f"press start\norders {orders}\n"
    return collected(subprocess.run([*VALGRIND, PROGRAM], input=script, capture_output=True, text=True).stderr)


def an_order(count):
    """Instructions an order: a long run less a short one, so that the beginning does not matter."""
    return f"{(count(LONG) - count(SHORT)) / (LONG - SHORT):,.1f}"


def sectors_of_simh():
    """The sectors of a word for which `b` at 0000 and `u 0000` at 0001 take one turn together."""
    for sector in range(64):
        shown = simh([f"d 0000 000100{4 * sector:02X}", "d 0001 000A0000", "d C 0000", "step 2", "show time", "step 200", "show time"])
        first, second = map(int, re.findall(r"Time:\s*(\d+)", shown))
        if second - first == 100 * 64:
            yield f"{sector:02}"


def sectors_here():
    lines = "".join(f"new\nput 0000 b 00{sector:02}\nput 0001 u 0000\npress start\norders 2\npanel\norders 200\npanel\n" for sector in range(64))
    shown = subprocess.run(MONITOR, input=lines, capture_output=True, text=True).stdout
    clocks = [int(clock) for clock in re.findall(r"^counter .* clock (\d+)$", shown, re.M)]
    for sector, (first, second) in enumerate(zip(clocks[::2], clocks[1::2])):
        if second - first == 100 * 64:
            yield f"{sector:02}"


def measured(text):
    before = re.search(r"^\| host instructions per order \| ([\d,.]+)", text, re.M)
    ours = an_order(of_program) if PROGRAM.is_file() else f"{before[1]} (an earlier run)" if before else "not measured"
    version = re.search(r"simulator (V\S+)", simh(["show version"]))[1]
    return (f"Measured on {datetime.date.today()} with SIMH {version}.\n\n| | Condugwa | SIMH |\n|---|---|---|\n"
            f"| host instructions per order | {ours} | {an_order(of_simh)} |\n"
            f"| operand sectors for which the loop `b` at 0000, `u 0000` at 0001 takes a single turn | {' '.join(sectors_here())} | {' '.join(sectors_of_simh())} |\n")


def main():
    if sys.argv[1:] in (["--help"], ["-h"]):
        print(__doc__.strip())
        return
    text = PAGE.read_text()
    made = measured(text)
    if sys.argv[1:] == ["--write"]:
        PAGE.write_text(f"{text[: text.index(MARKER)]}{MARKER}\n\n{made}")
    else:
        print(made, end="")


main()
