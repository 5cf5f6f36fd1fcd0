#!/usr/bin/env python3
"""Runs generated programs, 100 without an argument, in SIMH's simulator lgp and in the laboratory, and compares what is printed, the
accumulator, the counter and all words of the drum. Each program reads words from a tape, stores, calculates, jumps forward and prints.
Says how many programs agree; where one differs, shows the first three and ends with status 1. What is known to differ is left out:
docs/MACHINE.md says what. With the word --odd the words of the tapes may be odd numbers, and programs then differ after m, n and d.
Where there is no program lgp (Debian's package simh has it) this says so, and ends with status 0. No part of the check."""
import os
import random
import re
import shutil
import subprocess
import sys
import tempfile

TOP = os.path.dirname(os.path.dirname(os.path.dirname(os.path.abspath(__file__))))
DIGITS = "0123456789fgjkqw"
# What is printed: codes of letters, so that the digits which SIMH's typewriter also writes as it reads a tape are told from them.
PRINTED = [f"{code:02}00" for code in range(1, 64, 4)]
SHOWN_PROGRAMS = 3
PROGRAMS_A_RUN = 100


def word(some, last=DIGITS[::2]):
    """Eight digits, the last of a choice: a small number or any, of either sign."""
    digits = "".join(some.choice(DIGITS) for _ in range(7))
    return (some.choice(["00000", "wwwww", "", ""]) + digits)[:7] + some.choice(last)


def step(some):
    """What a program does next: orders that belong together. A jump has no address yet."""
    place = f"20{some.randrange(16):02}"
    chance = some.random()
    if chance < 0.1:
        return ["p 0000", "i 0000"]
    if chance < 0.2:
        return [f"p {some.choice(PRINTED)}", "z 0400"]
    if chance < 0.3:
        return [some.choice("ut")]
    return [f"{some.choice('bbbhhhcyreasasmnd')} {place}"]


def program(some, is_odd):
    """The orders of a program from 0000 on, the words at 2000 to 2015, and the words of its tape."""
    steps = [step(some) for _ in range(some.randrange(10, 40))] + [["z 0000"]]
    starts = [sum(map(len, steps[:place])) for place in range(len(steps))]
    for place, orders in enumerate(steps):
        if len(orders[0]) == 1:
            orders[0] += f" 00{some.choice(starts[place + 1:]):02}"
    inputs = sum(orders[0] == "p 0000" for orders in steps)
    return sum(steps, []), [word(some) for _ in range(16)], [word(some, DIGITS if is_odd else DIGITS[::2]) for _ in range(inputs)]


def typed_lines(orders, words, tape):
    """What is typed to the monitor for a program."""
    return [
        "new",
        *(f"put 00{place:02} {order}" for place, order in enumerate(orders)),
        *(f"put 20{place:02} {digits}" for place, digits in enumerate(words)),
        "dump",
        "mount " + "".join(f"{digits}'" for digits in tape),
        "press bp4 down",
        "press start",
        "orders 1000",
        "printed",
        "panel",
        "dump",
    ]


def laboratory(programs):
    """What the laboratory replies for each program: its dump before the run; and what it printed, accumulator, counter and dump after it."""
    lines = [typed_lines(*each) for each in programs]
    typed = "".join(f"{line}\n" for each in lines for line in each)
    ran = subprocess.run([f"{TOP}/lgp_monitor"], input=typed, stdout=subprocess.PIPE, text=True, check=False)
    replies = iter(ran.stdout.splitlines())
    for each in lines:
        found = {"dumps": []}
        for line in each:
            reply = next(replies, "? no reply")
            if reply.startswith("?"):
                sys.exit(f"{line}: {reply}")
            if line == "dump":
                found["dumps"].append([next(replies) for _ in range(int(reply.split()[1]))])
            elif line == "printed":
                found["printed"] = "".join(reply.split()[2:])
            elif line == "panel":
                found["panel"] = reply.split()
        yield found["dumps"][0], (found["printed"], found["panel"][3], found["panel"][1], found["dumps"][1])


def simulator(dump, tape, folder):
    """The same of SIMH: what it printed, accumulator, counter and words that are not zero."""
    with open(f"{folder}/tape", "w") as file:
        file.write("".join(f"{digits}'" for digits in tape))
    commands = [f"d -lt {cell}" for cell in dump]
    commands += ["att -q tti1 tape", "att -q tto1 printed", "run 0", "det tto1", "ex -l a", "ex c", "ex -lt @words 0-6363", "exit"]
    with open(f"{folder}/commands", "w") as file:
        file.write("".join(f"{command}\n" for command in commands))
    for name in ("printed", "words"):
        if os.path.exists(f"{folder}/{name}"):
            os.remove(f"{folder}/{name}")
    ran = subprocess.run(["lgp", "commands"], cwd=folder, stdin=subprocess.DEVNULL, capture_output=True, text=True, timeout=20)
    registers = dict(re.findall(r"^(A|C):\t(\w+)$", ran.stdout, re.M))
    with open(f"{folder}/printed") as file:
        printed = re.sub("[0-9fgjkqw']", "", file.read())
    with open(f"{folder}/words") as file:
        words = [line.lower().replace(":\t", " ") for line in file.read().splitlines()]
    return printed, registers["A"].lower(), registers["C"], [cell for cell in words if not cell.endswith(" 00000000")]


def told(program_run, ours, theirs):
    """A program that differs, with both ends."""
    orders, words, tape = program_run
    lines = [f"orders {', '.join(orders)}", f"words {' '.join(words)}", f"tape {' '.join(tape)}"]
    for name, own, other in zip(("printed", "accumulator", "counter"), ours, theirs):
        if own != other:
            lines.append(f"{name}: here {own}, SIMH {other}")
    lines += [f"here {cell}" for cell in ours[3] if cell not in theirs[3]] + [f"SIMH {cell}" for cell in theirs[3] if cell not in ours[3]]
    return "\n".join(lines)


def compared(programs, folder):
    """Those of some programs that differ, each with both ends."""
    for each, (dump, ours) in zip(programs, laboratory(programs)):
        theirs = simulator(dump, each[2], folder)
        if ours != theirs:
            yield told(each, ours, theirs)


def main():
    words = [given for given in sys.argv[1:] if given != "--odd"]
    if not shutil.which("lgp"):
        print("there is no program lgp: Debian's package simh has it")
        return 0
    some = random.Random(1)
    programs = [program(some, "--odd" in sys.argv) for _ in range(int(words[0]) if words else 100)]
    differing = []
    with tempfile.TemporaryDirectory() as folder:
        # A run without proofs writes no more than a megabyte.
        for first in range(0, len(programs), PROGRAMS_A_RUN):
            differing += compared(programs[first : first + PROGRAMS_A_RUN], folder)
    print(f"{len(programs) - len(differing)} of {len(programs)} programs agree")
    print("\n\n".join(differing[:SHOWN_PROGRAMS]), end="\n" if differing else "")
    return 1 if differing else 0


sys.exit(main())
