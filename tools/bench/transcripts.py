#!/usr/bin/env python3
"""Types random lines to the proved monitor in many sessions, 10,000 lines in all without an argument, with dumps among them as blocks,
and gives the transcript of each session to the proved program. Says how many lines were typed and how many script lines they became, and
ends with status 1 where the program then has another panel, another drum, other rules or other kept steps than the monitor. Build both
programs first, by ./prove and ./prove lgp30m, or by rt ci. No part of the check."""
import random
import subprocess
import sys

from soak import DIGITS, TOP, address, command

MONITOR = f"{TOP}/crates/lgp30m/out/lgp30m"
PROGRAM = f"{TOP}/crates/lgp30/out/lgp30"
LINES_A_SESSION = 100
# What is asked on both sides at the end: what stands, and how far the kept steps and the rules lead.
QUESTIONS = b"panel\ndump\nlast\npanel\nback 1\npanel\nback 100000\nlist\n"


def dump(some):
    """A block with a drum's dump of a few words; of every fourth one the lines stand in another order."""
    places = sorted(some.sample(range(4096), some.randrange(6)))
    words = ["".join(some.choice(DIGITS) for _ in range(7)) + some.choice(DIGITS[2::2]) for _ in places]
    lines = [f"{place // 64:02}{place % 64:02} {word}\n" for place, word in zip(places, words)]
    if some.random() < 0.25:
        some.shuffle(lines)
    return "#< restore drum\n" + "".join(lines) + "#.\n"


def typed_line(some):
    """A line of the monitor, or several; every other one is of the script language."""
    lines = [
        lambda: f"put {address(some)} {some.choice('zbyridnmpeuthcas')} {address(some)}\n",
        lambda: f"put {address(some)} = {some.randrange(-(2 << 30), 2 << 30)}\n",
        lambda: f"put {address(some)} {some.choice(['', '-', '+'])}{some.choice(['', '0'])}.{some.randrange(10**9)}\n",
        lambda: f"go {address(some)}\n",
        lambda: dump(some),
        lambda: some.choice(["help\n", "help put\n", "transcript\n", "new\n" if some.random() < 0.1 else "go\n"]),
        lambda: "x" * some.choice([1, 4095, 4096, 4097, 9000]) + some.choice(["\n", "\r\n", " \n"]),
        lambda: " " * some.choice([1, 4097]) + "\n",
        lambda: "put 0000 " + "".join(some.choice(DIGITS) for _ in range(8)) + "\r\r\n",
    ]
    return some.choice(lines)() if some.random() < 0.5 else command(some)


def answers(program, lines):
    """What a program writes for lines."""
    return subprocess.run([program], input=lines, stdout=subprocess.PIPE, check=False).stdout


def without_reasons(text):
    """A text whose refusals have no reasons behind them: those stand in the monitor alone."""
    return b"\n".join(line.partition(b": ")[0] if line.startswith(b"? ") else line for line in text.split(b"\n"))


def behind(whole, front):
    """What a text has behind its front."""
    if not whole.startswith(front):
        sys.exit("a text with more lines has other replies to the first ones")
    return whole[len(front):]


def main():
    wanted = int(sys.argv[1]) if len(sys.argv) > 1 else 10000
    some = random.Random(1956)
    typed = kept = differ = 0
    while typed < wanted:
        # a source that is open at the end is closed
        text = ("".join(typed_line(some) for _ in range(LINES_A_SESSION)) + ".\n").encode("latin-1")
        replies = answers(MONITOR, text)
        transcript = behind(answers(MONITOR, text + b"transcript\n"), replies)
        in_monitor = behind(answers(MONITOR, text + QUESTIONS), replies)
        in_program = behind(answers(PROGRAM, transcript + QUESTIONS), answers(PROGRAM, transcript))
        differ += without_reasons(in_monitor) != in_program
        typed += text.count(b"\n")
        kept += transcript.count(b"\n")
    print(f"{typed} lines typed, {kept} script lines; sessions that end otherwise: {differ}")
    return 1 if differ else 0


if __name__ == "__main__":
    sys.exit(main())
