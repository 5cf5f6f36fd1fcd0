#!/usr/bin/env python3
"""Feeds the proved program random bytes, and then random commands, each for so many seconds (30 without an argument), and feeds a second
process the same in pieces that are cut elsewhere. Says how many bytes went in and how many lines of replies came out, and how much
memory the process held after a quarter of the time and at its end. Ends with status 1 where the two processes answer differently, where
one ends of itself, or where its memory has more than doubled. Build the program first, by ./prove or rt ci. No part of the check."""
import hashlib
import os
import random
import re
import subprocess
import sys
import threading
import time

TOP = os.path.dirname(os.path.dirname(os.path.dirname(os.path.abspath(__file__))))
PROGRAM = f"{TOP}/crates/lgp30/out/lgp30"
DIGITS = "0123456789fgjkqw"
NAMES = "normal oneop manual start clear fill execute compute read".split()
SWITCHES = "bp32 bp16 bp8 bp4 transfer sixbit".split()
SOURCE = ["start b one", " a one+1", " h 0050", " t start", " p =a", " z", "one int 3 20", "two frac .1", " org 0200", " q", " b none", "; a remark", ""]


def address(some):
    return f"{some.randrange(8):02}{some.randrange(64):02}"


def word(some):
    """A word, an order as often as not."""
    number = some.getrandbits(32) & ~1
    if some.random() < 0.5:
        number = some.randrange(16) << 16 | some.randrange(512) << 2
    return "".join(DIGITS[number >> at & 15] for at in range(28, -4, -4))


def codes(some):
    return "".join(some.choice(DIGITS + "zbyrdnmpeutchas'") for _ in range(some.randrange(12)))


def command(some):
    """A line of the script language, or several."""
    number = some.randrange(200)
    lines = [
        lambda: f"put {address(some)} {word(some)}",
        lambda: f"mount {codes(some)}",
        lambda: f"type {codes(some)}",
        lambda: f"press {some.choice(NAMES)}",
        lambda: f"press {some.choice(SWITCHES)} {some.choice(['up', 'down'])}",
        lambda: f"turn {number}",
        lambda: f"orders {number}",
        lambda: f"run {number}",
        lambda: f"back {some.randrange(20)}",
        lambda: f"show {address(some)} {some.randrange(66)}",
        lambda: f"words {address(some)} {some.randrange(66)}",
        lambda: some.choice(["break", "watch"]) + f" {address(some)}",
        lambda: f"drop {some.randrange(66)}",
        lambda: some.choice(["panel", "last", "list", "load", "dump", "printed" if number < 2 else "panel"]),
        lambda: "source\n" + "\n".join([*some.choices(SOURCE, k=some.randrange(8)), " end start", "."]),
        lambda: "".join(some.choice("putrnse 0123;.[]'\r") for _ in range(number)),
    ]
    return some.choice(lines)() + "\n"


def held(process):
    """The memory that a process holds, in kilobytes."""
    with open(f"/proc/{process.pid}/status") as it:
        return int(re.search(r"VmRSS:\s+(\d+)", it.read())[1])


class Fed:
    """A process of the program, and what it has answered so far."""

    def __init__(self):
        self.process = subprocess.Popen([PROGRAM], stdin=subprocess.PIPE, stdout=subprocess.PIPE)
        self.lines = 0
        self.digest = hashlib.sha256()
        self.reading = threading.Thread(target=self.read)
        self.reading.start()

    def read(self):
        for line in self.process.stdout:
            self.lines += 1
            self.digest.update(line)

    def take(self, text):
        self.process.stdin.write(text)
        self.process.stdin.flush()

    def end(self):
        """The status with which the process ends once its input does."""
        self.process.stdin.close()
        self.reading.join()
        return self.process.wait()


def soak(name, piece, seconds):
    """Feeds two processes the same for so many seconds, and compares what they answer."""
    whole, cut = Fed(), Fed()
    begun, fed, early = time.time(), 0, None
    while time.time() < begun + seconds and whole.process.poll() is None and cut.process.poll() is None:
        text = piece()
        middle = len(text) // 3
        whole.take(text)
        cut.take(text[:middle])
        cut.take(text[middle:])
        fed += len(text)
        if early is None and time.time() > begun + seconds / 4:
            early = held(whole.process)
    late = held(whole.process)
    statuses = whole.end(), cut.end()
    print(f"{name}: {fed} bytes in, {whole.lines} lines out, {early} kB held after a quarter, {late} kB at the end, status {statuses[0]}")
    is_same = statuses[0] == statuses[1] and whole.digest.digest() == cut.digest.digest()
    if not is_same:
        print(f"{name}: the two processes answer differently")
    return is_same and statuses[0] in (0, 1) and late <= 2 * early


def main():
    seconds = float(sys.argv[1]) if len(sys.argv) > 1 else 30
    some = random.Random(1956)
    is_well = soak("bytes", lambda: some.randbytes(65536), seconds)
    is_well &= soak("commands", lambda: "".join(command(some) for _ in range(64)).encode(), seconds)
    return 0 if is_well else 1


if __name__ == "__main__":
    sys.exit(main())
