#!/usr/bin/env python3
"""How fast a session from Python is: so many orders in one line (10,000,000 without an argument) beside the same in the proved program,
and the time of a line `panel`, also in the program. Build the program by ./prove and the library by .ci/library first. Times on the
wall vary: program and session take turns, each run in a process of its own, and each time is the best of nine. No part of the check."""
import os
import subprocess
import sys
import time

TOP = os.path.dirname(os.path.dirname(os.path.dirname(os.path.abspath(__file__))))
sys.path.insert(0, f"{TOP}/libraries/python")

import condugwa  # noqa: E402

PROGRAM = f"{TOP}/crates/lgp30/out/lgp30"
# b 0050, a 0051, h 0050, u 0000: it counts up by one.
LOOP = ["put 0000 000100j8", "put 0001 000q00jj", "put 0002 000j00j8", "put 0003 000f0000", "put 0051 00000002", "press start"]
PANELS = 100_000
TURNS = 9


def program_seconds(line, count):
    """How long the program takes for a line, so many times."""
    script = "\n".join([*LOOP, *[line] * count, ""]).encode()
    begun = time.perf_counter()
    subprocess.run([PROGRAM], input=script, stdout=subprocess.DEVNULL, check=True)
    return time.perf_counter() - begun


def answer(line, count):
    """Writes how long a session takes for a line, so many times."""
    with condugwa.Laboratory() as laboratory:
        for each in LOOP:
            laboratory.answer(each)
        begun = time.perf_counter()
        for _ in range(count):
            laboratory.answer(line)
        print(time.perf_counter() - begun)


def session_seconds(line, count):
    """The same by a process of its own, as the program is."""
    ran = subprocess.run([sys.executable, __file__, "answer", line, str(count)], stdout=subprocess.PIPE, check=True)
    return float(ran.stdout)


def best_times(line, count):
    """The shortest times of the program and of a session, in seconds."""
    times = [(program_seconds(line, count), session_seconds(line, count)) for _ in range(TURNS)]
    return tuple(map(min, zip(*times)))


def main(orders):
    program, session = best_times(f"orders {orders}", 1)
    print(f"orders {orders}: {program:.3f} s in the program, {session:.3f} s in a session: {program / session:.2f} of its speed")
    program, session = (seconds / PANELS * 1e6 for seconds in best_times("panel", PANELS))
    print(f"panel: {program:.1f} microseconds in the program, {session:.1f} from Python")


if __name__ == "__main__":
    if sys.argv[1:2] == ["answer"]:
        answer(sys.argv[2], int(sys.argv[3]))
    else:
        main(sys.argv[1] if len(sys.argv) > 1 else "10000000")
