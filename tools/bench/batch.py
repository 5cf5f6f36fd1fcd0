#!/usr/bin/env python3
"""Measures how many scripts a second `./lgp_lab batch` answers in one process and in one for each processor, and how long a course's submissions
take in one process and by two workers of a cluster with Dask; and writes the sentences in docs/EMBEDDING.md that say so. No part of the check.

    tools/bench/batch.py                        shows what it measures
    tools/bench/batch.py --write                writes it into the page, with the date and the load by other work
    tools/bench/batch.py --write submissions    the same of one of the two: scripts or submissions

The scripts are copies of examples/tables/primes.txt. It measures what ./lgp_lab runs: the native program, or else the module. The submissions
are copies of a short source; libraries/python/examples/check_submissions.py checks them with the library in libraries/python/condugwa, or the one
that CONDUGWA_LIBRARY names. What cannot be measured here is not written.
"""

import datetime
import os
import pathlib
import re
import subprocess
import sys
import tempfile
import time

TOP = pathlib.Path(__file__).resolve().parents[2]
PAGE = TOP / "docs" / "EMBEDDING.md"
SCRIPT = TOP / "examples" / "tables" / "primes.txt"
NATIVE = TOP / "crates" / "lgp30" / "out" / "lgp30"
CHECK = TOP / "libraries" / "python" / "examples" / "check_submissions.py"
LIBRARY = TOP / "libraries" / "python" / "condugwa" / "liblgp30.so"
PYTHON = "/usr/bin/python3"
BEGINNING = r"(?:Before|On) [\d-]{10}, on a computer with \w+ processors(?: and a load of [\d.]+ by other work)?,"
SCRIPTS = re.compile(BEGINNING + r" the (?:native program|module) answered .*? in \w+\.")
SUBMISSIONS = re.compile(BEGINNING + r" [\d,]+ short submissions took .*? by two workers(?:, with another build of the library)?\.")
SUBMISSION = "start b 0300\n a 0301\n h 0302\n z\n end start\n"
COUNT, AT_ONCE, BEST_OF = 1000, 50, 3
CHECKED = 3000
PROCESSORS = len(os.sched_getaffinity(0))
NUMBERS = {1: "one", 2: "two", 4: "four", 8: "eight", 16: "sixteen"}


def seconds(call, **how):
    """How long a call takes, the best of some tries."""
    found = []
    for _ in range(BEST_OF):
        began = time.monotonic()
        subprocess.run(call, check=True, stdout=subprocess.DEVNULL, stderr=subprocess.DEVNULL, **how)
        found.append(time.monotonic() - began)
    return min(found)


def filled(folder, count, name, text):
    """A folder with copies of a text."""
    for number in range(count):
        (folder / f"{number:04}{name}").write_text(text)
    return folder


def beginning():
    """When this is measured, and on what: to be asked before a measurement, which makes a load of its own."""
    load = os.getloadavg()[0]
    processors = NUMBERS.get(PROCESSORS, str(PROCESSORS))
    return f"On {datetime.date.today()}, on a computer with {processors} processors{f' and a load of {load:.1f} by other work' if load > 1 else ''},"


def scripts(folder):
    """What is to be said of scripts."""
    told = beginning()
    filled(folder, COUNT, ".txt", SCRIPT.read_text())

    def a_second(processes):
        at_once = COUNT if processes == 1 else AT_ONCE
        call = f"find {folder} -name '*.txt' -print0 | xargs -0 -P {processes} -n {at_once} {TOP / 'lgp_lab'} batch"
        return round(COUNT / seconds(["sh", "-c", call]), -1)

    program = "native program" if NATIVE.exists() else "module"
    return (f"{told} the {program} answered {a_second(1):,.0f} scripts like `examples/tables/primes.txt` a second in one process, and "
            f"{a_second(PROCESSORS):,.0f} in {NUMBERS.get(PROCESSORS, str(PROCESSORS))}.")


def submissions(folder):
    """What is to be said of submissions; nothing where there is no library or no Dask."""
    other = os.environ.get("CONDUGWA_LIBRARY")
    if not (other or LIBRARY.exists()) or subprocess.run([PYTHON, "-c", "import distributed"], capture_output=True).returncode:
        return None
    told = beginning()
    filled(folder, CHECKED, ".source", SUBMISSION)
    call = [PYTHON, CHECK, folder, "--put", "0300 = 5", "--put", "0301 = 7", "--want", "0302 = 12", "--workers"]
    with_path = {"env": {**os.environ, "PYTHONPATH": str(TOP / "libraries" / "python")}}
    one, two = (seconds([*call, workers], **with_path) for workers in "02")
    build = ", with another build of the library" if other else ""
    return f"{told} {CHECKED:,} short submissions took {one:.1f} seconds in one process and {two:.1f} by two workers{build}."


MEASURED = {"scripts": (SCRIPTS, scripts), "submissions": (SUBMISSIONS, submissions)}


def main():
    words = sys.argv[1:]
    if words in (["--help"], ["-h"]):
        print(__doc__.strip())
        return
    names = [word for word in words if word != "--write"]
    if unknown := [name for name in names if name not in MEASURED]:
        sys.exit(f"tools/bench/batch.py: it takes --write, scripts and submissions, and not '{unknown[0]}'")
    for sentence, measured in (MEASURED[name] for name in names or MEASURED):
        with tempfile.TemporaryDirectory() as folder:
            told = measured(pathlib.Path(folder))
        print(told or "tools/bench/batch.py: the submissions are not measured: the library for Python or python3-distributed is not there")
        if told and "--write" in words:
            text = PAGE.read_text()
            if len(sentence.findall(text)) != 1:
                sys.exit("tools/bench/batch.py: docs/EMBEDDING.md has no sentence for this")
            PAGE.write_text(sentence.sub(lambda _: told, text))


main()
