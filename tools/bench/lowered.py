#!/usr/bin/env python3
"""Gives random scripts, 20,000 without an argument, and all examples to the module as the proofs leave it and to the one that the page
has, whose memory was lowered to addresses of 32 bits: whole and line by line, with room and memory enough and with too little of
them. Ends with status 1 where anything differs, or where neither the room nor the memory ever ended. Replies to whole scripts are
compared with those of the proved program as well, where ./prove has made it. Make the modules first, by page/make."""
import base64
import json
import os
import pathlib
import random
import subprocess
import sys

from soak import PROGRAM, TOP, command
from transcripts import typed_line

ENOUGH = {"room": 4 << 20, "region": 16 << 20}
COMMANDS = 30


def random_case(some):
    """A script of the script language or of the monitor; of every other one room and memory are whatever they are."""
    line = some.choice([command, typed_line])
    case = {"script": "".join(line(some) for _ in range(some.randrange(COMMANDS))).encode("latin-1")}
    if some.random() < 0.5:
        return case | ENOUGH
    room = some.choice([0, 1, some.randrange(200), some.randrange(20_000), ENOUGH["room"]])
    region = some.choice([some.randrange(200), some.randrange(700_000), 600_000 + some.randrange(100_000), ENOUGH["region"]])
    return case | {"room": room, "region": region}


def cases(count):
    """All examples and sessions beside them, and random scripts."""
    for path in sorted(pathlib.Path(TOP, "examples").rglob("*")):
        if path.suffix in (".txt", ".typed"):
            yield {"script": path.read_bytes()} | ENOUGH
    some = random.Random(1956)
    for _ in range(count):
        yield random_case(some)


def in_text(case):
    """A case as a line of text, with the program's replies where there is one and nothing is scarce."""
    if os.access(PROGRAM, os.X_OK) and case["region"] == ENOUGH["region"] and case["room"] == ENOUGH["room"]:
        ran = subprocess.run([PROGRAM], input=case["script"], stdout=subprocess.PIPE, check=False)
        case = case | {"replies": base64.b64encode(ran.stdout).decode()}
    return json.dumps(case | {"script": base64.b64encode(case["script"]).decode()}) + "\n"


def main():
    count = int(sys.argv[1]) if len(sys.argv) > 1 else 20_000
    flag = "--experimental-wasm-memory64"  # node 20 has memory64 by this flag, which later ones lack
    knows = subprocess.run(["node", flag, "-e", "0"], stderr=subprocess.DEVNULL, check=False).returncode == 0
    words = [*([flag] if knows else []), "--no-warnings", "tools/bench/lowered.mjs", "page/lgp_c_region64.wasm", "libraries/javascript/lgp_c_region.wasm"]
    with subprocess.Popen(["node", *words], cwd=TOP, stdin=subprocess.PIPE, text=True) as both:
        for case in cases(count):
            both.stdin.write(in_text(case))
        both.stdin.close()
        return both.wait()


if __name__ == "__main__":
    sys.exit(main())
