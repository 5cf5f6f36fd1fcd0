"""The proved program at a terminal where node is not installed: rlwrap edits its lines."""

import os
import pathlib
import shutil
import tempfile

from terminal_driver import BEGUN, CTRL_D, LAUNCHER, NATIVE, SCRATCH, UP, Terminal

CTRL_A = "\x01"
RIGHT = "\x1b[C"


def without_node():
    """A folder with all programs of the system but node."""
    folder = pathlib.Path(tempfile.mkdtemp(dir=SCRATCH))
    for place in reversed(os.environ["PATH"].split(os.pathsep)):
        for name in os.listdir(place) if os.path.isdir(place) else ():
            link = folder / name
            link.unlink(missing_ok=True)
            link.symlink_to(os.path.join(place, name))
    for name in ("node", "nodejs"):
        (folder / name).unlink(missing_ok=True)
    return str(folder)


def lines_are_edited_by_rlwrap():
    if NATIVE is None or shutil.which("rlwrap") is None:
        return
    terminal = Terminal([str(LAUNCHER)], PATH=without_node())
    # rlwrap writes the prompt again where it likes, so what is waited for is the reply
    terminal.raw("", BEGUN)
    for keys, reply in (
        (f"wrds 0003 1{CTRL_A}{RIGHT}o\r", "0003 00000000"), ("words 0004 1\r", "0004 00000000"), (f"{UP}{UP}\r", "0003 00000000"),
        ("foo\r", "there is no such command"), ("print\t", "printed "), ("\r", "printed 0"), ("put 0000 u 0000\r", "ok"),
        ("press start\r", "live"), ("run 1000\r", "ran 1000 limit"),
    ):
        terminal.raw(keys, reply)
    os.write(terminal.end, CTRL_D.encode())
    assert terminal.status() == 0


CHECKS = [lines_are_edited_by_rlwrap]
