"""A program at a terminal, to which a test types."""

import atexit
import fcntl
import os
import pathlib
import pty
import re
import select
import shutil
import struct
import subprocess
import sys
import tempfile
import termios
import time

PROGRAM = pathlib.Path(__file__).resolve().parent.parent / "terminal.mjs"
LAUNCHER = PROGRAM.parent.parent.parent / "lgp_monitor"
NATIVE = sys.argv[1] if len(sys.argv) > 1 else None
MONITOR = ["node", PROGRAM, "lgp_monitor"] if NATIVE is None else ["node", PROGRAM.parent / "sitting.mjs", NATIVE]
SECONDS = int(os.environ.get("LONGEST_WAIT", 120))
ESCAPES = re.compile(r"\x1b\[[0-9;?]*[A-Za-z]")
# of a long text only so much at its end is looked at for what is waited for
TAIL = 4000
UP = "\x1b[A"
CTRL_C = "\x03"
CTRL_D = "\x04"
CTRL_R = "\x12"
CTRL_Z = "\x1a"
BEGUN = "0000 halted operator> "
SCRATCH = tempfile.mkdtemp()
atexit.register(shutil.rmtree, SCRATCH, True)


def take_terminal():
    """Makes standard input the terminal whose keys reach this process, Ctrl-C among them."""
    fcntl.ioctl(0, termios.TIOCSCTTY, 0)


def state_folder():
    """A new folder in which a sitting is kept."""
    return tempfile.mkdtemp(dir=SCRATCH)


def plain(text):
    """What is shown, without what moves the cursor."""
    return ESCAPES.sub("", text).replace("\r", "")


def scratch_file(name, text, mode=0o644):
    """A new file with a text."""
    path = pathlib.Path(tempfile.mkdtemp(dir=SCRATCH), name)
    path.write_text(text)
    path.chmod(mode)
    return path


class Terminal:
    """A program at a terminal; without another folder what it keeps is in a new one."""

    def __init__(self, command=None, state=None, columns=100, **variables):
        self.end, inner = pty.openpty()
        fcntl.ioctl(inner, termios.TIOCSWINSZ, struct.pack("HHHH", 24, columns, 0, 0))
        self.state = state or state_folder()
        kept = {"TERM": "xterm", "PS1": "$ ", "XDG_STATE_HOME": self.state, "XDG_CONFIG_HOME": self.state, "NO_COLOR": "1", "VISUAL": "", "EDITOR": ""}
        self.program = subprocess.Popen(command or MONITOR, stdin=inner, stdout=inner, stderr=subprocess.DEVNULL, env={**os.environ, **kept, **variables},
                                        start_new_session=True, preexec_fn=take_terminal)
        os.close(inner)
        self.begun = ""

    def raw(self, keys, end):
        """What is shown for keys, up to a text, with what moves the cursor and colours."""
        os.write(self.end, keys.encode())
        text = ""
        until = time.monotonic() + SECONDS
        while end not in text and time.monotonic() < until:
            if select.select([self.end], [], [], 0.2)[0]:
                text += os.read(self.end, 65536).decode()
        assert end in text, f"{text[-2000:]!r} has no {end!r}"
        return text

    def shown(self, end):
        """What is shown up to a text, without what moves the cursor."""
        pieces, tail, self.begun = [self.begun], self.begun, ""
        until = time.monotonic() + SECONDS
        while not plain(tail).endswith(end) and time.monotonic() < until:
            if select.select([self.end], [], [], 0.2)[0]:
                try:
                    pieces.append(os.read(self.end, 65536).decode(errors="replace"))
                except OSError:
                    break
                tail = (tail + pieces[-1])[-TAIL:]
        text = plain("".join(pieces))
        assert text.endswith(end), f"{text[-2000:]!r} does not end in {end!r}"
        return text

    def type(self, keys, end):
        """What is shown for keys, up to a text. A Tab at their end is a key of its own: it is pressed when the letters before it are shown."""
        letters = keys.removesuffix("\t")
        os.write(self.end, letters.encode())
        if letters == keys:
            return self.shown(end)
        self.begun = self.shown(letters)
        os.write(self.end, b"\t")
        return self.shown(end)

    def status(self):
        return self.program.wait(SECONDS)
