"""The programs lgp_lab and lgp_monitor, as pip installs them: the native ones where the package has them, otherwise the proved module, in node.

At a terminal node edits the lines of lgp_monitor, so there it is taken first.
"""

import os
import pathlib
import shutil
import signal
import subprocess
import sys

_UNABLE = 70
_OLDEST = 18
_HERE = pathlib.Path(__file__).resolve().parent
# in a package, and in the repository
_MODULES = [_HERE / "module", _HERE.parents[1] / "javascript"]
_NATIVE = _HERE / "programs"


def _node() -> "str | None":
    """Where node is, of a version that runs the module."""
    node = shutil.which("node")
    if node is None:
        return None
    try:
        version = subprocess.run([node, "--version"], capture_output=True, text=True, check=False).stdout
    except OSError:
        return None
    major = version.removeprefix("v").split(".")[0]
    return node if major.isdecimal() and int(major) >= _OLDEST else None


def _by_module(name: str) -> "list[str] | None":
    """The command line that runs a program over the module."""
    files = [folder / "terminal.mjs" for folder in _MODULES if (folder / "lgp_c_region.wasm").is_file()]
    node = _node() if files else None
    return None if node is None else [node, str(files[0]), name]


def _native(name: str) -> "list[str] | None":
    program = _NATIVE / name
    return [str(program)] if os.access(program, os.X_OK) and program.is_file() else None


def _is_typed() -> bool:
    return sys.stdin is not None and sys.stdin.isatty() and sys.stdout.isatty()


def command_of(name: str) -> "list[str] | None":
    """The command line that runs a program here, or None where nothing does."""
    ways = [_by_module, _native] if name == "lgp_monitor" and _is_typed() else [_native, _by_module]
    return next(filter(None, (way(name) for way in ways)), None)


def _run(name: str) -> int:
    command = command_of(name)
    if command is None:
        print(f"{name}: cannot run: install Node.js {_OLDEST} or later, which runs the proved module of this package", file=sys.stderr)
        return _UNABLE
    command += sys.argv[1:]
    if os.name == "posix":
        os.execv(command[0], command)
    # elsewhere a program cannot take this one's place; a Ctrl-C is for it
    signal.signal(signal.SIGINT, signal.SIG_IGN)
    return subprocess.call(command)


def lgp_lab() -> int:
    """Runs lgp_lab with the words of this call."""
    return _run("lgp_lab")


def lgp_monitor() -> int:
    """Runs lgp_monitor with the words of this call."""
    return _run("lgp_monitor")
