"""The programs that pip installs: by node, by a native program, and where there is neither."""

import os
import pathlib
import shutil
import subprocess
import sys

import pytest

import condugwa
from condugwa import programs

PYTHON = pathlib.Path(__file__).resolve().parents[1]
needs_node = pytest.mark.skipif(shutil.which("node") is None, reason="node is not installed")


def called(name, *words, text="", **environment):
    """What a program writes that is begun as pip begins it."""
    begun = f"import sys; sys.argv[0] = {name!r}; from condugwa import programs; sys.exit(programs.{name}())"
    return subprocess.run(
        [sys.executable, "-c", begun, *words], cwd=PYTHON, env={**os.environ, **environment}, input=text, capture_output=True, text=True, check=False
    )


@needs_node
@pytest.mark.parametrize("name", ["lgp_lab", "lgp_monitor"])
def test_a_program_runs_by_node(name):
    assert called(name, "--version").stdout.splitlines()[0] == f"{name} {condugwa.__version__}"
    ended = called(name, text="turn 5\nfoo\n")
    assert (ended.stdout.splitlines()[0], ended.returncode) == ("clock 5", 1)


def test_where_nothing_runs_it_the_reason_is_said(tmp_path):
    ended = called("lgp_monitor", PATH=str(tmp_path))
    assert (ended.returncode, ended.stdout) == (70, "")
    assert ended.stderr == "lgp_monitor: cannot run: install Node.js 18 or later, which runs the proved module of this package\n"


@pytest.mark.parametrize("version", ["v16.20.0", "none"])
def test_an_old_node_is_none(tmp_path, version):
    node = tmp_path / "node"
    node.write_text(f"#!/bin/sh\necho {version}\n")
    node.chmod(0o755)
    assert called("lgp_lab", PATH=f"{tmp_path}:/usr/bin/none").returncode == 70


def test_a_native_program_comes_first_but_at_a_terminal(tmp_path, monkeypatch):
    native = tmp_path / "lgp_monitor"
    native.write_text("#!/bin/sh\n")
    native.chmod(0o755)
    monkeypatch.setattr(programs, "_NATIVE", tmp_path)
    monkeypatch.setattr(programs, "_by_module", lambda name: ["node", name])
    assert programs.command_of("lgp_monitor") == [str(native)]
    assert programs.command_of("lgp_lab") == ["node", "lgp_lab"]
    monkeypatch.setattr(programs, "_is_typed", lambda: True)
    assert programs.command_of("lgp_monitor") == ["node", "lgp_monitor"]
