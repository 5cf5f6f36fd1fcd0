"""Many programs at once: a cluster of two workers has the answers of one process, also where a worker ends before its time; and the command lines that
docs/EMBEDDING.md shows for whole folders of scripts."""

import os
import pathlib
import re
import runpy
import shlex
import shutil
import subprocess
import sys

import pytest

TOP = pathlib.Path(__file__).resolve().parents[3]
PROGRAM = TOP / "libraries" / "python" / "examples" / "check_submissions.py"
PAGE = (TOP / "docs" / "EMBEDDING.md").read_text()
(SHOWN,) = re.findall(rf"^    python {PROGRAM.relative_to(TOP)} course (.*)$", PAGE, re.M)
RIGHT = "start b 0300\n a 0301\n h 0302\n z\n end start\n"
KINDS = {
    "right": RIGHT,
    "wrong": RIGHT.replace(" a 0301\n", ""),
    "faulty": RIGHT.replace(" a 0301", " add 0301"),
    "endless": "start u start\n end start\n",
    "startless": " z\n end\n",
}
SAID = {
    "right": r"right, \d+ word times",
    "wrong": "5 is at 0302, and 12 is wanted",
    "faulty": "line 2: there is no such operation",
    "endless": "it does not end within 500 orders",
    "startless": "its end line names no start",
}
# the worker that comes first to this submission is killed there, in the middle of a part and after others of its own
ENDING = """
import itertools, os, pathlib, signal
import condugwa
begun = condugwa.Laboratory.__init__
count = itertools.count(1)
def begin(self):
    if next(count) == {killed}:
        try:
            pathlib.Path({mark!r}).touch(exist_ok=False)
        except FileExistsError:
            pass
        else:
            os.kill(os.getpid(), signal.SIGKILL)
    begun(self)
condugwa.Laboratory.__init__ = begin
"""
SUBMISSIONS = 40


@pytest.fixture
def course(tmp_path):
    folder = tmp_path / "course"
    folder.mkdir()
    for number in range(SUBMISSIONS):
        kind = list(KINDS)[number % len(KINDS)]
        (folder / f"{number:02}-{kind}.source").write_text(KINDS[kind])
    return folder


def checked(course, *words, **environment):
    """What the program writes of a course."""
    call = [sys.executable, str(PROGRAM), str(course), *shlex.split(SHOWN), "--limit", "500", *words]
    path = os.pathsep.join(filter(None, [environment.pop("first", None), str(TOP / "libraries" / "python")]))
    return subprocess.run(call, env={**os.environ, "PYTHONPATH": path, **environment}, capture_output=True, text=True, check=False)


def test_one_process_checks_a_course(course):
    ended = checked(course, "--workers", "0")
    assert ended.returncode == 1, ended.stderr
    lines = ended.stdout.splitlines()
    assert len(lines) == SUBMISSIONS
    for line in lines:
        name, _, verdict = line.partition(": ")
        assert re.fullmatch(SAID[name[3:].removesuffix(".source")], verdict), line


def test_two_workers_have_the_same_answers(course):
    pytest.importorskip("distributed")
    ended = checked(course)
    assert ended.stdout == checked(course, "--workers", "0").stdout
    assert f"{SUBMISSIONS} of {SUBMISSIONS} checked" in ended.stderr


@pytest.mark.parametrize("count", [0, 1, 7, 8, 40, 2999, 3000])
def test_submissions_go_out_in_parts(count):
    parts_of, most, fewest = (runpy.run_path(str(PROGRAM))[name] for name in ("parts_of", "MOST_IN_A_PART", "FEWEST_PARTS"))
    sources = [str(number) for number in range(count)]
    parts = parts_of(sources)
    assert [source for part in parts for source in part] == sources
    assert all(0 < len(part) <= most for part in parts)
    assert len(parts) <= max(2 * fewest, count // most + 1)


def test_what_a_worker_has_left_is_done_again(course, tmp_path):
    pytest.importorskip("distributed")
    a_part = SUBMISSIONS // runpy.run_path(str(PROGRAM))["FEWEST_PARTS"]
    mark = tmp_path / "ended"
    first = tmp_path / "first"
    first.mkdir()
    (first / "sitecustomize.py").write_text(ENDING.format(mark=str(mark), killed=a_part + a_part // 2))
    ended = checked(course, first=str(first))
    assert mark.exists()
    assert len(ended.stdout.splitlines()) == SUBMISSIONS, ended.stderr
    assert ended.stdout == checked(course, "--workers", "0").stdout


@pytest.mark.skipif(shutil.which("node") is None, reason="node is not installed")
def test_folders_of_scripts_are_answered_as_the_page_shows(tmp_path):
    (block,) = re.findall(r"^    \./lgp_lab batch (?:.*\n)(?:    .*\n)*", PAGE, re.M)
    one, many = (line.strip() for line in block.strip().splitlines())
    (tmp_path / "lgp_lab").symlink_to(TOP / "lgp_lab")
    (tmp_path / "scripts").mkdir()
    for number in range(6):
        (tmp_path / "scripts" / f"{number}.txt").write_text(f"turn {number}\n")
    for line in (one, many):
        subprocess.run(["bash", "-c", line], cwd=tmp_path, check=True, capture_output=True)
    whole = (tmp_path / "replies").read_text()
    parts = [file.read_text() for file in sorted(tmp_path.glob("replies.*"))]
    told = sorted(part for text in parts for part in re.split(r"(?m)^(?=file )", text) if part)
    assert told == sorted(part for part in re.split(r"(?m)^(?=file )", whole) if part)
    assert len(told) == 6
