"""Checks the submissions of a course on many processors or computers, with Dask (Debian's python3-distributed).

    python libraries/python/examples/check_submissions.py FOLDER --put "0300 = 5" --put "0301 = 7" --want "0302 = 12"
    python libraries/python/examples/check_submissions.py FOLDER .. --scheduler tcp://computer:8786

Each file `*.source` in FOLDER is assembled, loaded and started; before the start the words of --put are put on the drum, and at the rest those of
--want have to be there. A line for each file, in the order of their names, says whether it is right, with its word times. Without --scheduler
two workers on this computer do it, or as many as --workers says; with `--workers 0` this process does it alone. All give the same lines. Progress
is told on standard error. The submissions go to the workers in parts, since sending one takes longer than checking it. Where a worker ends
before its time its part is done again by another one.
"""

import argparse
import dataclasses
import pathlib
import sys
import typing

import condugwa

MOST_IN_A_PART = 100
FEWEST_PARTS = 8


@dataclasses.dataclass(frozen=True)
class Assignment:
    """What a course asks for."""

    put: "tuple[tuple[str, int], ...]"
    want: "tuple[tuple[str, int], ...]"
    limit: int


def verdict_of(source: str, assignment: Assignment) -> str:
    """What is to be said of a submission."""
    with condugwa.Laboratory() as laboratory:
        try:
            start = laboratory.source(source).start
        except condugwa.FaultyError as refusal:
            return f"line {refusal.faults[0].line}: {refusal.faults[0].wrong}"
        if start is None:
            return "its end line names no start"
        laboratory.load()
        laboratory.answer("press manual")
        for address, number in assignment.put:
            laboratory.put(address, number)
        laboratory.go(start)
        begun = laboratory.panel().clock
        if laboratory.run(assignment.limit).end != "rest":
            return f"it does not end within {assignment.limit} orders"
        for address, number in assignment.want:
            found = laboratory.numbers(address)[address]
            if found != number:
                return f"{found} is at {address}, and {number} is wanted"
        return f"right, {laboratory.panel().clock - begun} word times"


def parts_of(sources: "list[str]") -> "list[list[str]]":
    """The sources in parts, of which each is one task: large ones, and yet some for each worker."""
    size = max(1, min(MOST_IN_A_PART, len(sources) // FEWEST_PARTS))
    return [sources[at : at + size] for at in range(0, len(sources), size)]


def verdicts_of(sources: "list[str]", assignment: Assignment) -> "list[str]":
    """What is to be said of each submission of a part."""
    return [verdict_of(source, assignment) for source in sources]


def verdicts_by(cluster: typing.Any, sources: "list[str]", assignment: Assignment) -> "list[str]":
    """The verdicts, in the order of the sources, by the workers of a cluster."""
    from distributed import Client, as_completed

    with Client(cluster) as client:
        futures = client.map(verdicts_of, parts_of(sources), assignment=assignment, retries=2, pure=False)
        checked = 0
        for _, told in as_completed(futures, with_results=True):
            checked += len(told)
            print(f"\r{checked} of {len(sources)} checked", end="", file=sys.stderr, flush=True)
        print(file=sys.stderr)
        return [verdict for part in client.gather(futures) for verdict in part]


def verdicts(sources: "list[str]", assignment: Assignment, workers: int, scheduler: "str | None") -> "list[str]":
    """The verdicts, by a scheduler that is there, by workers on this computer, or by this process."""
    if scheduler is not None:
        return verdicts_by(scheduler, sources, assignment)
    if workers == 0:
        return verdicts_of(sources, assignment)
    from distributed import LocalCluster

    with LocalCluster(n_workers=workers, threads_per_worker=1, dashboard_address=None) as cluster:
        return verdicts_by(cluster, sources, assignment)


def word(text: str) -> "tuple[str, int]":
    """A word as the command line has it, such as `0300 = 5`."""
    address, _, number = text.partition("=")
    return address.strip(), int(number)


def main() -> int:
    parser = argparse.ArgumentParser(description="Checks the submissions of a course.")
    parser.add_argument("folder", type=pathlib.Path)
    parser.add_argument("--put", type=word, action="append", default=[], metavar='"ADDRESS = NUMBER"')
    parser.add_argument("--want", type=word, action="append", default=[], metavar='"ADDRESS = NUMBER"')
    parser.add_argument("--limit", type=int, default=10_000, help="the most orders of a run")
    parser.add_argument("--workers", type=int, default=2)
    parser.add_argument("--scheduler")
    words = parser.parse_args()
    files = sorted(words.folder.glob("*.source"))
    sources = [file.read_text("utf-8", "surrogateescape") for file in files]
    told = verdicts(sources, Assignment(tuple(words.put), tuple(words.want), words.limit), words.workers, words.scheduler)
    for file, verdict in zip(files, told):
        print(f"{file.name}: {verdict}")
    return 0 if all(verdict.startswith("right") for verdict in told) else 1


if __name__ == "__main__":
    sys.exit(main())
