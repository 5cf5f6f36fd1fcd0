"""Sources of the assembler."""

import dataclasses
import typing

from condugwa import refusals, scripts
from condugwa.records import Record, number_of, records_of, value_of


@dataclasses.dataclass(frozen=True)
class Listing:
    """A source without a fault."""

    cells: int
    """How many words it makes."""

    start: "str | None"
    """The address where its program starts, as `ttss`, if its end line names one."""

    text: str
    """The listing: each line of the source after its place and its word."""


@dataclasses.dataclass(frozen=True)
class Fault:
    """A faulty line of a source."""

    line: int
    """Its number, from 1 on."""

    kind: str
    """The first fault that it has, as docs/FORMATS.md names it."""

    columns: "tuple[int, int] | None" = None
    """The part of the line that is wrong: its first column, from 0 on, and the one after its last. None where no part is."""

    wrong: str = ""
    """What is wrong, in words."""

    right: str = ""
    """What would be right."""

    def __str__(self) -> str:
        return f"line {self.line}: {self.wrong}: {self.right}" if self.wrong else f"line {self.line}: {self.kind}"


@dataclasses.dataclass(frozen=True)
class Faults:
    """The faulty lines of a source, in their order. There is at least one."""

    faults: "tuple[Fault, ...]"


def lines_of(source: "str | bytes") -> "list[bytes]":
    """The lines of a source, without their line feeds. Raises ValueError where one is a point alone, which ends a source in a script."""
    text = scripts.encoded(source)
    lines = text.removesuffix(b"\n").split(b"\n") if text else []
    if any(line.removesuffix(b"\r") == b"." for line in lines):
        raise ValueError("a line of the source is a point alone")
    return lines


def faults_of(ask: "typing.Callable[[str], str]") -> "tuple[Fault, ...]":
    """The faults of the source that was closed last, as a laboratory tells them that is asked by a function."""
    kinds = {value_of(record, "fault"): record for record in records_of(ask("json faults-data").splitlines())}
    faulty = (record for record in records_of(ask("json source-data").splitlines()) if "fault" in record)
    return tuple(_fault(record, kinds[record["fault"]]) for record in faulty)


def _fault(record: Record, kind: Record) -> Fault:
    columns = record.get("at")
    return Fault(
        line=number_of(record, "line"),
        kind=value_of(record, "fault"),
        columns=(columns[0], columns[1]) if columns else None,
        wrong=value_of(kind, "wrong"),
        right=value_of(kind, "right"),
    )


def assemble(source: "str | bytes") -> "Listing | Faults":
    """Assembles a source.

    Each of its lines has a line feed, the last one too: where that is missing, it is put there. Raises TooLongError where the source then has
    more than 1,048,576 bytes, or a line of more than 4,096, and ValueError where one of its lines is a point alone, since that ends a
    source in a script.
    """
    from condugwa.laboratories import Laboratory

    text = b"".join(line + b"\n" for line in lines_of(source))
    lines = scripts.run_script(b"source\n" + text + b".\nlist\n").lines()
    if lines[0] == "? 9 Faults":
        with Laboratory() as laboratory:
            try:
                laboratory.source(source)
            except refusals.FaultyError as faulty:
                return Faults(faulty.faults)
    if lines[0].startswith("?"):
        raise refusals.refusal_in(lines[0])
    _, cells, _, start = lines[0].split()
    return Listing(int(cells), None if start == "none" else start, "".join(line + "\n" for line in lines[1:]))
