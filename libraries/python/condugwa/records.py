"""Replies for programs: an object of JSON for each record, on a line of its own."""

import json
import typing

Record = typing.Dict[str, typing.Any]
"""The fields of a record that have a value, by their keys."""


def records_of(lines: "typing.Iterable[str]") -> "list[Record]":
    """The records that lines tell. A field without a value is left out.

    Raises ValueError at a line that is not an object.
    """
    return [_record(line) for line in lines]


def _record(line: str) -> Record:
    fields = json.loads(line)
    if not isinstance(fields, dict):
        raise ValueError(f"no record here: {line!r}")
    return {key: value for key, value in fields.items() if value is not None}


def value_of(record: Record, key: str) -> typing.Any:
    """The value of a key. Raises ValueError where the record has none."""
    if key not in record:
        raise ValueError(f"no {key} in {record!r}")
    return record[key]


def number_of(record: Record, key: str) -> int:
    """The same as a number: a large one is a string."""
    return int(value_of(record, key))


def place_of(value: str) -> "tuple[str, str | None]":
    """An address, and the label after it where there is one."""
    address, _, label = value.partition(" ")
    return address, label or None
