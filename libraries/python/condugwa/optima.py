"""Where the words of a run would have cost less, as the monitor's `optimum-data` tells it."""

import dataclasses

from condugwa.records import Record, number_of, records_of, value_of

_FREE, _PERFORMED, _NAMED_BY_CHANGED = "free", "performed", "changed"
_SECTORS = 64


@dataclasses.dataclass(frozen=True)
class Gain:
    """A word that would have cost less at another sector."""

    address: str
    """As `ttss`."""

    label: "str | None"
    sector: int
    """Where it is."""

    best: int
    """Where it would have cost least."""

    saved: int
    """How many word times the same orders would have taken less with it there."""


@dataclasses.dataclass(frozen=True)
class Optimum:
    """The words of a run whose relocation would save most, of each kind at most ten, those that save most first."""

    orders: int
    times: int
    """All word times."""

    free: "tuple[Gain, ...]"
    """Those that may be moved."""

    together: int
    """What all words save together that may be moved, those that are not among the ten too."""

    performed: "tuple[Gain, ...]"
    """Those that were performed as orders: with them elsewhere it is another program."""

    named_by_changed: "tuple[Gain, ...]"
    """Those that were named by a changed order, or by one that was only in the instruction register."""


@dataclasses.dataclass(frozen=True)
class WordOptimum:
    """What a run would have taken with one word at each sector."""

    orders: int
    times: int
    """All word times."""

    by_sector: "tuple[int, ...]"
    """The word times with the word at the sectors 0 to 63; empty where they are all the same. A wait for it as an order is not counted."""

    best: "int | None"
    """Its best sector, where it may be moved."""

    saved: int
    """What it saves there, and 0 where it may not be moved."""


def _gain(record: Record) -> Gain:
    return Gain(
        address=value_of(record, "word"),
        label=record.get("label"),
        sector=number_of(record, "sector"),
        best=number_of(record, "best"),
        saved=number_of(record, "saved"),
    )


def optimum_of(lines: "list[str]") -> Optimum:
    """What lines say about the words of a run. Raises ValueError where they say nothing about them."""
    records = records_of(lines)
    if not records:
        raise ValueError("no optimum: no line")
    whole, *words = records
    gains: "dict[str, list[Gain]]" = {_FREE: [], _PERFORMED: [], _NAMED_BY_CHANGED: []}
    for word in words:
        freedom = value_of(word, "freedom")
        if freedom not in gains:
            raise ValueError(f"no freedom of a word: {freedom!r}")
        gains[freedom].append(_gain(word))
    return Optimum(
        orders=number_of(whole, "orders"),
        times=number_of(whole, "times"),
        free=tuple(gains[_FREE]),
        together=number_of(whole, "together"),
        performed=tuple(gains[_PERFORMED]),
        named_by_changed=tuple(gains[_NAMED_BY_CHANGED]),
    )


def word_optimum_of(lines: "list[str]") -> WordOptimum:
    """What lines say about one word. Raises ValueError where they say nothing about it."""
    records = records_of(lines)
    if len(records) != 1:
        raise ValueError(f"no optimum of a word: {len(records)} records")
    (record,) = records
    freedom = value_of(record, "freedom")
    numbers = tuple(int(number) for number in value_of(record, "numbers"))
    if len(numbers) != _SECTORS:
        raise ValueError(f"no optimum of a word: {len(numbers)} sectors")
    return WordOptimum(
        orders=number_of(record, "orders"),
        times=number_of(record, "times"),
        by_sector=numbers if len(set(numbers)) > 1 else (),
        best=number_of(record, "best") if freedom == _FREE else None,
        saved=number_of(record, "saved") if freedom == _FREE else 0,
    )
