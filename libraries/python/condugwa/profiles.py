"""Profiles of runs, as the monitor's `profile-data` tells them: where the word times went."""

import dataclasses

from condugwa.records import Record, number_of, place_of, records_of, value_of


@dataclasses.dataclass(frozen=True)
class Place:
    """A place on the drum, and the word times of the orders there."""

    address: str
    """As `ttss`."""

    label: "str | None"
    times: int


@dataclasses.dataclass(frozen=True)
class Profile:
    """Where the word times of a run went."""

    orders: int
    times: int
    """All word times."""

    find: int
    """Waiting for orders."""

    take: int
    """Into the instruction register."""

    seek: int
    """Waiting for words."""

    act: int
    """Acting."""

    elsewhere: int
    """Those of orders that were not at an address."""

    places: "tuple[Place, ...]"
    """The places with most word times, at most ten, the slowest first."""


def _place(record: Record) -> Place:
    return Place(*place_of(value_of(record, "place")), number_of(record, "times"))


def profile_of(lines: "list[str]") -> Profile:
    """The profile that lines tell. Raises ValueError where they tell none."""
    records = records_of(lines)
    if not records:
        raise ValueError("no profile: no line")
    whole, *places = records
    return Profile(
        orders=number_of(whole, "orders"),
        times=number_of(whole, "times"),
        find=number_of(whole, "find"),
        take=number_of(whole, "take"),
        seek=number_of(whole, "seek"),
        act=number_of(whole, "act"),
        elsewhere=number_of(whole, "elsewhere"),
        places=tuple(_place(place) for place in places),
    )
