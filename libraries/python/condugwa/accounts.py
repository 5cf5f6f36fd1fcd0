"""Accounts of orders, as the monitor's `trace-data` tells them: what each did, and how long each of its phases took."""

import dataclasses
import html
import typing

from condugwa.runs import Run
from condugwa.records import Record, number_of, place_of, records_of, value_of
from condugwa.tables import html_rows, html_table
from condugwa.words import Word

_IN_REGISTER = "register"


@dataclasses.dataclass(frozen=True)
class Stored:
    """What an order has stored."""

    address: str
    """Where, as `ttss`."""

    label: "str | None"
    """The label of that place."""

    before: Word
    after: Word


@dataclasses.dataclass(frozen=True)
class PutThere:
    """What put an order where it is, as far back as steps are kept."""

    order: "str | None"
    """The order that did, such as `y 0009`, with the label of its address if there is one; None if it was put by hand."""

    at: "str | None"
    """Where that order was, as `ttss`; None if it was in the instruction register, and for a put by hand."""

    clock: int
    """The word times that had passed then."""

    orders_ago: "int | None"
    """How many orders ago that was; None for a put by hand."""

    lost: str
    """What was there before: an order, or a word's digits and its number."""


@dataclasses.dataclass(frozen=True)
class Account:
    """What an order did, and how long each of its phases took."""

    clock: int
    """The word times that had passed when it began."""

    at: "str | None"
    """Where the order was, as `ttss`; None if it was not at an address."""

    label: "str | None"
    """The label of that place."""

    order: str
    """The order, such as `b 0050`, with the label of its address if there is one; the status if there is no order."""

    find: int
    """The word times until the order was read."""

    take: int
    """The word times in which it went into the instruction register."""

    seek: int
    """The word times until the word at its address was read or stored."""

    act: int
    """The word times in which it was done."""

    before: Word
    """The accumulator before it."""

    after: Word
    """The accumulator after it."""

    in_register: bool = False
    """Whether the order was in the instruction register."""

    put_there: "PutThere | None" = None
    """What put the order there; None if no kept step has changed it."""

    stored: "Stored | None" = None
    printed: "int | None" = None
    """The code that it has printed."""

    passed: int = 0
    """How many codes of the tape have passed the reader."""

    @property
    def cost(self) -> int:
        """All its word times."""
        return self.find + self.take + self.seek + self.act

    def _repr_html_(self) -> str:
        """A table for notebooks."""
        return html_table(
            [
                ("clock", self.clock),
                ("at", " ".join(filter(None, (self.at, self.label))) or ("instruction register" if self.in_register else None)),
                ("order", self.order),
                ("put there by", self.put_there and (self.put_there.order or "hand")),
                ("find, take, seek, act", f"{self.find}, {self.take}, {self.seek}, {self.act}"),
                ("word times", self.cost),
                ("accumulator before", self.before),
                ("accumulator after", self.after),
                ("stored", self.stored and f"{self.stored.after.digits} at {self.stored.address}"),
                ("printed", self.printed),
            ]
        )


def _stored(record: Record) -> "Stored | None":
    if "stored" not in record:
        return None
    return Stored(*place_of(record["stored"]), Word(value_of(record, "found")), Word(value_of(record, "left")))


def _standing(record: Record, key: str) -> "tuple[str | None, str | None]":
    """Where an order was, with the label there; nothing if it was in the instruction register or there is none."""
    return place_of(record[key]) if record.get(key, _IN_REGISTER) != _IN_REGISTER else (None, None)


def _put_there(record: Record) -> "PutThere | None":
    if "put-by" not in record:
        return None
    clock, lost = number_of(record, "put-clock"), value_of(record, "put-over")
    if record["put-by"] == "hand":
        return PutThere(None, None, clock, None, lost)
    return PutThere(record["put-by"], _standing(record, "put-at")[0], clock, number_of(record, "put-ago"), lost)


def _account(record: Record) -> Account:
    at, label = _standing(record, "at")
    return Account(
        clock=number_of(record, "clock"),
        at=at,
        label=label,
        order=record["order"] if "order" in record else value_of(record, "status"),
        find=number_of(record, "find"),
        take=number_of(record, "take"),
        seek=number_of(record, "seek"),
        act=number_of(record, "act"),
        before=Word(value_of(record, "before")),
        after=Word(value_of(record, "after")),
        in_register=record.get("at") == _IN_REGISTER,
        put_there=_put_there(record),
        stored=_stored(record),
        printed=record.get("printed"),
        passed=record.get("passed", 0),
    )


class Accounts(typing.List[Account]):
    """The accounts of a run's orders, a list, and how the run ended. A notebook shows it as a table."""

    def __init__(self, accounts: "typing.Iterable[Account]" = (), run: "Run | None" = None) -> None:
        super().__init__(accounts)
        self.run = run
        """How the run ended, where that is known."""

    def _repr_html_(self) -> str:
        """A table for notebooks: a row for each order, and how the run ended."""
        shown = (
            (a.clock, " ".join(filter(None, (a.at, a.label))), a.order, a.find, a.take, a.seek, a.act, a.cost, a.after, a.after.number())
            for a in self
        )
        table = html_rows(("clock", "at", "order", "find", "take", "seek", "act", "word times", "accumulator", "number"), shown)
        return table if self.run is None else f"{table}<p>{html.escape(self.run.sentence)}</p>"


def accounts_of(lines: "list[str]") -> Accounts:
    """The accounts that lines tell. Raises ValueError where they tell none, or one that lacks something."""
    return Accounts(_account(record) for record in records_of(lines))
