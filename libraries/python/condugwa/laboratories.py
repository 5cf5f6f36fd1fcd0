"""Laboratories that answer one line after another."""

import contextlib
import dataclasses
import html
import itertools
from collections.abc import Iterator

from condugwa import accounts, assembling, library, optima, panels, pictures, profiles, refusals, scripts
from condugwa.records import number_of, place_of, records_of, value_of
from condugwa.runs import Run
from condugwa.words import Word, WordLike, word_of


@dataclasses.dataclass(frozen=True)
class Source:
    """A source that was assembled."""

    cells: int
    """How many words it makes."""

    start: "str | None"
    """The address where its program starts, as `ttss`, if its end line names one."""


@dataclasses.dataclass(frozen=True)
class Rule:
    """What stops a run."""

    number: int
    kind: str
    """`break`, before the order at an address, or `watch`, after an order that changes the word there."""

    address: str
    label: "str | None" = None


def _address(address: str) -> str:
    """An address as a line has it."""
    if not isinstance(address, str):
        raise TypeError(f"an address is a text, such as '0050' or a label, and not {address!r}")
    if not address or not all("!" <= sign <= "~" for sign in address):
        raise ValueError(f"an address is four digits or a label, and not {address!r}")
    return address


def _count(count: int) -> str:
    """A number as a line has it."""
    if not isinstance(count, int) or isinstance(count, bool):
        raise TypeError(f"this is to be a whole number, and not {count!r}")
    if count < 0:
        raise ValueError(f"this is to be a whole number from 0 on, and not {count}")
    return str(count)


class Laboratory:
    """A machine with its debugger and assembler, which answers the lines of the monitor.

    >>> with Laboratory() as laboratory:
    ...     laboratory.put("0050", 3)
    ...     laboratory.words("0050")
    ...     laboratory.numbers("0050")
    {'0050': Word('00000006')}
    {'0050': 3}

    The lines are those of scripts and of docs/USING.md. A refusal is raised as an exception of its name, such as `FormError`. It has
    changed nothing, but for a ClockEndError: the orders before it were performed.
    Where there is not enough memory OutOfMemoryError is raised, and the laboratory is closed then. A laboratory is used by one thread at a
    time.

    From the line `source` on each line is the source's, up to a point alone. `answer` and `answers` take these lines; every other call that
    asks the laboratory raises ValueError until the source is closed, and changes nothing.
    """

    def __init__(self) -> None:
        self._session = library.Session()
        self._in_source = False
        self._last_run: "Run | None" = None

    def __enter__(self) -> "Laboratory":
        return self

    def __exit__(self, *exception: object) -> None:
        self.close()

    def __repr__(self) -> str:
        if self._session.is_closed:
            return "<Laboratory: closed>"
        if self._in_source:
            return "<Laboratory: a source is open>"
        panel = self.panel()
        return f"<Laboratory: {panel.status}, counter {panel.counter}, accumulator {panel.accumulator}, clock {panel.clock}>"

    def _repr_html_(self) -> str:
        """The panel as a table for notebooks, where it can be asked for."""
        return html.escape(repr(self)) if self._session.is_closed or self._in_source else self.panel()._repr_html_()

    def answer(self, line: "str | bytes") -> str:
        """The reply to a line, with a line feed after each of its lines; an empty text if the line has none.

        Raises the refusal that the reply tells, ValueError where the line has a line feed or the laboratory is closed, and OutOfMemoryError.
        """
        text = scripts.encoded(line)
        if b"\n" in text:
            raise ValueError("a line has no line feed")
        in_source, self._in_source = self._in_source, False
        reply, questions = self._session.answer(text)
        command = text.strip(b" ")
        # no line of a source has a reply, and its end has one
        self._in_source = not reply and (in_source or command == b"source")
        if questions:
            # a run that the clock's end has broken off tells of its orders first
            raise refusals.refusal_in(next(line for line in scripts.decoded(reply).split("\n") if line.startswith("? ")))
        return scripts.decoded(reply)

    def answers(self, lines: str) -> str:
        """The replies to several lines, one after another. The first refusal is raised, and the lines after it are not sent."""
        if not isinstance(lines, str):
            raise TypeError(f"several lines are one text, and not {type(lines).__name__}: {lines!r}")
        return "".join(self.answer(line) for line in lines.removesuffix("\n").split("\n"))

    def panel(self) -> panels.Panel:
        """What the panel shows."""
        return panels.Panel.of_data(self._asked("json panel-data"))

    def words(self, address: str, count: int = 1) -> "dict[str, Word]":
        """So many words from an address on, 64 at most, each by its address."""
        return panels.words_of(self._asked(f"words {_address(address)} {_count(count)}"))

    def numbers(self, address: str, count: int = 1, point: int = 30) -> "dict[str, float]":
        """The same as numbers with their point after a bit: with 30 all of them are whole."""
        return {at: word.number(point) for at, word in self.words(address, count).items()}

    def put(self, address: str, word: WordLike, point: int = 30) -> None:
        """Puts a word at an address: a text of digits or an order, a whole number with its point after a bit, or a fraction.

        Raises TypeError and ValueError for what is not a word, and MovingError while the machine is going.
        """
        if isinstance(word, str) and not isinstance(word, Word):
            # an order may name a label of this laboratory
            self._asked(f"put {_address(address)} {word}")
        else:
            self._asked(f"put {_address(address)} {word_of(word, point)}")

    def go(self, address: str) -> None:
        """Starts the machine at an address, as an operator does."""
        self._asked(f"go {_address(address)}")

    def source(self, source: "str | bytes") -> Source:
        """Assembles a source, which `load` then loads. Raises FaultyError, whose `faults` say what is wrong with which columns of which line."""
        lines = assembling.lines_of(source)
        self._asked("source")
        for line in lines:
            self.answer(line)
        try:
            _, cells, _, start = self.answer(".").split()
        except refusals.FaultyError as refusal:
            raise refusals.FaultyError(refusal.reply, assembling.faults_of(self._asked)) from None
        return Source(int(cells), None if start == "none" else start)

    def load(self) -> int:
        """Keys in the loader, which loads the last source, and gives the number of orders that this took."""
        return int(self._asked("load").split()[1])

    def labels(self) -> "dict[str, str]":
        """The addresses of the labels of the last source. A label past the drum's end has none and is left out."""
        records = records_of(self._asked("json labels-data").splitlines())
        return {value_of(record, "name"): record["place"] for record in records if "place" in record}

    def why(self, address: str) -> "accounts.PutThere | None":
        """What put a word where it is, as far back as steps are kept; None where no kept step has changed it."""
        (record,) = records_of(self._asked(f"json why-data {_address(address)}").splitlines())
        if value_of(record, "changed-by") == "none":
            return None
        lost = record.get("before-order") or f"{value_of(record, 'before')} = {number_of(record, 'before-number')}"
        ago = record.get("by-ago")
        at = place_of(record["by-at"])[0] if record.get("by-at", "register") != "register" else None
        return accounts.PutThere(record.get("by-order"), at, number_of(record, "by-clock"), None if ago is None else int(ago), lost)

    def break_at(self, address: str) -> int:
        """Stops each run before the order at an address; gives the number of the rule."""
        return int(self._asked(f"break {_address(address)}").split()[1])

    def watch(self, address: str) -> int:
        """Stops each run after an order that changes the word at an address; gives the number of the rule."""
        return int(self._asked(f"watch {_address(address)}").split()[1])

    def drop(self, rule: int) -> None:
        """Removes a rule."""
        self._asked(f"drop {_count(rule)}")

    def rules(self) -> "list[Rule]":
        """The rules, in the order of their numbers."""
        return [
            Rule(number_of(record, "rule"), value_of(record, "kind"), value_of(record, "address"), record.get("label"))
            for record in records_of(self._asked("json rules-data").splitlines())
        ]

    def breakpoints(self) -> "list[str]":
        """The addresses before which a run stops."""
        return [rule.address for rule in self.rules() if rule.kind == "break"]

    @property
    def last_run(self) -> "Run | None":
        """What the last run did and what ended it, whichever call it was of: `run`, `step`, `trace`, `profile`, `drum`, `optimum` or `optimum_of`."""
        return self._last_run

    def run(self, limit: int, until: "str | None" = None) -> Run:
        """Executes at most `limit` orders, until the machine is at rest, a rule stops it, or an order meets the condition.

        The condition is written as in the monitor: `0100`, `0100 = 5`, `0100 < 5`, `printed 20` or `rows 3`, or with labels."""
        return self._ran(self._asked(f"run {_count(limit)}" + ("" if until is None else f" until {until}")))

    def step(self) -> "accounts.Account | None":
        """Executes one order and gives its account; None where the machine is at rest."""
        done = self.trace(1)
        return done[0] if done else None

    def trace(self, limit: int) -> accounts.Accounts:
        """Executes orders as `run` does, and gives the account of each; their `run` says what ended them."""
        return accounts.Accounts(accounts.accounts_of(self._reported("trace-data", limit)), self._last_run)

    def profile(self, limit: int) -> profiles.Profile:
        """Executes orders as `run` does, and says where their word times went."""
        return profiles.profile_of(self._reported("profile-data", limit))

    def optimum(self, limit: int) -> optima.Optimum:
        """Executes orders as `run` does, and says which words would have cost less at other sectors."""
        return optima.optimum_of(self._reported("optimum-data", limit))

    def optimum_of(self, limit: int, address: str) -> optima.WordOptimum:
        """Executes orders as `run` does, and says what they would have taken with one word at each sector."""
        return optima.word_optimum_of(self._reported("optimum-data", limit, _address(address)))

    def drum(self, limit: int) -> "list[str]":
        """Executes orders as `run` does, and draws them: a row a turn of the drum, a sign a word time."""
        lines = self._asked(f"drum {_count(limit)}").removesuffix("\n").split("\n")
        while len(lines) > 1 and lines[-1].startswith(" "):
            lines.pop()  # what the monitor says after the reply
        *rows, end = lines
        self._ran(end)
        return rows

    def picture(self) -> pictures.Drum:
        """The drum as a picture for a notebook: its words that are not zero, and the counter."""
        held = dict(line.split() for line in self._asked("dump").splitlines()[1:])
        return pictures.Drum({address: Word(digits) for address, digits in held.items()}, self.panel().counter)

    def paper(self) -> str:
        """What was printed, as the rows of the typewriter's paper, with a line feed between two of them."""
        return self._asked("paper").split("\n", 1)[1].removesuffix("\n")

    def _asked(self, command: str) -> str:
        """The reply to a command. An open source would take its line, so ValueError is raised then."""
        if self._in_source:
            raise ValueError("a source is open, and takes each line up to a point alone")
        return self.answer(command)

    def _reported(self, command: str, limit: int, *operands: str) -> "list[str]":
        """The lines with the records of a run, without that of its end."""
        *told, end = self._asked(" ".join(("json", command, _count(limit), *operands))).splitlines()
        (record,) = records_of([end])
        self._ran(f"ran {value_of(record, 'ran')}")
        return told

    def _ran(self, reply: str) -> Run:
        """The run that a reply tells, with what the machine's state says of its end."""
        run = Run.of(reply)
        if run.end != "limit":
            (record,) = records_of(self._asked("json state-data").splitlines())
            run = dataclasses.replace(run, state=f"{value_of(record, 'state-sentence')}: {value_of(record, 'way-sentence')}")
        self._last_run = run
        return run

    def back(self, orders: int) -> int:
        """Goes back a number of orders, and gives the clock there. Raises TooFarError where fewer are kept."""
        return int(self._asked(f"back {_count(orders)}").split()[1])

    def to(self, order: "int | None" = None, *, first: "str | None" = None, last: "str | None" = None) -> int:
        """Goes to the beginning of an order, and gives its number: the order of a number, or the first or the last one since the beginning
        that meets a condition, such as `changed 0100` or `printed 20`. The transcript is then the lines that lead there. Raises TooFarError or
        NoHitError where there is no such order; then nothing is changed."""
        ways = [("", None if order is None else _count(order)), ("first ", first), ("last ", last)]
        chosen = [name + way for name, way in ways if way is not None]
        if len(chosen) != 1:
            raise ValueError("one of order, first and last is given")
        (there,) = records_of(self._asked(f"json to {chosen[0]}").splitlines())
        return int(value_of(there, "order"))

    def at(self, order: int) -> "Laboratory":
        """A laboratory of its own, as this one was when the order of a number began. Orders are counted from 0, and the number of all orders
        leads to the present. Raises TooFarError where fewer were performed; its `detail` says how many."""
        there = Laboratory()
        for line in self._asked(f"at {_count(order)} transcript").split("\n")[:-1]:
            # a line that was refused then is refused again
            with contextlib.suppress(refusals.RefusalError):
                there.answer(line)
        return there

    def moments(self, step: int = 1) -> "Iterator[Laboratory]":
        """What `at` gives for the first order and each `step`-th after it."""
        if _count(step) == "0":
            raise ValueError("a step is 1 at least")
        for order in itertools.count(0, step):
            try:
                there = self.at(order)
            except refusals.TooFarError:
                return
            yield there

    def transcript(self) -> str:
        """The script that leads to the laboratory's state."""
        return self._asked("transcript")

    def close(self) -> str:
        """Gives back the memory. The reply is that to a source which was open, otherwise empty. Once closed it does nothing."""
        self._in_source = False
        return scripts.decoded(self._session.close())
