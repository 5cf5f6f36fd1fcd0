"""What a panel shows, and words of the drum, as replies tell them."""

import dataclasses

from condugwa.records import Record, number_of, records_of, value_of
from condugwa.tables import html_table
from condugwa.words import Word

_KEYS = ("counter", "accumulator", "register", "status", "mode", "switches", "reader", "tape", "clock")
_SWITCHES = ("bp32", "bp16", "bp8", "bp4", "transfer", "sixbit")


@dataclasses.dataclass(frozen=True)
class Panel:
    """What the panel shows."""

    counter: str
    """The address in the counter register, as `ttss`."""

    accumulator: Word
    register: Word
    """The instruction register."""

    status: str
    mode: str

    switches: str
    """BREAK POINT 32, 16, 8 and 4, TRANSFER CONTROL and 6 BIT INPUT: `u` for up and `d` for down."""

    reading: bool
    """Whether the reader is on."""

    tape: int
    """How many codes the tape still has."""

    clock: int
    """How many word times have passed."""

    @property
    def down(self) -> "dict[str, bool]":
        """Whether each switch is down, by its name in `press`."""
        return {name: sign == "d" for name, sign in zip(_SWITCHES, self.switches)}

    def _repr_html_(self) -> str:
        """A table for notebooks."""
        return html_table(dataclasses.asdict(self).items())

    @classmethod
    def of(cls, reply: str) -> "Panel":
        """The panel that a reply of `panel` tells. Raises ValueError where it is none."""
        record: Record = {}
        key = ""
        for word in reply.rstrip("\n").split(" "):
            if word in _KEYS and word not in record:
                key = word
                record[key] = ""
            else:
                record[key] = f"{record.get(key, '')} {word}".lstrip(" ")
        return cls._of(record, value_of(record, "switches"))

    @classmethod
    def of_data(cls, reply: str) -> "Panel":
        """The panel that a reply of `json panel-data` tells. Raises ValueError where it is none."""
        records = records_of(reply.splitlines())
        if len(records) != 1:
            raise ValueError(f"no panel: {reply!r}")
        return cls._of(records[0], "".join(value_of(records[0], switch)[0] for switch in _SWITCHES))

    @classmethod
    def _of(cls, record: Record, switches: str) -> "Panel":
        return cls(
            counter=value_of(record, "counter"),
            accumulator=Word(value_of(record, "accumulator")),
            register=Word(value_of(record, "register")),
            status=value_of(record, "status"),
            mode=value_of(record, "mode"),
            switches=switches,
            reading=value_of(record, "reader") == "on",
            tape=number_of(record, "tape"),
            clock=number_of(record, "clock"),
        )


def words_of(reply: str) -> "dict[str, Word]":
    """The words that a reply of `words` tells, by their addresses."""
    pairs = (line.split() for line in reply.splitlines())
    return {address: Word(digits) for address, digits in pairs}
