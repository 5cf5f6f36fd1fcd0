"""What a run did, and what ended it."""

import dataclasses

_MET = {"the condition is met": True, "the condition is not met": False}


@dataclasses.dataclass(frozen=True)
class Run:
    """What a run did."""

    orders: int
    """How many orders were executed."""

    end: str
    """Why it ended: `rest`, `limit` or `rule`."""

    rule: "int | None" = None
    """The number of the rule that stopped it, if one did."""

    state: "str | None" = dataclasses.field(default=None, compare=False)
    """What halted the machine and how it can continue, in a sentence; None where the run ended at its limit. Two runs are equal without it."""

    is_met: "bool | None" = None
    """Whether the condition was met that the run waited for; None where it waited for none."""

    @classmethod
    def of(cls, reply: str) -> "Run":
        """The run that a reply of `run` tells. Raises ValueError where it is none."""
        first, *others = reply.splitlines() or [""]
        words = first.split()
        if len(words) < 3 or words[0] != "ran":
            raise ValueError(f"no run: {reply!r}")
        told = [line.strip() for line in others if line.strip() in _MET]
        return cls(int(words[1]), words[2], int(words[3]) if len(words) > 3 else None, is_met=_MET[told[0]] if told else None)

    @property
    def sentence(self) -> str:
        """How it ended, for a person."""
        orders = "1 order" if self.orders == 1 else f"{self.orders} orders"
        if self.end == "limit":
            return f"{orders}, up to the limit"
        return f"{orders}; {self.state}" if self.state else orders
