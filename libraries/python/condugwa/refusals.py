"""The refusals of the script language, as exceptions: each has the refusal's name, with `Error` after it, and is of the nature of one of Python's:
a `ValueError` where the line or the text is wrong, a `LookupError` where there is no such thing, a `RuntimeError` where the machine stands otherwise,
and an `OverflowError` where a limit is reached."""

import typing

if typing.TYPE_CHECKING:
    from condugwa.assembling import Fault


class RefusalError(Exception):
    """A reply that begins with a question mark.

    `reply` is its line without the line feed. `detail` is the number that TooFarError, NoHitError and BadSignError report, or None. The reason
    that a laboratory gives after them is only in the reply.
    """

    number = 0

    def __init__(self, reply: str):
        super().__init__(reply)
        self.reply = reply
        words = reply.partition(":")[0].split()
        self.detail = int(words[3]) if len(words) > 3 and words[3].isdecimal() else None


class FormError(RefusalError, ValueError):
    """There is no such command, or its operands are not in form."""

    number = 1


class MovingError(RefusalError, RuntimeError):
    """`put` or `mount`, while the machine is neither halted nor waiting."""

    number = 2


class AtWorkError(RefusalError, RuntimeError):
    """`turn`, while the machine is neither halted nor waiting."""

    number = 3


class ClockEndError(RefusalError, OverflowError):
    """The clock would pass its end."""

    number = 4


class FullError(RefusalError, OverflowError):
    """`break` or `watch`, with as many rules as there may be."""

    number = 5


class NoRuleError(RefusalError, LookupError):
    """`drop`, where there is no rule of that number."""

    number = 6


class TooFarError(RefusalError, LookupError):
    """`back`, with fewer orders kept; `detail` says how many."""

    number = 7


class NoHitError(RefusalError, LookupError):
    """`last`, where no rule hits any kept order; `detail` says how many are kept."""

    number = 8


class FaultyError(RefusalError, ValueError):
    """The source has faults. Those of `Laboratory.source` are in `faults`, in the order of their lines; elsewhere that is empty."""

    number = 9

    def __init__(self, reply: str, faults: "typing.Sequence[Fault]" = ()):
        super().__init__(reply)
        self.faults = tuple(faults)

    def __str__(self) -> str:
        return "\n".join([self.reply, *map(str, self.faults)])


class NoImageError(RefusalError, RuntimeError):
    """`list` or `load`, before a source has assembled."""

    number = 10


class TooLongError(RefusalError, ValueError):
    """The line or the source is too long."""

    number = 11


class BadSignError(RefusalError, ValueError):
    """The tape text has a sign that is none; `detail` is its place."""

    number = 12


_KINDS: "tuple[type[RefusalError], ...]" = (
    FormError,
    MovingError,
    AtWorkError,
    ClockEndError,
    FullError,
    NoRuleError,
    TooFarError,
    NoHitError,
    FaultyError,
    NoImageError,
    TooLongError,
    BadSignError,
)
_BY_NUMBER = {kind.number: kind for kind in _KINDS}


def refusal_in(line: str) -> RefusalError:
    """The refusal that a line of replies reports."""
    return _BY_NUMBER[int(line.split()[1].rstrip(":"))](line)
