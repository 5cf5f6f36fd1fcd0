"""Whole scripts."""

import dataclasses

from condugwa import library, refusals


def encoded(text: "str | bytes") -> bytes:
    """The bytes of a text; bytes are themselves. Raises TypeError for anything else."""
    if not isinstance(text, (str, bytes)):
        raise TypeError(f"this is to be a text or bytes, and not {type(text).__name__}: {text!r}")
    return text if isinstance(text, bytes) else text.encode("utf-8", "surrogateescape")


def decoded(text: bytes) -> str:
    """The text of bytes, from which `encoded` gives the same bytes."""
    return text.decode("utf-8", "surrogateescape")


@dataclasses.dataclass(frozen=True)
class Replies:
    """What a script was answered."""

    text: str
    """The replies, one after another. Each ends in a line feed."""

    questions: int
    """How many replies begin with a question mark."""

    def lines(self) -> list[str]:
        """The lines of the replies, without their line feeds."""
        return self.text.split("\n")[:-1]

    def refusals(self) -> "list[refusals.RefusalError]":
        """The refusals among the lines, the first one first."""
        return [refusals.refusal_in(line) for line in self.lines() if line.startswith("?")]

    def check(self) -> "Replies":
        """These replies, if none is a refusal; otherwise raises the first one."""
        if self.questions:
            raise self.refusals()[0]
        return self


def run_script(script: "str | bytes") -> Replies:
    """Runs a script from a machine in its opening state.

    Raises OutOfMemoryError, or UnreadError where the script has 2^32 bytes or more.
    """
    text, questions = library.run(encoded(script))
    return Replies(decoded(text), questions)
