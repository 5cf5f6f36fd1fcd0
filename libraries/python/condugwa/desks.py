"""A desk behaves like lgp_monitor: its lines may name files, and what would be written for each is returned."""

import os
import pathlib
import tempfile

from condugwa import library, scripts

_FILE_LIMIT = 16_777_216


def _is_text(name: bytes) -> bool:
    try:
        name.decode()
    except UnicodeDecodeError:
        return False
    return True


def _read(name: bytes) -> "tuple[library.Told, bytes]":
    """What a desk is told of the file of a name."""
    if not _is_text(name):
        return library.Told.NOT_NAMED, b""
    try:
        with open(name, "rb") as file:
            text = file.read(_FILE_LIMIT + 1)
    except IsADirectoryError:
        return library.Told.NOT_READ, b""
    except OSError as error:
        return (library.Told.NOT_OPENED if error.filename is not None else library.Told.NOT_READ), b""
    if len(text) > _FILE_LIMIT:
        return library.Told.TOO_LONG, b""
    return library.Told.FOUND, text


def _keep(name: bytes, text: bytes) -> library.Told:
    """Keeps a text in the file of a name, and says whether that could be done. What was there stays where it could not."""
    if not _is_text(name):
        return library.Told.NOT_KEPT
    path = pathlib.Path(os.fsdecode(name))
    beside = None
    try:
        with tempfile.NamedTemporaryFile(dir=path.parent, prefix=f"{path.name}.", delete=False) as file:
            beside = file.name
            file.write(text)
        os.replace(beside, path)
    except OSError:
        if beside is not None:
            os.unlink(beside)
        return library.Told.NOT_KEPT
    return library.Told.KEPT


class Desk:
    """A desk at which lines are typed to a monitor of its own.

    >>> with Desk() as desk:
    ...     desk.type("put 0050 = 3")
    'ok\\n'

    It does what `lgp_monitor` does: `do`, `source`, `tape`, `save` and the other commands that name files read and keep
    them, and `quit` leaves it. A refusal is not raised; its text is among what is written.
    """

    def __init__(self, manner: str = "bare") -> None:
        """`manner` says how replies are written: "bare", "prompting", "echo" or "json". Raises ValueError for another word."""
        wanted = library.MANNERS.get(manner)
        if wanted is None:
            raise ValueError(f"manner is to be one of {', '.join(library.MANNERS)}, and not {manner!r}")
        self._session = library.Session()
        self._session.set_manner(wanted)
        self._manner = manner
        self._is_refused = False

    def __enter__(self) -> "Desk":
        return self

    def __exit__(self, *exception: object) -> None:
        self._session.close()

    def __repr__(self) -> str:
        if self._session.is_closed:
            return "<Desk: closed>"
        wish = "left by quit" if self.has_left else "a line is next"
        return f"<Desk: {self._manner}, {wish}{', a reply was a refusal' if self._is_refused else ''}>"

    @property
    def prompt(self) -> str:
        """The prompt in front of the next line; empty unless the manner is "prompting"."""
        return scripts.decoded(self._session.show(library.Shown.PROMPT))

    @property
    def has_left(self) -> bool:
        """Whether `quit` was typed."""
        return self._session.wish == library.Wish.NOTHING

    @property
    def is_refused(self) -> bool:
        """Whether a reply was a refusal."""
        return self._is_refused

    def type(self, line: "str | bytes") -> str:
        """What is written for a line and for those of the files that it names.

        Raises OutOfMemoryError, and then the desk is closed.
        """
        return self._told(library.Told.TYPED, scripts.encoded(line))

    def type_file(self, name: "str | os.PathLike[str]") -> str:
        """What is written for the lines of a file, as for one that the command line names. Raises OutOfMemoryError."""
        return self._told(library.Told.FIRST, os.fsencode(name))

    def leave(self) -> str:
        """What is written when no line is typed any more. The desk is closed then."""
        return scripts.decoded(self._noted(self._session.leave()))

    def _told(self, told: library.Told, text: bytes) -> str:
        written = self._noted(self._session.tell(told, text))
        while (grant := self._granted()) is not None:
            written += self._noted(self._session.tell(*grant))
        return scripts.decoded(written)

    def _noted(self, reply: "tuple[bytes, int]") -> bytes:
        written, questions = reply
        self._is_refused |= questions > 0
        return written

    def _granted(self) -> "tuple[library.Told, bytes] | None":
        """Does what the desk wishes for, where that concerns files: what it is told then, or None."""
        wish = self._session.wish
        if wish == library.Wish.ONWARD:
            return library.Told.ONWARD, b""
        if wish == library.Wish.FILE:
            return _read(self._session.show(library.Shown.NAME))
        if wish == library.Wish.KEPT:
            return _keep(self._session.show(library.Shown.NAME), self._session.show(library.Shown.MADE)), b""
        return None
