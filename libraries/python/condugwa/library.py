"""The shared library and its calls, with bytes on both sides."""

import ctypes
import enum
import functools
import os
import pathlib
import typing

_UNREAD = 2
_NO_MEMORY = 3
_NOT_OPEN = 5
_FIRST_ROOM = 65536
_SESSION_ROOM = 4096
# the longest reply to an end is that to a source, a line for each of its faults
_LAST_ROOM = 2**25


class OutOfMemoryError(MemoryError):
    """The library was refused memory. A script has changed nothing; a laboratory is closed then."""


class UnreadError(OSError):
    """The script could not be read, which none of less than 2^32 bytes meets."""


class Told(enum.IntEnum):
    """What a desk is told, by the numbers of libraries/c/lgp30.h."""

    TYPED = 0
    FIRST = 1
    ONWARD = 2
    FOUND = 3
    NOT_OPENED = 4
    NOT_READ = 5
    TOO_LONG = 6
    NOT_NAMED = 7
    KEPT = 8
    NOT_KEPT = 9


class Wish(enum.IntEnum):
    """What a desk wishes for."""

    LINE = 0
    ONWARD = 1
    FILE = 2
    KEPT = 3
    NOTHING = 4


class Shown(enum.IntEnum):
    """What a desk shows."""

    PROMPT = 0
    NAME = 1
    MADE = 2


MANNERS = {"bare": 0, "prompting": 1, "echo": 2, "json": 3}
"""How the replies of a desk are written."""


class _Outcome(ctypes.Structure):
    _fields_ = [("questions", ctypes.c_uint64), ("length", ctypes.c_uint64)]


class _Session(ctypes.Structure):
    _fields_ = [("is_open", ctypes.c_bool), ("laboratory", ctypes.c_void_p)]


def _declare(call: typing.Any, arguments: "list[typing.Any]") -> None:
    """Tells ctypes what a call takes; each gives back a status."""
    call.restype = ctypes.c_uint32
    call.argtypes = arguments


@functools.lru_cache(maxsize=None)
def _library() -> ctypes.CDLL:
    """The library named by CONDUGWA_LIBRARY, or the one in the package's folder. Raises OSError where it cannot be loaded."""
    beside = pathlib.Path(__file__).with_name("liblgp30.so")
    path = os.environ.get("CONDUGWA_LIBRARY", str(beside))
    try:
        library = ctypes.CDLL(path)
    except OSError as error:
        reason = str(error).removeprefix(f"{path}: ")
        raise OSError(
            f"the shared library {path} was not loaded ({reason}): docs/EMBEDDING.md says how it is made, "
            "and the variable CONDUGWA_LIBRARY names one that lies elsewhere"
        ) from None
    reply = [ctypes.c_void_p, ctypes.c_size_t, ctypes.POINTER(_Outcome)]
    _declare(library.lgp_run_script, [ctypes.c_char_p, ctypes.c_size_t, *reply])
    session = ctypes.POINTER(_Session)
    _declare(library.lgp_open, [session])
    _declare(library.lgp_answer, [session, ctypes.c_char_p, ctypes.c_size_t, *reply])
    _declare(library.lgp_reply, [session, *reply])
    _declare(library.lgp_close, [session, *reply])
    _declare(library.lgp_tell, [session, ctypes.c_uint32, ctypes.c_char_p, ctypes.c_size_t, *reply])
    _declare(library.lgp_show, [session, ctypes.c_uint32, *reply])
    _declare(library.lgp_wish, [session])
    _declare(library.lgp_manner, [session, ctypes.c_uint32])
    _declare(library.lgp_leave, [session, *reply])
    library.lgp_version.restype = ctypes.c_char_p
    library.lgp_version.argtypes = []
    return library


def version() -> str:
    """The version of the library."""
    text: bytes = _library().lgp_version()
    return text.decode()


def run(script: bytes) -> "tuple[bytes, int]":
    """The replies to a script, and how many of them begin with a question mark.

    A first call has room for 65,536 bytes; where the replies have more, a second one has enough.

    Raises OutOfMemoryError, or UnreadError.
    """
    room = _FIRST_ROOM
    while True:
        replies = ctypes.create_string_buffer(room)
        outcome = _Outcome()
        status = _library().lgp_run_script(script, len(script), replies, room, ctypes.byref(outcome))
        if status == _NO_MEMORY:
            raise OutOfMemoryError("the library was refused memory")
        if status >= _UNREAD:
            raise UnreadError("the script could not be read")
        if outcome.length <= room:
            return ctypes.string_at(replies, outcome.length), outcome.questions
        room = outcome.length


def _checked(status: int) -> int:
    """A status. Raises ValueError where it says that no session is open."""
    if status == _NOT_OPEN:
        raise ValueError("the laboratory is closed")
    return status


class Session:
    """A session that is open from its making until it is closed, or refused memory."""

    def __init__(self) -> None:
        room = ctypes.create_string_buffer(_SESSION_ROOM)
        self._session = _Session()
        if _library().lgp_open(ctypes.byref(self._session)) == _NO_MEMORY:
            raise OutOfMemoryError("the library was refused memory")
        self._room = room

    @property
    def is_closed(self) -> bool:
        """Whether it answers no line any more."""
        return not self._session.is_open

    def __del__(self) -> None:
        if hasattr(self, "_room"):
            self.close()

    def answer(self, line: bytes) -> "tuple[bytes, int]":
        """The reply to a line, and 1 where it begins with a question mark.

        Raises OutOfMemoryError, and then the session is closed, or ValueError where it is closed.
        """
        return self._given(_library().lgp_answer, line, len(line))

    def tell(self, told: Told, text: bytes) -> "tuple[bytes, int]":
        """What its desk writes when it is told something, and 1 where that is a refusal. Raises as `answer` does."""
        return self._given(_library().lgp_tell, told, text, len(text))

    def show(self, shown: Shown) -> bytes:
        """What its desk shows. Raises as `answer` does."""
        return self._given(_library().lgp_show, shown)[0]

    @property
    def wish(self) -> Wish:
        """What its desk wishes for. Raises ValueError where the session is closed."""
        return Wish(_checked(_library().lgp_wish(ctypes.byref(self._session))))

    def set_manner(self, manner: int) -> None:
        """Sets how its desk writes replies. Raises ValueError where the session is closed."""
        _checked(_library().lgp_manner(ctypes.byref(self._session), manner))

    def close(self) -> bytes:
        """The reply to the session's end, empty where it is closed already, or where there was no memory for it."""
        return self._ended(_library().lgp_close)[0]

    def leave(self) -> "tuple[bytes, int]":
        """What its desk writes when no line is typed any more, and 1 where that is a refusal. The session is closed then."""
        self._room = ctypes.create_string_buffer(_LAST_ROOM)
        return self._ended(_library().lgp_leave)

    def _given(self, call: typing.Any, *words: typing.Any) -> "tuple[bytes, int]":
        """What a call gives. Where that does not fit into the room, the room is made as large and it is taken once more."""
        outcome = _Outcome()
        status = call(ctypes.byref(self._session), *words, self._room, len(self._room), ctypes.byref(outcome))
        if status == _NO_MEMORY:
            raise OutOfMemoryError("the library was refused memory")
        _checked(status)
        if outcome.length > len(self._room):
            self._room = ctypes.create_string_buffer(outcome.length)
            _library().lgp_reply(ctypes.byref(self._session), self._room, len(self._room), ctypes.byref(outcome))
        return ctypes.string_at(self._room, outcome.length), outcome.questions

    def _ended(self, call: typing.Any) -> "tuple[bytes, int]":
        outcome = _Outcome()
        call(ctypes.byref(self._session), self._room, len(self._room), ctypes.byref(outcome))
        return ctypes.string_at(self._room, min(outcome.length, len(self._room))), outcome.questions
