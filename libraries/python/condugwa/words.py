"""Words of the machine: their digits, and the numbers, fractions and orders that they stand for."""

import fractions
import functools
import re
import typing

from condugwa import library, records

_DIGITS = "0123456789fgjkqw"
_BITS = 32
_LAST_POINT = 30
# an operation and an address; `put` takes numbers and digits too
_ORDER = re.compile(r" *(?:[a-z]|-t)(?: |$)")


def _bits_of(digits: str) -> int:
    value = 0
    for digit in digits:
        value = 16 * value + _DIGITS.index(digit)
    return value


def _digits_of(bits: int) -> str:
    return "".join(_DIGITS[(bits >> shift) & 15] for shift in range(_BITS - 4, -1, -4))


def _checked_point(point: int) -> int:
    if not isinstance(point, int) or isinstance(point, bool):
        raise TypeError(f"a point is a whole number, and not {point!r}")
    if not 0 <= point <= _LAST_POINT:
        raise ValueError(f"a point is from 0 to {_LAST_POINT}, and not {point}")
    return point


class Word(str):
    """A word: its eight digits of base 16, as a text that knows what it stands for.

    >>> word = Word("00000018")
    >>> word.number(), word.fraction, Word.of_number(-2)
    (12, 1.1175870895385742e-08, Word('wwwwwwwj'))

    The machine's digits after 9 are f g j k q w. A word is equal to the text of its digits. Numbers have their sign, and those of words that are
    made here are given to the drum as they are: the last bit of a word there is 0.
    """

    __slots__ = ()

    def __new__(cls, digits: str) -> "Word":
        """Raises TypeError where it is not a text, and ValueError where it is not eight digits."""
        if not isinstance(digits, str):
            raise TypeError(f"a word is a text of eight digits, and not {digits!r}; Word.of_number takes numbers, and Word.of_fraction fractions")
        if len(digits) != _BITS // 4 or any(digit not in _DIGITS for digit in digits):
            raise ValueError(f"a word is eight of the digits {_DIGITS}, and not {digits!r}")
        return super().__new__(cls, digits)

    def __repr__(self) -> str:
        return f"Word({str(self)!r})"

    @classmethod
    def of_number(cls, number: int, point: int = _LAST_POINT) -> "Word":
        """The word of a whole number with its point after a bit. Raises ValueError where there is none."""
        if not isinstance(number, int) or isinstance(number, bool):
            raise TypeError(f"a number of a word is a whole number, and not {number!r}")
        limit = 1 << _checked_point(point)
        if not -limit <= number < limit:
            raise ValueError(f"with the point at {point} a number is from {-limit} to {limit - 1}, and not {number}")
        return cls(_digits_of(number << (_BITS - 1 - point)))

    @classmethod
    def of_fraction(cls, fraction: "float | fractions.Fraction") -> "Word":
        """The word of the drum that is nearest to a fraction. Raises ValueError where that is not from -1 to below 1."""
        if not isinstance(fraction, (int, float, fractions.Fraction)) or isinstance(fraction, bool):
            raise TypeError(f"a fraction is a float or a Fraction, and not {fraction!r}")
        if not -1 <= fraction < 1:
            raise ValueError(f"a fraction is from -1 to below 1, and not {fraction}")
        nearest = round(fractions.Fraction(fraction) * (1 << _LAST_POINT))
        return cls(_digits_of(2 * min(nearest, (1 << _LAST_POINT) - 1)))

    @classmethod
    def of_order(cls, order: str) -> "Word":
        """The word of an order, such as `b 0100`. Raises ValueError where it is none."""
        if not isinstance(order, str):
            raise TypeError(f"an order is a text such as 'b 0100', and not {order!r}")
        digits, made = _coded(order) if _ORDER.match(order) else ("", None)
        if made is None:
            raise ValueError(f"an order is an operation and an address, such as 'b 0100', and not {order!r}")
        return cls(digits)

    @property
    def digits(self) -> str:
        """Its digits, as a plain text."""
        return str.__str__(self)

    @property
    def bits(self) -> int:
        """Its bits as a number without a sign."""
        return _bits_of(self)

    @property
    def _signed(self) -> int:
        bits = self.bits
        return bits - (1 << _BITS) if bits >> (_BITS - 1) else bits

    @typing.overload
    def number(self) -> int: ...

    @typing.overload
    def number(self, point: int) -> float: ...

    def number(self, point: int = _LAST_POINT) -> float:
        """The number that it stands for with the point after a bit: an int where it is whole, otherwise a float, which is exact.

        With the point after the last bit of the drum, 30, it is always whole; the bit that only registers have is left out then.
        """
        places = _BITS - 1 - _checked_point(point)
        whole, rest = divmod(self._signed, 1 << places)
        return whole if rest == 0 or point == _LAST_POINT else self._signed / (1 << places)

    @property
    def fraction(self) -> float:
        """The fraction that it stands for, from -1 to below 1. It is exact."""
        return self._signed / (1 << (_BITS - 1))

    @property
    def order(self) -> "str | None":
        """The order that it represents, such as `b 0100`, or None."""
        return None if self.bits & 1 else _coded(self.digits)[1]


@functools.lru_cache(maxsize=4096)
def _coded(word: str) -> "tuple[str, str | None]":
    """The digits of what `put` takes as a word, and the order that these represent, as the laboratory tells both; no digits where it refuses that."""
    session = library.Session()
    questions = 1 if "\n" in word else session.answer(b"put 0000 " + word.encode("utf-8", "surrogateescape"))[1]
    if questions:
        return "", None
    (record,) = records.records_of(session.answer(b"json show-data 0000 1")[0].decode().splitlines())
    session.close()
    return records.value_of(record, "digits"), record.get("order")


WordLike = typing.Union[str, int, float, fractions.Fraction]
"""What can be put on the drum: digits or an order, a whole number, or a fraction."""


def word_of(value: WordLike, point: int = _LAST_POINT) -> Word:
    """The word of a value: of a text, its digits or its order; of an int, that number; of a float or a Fraction, that fraction.

    Raises TypeError for a value of another type, and ValueError where no word has it.
    """
    if isinstance(value, Word):
        return value
    if isinstance(value, bool) or not isinstance(value, (str, int, float, fractions.Fraction)):
        raise TypeError(f"a word is a text of digits or an order, a whole number, or a fraction, and not {value!r}")
    if isinstance(value, int):
        return Word.of_number(value, point)
    if not isinstance(value, str):
        return Word.of_fraction(value)
    return Word(value) if len(value) == 8 and all(digit in _DIGITS for digit in value) else Word.of_order(value)


def word_value(digits: str) -> int:
    """The whole number that eight digits stand for, with its sign: 12 for `00000018`, as documents and the monitor write it."""
    return Word(digits).number()
