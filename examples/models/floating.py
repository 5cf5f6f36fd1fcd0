"""A model of the interpreter of floating-point/interpreter.txt: numbers of 22 bits and a power of two, its four operations and its print.

    python3 examples/models/floating.py WORD ..      writes the number of each word of eight digits, such as 20000084

A number is a pair: its fraction in units of 2 to the power -30, a quarter to a half, and its power plus 64."""

import sys
from fractions import Fraction

UNIT = 1 << 30
ZERO = (0, 0)


class TooLarge(Exception):
    """A number whose power does not fit."""


def normal(fraction, power):
    """The number nearest to a fraction and a power, with 22 bits."""
    size = abs(fraction)
    if size == 0:
        return ZERO
    while size < UNIT // 4:
        size, power = 2 * size, power - 1
    if size >= UNIT // 2:
        size, power = size // 2, power + 1
    size = (size + 64) // 128 * 128
    if size == UNIT // 2:
        size, power = UNIT // 4, power + 1
    if power < 0:
        return ZERO
    if power > 127:
        raise TooLarge
    return (size if fraction > 0 else -size, power)


def plus(one, other):
    """The sum. The number with the smaller power is moved to the right, and counts nothing beyond 24 places."""
    large, small = (one, other) if other[1] < one[1] else (other, one)
    apart = large[1] - small[1]
    moved = small[0] >> apart if apart <= 24 else 0
    return normal(large[0] + moved, large[1])


def minus(one, other):
    """The difference."""
    return plus(one, (-other[0], other[1]))


def times(one, other):
    """The product, rounded down and then to 22 bits."""
    return normal(one[0] * other[0] // UNIT, one[1] + other[1] - 64)


def divide(one, other):
    """The quotient, rounded to a fraction and then to 22 bits."""
    exact = Fraction(one[0] // 2 * UNIT, other[0])
    nearest = int(abs(exact) + Fraction(1, 2))
    return normal(nearest if exact >= 0 else -nearest, one[1] - other[1] + 65)


def number_of(word):
    """The number in a word, which is given without its last bit."""
    power = word % 128
    return ((word - power), power)


def word_of(number):
    """The word of a number, without its last bit."""
    return number[0] + number[1]


def exact(number):
    """The value of a number."""
    return Fraction(number[0], UNIT) * Fraction(2) ** (number[1] - 64)


def near(value):
    """The number nearest to a value that is not zero."""
    power = 64
    size = abs(Fraction(value))
    while size >= Fraction(1, 2):
        size, power = size / 2, power + 1
    while size < Fraction(1, 4):
        size, power = size * 2, power - 1
    return normal(int(size * UNIT) if value > 0 else -int(size * UNIT), power)


def shown(number):
    """A number as it is printed: a space or a minus, seven digits, and a power of ten of two digits."""
    size, power, tens = abs(number[0]), number[1] - 64, 0
    if size:
        while power >= 6 or power < 2:
            if power >= 6:
                size, power, tens = size * round(.8 * UNIT) // UNIT, power - 3, tens + 1
            else:
                size, power, tens = size * 5 // 8, power + 4, tens - 1
            if size < UNIT // 4:
                size, power = 2 * size, power - 1
        size = size << power - 4 if power > 4 else size >> 4 - power
        ten = UNIT * 5 // 8
        if size >= ten:
            size, tens = size * round(UNIT / 10) // UNIT, tens + 1
        size += 34
        if size >= ten:
            size, tens = UNIT // 16, tens + 1
    digits = f"{size * 16 * 10 ** 6 // UNIT:07}"
    return f"{'-' if number[0] < 0 else ' '}{digits[0]}.{digits[1:]}e{'-' if tens < 0 else '+'}{abs(tens):02}"


def root_lines(first, last):
    """Numbers, their roots by Newton's rule, and the squares of these."""
    for whole in range(first, last + 1):
        number = guess = near(whole)
        while True:
            better = times(plus(divide(number, guess), guess), near(Fraction(1, 2)))
            if minus(better, guess)[0] >= 0:
                break
            guess = better
        yield " ".join(map(shown, (number, guess, times(guess, guess))))


if __name__ == "__main__":
    for digits in sys.argv[1:]:
        number = int("".join(f"{'0123456789fgjkqw'.index(digit):x}" for digit in digits), 16)
        print(shown(number_of((number - (1 << 32) if number >> 31 else number) // 2)))
