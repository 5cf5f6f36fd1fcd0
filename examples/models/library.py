"""Models of the routines in examples/library: what each has to give, by the functions of Python or in exact whole numbers.

    python3 examples/models/library.py root .25      writes what a routine should give for a fraction

A fraction is a whole number in units of 2 to the power -30."""

import math
import sys

UNIT = 1 << 30


def whole(number):
    """What `whole` prints of a whole number."""
    return str(number)


def fraction(number):
    """What `fraction` prints: six decimals, of which the last one is rounded."""
    # a sixteenth of it, rounded down, and half of the last decimal
    size = number // 16 if number >= 0 else -(number // 16)
    digits = f"{(size + 34) * 16 * 10 ** 6 // UNIT:07}"
    return f"{'-' if number < 0 else ' '}{digits[0]}.{digits[1:]}"


# What a routine gives for a fraction between -1 and 1.
EXACT = {
    "root": math.sqrt,
    "sine": lambda angle: math.sin(angle * math.pi / 2) / 2,
    "log": lambda value: math.log(value) / 32,
    "exp": lambda value: math.exp(value) / 4,
}


def chances(seed, count):
    """The numbers that `chance` gives from a seed on."""
    number = seed
    for _ in range(count):
        number = number * 48828125 % 2 ** 30
        if number >= 2 ** 29:
            number -= 2 ** 30
        yield number + 2 ** 29


if __name__ == "__main__":
    print(EXACT[sys.argv[1]](float(sys.argv[2])))
