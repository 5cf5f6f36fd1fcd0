"""A model of the programs of examples/weather, which shares nothing with them but the description: Lorenz's three equations of 1963
by his double approximation, on fractions of 30 bits, each product rounded down.

    python3 examples/models/lorenz.py [STEPS]      writes the table: each fifth step, and ten times X, Y and Z, cut off

A point is three whole numbers, X, Y and Z divided by 100, in units of 2 to the power -30."""

import sys
from fractions import Fraction

ONE = 1 << 30
# 10 times the step of .01; 1 less the step; 28 hundredths; 1 less 8/3 of the step.
TENTH, KEPT, HEAT, LEFT_OF_Z = (round(Fraction(it) * ONE) for it in ("1/10", "99/100", "28/100", "0.973333333333"))
BEGIN = (0, round(ONE / 100), 0)


def product(one, other):
    """The product of two fractions, rounded down to a unit."""
    return (one * other) // ONE


def forward(point):
    """Where a point would be after one step, if its speed stayed the same."""
    x, y, z = point
    return (x + product(y - x, TENTH), product(y, KEPT) + product(HEAT - z, x), product(x, y) + product(z, LEFT_OF_Z))


def step(point):
    """The point after a step: half the way to where two steps of that kind lead."""
    return tuple((here + there) // 2 for here, there in zip(point, forward(forward(point))))


def step_in_doubles(point):
    """The same step for X, Y and Z themselves, with the processor's own floating-point numbers of 53 bits."""
    def forward_in_doubles(x, y, z):
        return x + .01 * 10 * (y - x), y + .01 * (x * (28 - z) - y), z + .01 * (x * y - 8 / 3 * z)

    return tuple((here + there) / 2 for here, there in zip(point, forward_in_doubles(*forward_in_doubles(*point))))


def cut(value):
    """Ten times X as the table shows it: a space or a minus, and four digits."""
    tiny = 2
    shown = (abs(value) // 16 if value >= 0 else -value // 16) + tiny
    return f"{'-' if value < 0 else ' '}{shown * 16 * 1000 // ONE:04}"


def row(number, point):
    """A row of the table. Beyond 9999 the thousands are a digit of base 16."""
    return f"{'0123456789fgjkqw'[number // 1000]}{number % 1000:03}" + "".join(f" {cut(value)}" for value in point)


def typed(value):
    """A value that is typed as the table shows it."""
    thousandths = Fraction(value, 1000) * ONE
    return int(thousandths + Fraction(1, 2)) if value >= 0 else -int(-thousandths + Fraction(1, 2))


def table(count, number=0, point=BEGIN):
    """The rows from a step on, up to a number of steps later."""
    for done in range(count + 1):
        if done % 5 == 0:
            yield row(number + done, point)
        point = step(point)


def column(value):
    """Where the typewriter draws a value: a place for each whole number of X, and 21 for 0."""
    return value * 100 // ONE + 21


def line(number, one, other):
    """A line of the drawing: the number of the step, a at the one value and b at the other, x where they are in one place."""
    places = {column(other): "b", column(one): "a"}
    if len(places) == 1:
        places = {column(one): "x"}
    drawn = [places.get(place, " ") for place in range(1, max(places) + 1)]
    return f"{number:04} " + "".join(drawn)


if __name__ == "__main__":
    print("\n".join(table(int(sys.argv[1]) if len(sys.argv) > 1 else 100)))
