"""A model of floating-point/formulas.txt: the value of a formula, from the inside of its brackets outwards.

    python3 examples/models/formulas.py '30 ; a' 'a + 9 x .. a - 1 ,, ;'      writes what is printed

The signs of a formula are separated by spaces. After the ; is the variable that keeps the value, or nothing: then it is printed.
The operations are handed over as four functions, so that the same formula has a value in exact fractions, and one in numbers of 22
bits."""

import operator
import sys
from fractions import Fraction

EXACT = {"+": operator.add, "-": operator.sub, "x": operator.mul, "/": operator.truediv}


class Reader:
    """Reads a formula by the usual rules: x and / before + and -, and of the same kind the left one first."""

    def __init__(self, signs, variables, number, operations):
        self.signs, self.variables, self.number, self.operations = list(signs), variables, number, operations

    def chain(self, names, inner):
        """Operands of an inner kind, joined by some operators."""
        value = inner()
        while self.signs and self.signs[0] in names:
            name = self.signs.pop(0)
            value = self.operations[name](value, inner())
        return value

    def sum(self):
        return self.chain("+-", self.term)

    def term(self):
        return self.chain("x/", self.operand)

    def operand(self):
        sign = self.signs.pop(0)
        if sign == "..":
            value = self.sum()
            assert self.signs.pop(0) == ",,"
            return value
        return self.number(int(sign)) if sign.isdigit() else self.variables[sign]


def values(formulas, number=Fraction, operations=EXACT):
    """The values that are printed. A variable that was never given has the value of 0."""
    variables = {name: number(0) for name in "byridnmpeuthcasfgjkqw"}
    for formula in formulas:
        expression, _, name = formula.partition(";")
        value = Reader(expression.split(), variables, number, operations).sum()
        if name.strip():
            variables[name.strip()] = value
        else:
            yield value


if __name__ == "__main__":
    print("\n".join(str(value) for value in values(sys.argv[1:])))
