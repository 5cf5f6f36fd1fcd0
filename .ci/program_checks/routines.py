"""The library: each routine for numbers by chance and those at the ends, and what its card says."""

import random
import re

from laboratory import AGAIN, EXAMPLES, FACTS, Check, digits_of, replies, words_in

import floating
import library

LIBRARY = EXAMPLES / "library"
# Of each routine its label, and the operation that makes the word with which it is called for its card.
CARDS = {
    "whole": ("whole", "int -1956 30"), "fraction": ("fraction", "frac .333333333333"), "floating": ("floatp", "word 3400008f"),
    "number": ("number", "word 00000000"), "root": ("root", "frac .25"), "sine": ("sine", "frac .333333333333"),
    "logarithm": ("log", "frac .25"), "exponential": ("exp", "frac .25"), "chance": ("chance", "word 00000000"),
    "trace": ("trace", "z 6000"),
}
# Four orders that `trace` performs: 6 and 6, and a jump.
TRACED = ["        org 6000", "        b 6004", "        a 6004", "        u 6003", "        z", "        int 6 30"]
FUNCTIONS = ("root", "sine", "logarithm", "exponential")


def calling(name, operation="word 00000000", more=()):
    """A source that calls a routine once and keeps what it gives; seven words are its own."""
    label = CARDS[name][0]
    last = "fractx" if name == "fraction" else f"{label}x"
    program = ["start   b given", f"        r {last}", f"        u {label}", "        h result", "        z"]
    program += [f"given   {operation}", "result  word 00000000"]
    return ["source", *program, *(LIBRARY / f"{name}.source").read_text().splitlines(), *more, "        end start", ".", "load"]


def results(name, given):
    """What a routine gives for some numbers, and what it prints."""
    lines = [*calling(name), AGAIN[0]]
    for number in given:
        lines += [f"put given {digits_of(number)}", *AGAIN[1:], "run 20000", "words result 1", AGAIN[0]]
    reply = replies([*lines, "printed"])
    return words_in(reply), re.search(r"^printed \d+(?: (.*))?$", reply, re.M)[1]


def check_library():
    """All routines, and that routines.txt has each of them as it is in its own file."""
    check, chance, unit = Check("library"), random.Random(1957), library.UNIT
    script = (EXAMPLES / "library" / "routines.txt").read_text()
    for name in CARDS:
        check.same(f"{name}.source is in routines.txt", (LIBRARY / f"{name}.source").read_text() in script, True)
    spread = [chance.randrange(-unit, unit) for _ in range(300)]
    small = [number >> chance.randrange(28) | 1 for number in spread[:100]]
    given = [*spread, *small, -unit, 1 - unit, -1, 0, 1, unit // 2, unit - 1]
    check_prints(check, chance, given)
    for name in FUNCTIONS:
        check_function(check, name, given)
    check_numbers(check, chance, spread)
    for name in CARDS:
        FACTS["library"] |= card_of(name)
    return check


def check_prints(check, chance, given):
    """What prints a number."""
    for name, shown in (("whole", library.whole), ("fraction", library.fraction)):
        check.same(name, results(name, given)[1], "".join(map(shown, given)))
    off = max(abs(float(library.fraction(number)) - number / library.UNIT) for number in given)
    check.same("fraction: a unit of the last decimal is not missed", off < 5.2e-7, True)
    numbers = [floating.normal(number, chance.randint(5, 123)) for number in given]
    check.same("floating", results("floating", map(floating.word_of, numbers))[1], "".join(map(floating.shown, numbers)))


def check_function(check, name, given):
    """A routine that gives a function of a fraction."""
    least = {"root": 0, "logarithm": 1, "sine": 1 - library.UNIT}.get(name, -library.UNIT)
    numbers = [number for number in given if number >= least]
    got = results(name, numbers)[0]
    check.same(f"{name}: how many", len(got), len(numbers))
    errors = [abs(value / library.UNIT - library.EXACT[CARDS[name][0]](number / library.UNIT)) for number, value in zip(numbers, got)]
    check.same(f"{name}: error below 1 in 10^8", max(errors) < 1e-8, True)
    FACTS["library"][f"{name} error"] = f"{max(errors) * 1e9:.1f}"


def check_numbers(check, chance, spread):
    """300 numbers by chance, and 300 numbers that are read."""
    asked = [*AGAIN[1:], "run 99", "words result 1", AGAIN[0]]
    drawn = replies([*calling("chance"), AGAIN[0], "put cseed = 1957", *(asked * 300)])
    check.all_same("chance", words_in(drawn), list(library.chances(1957, 300)))
    numbers = [chance.choice((-1, 1)) * (abs(number) // 108 >> chance.randrange(20)) for number in spread] + [0, 9999999, -9999999]
    lines = [*calling("number"), "run 99"]
    for number in numbers:
        lines += [f"mount {abs(number)}{'-' if number < 0 else '+'}'", "press read", "run 999", "words result 1", *AGAIN, "run 99"]
    check.all_same("number", words_in(replies(lines)), numbers)


def card_of(name):
    """The words of a routine, the word times of one call, and of one with all words placed that may be moved."""
    traced = TRACED if name == "trace" else []
    tape = [AGAIN[0], "mount 1956+'", "press normal", "press start"] if name == "number" else []
    reply = replies([*calling(name, CARDS[name][1], traced), *tape, "optimum 20000"])
    times = int(re.search(r"^orders \d+, word times (\d+)", reply, re.M)[1])
    gain = int(re.search(r"^  all words that may be moved together +(\d+)", reply, re.M)[1])
    words = int(re.search(r"^cells (\d+)", reply, re.M)[1]) - 7 - max(0, len(traced) - 1)
    return {f"{name} words": str(words), f"{name} times": f"{times:,}", f"{name} placed": f"{times - gain:,}"}
