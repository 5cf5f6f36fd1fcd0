"""The floating-point interpreter, and the formula translator over it."""

import random
import re
from fractions import Fraction

from laboratory import AGAIN, DIGITS, EXAMPLES, FACTS, Check, clocks_in, digits_of, lines_of, loaded, paper_of, replies
from laboratory import seconds, size_of, words_in

import floating
import formulas

INTERPRETER, TRANSLATOR = "floating-point/interpreter", "floating-point/formulas"
EXACT = (Fraction.__add__, Fraction.__sub__, Fraction.__mul__, Fraction.__truediv__)
IN_FLOATS = (floating.plus, floating.minus, floating.times, floating.divide)


def with_pseudo_program(lines, names):
    """The interpreter with another pseudo-program, and words of these names, loaded."""
    source = lines_of(INTERPRETER)
    begin = next(place for place, line in enumerate(source) if line.startswith("; The interpreter."))
    program = ["start   r pc", "        u pc", *(f"        {line}" for line in lines), "        z", "        z"]
    words = [f"{name:<8}word 00000000" for name in names]
    return ["source", *program, *source[begin:-2], "        org 2000", *words, *source[-2:], "load"]


def some_number(chance, spread):
    """A number of 22 bits with a power of two from -spread to spread."""
    return floating.normal(chance.choice((-1, 1)) * chance.randrange(1 << 28, 1 << 29), 64 + chance.randint(-spread, spread))


def pairs_by_chance(count):
    """Pairs of numbers: near each other, far apart, almost equal, whole, and special ones."""
    chance = random.Random(30)
    kinds = (
        lambda one: (one, some_number(chance, 3)),
        lambda one: (some_number(chance, 25), some_number(chance, 25)),
        lambda one: (one, floating.normal(chance.choice((-1, 1)) * (one[0] + 128 * chance.randint(-3, 3)), one[1])),
        lambda one: (floating.near(chance.randint(1, 999)), floating.near(-chance.randint(1, 999))),
        lambda one: (chance.choice((floating.ZERO, one)), floating.near(Fraction(2) ** chance.randint(-9, 9))),
    )
    return [kinds[place % 5](some_number(chance, 3)) for place in range(count)]


def worst_of(values, exact):
    """The largest error of some values, as a part of the exact ones that are not zero."""
    return float(max(abs(value - other) / abs(other) for value, other in zip(values, exact) if other))


def check_floating():
    """1,000 pairs by four operations word by word, 500 prints digit by digit, and both beside exact fractions."""
    check = Check(INTERPRETER)
    pairs = pairs_by_chance(1000)
    names = ("first", "second", "third", "fourth")
    program = [line for letter, name in zip("asmd", names) for line in ("b one1", f"{letter} other1", f"h {name}")]
    lines = [*with_pseudo_program(program, ("one1", "other1", *names)), "press manual"]
    for pair in pairs:
        puts = [f"put {name} {digits_of(floating.word_of(number))}" for name, number in zip(("one1", "other1"), pair)]
        lines += [*puts, *AGAIN[1:], "run 3000", "words first 4", AGAIN[0]]
    results = [operation(*pair) for pair in pairs for operation in IN_FLOATS]
    check.all_same("result", words_in(replies(lines)), list(map(floating.word_of, results)))
    error = worst_of(map(floating.exact, results), [of(*map(floating.exact, pair)) for pair in pairs for of in EXACT])
    check.same("error of a result below 2 to the power -22 and a little", error < 1.01 / 2 ** 22, True)
    shown, print_error = check_prints(check)
    check.all_same("root", paper_of([*loaded(INTERPRETER), "run 40000"]), list(floating.root_lines(1, 10)))
    FACTS["floats"] |= times_of_pseudo_orders() | {
        "words": size_of(INTERPRETER), "pairs": f"{len(pairs):,}", "results": f"{len(results):,}", "prints": str(shown),
        "error": f"{error * 1e7:.1f}", "print error": f"{print_error * 1e7:.1f}"}
    return check


def check_prints(check):
    """500 printed numbers. How many there were, and the largest error."""
    chance = random.Random(31)
    numbers = [some_number(chance, 59) for _ in range(499)] + [floating.ZERO]
    lines = [*with_pseudo_program(["b one1", "p 0000", "p 1600"], ["one1"]), "press manual"]
    for number in numbers:
        lines += [f"put one1 {digits_of(floating.word_of(number))}", *AGAIN[1:], "run 3000", AGAIN[0]]
    texts = paper_of(lines)
    check.all_same("print", texts, list(map(floating.shown, numbers)))
    error = worst_of([Fraction(text.strip()) for text in texts], list(map(floating.exact, numbers)))
    check.same("error of a print below 6 in 10 million", error < 6e-7, True)
    return len(numbers), error


def times_of_pseudo_orders():
    """The mean of each pseudo-order over the ten roots, and what these take."""
    begun, done = clocks_in(replies([*loaded(INTERPRETER), "panel", "run 40000", "panel"]))
    reply = replies([*loaded(INTERPRETER), "break pc", "run 9", "panel", *(["run 1000", "panel", "words order 1"] * 600)])
    took, clocks = {}, clocks_in(reply)
    for begin, end, order in zip(clocks, clocks[1:], re.findall(r"^\d{4} 000(.)", reply, re.M)):
        if end > begin:
            took.setdefault("zbyridnmpeuthcas"[DIGITS.index(order)], []).append(end - begin)
    means = {f"pseudo {letter}": f"{sum(took[letter]) / len(took[letter]):,.0f}" for letter in "bhasmd"}
    return means | {"roots million": f"{(done - begun) / 1e6:.2f}", "roots minutes": f"{seconds(done - begun) / 60:.1f}",
                    "load minutes": f"{seconds(begun) / 60:.1f}"}


def formula_by_chance(chance, names, depth):
    """The signs of a formula."""
    if depth == 0 or chance.random() < .2:
        number = str(chance.choice((chance.randrange(1, 10), chance.randrange(100), chance.randrange(100000))))
        return [chance.choice(names) if chance.random() < .5 else number]
    left, right = (formula_by_chance(chance, names, depth - 1) for _ in range(2))
    signs = [*left, chance.choice("++--xx/"), *right]
    return ["..", *signs, ",,"] if chance.random() < .4 else signs


def in_floats(texts):
    """What the translator prints for formulas, by the model of the numbers of 22 bits."""
    number = lambda whole: floating.near(whole) if whole else floating.ZERO
    return list(map(floating.shown, formulas.values(texts, number, dict(zip("+-x/", IN_FLOATS)))))


def programs_by_chance(count):
    """Programs that print a formula: its signs, all formulas of the program, what is printed, and its exact value."""
    chance, found = random.Random(1962), []
    while len(found) < count:
        names = chance.sample("abcdefghijkmnpqrstuwy", 3)
        signs = formula_by_chance(chance, names, chance.randint(1, 5))
        texts = [*(f"{chance.randrange(1, 1000)} ; {name}" for name in names), f"{' '.join(signs)} ;"]
        try:
            found.append((signs, texts, *in_floats(texts), *formulas.values(texts)))
        except (ZeroDivisionError, floating.TooLarge):
            continue
    return found


def check_formulas():
    """300 formulas by chance are printed to the digit as their value in numbers of 22 bits, and near enough to the exact one."""
    check, found = Check(TRANSLATOR), programs_by_chance(300)
    lines = [*loaded(TRANSLATOR), "press sixbit down", "run 1000"]
    for _, texts, _, _ in found:
        tape = "".join(f"{sign}'" for text in texts for sign in text.split()) + "''"
        lines += [f"mount {tape}", "press read", "run 100000"]
    shown = paper_of(lines)
    check.all_same("value", shown, [text for _, _, text, _ in found])
    # some lose digits, where numbers almost equal are taken from each other
    off = sum(abs(Fraction(text.strip()) - value) > abs(value) / 100000 for text, (*_, value) in zip(shown, found))
    check.same("few are off by more than 1 in 100,000", off <= len(found) // 50, True)
    check_refusals(check)
    longest = max(len(signs) for signs, *_ in found)
    FACTS["formulas"] |= times_of_translation() | {
        "words": size_of(TRANSLATOR), "formulas": str(len(found)), "longest": str(longest), "off": str(off)}
    return check


def check_refusals(check):
    """What is not a formula: the machine prints wrong and halts. A pseudo-program that is too long: no room."""
    wrong = ["..'a'+'b';'", "a'b'", "a'+'+'b'x'a',,'", "123456'", "a'+',,'", "a'a'", "a';'xx'", "a';'ab'", 63 * "..'", "a'+''"]
    begin = [*loaded(TRANSLATOR), "press sixbit down", "run 1000"]
    lines = [line for tape in wrong for line in (AGAIN[0], f"mount {tape}", *AGAIN[1:], "run 20000")]
    check.all_same("refusal", paper_of([*begin, *lines]), ["wrong"] * len(wrong))
    # 84 formulas of three pseudo-orders, and the two at the end, fit into 255; 85 do not
    for count, last in ((84, " 0.000000e+00"), (85, "no room")):
        tape = count * "a';''" + "'"
        check.same(f"{count} formulas", paper_of([*begin, f"mount {tape}", "press read", "run 200000"])[-1], last)


def times_of_translation():
    """What the formula of the script takes, from the tape to the last pseudo-order, and to perform it."""
    script = (EXAMPLES / f"{TRANSLATOR}.txt").read_text().splitlines()
    tape = next(line for line in script if line.startswith("mount "))
    lines = [*loaded(TRANSLATOR), "press sixbit down", "press manual", tape, "press normal", "press start", "panel"]
    reply = replies([*lines, "break pc", "run 30000", "panel", "drop 0", "break begin", "run 30000", "panel"])
    begun, made, done = clocks_in(reply)
    orders, signs = int(re.search(r"^ran (\d+)", reply, re.M)[1]), tape.count("'")
    return {"signs": str(signs), "orders a sign": f"{orders / signs:.0f}", "word times a sign": f"{(made - begun) / signs:,.0f}",
            "seconds a sign": f"{seconds(made - begun) / signs:.1f}", "seconds to translate": f"{seconds(made - begun):.0f}",
            "seconds to perform": f"{seconds(done - made):.0f}"}
