"""The loop without a test, and twenty-one."""

import random
import re

from laboratory import FACTS, Check, clocks_in, digits_of, loaded, replies, size_of

import loop
import twenty_one


def check_loop():
    """A hundred clubs by chance, for the first of the three placings; and a round of each placing."""
    check, chance, lines, wanted = Check("drum/loop-without-a-test"), random.Random(1983), [], []
    for _ in range(100):
        rare = chance.choice((.02, .1, .5))
        members = [[evening for evening in loop.EVENINGS if chance.random() > rare] for _ in range(12)]
        words = [sum(1 << 30 - loop.EVENINGS.index(evening) for evening in member) for member in members]
        lines += ["new", *loaded("drum/loop-without-a-test"), "press manual"]
        lines += [f"put 63{52 + place} {digits_of(word)}" for place, word in enumerate(words)]
        lines += ["press normal", "press start", "run 1000", "printed"]
        wanted.append(loop.paper(members))
    check.all_same("evenings", [text.removeprefix(" ") for text in re.findall(r"^printed \d+(.*)$", replies(lines), re.M)], wanted)
    for number, name in enumerate(("as written", "data placed", "orders placed")):
        begin = [*loaded("drum/loop-without-a-test", number), "break round", "run 1000"]
        clocks = clocks_in(replies([*begin, *(["run 1000", "panel"] * 2)]))
        reply = replies([*begin, "drop 0", "break 0000", "optimum 1000"])
        words, orders, times = re.search(r"^cells (\d+).*^orders (\d+), word times (\d+)", reply, re.M | re.S).groups()
        gain = re.search(r"^  all words that may be moved together +(\d+)", reply, re.M)[1]
        check.same(f"{name}: nothing more to gain", gain == "0", number > 0)
        FACTS["loop"] |= {f"{name} words": words, f"{name} round": str(clocks[1] - clocks[0]), f"{name} orders": orders,
                          f"{name} all": f"{int(times):,}"}
    return check


def games(number_of_games):
    """Games from numbers by chance, with keys by chance: the tables of the model, and the paper of the program for each."""
    chance, tables, lines = random.Random(21), [], []
    while sum(table.games for table in tables) < number_of_games:
        table = twenty_one.Table(chance.randrange(16 ** 4))
        typed = f"{table.pack.seed:x}".translate(str.maketrans("abcdef", "fgjkqw"))
        lines += ["new", *loaded("games/twenty-one"), "run 1000", f"type {typed}'", "run 1000"]
        for key in chance.choices("hs1", (10, 10, 1), k=60):
            table.press(key)
            lines += [f"type {key}'", "run 1000"]
        lines.append("paper")
        tables.append(table)
    return tables, re.findall(r"^paper \d+\n((?:(?!ok$|new$|cells ).*\n)*)", replies(lines), re.M)


def check_games():
    """400 games line by line, and how often each card came."""
    check = Check("games/twenty-one")
    tables, papers = games(400)
    check.same("papers", len(papers), len(tables))
    for table, paper in zip(tables, papers):
        check.all_same("line", paper.rstrip("\n").split("\n"), [line.rstrip() for line in table.paper.split("\n")])
    drawn = [rank for table in tables for rank in table.drawn]
    often = [drawn.count(rank) for rank in range(13)]
    # the squares of 13 counts less their mean, by that mean, add up to 30 or more but once in 400 times
    mean = len(drawn) / 13
    check.same("each card as often", sum((count - mean) ** 2 for count in often) / mean < 30, True)
    FACTS["cards"] |= {f"card {name}": str(count) for name, count in zip(twenty_one.NAMES, often)}
    FACTS["cards"] |= {"drawn": f"{len(drawn):,}", "words": size_of("games/twenty-one"), "games": str(sum(table.games for table in tables))}
    return check
