"""Lorenz's weather: word by word, row by row, restarted, drawn; and how long it takes."""

from laboratory import FACTS, Check, clocks_in, loaded, paper_of, replies, seconds, size_of, words_in

import lorenz

STEPS = 6000


def numbers_in(row):
    """Ten times X, Y and Z in a row."""
    return [int(value) for value in row.split()[1:]]


def typed_again(start, points):
    """The point from which a run goes on when a row is typed as it was printed."""
    return tuple(map(lorenz.typed, numbers_in(lorenz.row(start, points[start]))))


def check_weather():
    """The programs of examples/weather against their model."""
    check, points = Check("weather"), [lorenz.BEGIN]
    for _ in range(STEPS):
        points.append(lorenz.step(points[-1]))
    asked = ["run 1000", "words x 1", "words y 1", "words z 1"]
    words = words_in(replies([*loaded("weather/lorenz"), "break step", *(asked * len(points))]))
    check.all_same("word", words, [value for point in points for value in point])
    # after the last row the number of the step overflows
    ended = [*loaded("weather/lorenz"), "run 3000000"]
    check.same("the end", " status halted overflow " in replies([*ended, "panel"]), True)
    rows = paper_of(ended)
    check.all_same("row", rows, list(lorenz.table(15999)))
    plain = paper_of([*loaded("weather/lorenz-as-written"), "run 120000"])[:-1]
    check.all_same("row as written", plain, list(lorenz.table(5 * len(plain) - 5)))
    again = lorenz.table(725, 1000, typed_again(1000, points))
    check.all_same("row of the restart", paper_of(["do examples/weather/lorenz.txt"]), [*lorenz.table(1725), *list(again)[1:]])
    drawn = paper_of([*loaded("weather/twins"), "run 340000"])[:-1]
    check_drawing(check, drawn, points[1000], typed_again(1000, points))
    FACTS["weather"] |= times() | precision(points) | restarts(points) | tops(points) | twins(drawn) | {
        "words": size_of("weather/lorenz"), "steps compared": f"{STEPS:,}", "words compared": f"{len(words):,}",
        "rows compared": f"{len(rows):,}"}
    return check


def check_drawing(check, drawn, one, other):
    """The lines of two runs."""
    for number, shown in enumerate(drawn):
        check.same("line of the drawing", shown, lorenz.line(1000 + 5 * number, one[0], other[0]))
        for _ in range(5):
            one, other = lorenz.step(one), lorenz.step(other)
    check.same("300 lines and more", len(drawn) > 300, True)


def times():
    """A step and a row, as written and well placed."""
    found = {}
    for name, script in (("as written", "weather/lorenz-as-written"), ("placed", "weather/lorenz")):
        clocks = clocks_in(replies([*loaded(script), "break step", *(["run 1000", "panel"] * 9)]))
        step = clocks[2] - clocks[1]
        # the longest time from step to step has a row in it
        row = max(two - one for one, two in zip(clocks, clocks[1:])) - step
        found |= {f"{name} step": f"{step:,}", f"{name} turns": f"{step / 64:g}", f"{name} seconds": f"{seconds(step):.2f}",
                  f"{name} row": f"{row:,}", f"{name} row seconds": f"{seconds(row):.1f}"}
    codes = len(lorenz.row(0, lorenz.BEGIN)) + 1
    return found | {"codes of a row": str(codes), "typewriter": f"{codes * 384:,}"}


def precision(points):
    """Where rows first differ from those of double precision by some units, and X by some amounts; and the largest sum."""
    double, units, farther = (0.0, 1.0, 0.0), {}, {}
    for number, point in enumerate(points[:4000]):
        if number % 5 == 0:
            exact = [int(abs(value) * 10 + 1e-9) * (1 if value >= 0 else -1) for value in double]
            off = max(abs(one - other) for one, other in zip(numbers_in(lorenz.row(0, point)), exact))
            units |= {unit: number for unit in (1, 2, 100) if off >= unit and unit not in units}
        apart = abs(double[0] - point[0] * 100 / lorenz.ONE)
        farther |= {by: number for by in (.001, 1, 10) if apart > by and by not in farther}
        double = lorenz.step_in_doubles(double)
    sums = (abs(here + there) for point in points for here, there in zip(point, lorenz.forward(lorenz.forward(point))))
    found = {"same up to": f"{units[1] - 5:,}", "largest sum": f"{max(sums) / lorenz.ONE:.4f}"[1:]}
    return found | {f"off by {number}": f"{number:,}" for number in (*units.values(), *farther.values())}


def restarts(points):
    """After how many steps the rows of a run and of one that was typed again differ by so much."""
    found = {}
    for start in (1000, 500, 100):
        here, there = points[start], typed_again(start, points)
        for done in range(0, 2000, 5):
            rows = (numbers_in(lorenz.row(0, point)) for point in (here, there))
            off = max(abs(one - other) for one, other in zip(*rows))
            found |= {(start, by): f"{done:,}" for by in (5, 20, 100) if off >= by and (start, by) not in found}
            for _ in range(5):
                here, there = lorenz.step(here), lorenz.step(there)
    return found


def tops(points):
    """The first maxima of Z, and their steps."""
    heights = [point[2] for point in points[:1000]]
    places = [place for place in range(1, 999) if heights[place - 1] < heights[place] >= heights[place + 1]][:14]
    shown = {f"height {place}": str(heights[place] * 1000 // lorenz.ONE) for place in places}
    return shown | {f"top {place}": str(place) for place in places}


def twins(drawn):
    """Where the two runs are three places apart, and how long a thousand steps and 200 lines take."""
    apart = next(line for line in drawn if "x" not in line and abs(line.index("a") - line.index("b")) >= 3)
    lines = [*loaded("weather/twins"), "panel", "break line", "run 100000", "panel", *(["run 100000"] * 200), "panel"]
    begun, quiet, done = clocks_in(replies(lines))
    return {"three places": f"{int(apart.split()[0]):,}", "twins words": size_of("weather/twins"),
            "quiet million": f"{(quiet - begun) / 1e6:.1f}", "drawn million": f"{(done - begun) / 1e6:.1f}",
            "drawn minutes": f"{seconds(done - begun) / 60:.0f}"}
