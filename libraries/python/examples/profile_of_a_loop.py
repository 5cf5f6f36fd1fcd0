"""Where the word times of a loop go, as a bar chart.

    python libraries/python/examples/profile_of_a_loop.py docs/profile-of-a-loop.svg

It types the words of examples/self-modifying.txt and starts the program, has each order accounted for, adds up the word times of the
orders at each place by their phases, writes the sums, and draws them as SVG where a picture is named. Drawing needs matplotlib.
"""

import collections
import pathlib
import sys

import condugwa

SCRIPT = pathlib.Path(__file__).resolve().parents[3] / "examples" / "self-modifying.txt"
PHASES = {"find": "waits for the order", "seek": "waits for its word", "take": "takes the order", "act": "acts"}


def accounts_of_the_loop() -> "list[condugwa.Account]":
    """The accounts of the program's orders."""
    with condugwa.Laboratory() as laboratory:
        for line in SCRIPT.read_text().split("\n"):
            if line.startswith(("put ", "press ")):
                laboratory.answer(line)
        return laboratory.trace(1000)


def times_by_place(accounts: "list[condugwa.Account]") -> "dict[str, collections.Counter[str]]":
    """The word times of the orders at each place, by phase."""
    places: "dict[str, collections.Counter[str]]" = collections.defaultdict(collections.Counter)
    for account in accounts:
        places[account.at or "none"].update({phase: getattr(account, phase) for phase in PHASES})
    return dict(sorted(places.items()))


def draw(places: "dict[str, collections.Counter[str]]", picture: str) -> None:
    """Draws the word times as bars, one for each place."""
    import matplotlib

    matplotlib.use("svg")
    # the same picture each time: no date, no numbers drawn by chance, and letters as text
    matplotlib.rcParams.update({"svg.hashsalt": "condugwa", "svg.fonttype": "none"})
    from matplotlib import pyplot

    figure, axes = pyplot.subplots(figsize=(9, 4.5))
    below = [0] * len(places)
    for phase, name in PHASES.items():
        heights = [times[phase] for times in places.values()]
        axes.bar(list(places), heights, bottom=below, label=name)
        below = [low + height for low, height in zip(below, heights)]
    axes.set_ylabel("word times")
    axes.set_xlabel("place of the order")
    axes.tick_params(axis="x", rotation=60)
    axes.legend()
    figure.tight_layout()
    figure.savefig(picture, format="svg", metadata={"Date": None})


def main() -> None:
    places = times_by_place(accounts_of_the_loop())
    for place, times in places.items():
        print(place, *(f"{phase} {times[phase]}" for phase in PHASES), sep="  ")
    if len(sys.argv) > 1:
        draw(places, sys.argv[1])


if __name__ == "__main__":
    main()
