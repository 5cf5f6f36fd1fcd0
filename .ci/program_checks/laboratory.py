"""What the checks of the larger programs share: the monitor and its replies, sources of examples/, and what was measured."""

import pathlib
import re
import subprocess
import sys

TOP = pathlib.Path(__file__).resolve().parent.parent.parent
EXAMPLES = TOP / "examples"
sys.path.insert(0, str(EXAMPLES / "models"))
COMMAND = [word for word in sys.argv[1:] if word != "--facts"] or [str(TOP / "crates/lgp30m/out/lgp30m")]
DIGITS = "0123456789fgjkqw"
# What was measured or counted, by the sections of docs/PROGRAMS.md: each has a name, and is as it is written there.
FACTS = {"weather": {}, "loop": {}, "floats": {}, "formulas": {}, "cards": {}, "library": {}}
# The lines that begin a loaded program again after it has halted.
AGAIN = ["press manual", "press clear", "press normal", "press start"]


class Check:
    """What was compared of a program, and what differed."""

    def __init__(self, name):
        self.name, self.compared, self.differ = name, 0, 0

    def same(self, what, got, wanted):
        """Compares one thing, and shows the first few that differ."""
        self.compared += 1
        if got != wanted:
            self.differ += 1
            if self.differ < 6:
                print(f".ci/programs: {self.name}: {what}: there is {got!r}, and it should be {wanted!r}", file=sys.stderr)

    def all_same(self, what, got, wanted):
        """Compares two lists, place by place, and their lengths."""
        self.same(f"{what}: how many", len(got), len(wanted))
        for place, (one, other) in enumerate(zip(got, wanted)):
            self.same(f"{what} {place}", one, other)


def lines_of(name, number=0):
    """The lines of a source of a script, from its opening to its end: the first one, if no number is given."""
    lines = (EXAMPLES / f"{name}.txt").read_text().splitlines()
    first = [place for place, line in enumerate(lines) if line == "source"][number]
    return lines[first:lines.index(".", first) + 1]


def loaded(name, number=0):
    """The lines that open and load a source of a script."""
    return [*lines_of(name, number), "load"]


def replies(lines):
    """What the monitor replies to some lines, none of which may be refused."""
    ended = subprocess.run(COMMAND, input="".join(f"{line}\n" for line in lines), capture_output=True, text=True, cwd=TOP)
    refused = re.search(r"^[?].*", ended.stdout, re.M)
    if ended.returncode not in (0, 1) or refused:
        sys.exit(f".ci/programs: status {ended.returncode}: {ended.stderr}{refused and refused[0]}")
    return ended.stdout


def paper_of(lines):
    """The lines of the paper after some lines, but for those in front that are empty."""
    paper = re.split(r"^paper \d+\n", replies([*lines, "paper"]), flags=re.M)[-1]
    return paper.strip("\n").split("\n")


def number_in(digits):
    """A word of eight digits as a whole number, in units of its last bit but one."""
    number = int("".join(f"{DIGITS.index(digit):x}" for digit in digits), 16)
    return (number - (1 << 32) if number >> 31 else number) // 2


def digits_of(number):
    """The eight digits of a word that is a number in units of its last bit but one."""
    return "".join(DIGITS[int(digit, 16)] for digit in f"{2 * number & 0xffffffff:08x}")


def words_in(reply):
    """The words that `words` has shown, in their order."""
    return [number_in(digits) for digits in re.findall(r"^\d{4} ([0-9fgjkqw]{8})$", reply, re.M)]


def clocks_in(reply):
    """The clocks of the panels in a reply."""
    return [int(clock) for clock in re.findall(r"^counter .* clock (\d+)$", reply, re.M)]


def size_of(name):
    """How many words the first source of a script makes."""
    return re.search(r"^cells (\d+)", replies(lines_of(name)), re.M)[1]


# How long a word time lasts, in milliseconds: the one figure for it is that of the page.
WORD_TIME = float(re.search(r"^export const WORD_TIME = ([\d.]+);$", (TOP / "page/drive.mjs").read_text(), re.M)[1])


def seconds(word_times):
    """How long word times last."""
    return word_times * WORD_TIME / 1000
