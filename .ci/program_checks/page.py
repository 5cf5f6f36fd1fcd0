"""Whether each number of docs/PROGRAMS.md was measured, and each that was measured is there."""

import re

from laboratory import EXAMPLES, FACTS, TOP, WORD_TIME, Check

# The sections: which facts are theirs, which sessions their blocks come from, and which other numbers they may have, from
# definitions, years and names.
SECTIONS = {
    "Lorenz's weather": ("weather", ("weather/lorenz", "weather/twins"), "10 28 8 3 .01 1963 1959 100 5 20 1000 500 .001 1 200"),
    "A loop without a test": ("loop", (), "1983 16 17 1 7 8 6352 6363 0000 0001 00000004"),
    "Floating point": ("floats", ("floating-point/interpreter",), "22 7.000004 10"),
    "A formula translator": ("formulas", ("floating-point/formulas",), "30 17 39 1 7 255 100,000"),
    "Twenty-one": ("cards", ("games/twenty-one",), "5"),
    "The library": ("library", (), "0 1 4.5 10 32 400"),
}
# The digits that are part of a name, of code or of a link; and the names of the cards.
NAMES = re.compile(r"LGP-30|RPC-4000|ALGOL 30|`[^`]*`|\]\([^)]*\)|\b[ezu] [06]\d{3}\b|^\| a \|.*\| k \|$", re.M)
NUMBER = re.compile(r"(?<![\w.])\d(?:[\d,]*\d)?(?:\.\d+)?|(?<!\d)\.\d+")


def numbers_in(text):
    """The numbers in a text, as they are written."""
    return set(NUMBER.findall(NAMES.sub("", text)))


def check_page():
    """All sections, and what is in front of them."""
    check = Check("docs/PROGRAMS.md")
    begin, *parts = re.split(r"^## (.*)\n", (TOP / "docs" / "PROGRAMS.md").read_text(), flags=re.M)
    sections = dict(zip(parts[::2], parts[1::2]))
    check.same("sections", list(sections), list(SECTIONS))
    check.same("numbers of the beginning", numbers_in(begin), {"64", f"{WORD_TIME:g}".lstrip("0")})
    for name, text in sections.items():
        facts, sessions, defined = SECTIONS.get(name, ("", (), ""))
        lines = text.split("\n")
        there = numbers_in("\n".join(line for line in lines if not line.startswith("    ")))
        measured = set(FACTS.get(facts, {}).values())
        check.same(f"{name}: numbers that were not measured", sorted(there - measured - set(defined.split())), [])
        check.same(f"{name}: what was measured and is not there", sorted(measured - there), [])
        stored = {line.strip() for session in sessions for line in (EXAMPLES / f"{session}.told").read_text().split("\n")}
        stored |= {line.removeprefix("mount ") for session in sessions for line in (EXAMPLES / f"{session}.txt").read_text().split("\n")}
        shown = [line.strip() for line in lines if line.startswith("    ")]
        check.same(f"{name}: lines that no session has", [line for line in shown if line not in stored], [])
    return check
