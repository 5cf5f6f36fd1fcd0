"""Which examples have all orders of a routine of the library in a row, under its labels or under their own: docs/PROGRAMS.md names them."""

import re

from laboratory import EXAMPLES, TOP, Check

LINE = re.compile(r"^(\w*)[ \t]+(-?[zbyridnmpeuthcas])(?:[ \t]+(\S+))?[ \t]*$")


def orders_in(text):
    """The orders of a source: of each its label, its letter, and what comes after that."""
    found = (LINE.match(line.split(";")[0].rstrip()) for line in text.split("\n"))
    return [match.groups("") for match in found if match]


def is_renamed(routine, orders):
    """Whether orders are those of a routine, each of its labels always by the same name."""
    names = {}
    for (label, letter, operand), (own, own_letter, own_operand) in zip(routine, orders):
        pairs = [(label, own), (operand, own_operand)] if label else [(operand, own_operand)]
        if letter != own_letter or any(names.setdefault(name, other) != other for name, other in pairs):
            return False
    return len(orders) == len(routine)


def has(orders, routine):
    """Whether a routine is among orders."""
    return any(is_renamed(routine, orders[at:at + len(routine)]) for at in range(len(orders) - len(routine) + 1))


def named_in_page():
    """The rows of the page's table: of each routine the examples with its text, and those with its orders by other names."""
    rows = re.findall(r"^\| `library/(\w+)\.source` \| (.*) \| (.*) \|$", (TOP / "docs" / "PROGRAMS.md").read_text(), re.M)
    return {name: [sorted(re.findall(r"`([^`]+\.txt)`", cell)) for cell in cells] for name, *cells in rows}


def check_copies():
    """The table of docs/PROGRAMS.md has each routine of which there is a copy, and each example that has one."""
    check, there = Check("copies"), {}
    scripts = {str(file.relative_to(EXAMPLES)): file.read_text() for file in sorted(EXAMPLES.rglob("*.txt"))}
    for file in sorted((EXAMPLES / "library").glob("*.source")):
        text, routine = file.read_text(), orders_in(file.read_text())
        copies = [name for name, script in scripts.items() if not name.startswith("library/") and has(orders_in(script), routine)]
        if copies:
            there[file.stem] = [[name for name in copies if text in scripts[name]], [name for name in copies if text not in scripts[name]]]
    check.same("examples with a routine of the library", named_in_page(), there)
    return check
