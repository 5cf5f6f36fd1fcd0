"""A model of drum/loop-without-a-test.txt: the evenings that all members of a club have free.

    python3 examples/models/loop.py th,sa sa th,sa,su      writes the evenings that are in each of the words: sa"""

import sys

EVENINGS = ("mo", "tu", "we", "th", "fr", "sa", "su")


def common(members):
    """The evenings that each member has, from Monday to Sunday."""
    return [evening for evening in EVENINGS if all(evening in member for member in members)]


def paper(members):
    """What the typewriter prints: each evening, and a space after it, but for Sunday."""
    return "".join(evening if evening == "su" else f"{evening} " for evening in common(members))


if __name__ == "__main__":
    print(paper([set(word.split(",")) for word in sys.argv[1:]]))
