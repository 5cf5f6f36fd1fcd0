"""A model of games/twenty-one.txt: cards drawn by a number that is multiplied by the eleventh power of 5, with 30 bits kept.

    python3 examples/models/twenty_one.py SEED KEYS      writes the paper: 1956 hss, for one"""

import sys

NAMES = "a23456789tjqk"


class Pack:
    """The endless pack. Its number is odd, and has 30 bits with its sign. Of what is typed the last bit is lost."""

    def __init__(self, seed):
        self.seed, self.number = seed, seed // 2 * 4 + 1
        self.card()

    def card(self):
        """A card, from 0 for the ace to 12 for the king."""
        self.number = (self.number * 5 ** 11) % 2 ** 30
        if self.number >= 2 ** 29:
            self.number -= 2 ** 30
        return (self.number + 2 ** 29) * 13 // 2 ** 30


def value(hand):
    """What a hand is worth: an ace counts 11 where that is not too many, and all others 1."""
    hard = sum(min(rank + 1, 10) for rank in hand)
    return hard + 10 if 0 in hand and hard + 10 < 22 else hard


class Table:
    """A game after the other, and what the typewriter prints of them."""

    def __init__(self, seed):
        self.pack, self.paper, self.drawn, self.games = Pack(seed), "\n/", [], 0
        self.begin()

    def draw(self, hand, with_sum=True):
        """One card more in a hand."""
        rank = self.pack.card()
        self.drawn.append(rank)
        hand.append(rank)
        self.paper += f" {NAMES[rank]}" + (f" /{value(hand):02}" if with_sum else "")

    def begin(self):
        """A new game: the visitor has two cards."""
        self.paper += "\nyou"
        self.hand = []
        self.draw(self.hand, with_sum=False)
        self.hit()

    def hit(self):
        """One card more for the visitor."""
        self.draw(self.hand)
        if value(self.hand) > 21:
            self.end("too many; i win")

    def stay(self):
        """The machine draws, and the game is over."""
        self.paper += "\ni"
        hand = []
        while value(hand) < 17:
            self.draw(hand)
        mine, its = value(self.hand), value(hand)
        self.end("you win" if its > 21 or its < mine else "even" if its == mine else "i win")

    def end(self, said):
        """The game is over, and the next one begins."""
        self.paper += f"\n{said}"
        self.games += 1
        self.begin()

    def press(self, key):
        """A key and the conditional stop."""
        if key == "h":
            self.hit()
        elif key == "s":
            self.stay()
        else:
            self.paper += " /"


if __name__ == "__main__":
    table = Table(int(sys.argv[1], 16))
    for pressed in sys.argv[2]:
        table.press(pressed)
    print(table.paper)
