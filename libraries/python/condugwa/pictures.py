"""The drum as a picture."""

import dataclasses
import typing

_TRACKS = 64
_CELL = 6


@dataclasses.dataclass(frozen=True)
class Drum:
    """The words of the drum that are not zero, and where the counter is. A notebook shows it as a picture: a row a track, a square a word."""

    words: "typing.Mapping[str, str]"
    """By their addresses."""

    counter: str
    """The address in the counter register."""

    @property
    def svg(self) -> str:
        """The picture, as the text of an SVG file."""
        size = _TRACKS * _CELL
        squares = "".join(
            _square(address, "#2b4a6f", f"{address} {word}") for address, word in sorted(self.words.items())
        )
        return (
            f"<svg xmlns='http://www.w3.org/2000/svg' viewBox='-1 -1 {size + 2} {size + 2}' width='{size}' height='{size}' role='img'>"
            f"<title>{len(self.words)} words of the drum are not zero; the counter is at {self.counter}</title>"
            f"<rect width='{size}' height='{size}' fill='#f4f1ea' stroke='#8a8577'/>{squares}"
            f"{_square(self.counter, 'none', f'counter {self.counter}', 'black')}</svg>"
        )

    def _repr_svg_(self) -> str:
        return self.svg


def _square(address: str, fill: str, title: str, stroke: str = "none") -> str:
    track, sector = int(address[:2]), int(address[2:])
    return (
        f"<rect x='{_CELL * sector}' y='{_CELL * track}' width='{_CELL}' height='{_CELL}' fill='{fill}' stroke='{stroke}'>"
        f"<title>{title}</title></rect>"
    )
