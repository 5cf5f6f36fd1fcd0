#!/usr/bin/env python3
"""Makes the pictures of the package for VS Code: its icon, a drum with its tracks, and fault.png, what the language server says of a source, drawn.

    vscode/pictures.py            fails where one of them is another picture
    vscode/pictures.py --write    writes them

It needs Pillow (Debian package python3-pil) and DejaVu Sans Mono (fonts-dejavu-core).
"""

import io
import json
import pathlib
import re
import subprocess
import sys

from PIL import Image, ImageDraw, ImageFont

HERE = pathlib.Path(__file__).resolve().parent
FONT = "/usr/share/fonts/truetype/dejavu/DejaVuSansMono.ttf"
GROUND, BOX, TEXT, DIM, FAULT = "#fbfaf5", "#efece0", "#26323d", "#8b949b", "#a3262a"
# the types of words in the order in which the server names them
COLOURS = ["#1d5aa6", "#87308f", "#0b6b73", "#8a5a00", "#6d7780"]
SIZE, WIDTH, HEIGHT, LEFT, TOP = 22, 13.24, 32, 24, 20
COLUMNS, HINT = 82, 14


def icon():
    """The drum seen from the side: seven tracks, and a bit that is read."""
    scale = 4
    picture = Image.new("RGBA", (256 * scale, 256 * scale), (0, 0, 0, 0))
    draw = ImageDraw.Draw(picture)
    box = lambda *parts: [part * scale for part in parts]  # noqa: E731
    draw.rounded_rectangle(box(0, 0, 255, 255), 40 * scale, fill="#26323d")
    draw.rectangle(box(48, 72, 208, 184), fill="#c9c3b2")
    draw.ellipse(box(48, 156, 208, 212), fill="#c9c3b2")
    draw.ellipse(box(48, 44, 208, 100), fill="#fbfaf5")
    draw.ellipse(box(112, 64, 144, 80), fill="#26323d")
    for track in range(6):
        draw.arc(box(48, 62 + 18 * track, 208, 118 + 18 * track), 0, 180, fill="#6d7780", width=3 * scale)
    draw.rectangle(box(120, 128, 136, 150), fill="#c23b3f")
    return picture.resize((256, 256), Image.LANCZOS)


def words_of(tokens):
    """The words by their lines: column, length and colour."""
    words, line, column = {}, 0, 0
    for at in range(0, len(tokens), 5):
        down, right, length, kind, _ = tokens[at:at + 5]
        line, column = (line + down, right) if down else (line, column + right)
        words.setdefault(line, []).append((column, length, COLOURS[kind]))
    return words


def wrapped(text, columns):
    lines = []
    for word in text.split(" "):
        if lines and len(lines[-1]) + 1 + len(word) <= columns:
            lines[-1] += " " + word
        else:
            lines.append(word)
    return lines


def fault():
    shown = json.loads(subprocess.run(["node", str(HERE / "shown.mjs")], check=True, capture_output=True, text=True).stdout)
    rows = len(shown["lines"]) + 5
    picture = Image.new("RGB", (int(2 * LEFT + COLUMNS * WIDTH), 2 * TOP + rows * HEIGHT), GROUND)
    draw, font = ImageDraw.Draw(picture), ImageFont.truetype(FONT, SIZE)
    place = lambda row, column: (LEFT + column * WIDTH, TOP + row * HEIGHT)  # noqa: E731
    hints = {hint["position"]["line"]: hint["label"] for hint in shown["hints"]}
    row = 0
    for line, text in enumerate(shown["lines"]):
        draw.text(place(row, 0), hints.get(line, ""), DIM, font)
        for column, length, colour in words_of(shown["tokens"]).get(line, []):
            draw.text(place(row, HINT + column), text[column:column + length], colour, font)
        for it in shown["faults"]:
            start, end = it["range"]["start"], it["range"]["end"]
            if start["line"] == line:
                (left, top), (right, _) = place(row, HINT + start["character"]), place(row, HINT + end["character"])
                draw.line([(x, top + 27 + (2 if (x // 4) % 2 else -1)) for x in range(int(left), int(right), 4)], FAULT, 2)
                draw.text(place(row, HINT + len(text) + 3), it["message"], FAULT, font)
        row += 1
        if line == shown["hover"]["at"]["line"]:
            plain = [re.sub(r"\*\*|`", "", part) for part in shown["hover"]["contents"]["value"].split("\n\n")]
            told = [piece for part in plain for piece in wrapped(re.sub(r" {2,}", "  ", part), COLUMNS - HINT - 4)]
            (left, top), (right, bottom) = place(row, HINT + 2), place(row + len(told), COLUMNS)
            draw.rounded_rectangle([left - 8, top + 2, right - 4, bottom + 4], 6, fill=BOX, outline="#c9c3b2")
            for piece in told:
                draw.text((place(row, HINT + 3)[0], place(row, 0)[1] + 3), piece, TEXT, font)
                row += 1
    return picture.crop((0, 0, picture.width, TOP * 2 + row * HEIGHT))


def main():
    differ = 0
    for name, picture in (("icon.png", icon()), ("fault.png", fault())):
        file = HERE / name
        if sys.argv[1:] == ["--write"]:
            data = io.BytesIO()
            picture.save(data, "PNG", optimize=True)
            file.write_bytes(data.getvalue())
        elif not file.exists() or list(Image.open(file).convert("RGBA").getdata()) != list(picture.convert("RGBA").getdata()):
            differ = 1
            print(f"editors/vscode/pictures.py: {name} is another picture: --write writes it", file=sys.stderr)
    sys.exit(differ)


main()
