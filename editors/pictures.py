#!/usr/bin/env python3
"""Makes docs/editors-neovim.svg and docs/editors-emacs.svg: both editors at work on a source, as their terminal shows them.

    editors/pictures.py            fails where one of them is another picture
    editors/pictures.py --write    writes them

It needs tmux, Neovim, and Emacs with eglot.
"""

import os
import pathlib
import re
import subprocess
import sys
import tempfile
import time
from html import escape

EDITORS = pathlib.Path(__file__).resolve().parent
DOCS = EDITORS.parent / "docs"
SERVER = ["node", str(EDITORS / "lgp30-language-server.mjs"), "--stdio"]
COLUMNS, ROWS, WIDTH, HEIGHT = 96, 20, 8.43, 18
LONGEST = float(os.environ.get("LONGEST_WAIT", "60000")) / 1000
SOURCE = """; Two and three, and where their sum goes.
first   b two
        a tree
        h sum
        z
two     int 2 30
three   int 3 30
sum     int 0 30
        end first
"""
# what is set besides what docs/EDITORS.md says
NEOVIM = """
vim.cmd('set background=light number noruler noshowcmd nofoldenable shortmess+=F')
vim.cmd('highlight NormalFloat ctermbg=254 | highlight SignColumn ctermbg=none')
require('lgp30').command = { %s }
"""
EMACS = """
(setq lgp-language-server '(%s) frame-background-mode 'light native-comp-async-report-warnings-errors nil warning-minimum-level :error
      inhibit-startup-screen t eglot-sync-connect t eldoc-echo-area-use-multiline-p t eldoc-idle-delay 0 max-mini-window-height 9)
(setq-default mode-line-format '(" %%b   %%m " flymake-mode-line-format))
(frame-set-background-mode nil) (menu-bar-mode 0) (package-initialize) (require 'eglot)
(add-hook 'lgp-mode-hook #'display-line-numbers-mode)
(set-face-attribute 'flymake-error nil :underline t)
"""
PALETTE = ["#26323d", "#a3262a", "#2f6b1f", "#8a5a00", "#1d5aa6", "#87308f", "#0b6b73", "#6d7780", "#6d7780", "#c23b3f", "#3f8a2c", "#a87300", "#2f74cc", "#a445ad", "#128a93", "#fbfaf5"]
GROUND, TEXT = "#fbfaf5", "#26323d"
# several of these stay several where a picture is shown
NO_BREAK = "\u00a0"


class Terminal:
    """A terminal in which a program runs."""

    def __init__(self, folder, words):
        self.name = f"lgp30-{os.getpid()}-{words[0]}"
        settings = folder / "tmux.conf"
        settings.write_text("set -g status off\nset -g default-terminal tmux-256color\nset -sg escape-time 0\n")
        self.tmux("-f", settings, "new-session", "-d", "-x", str(COLUMNS), "-y", str(ROWS), "-c", folder, *words)

    def tmux(self, *words):
        return subprocess.run(["tmux", "-L", self.name, *words], capture_output=True, text=True, check=True).stdout

    def shown(self, *how):
        return self.tmux("capture-pane", "-p", *how)

    def await_text(self, pattern):
        """Waits until what is shown has a text, and is the same when it is looked at again."""
        until, before = time.monotonic() + LONGEST, ""
        while time.monotonic() < until:
            now = self.shown("-e")
            if now == before and re.search(pattern, self.shown()):
                return
            before = now
            time.sleep(0.3)
        sys.exit(f"editors/pictures.py: {pattern} was never shown:\n{self.shown()}")

    def type(self, *keys):
        self.tmux("send-keys", *keys)

    def end(self):
        subprocess.run(["tmux", "-L", self.name, "kill-server"], check=False)


def colour_of(codes):
    """The colour that the rest of some codes name, after 38 or 48."""
    if codes[0] == "5":
        number = int(codes[1])
        del codes[:2]
        if number < 16:
            return PALETTE[number]
        if number > 231:
            return "#" + 3 * f"{8 + 10 * (number - 232):02x}"
        return "#" + "".join(f"{(0, 95, 135, 175, 215, 255)[(number - 16) // part % 6]:02x}" for part in (36, 6, 1))
    parts = [int(code) for code in codes[1:4]]
    del codes[:4]
    return "#" + "".join(f"{part:02x}" for part in parts)


def style_after(style, text):
    """A style after the codes of an escape sequence."""
    codes = [code for code in text.split(";")] if text else ["0"]
    while codes:
        code = codes.pop(0).split(":")[0]
        if code == "0":
            style = {}
        elif code in ("38", "48"):
            style = {**style, {"38": "text", "48": "ground"}[code]: colour_of(codes)}
        elif code == "58":
            colour_of(codes)
        elif code in ("39", "49", "22", "24", "27"):
            style = {key: value for key, value in style.items() if key not in {"39": ["text"], "49": ["ground"], "22": ["bold"], "24": ["line"], "27": ["turned"]}[code]}
        elif code in ("1", "4", "7"):
            style = {**style, {"1": "bold", "4": "line", "7": "turned"}[code]: True}
        elif len(code) in (2, 3) and code[:-1] in ("3", "4", "9", "10"):
            style = {**style, "text" if code[:-1] in ("3", "9") else "ground": PALETTE[int(code[-1]) + (8 if code[:-1] in ("9", "10") else 0)]}
    return style


def pieces_of(line, style):
    """The pieces of a line, each its column, its text and its style; and the style at its end."""
    pieces, column = [], 0
    for codes, text in re.findall(r"\x1b\[([\d;:]*)m|([^\x1b]+)", line):
        if text:
            pieces.append((column, text, style))
            column += len(text)
        else:
            style = style_after(style, codes)
    return pieces, style


def drawn(column, row, text, style):
    """A piece as a picture."""
    fore, ground = style.get("text", TEXT), style.get("ground")
    if style.get("turned"):
        fore, ground = ground or GROUND, fore
    left, top, width = 12 + column * WIDTH, 12 + row * HEIGHT, len(text) * WIDTH
    rest = (' font-weight="bold"' if style.get("bold") else "") + (' text-decoration="underline"' if style.get("line") else "")
    ground_of = f'<rect x="{left:.1f}" y="{top}" width="{width:.1f}" height="{HEIGHT}" fill="{ground}"/>' if ground else ""
    word = text.strip()
    start, length = left + (len(text) - len(text.lstrip())) * WIDTH, len(word) * WIDTH
    shown = f'<text x="{start:.1f}" y="{top + 13}" fill="{fore}" textLength="{length:.1f}" lengthAdjust="spacingAndGlyphs"{rest}>{escape(word).replace(" ", NO_BREAK)}</text>' if word else ""
    return ground_of + shown


def picture(text, title):
    """What a terminal shows, as a picture."""
    rows, style = [], {}
    for row, line in enumerate(text.split("\n")[:ROWS]):
        pieces, style = pieces_of(line, style)
        rows.append("".join(drawn(column, row, piece, how) for column, piece, how in pieces))
    width, height = 24 + COLUMNS * WIDTH, 24 + ROWS * HEIGHT
    return (f'<svg xmlns="http://www.w3.org/2000/svg" width="{width:.0f}" height="{height}" viewBox="0 0 {width:.0f} {height}" role="img">\n<title>{escape(title)}</title>\n'
            f'<rect width="100%" height="100%" rx="6" fill="{GROUND}" stroke="#c9c3b2"/>\n<g font-family="ui-monospace, \'DejaVu Sans Mono\', Menlo, Consolas, monospace" font-size="14">\n'
            + "\n".join(row for row in rows if row) + "\n</g>\n</svg>\n")


def settings_of(sign):
    """The block of docs/EDITORS.md that has a sign, for the files of the repository."""
    blocks = re.findall(r"(?:^    .*\n)+", (DOCS / "EDITORS.md").read_text(), re.M)
    [block] = [block for block in blocks if sign in block]
    return block.replace("/usr/share/condugwa/editors", str(EDITORS))


def neovim(folder):
    settings = folder / "settings.lua"
    settings.write_text(settings_of("vim.opt.runtimepath") + NEOVIM % ", ".join(f"'{word}'" for word in SERVER))
    terminal = Terminal(folder, ["nvim", "-u", str(settings), "-i", "NONE", "sum.source"])
    try:
        terminal.await_text("no line has this label")
        terminal.type("4G^", "K")
        terminal.await_text("stores the accumulator")
        return picture(terminal.shown("-e"), "Neovim: a fault below its word, and what an order does")
    finally:
        terminal.end()


def emacs(folder):
    settings = folder / "settings.el"
    settings.write_text(EMACS % " ".join(f'"{word}"' for word in SERVER) + settings_of("(require 'lgp-mode)"))
    terminal = Terminal(folder, ["emacs", "-nw", "-q", "-l", str(settings), "sum.source"])
    try:
        terminal.await_text(r"LGP-30 .*Flymake\[1")
        terminal.type("Down", "Down", "Down", "M-m")
        terminal.await_text("stores the accumulator")
        return picture(terminal.shown("-e"), "Emacs: a fault is underlined, and below is what an order does")
    finally:
        terminal.end()


def main():
    differ = 0
    for name, make in (("neovim", neovim), ("emacs", emacs)):
        # an editor may still write there when its terminal has ended
        with tempfile.TemporaryDirectory(ignore_cleanup_errors=True) as place:
            folder = pathlib.Path(place)
            (folder / "sum.source").write_text(SOURCE)
            os.environ.update(HOME=place, XDG_STATE_HOME=place, XDG_CACHE_HOME=place, XDG_DATA_HOME=place)
            made = make(folder)
        file = DOCS / f"editors-{name}.svg"
        if sys.argv[1:] == ["--write"]:
            file.write_text(made)
        elif not file.exists() or file.read_text() != made:
            differ = 1
            print(f"editors/pictures.py: docs/{file.name} is another picture: --write writes it", file=sys.stderr)
    sys.exit(differ)


main()
