"""The tokens of files, as the grammar for Pygments has them: line, column, length and kind."""

import pathlib
import sys

from pygments.lexers import load_lexer_from_file

lexer = load_lexer_from_file(sys.argv[1], "Lgp30Lexer")
for name in sys.argv[2:]:
    file = pathlib.Path(name)
    rows, line, column = [], 1, 0
    for kind, text in lexer.get_tokens(file.read_text()):
        if str(kind) not in ("Token.Text", "Token.Text.Whitespace"):
            rows.append(f"{line} {column} {len(text)} {kind}")
        line, column = (line + text.count("\n"), len(text) - text.rfind("\n") - 1) if "\n" in text else (line, column + len(text))
    pathlib.Path(f"{name}.tokens").write_text("".join(f"{row}\n" for row in rows))
