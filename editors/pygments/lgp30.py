"""Sources of the LGP-30 for Pygments: `pygmentize -x -l lgp30.py:Lgp30Lexer FILE`."""

from pygments.lexer import RegexLexer, bygroups, include
from pygments.token import Comment, Keyword, Name, Number, Text

__all__ = ["Lgp30Lexer"]

# the words below are written by editors/grammars.mjs
NAMED = ("end", "-t", "a", "b", "c", "d", "e", "h", "i", "m", "n", "p", "r", "s", "t", "u", "y", "z")
OTHERS = ("frac", "word", "int", "org")
# the words above are written by editors/grammars.mjs


def any_of(words):
    """An expression for an operation of these."""
    return r"(%s)(?=[ \t\r\n]|\Z)" % "|".join(words)


class Lgp30Lexer(RegexLexer):
    """Label, operation, operands and comment of each line."""

    name = "LGP-30"
    aliases = ["lgp30"]
    filenames = ["*.lgp30", "*.source"]

    tokens = {
        "root": [
            (r"\r?\n", Text),
            (r"^;[^\r\n]*", Comment.Single),
            (r"^[^ \t;\r\n][^ \t\r\n]*", Name.Function, "operation"),
            (r"[ \t]+", Text, "operation"),
            (r".", Text),
        ],
        "operation": [
            include("end"),
            (any_of(NAMED), Keyword, ("#pop", "named")),
            (any_of(OTHERS), Keyword, ("#pop", "others")),
            (r"[^ \t\r\n]+", Text, ("#pop", "others")),
        ],
        "named": [
            include("end"),
            (r"[a-z][^ \t\r\n]*", Name.Variable, ("#pop", "others")),
            (r"[^ \t\r\n]+", Number, ("#pop", "others")),
        ],
        "others": [
            include("end"),
            (r"[^ \t\r\n]+", Number),
        ],
        "end": [
            (r"\r?\n", Text, "#pop"),
            (r"([ \t]+)(;[^\r\n]*)", bygroups(Text, Comment.Single)),
            (r";[^\r\n]*", Comment.Single),
            (r"[ \t]+", Text),
        ],
    }
