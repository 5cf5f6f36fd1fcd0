"""Where a German document is no longer as its original: each section has the same marks and blocks, rows of tables, figures and names of
commands. A figure has a comma where the original has a point, and a narrow blank where the original has a comma; a version is as it is. And
where its German is not what a native would write, or addresses a teacher as a pupil or a pupil as a teacher."""

import collections
import re

FIGURE = re.compile(r"(?<![\w.-])-?\d+(?:[.,\u202f]\d+)*")
# a version stands after the name of a program, which has more than one capital
VERSION = re.compile(r"\b\w*[A-Z]\w*[A-Z]+ \d+\.[\d.-]+\d")
# thousands are set apart by a narrow blank, and decimals by a comma
GERMAN = str.maketrans({",": "\u202f", ".": ","})
# what programs read or write, and not what the page shows in the reader's language
NAME = re.compile(r"`([^`]*)`")
SHOWN = re.compile(r"[A-ZÄÖÜ][\w ,?]*$")
# What no native would write, each with what to write in its place.
GIVEN_UP = {
    r"[Aa]n der \[?(?:Web)?[Ss]eite\b": "auf der Seite",
    r"\bTür(?:en)?\b": "Bereich",
    r"\b[Ll]ass sich\b": "lass dir",
    r"\b(?:auf|nach)?[Gg]erollt\b|\brollen\b": "scrollen",
    r"\*\*[Oo]wn\*\*": "**eigen**",
    r"\bWas schiefgeht\b": "Was schiefgehen kann",
    r"\bnur vertraut\b": "darauf muss man vertrauen",
    r"\bin vergebens\b|\bfür umsonst\b": "vergeblich, umsonst",
    r"dauert der Befehl \d+(?! Wortzeiten)\b": "mit der Einheit",
    r"\bnicht (?:seine|ihre) Form\b": "nicht die richtige Form",
}
# A pupil is addressed by du, a teacher by Sie. In the middle of a sentence Sie is no "they".
TO_PUPIL = re.compile(r"\b(?:[Dd]u|[Dd]ich|[Dd]ir|[Dd]eine?[mnrs]?)\b")
TO_TEACHER = re.compile(r"[\wäöüß\]`)],? (?:Sie|Ihnen|Ihre?[mnrs]?)\b")
# blocks in which the words are the document's own
OWN_WORDS = ("", "<!-- drum -->")


def sections(text):
    """The sections of a document: the level of each heading, and its lines."""
    found = [(0, [])]
    for line in text.split("\n"):
        heading = re.match(r"(#+) ", line)
        if heading:
            found.append((len(heading[1]), []))
        found[-1][1].append(line)
    return found


def blocks(lines):
    """The blocks of a section, each with the mark before it; of one whose words are the document's own, its figures alone."""
    found, mark = [], ""
    for at, line in enumerate(lines):
        if line.startswith("    "):
            if not found or found[-1][2] != at - 1:
                found.append([mark, [], at])
            found[-1][1].append(line)
            found[-1][2] = at
        elif line.strip():
            mark = line if line.startswith("<!--") else ""
    return [(mark, figures("\n".join(shown)) if mark in OWN_WORDS else shown) for mark, shown, _ in found]


def figures(text):
    """The figures of a text with how often each is there."""
    return collections.Counter(FIGURE.findall(text))


def german_figures(text, is_original):
    """The figures and versions of a text as a German one has them; what programs read or write is not among them."""
    text = NAME.sub("", text)
    found = figures(VERSION.sub("", text))
    found = {it.translate(GERMAN) if is_original else it: count for it, count in found.items()}
    return collections.Counter(found) + collections.Counter(VERSION.findall(text))


def prose(lines):
    """The text of a section without its blocks, remarks, and the targets of its links."""
    text = "\n".join(line for line in lines if not line.startswith("    "))
    return re.sub(r"\]\([^)]*\)", "]", re.sub(r"<!--.*?-->", "", text))


def names(text):
    """What programs read or write, with how often each is there."""
    return collections.Counter(it for it in NAME.findall(text) if not SHOWN.match(it) and not re.search(r" [A-Z]$", it))


def more_and_fewer(wanted, got):
    """In words, what the one has and the other has not."""
    lacks, adds = wanted - got, got - wanted
    return "; ".join([*(f"lacks {it}" for it in lacks), *(f"adds {it}" for it in adds)])


def differences(original, page):
    """Where a page differs from its original in what is not words."""
    wanted, got = (sections(it.read_text()) for it in (original, page))
    if [level for level, _ in wanted] != [level for level, _ in got]:
        yield "its headings are not those of the original"
        return
    for (_, first), (_, second) in zip(wanted, got):
        where = second[0].lstrip("# ") if second else "the beginning"
        rows = [sum(line.startswith("|") for line in lines) for lines in (first, second)]
        if rows[0] != rows[1]:
            yield f"{where}: {rows[1]} rows of tables, and {rows[0]} in the original"
        if blocks(first) != blocks(second):
            yield f"{where}: its blocks are not those of the original"
        wanted_text, text = prose(first), prose(second)
        for told in (
            more_and_fewer(german_figures(wanted_text, True), german_figures(text, False)),
            more_and_fewer(names(wanted_text), names(text)),
        ):
            if told:
                yield f"{where}: {told}"


def is_for_pupils(page, line):
    """Whether a line of a page is read by pupils: the text of a task, and the steps of a lesson with their hints."""
    return page.name == "de.md" or bool(re.match(r" *\d+\. | +\*Hinweis\.\*", line))


def german_faults(page):
    """Where a German page has words that were given up, or the other address."""
    for at, line in enumerate(page.read_text().split("\n"), 1):
        text = "" if line.startswith("    ") else re.sub(r"`[^`]*`", "`", line)
        for pattern, better in GIVEN_UP.items():
            if found := re.search(pattern, text):
                yield f"{at}: '{found[0]}': {better}"
        if found := (TO_TEACHER if is_for_pupils(page, line) else TO_PUPIL).search(text):
            yield f"{at}: '{found[0]}': {'a pupil is du' if is_for_pupils(page, line) else 'a teacher is Sie'}"
