"""The blocks of README.md, docs/ and teaching/ that show what the programs do.

A comment in front of an indented block says what the block is. It does not show where the page is read.

    <!-- script -->        a script; its replies are the next block so marked
    <!-- replies -->       what the program writes for the script before it
    <!-- session -->       lines of a script on the left, and on the right what is replied to them, from one column on
    <!-- monitor -->       the same with lines that are typed to the monitor
    <!-- terminal -->      what a terminal shows of the monitor: what follows a prompt is typed, all else comes by itself
    <!-- sitting -->       the same at a terminal whose lines node edits
    <!-- edited by COMMAND -->   the same, where this command is the user's editor
    <!-- refusals -->      rows of a script of one line, its reply, and perhaps a remark, with two blanks or more between
    <!-- file NAME -->     a file for the commands of the page
    <!-- commands -->      command lines on the left, and on the right what they write, from one column on; standard input is empty
    <!-- writes COMMAND -->   what a command line writes
    <!-- lines of SCRIPT: COMMAND; .. -->   some lines, in their order, of what the monitor writes for these commands after the
                              puts of a script
    <!-- drum -->          the sectors of a track around the block's border, in the order in which they pass the head
"""

import re
import sys

MARK = re.compile(r"<!-- (script|replies|session|monitor|terminal|sitting|refusals|commands|drum|(?:file|writes|lines|edited|clause|definition) .*) -->$")
KNOWN = re.compile(r"<!-- (?!What follows|(?:end of )?(?:sources|address) -->).*-->$")
# what a terminal shows in front of what is typed
PROMPT = re.compile(r"(?:\d{4} (?:halted (?:operator|stop|overflow|step)|going|executing|waiting|reading)|source)> ")


class Example:
    """A marked block of a page: what it is, its lines, and where it stands."""

    def __init__(self, kind, lines, place):
        self.kind, _, self.name = kind.partition(" ")
        self.lines = lines
        self.place = place

    @property
    def text(self):
        return "".join(f"{line}\n" for line in self.lines)


def examples_of(page):
    """The marked blocks of a page, in their order."""
    lines = page.read_text().split("\n")
    for at, line in enumerate(lines):
        mark = MARK.match(line)
        if KNOWN.match(line) and not mark:
            sys.exit(f".ci/marked.py: {page.name}:{at + 1}: no such mark: {line}")
        if not mark:
            continue
        first = at + 1
        while first < len(lines) and not lines[first].strip():
            first += 1
        block = []
        for shown in lines[first:]:
            if shown.strip() and not shown.startswith("    "):
                break
            block.append(shown[4:].rstrip())
        while block and not block[-1]:
            block.pop()
        if not block:
            sys.exit(f".ci/marked.py: {page.name}:{at + 1}: no block after the mark")
        yield Example(mark[1], block, f"{page.name}:{first + 1}")


def two_columns(lines):
    """The left and the right column; the right one begins where it does in the first line that has both."""
    for line in lines:
        both = re.match(r"(\s*\S.*?\S|\s*\S)\s{2,}(?=\S)", line)
        if both:
            column = both.end()
            break
    else:
        return lines, []
    left = [line[:column].rstrip() for line in lines]
    return left, [line[column:].rstrip() for line in lines]


def typed_in(lines):
    """What is typed at the prompts of a terminal."""
    return [line[prompt.end() :] for line in lines if (prompt := PROMPT.match(line))]


def pages_of(top):
    """The pages whose blocks are run."""
    pages = [top / name for name in ("README.md", "CONTRIBUTING.md", "examples/README.md")]
    folders = ("docs/**/*.md", "teaching/*.md", "teaching/tasks/*.md", "teaching/lessons/**/*.md")
    return [*pages, *(page for folder in folders for page in sorted(top.glob(folder)))]
