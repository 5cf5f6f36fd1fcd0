"""Where lines of code are too wide, and where a list in the documents is not complete: the sections of the manuals in MACHINE, the
documents in docs/README, what lies at the top in DEVELOPMENT, a README in each folder there, and what a reader looks for on a page."""

import re
import subprocess

# How many columns a line of code may have, but for what stands in a text or a pattern.
WIDTH = 140
TEXTS = r'"(?:[^"\\\n]|\\.)*"|\'(?:[^\'\\\n]|\\.)*\'|`(?:[^`\\]|\\.)*`'
COMMENTS = r"/\*.*?\*/|//[^\n]*"
PATTERN = r"(?:^|(?<=[=(,:\[ ]))/[^/* ].*/"
MANUALS = {"Programming": "PM", "Operations": "OM"}
SECTION = re.compile(r'(Programming|Operations) Manual,\s+((?:"[^"]+"(?: and )?)+)')
# Folders that are no reader's, and the one whose folders have a README each.
WITHOUT_README = {".ci", ".github", "crates"}
# What a reader looks for on a page, each as it is found there.
PARTS = {
    "README.md": {
        "the name and the kind of machine": r"laboratory for the Royal McBee LGP-30",
        "a recording of the monitor": r"\]\(docs/recording\.svg\)",
        "a picture of the page": r"\]\(docs/page-[\w-]+\.png\)",
        "a link that holds a program": r"#script=",
        "what runs on which system": r"^\| the page \| tested \| not tried \|",
        "which toolchain the proofs need": r"`logic \w+`",
        "what is not proved": r"^## What is not proved",
        "the version, its authors and what comes next": r"^Version [\d.]+, by .*CHANGELOG",
        "the licence": r"^Licence: ",
    },
    "docs/COMPARISON.md": {
        "the version of SIMH, its year, and what was not tried": r"SIMH 3\.8-1 of 2009.*\. Open SIMH 4 was not tried",
        "where SIMH is better": r"^## Where SIMH is better\n\n(?:\|.*\n){9,}",
        "instructions of the host": r"^\| host instructions per order \|",
        "what comparing found": r"^## What comparing them found",
    },
    "docs/PROVED.md": {
        "what has to be believed": r"^## What you have to believe",
        "that numbers of lines overlap": r"The numbers overlap",
        "a row of the table of orders in three places": r"^\| source \| row \|\n(?:\|.*\n){4}",
        "processor minutes": r"processor minutes",
        "all promises together": r"^\| All promises together, each line counted once \|",
    },
    "docs/DECISIONS.md": {"its subject": r"This page lists each form .* that is different in the code"},
    "docs/EMBEDDING.md": {
        "pkg-config": r"pkg-config --cflags --libs lgp30",
        "many scripts at once": r"^## Many at once",
        "more than one computer": r"check_submissions\.py",
        "how long a cluster takes, and when that was measured": r"^On [\d-]{10}, .* short submissions took [\d.]+ .* and [\d.]+ by two",
        "a machine in a page": r"<lgp-machine src=",
    },
    "CONTRIBUTING.md": {
        "when made files are committed": r"are committed for a release, or when a check needs them",
        "the terms of contributions": r"contributions come under the same terms",
        "what a commit's message says": r"^Make small commits",
    },
    "teaching/lessons/README.md": {"five steps in Work": r"^## Five steps in Work", "a view for a projector": r"`Projector`"},
    "teaching/tasks/README.md": {
        "how a class is checked on any system": r"node page/check_task\.mjs .*\.source",
        "that a folder can be dropped on the page": r"drop the folder of the class",
    },
}


def sections_in(specs):
    """The sections of the manuals that definitions name."""
    found = set()
    for file in specs:
        text = re.sub(r"\n *-- *", " ", file.read_text())
        found |= {(MANUALS[manual], name) for manual, names in SECTION.findall(text) for name in re.findall(r'"([^"]+)"', names)}
    return found


def unlike_sections(top):
    """Where MACHINE names other sections of the manuals than the definitions."""
    wanted = sections_in(sorted(top.glob("crates/*/specs/*.antt")))
    for name in ("docs/MACHINE.md", "docs/de/MACHINE.md"):
        got = set(re.findall(r'\*\*(PM|OM)\*\*, ["„]([^"“]+)["“]', (top / name).read_text()))
        yield from (f"{name}: it does not name {manual}, '{section}', as the definitions do" for manual, section in sorted(wanted - got))
        yield from (f"{name}: no definition names {manual}, '{section}'" for manual, section in sorted(got - wanted))


def unlisted_documents(top):
    """The documents that no list of documents has."""
    for listing in ("docs/README.md", "docs/de/README.md"):
        page = top / listing
        listed = set(re.findall(r"\]\((\w+\.md)", page.read_text()))
        there = {file.name for file in page.parent.glob("*.md")} - {page.name}
        yield from (f"{listing}: {name} is not listed" for name in sorted(there - listed))


def unexplained_entries(top):
    """What lies at the top and is not in DEVELOPMENT's layout, and the folders there without a README."""
    layout = (top / "docs/DEVELOPMENT.md").read_text().partition("## Layout\n")[2].partition("\n\nThe crates")[0]
    names = {name.partition("/")[0] for column in re.findall(r"^    (\S.*?)(?:  |$)", layout, re.M) for name in column.split(", ")}
    entries = subprocess.run(["git", "-C", top, "ls-tree", "--name-only", "HEAD"], capture_output=True, text=True).stdout.split()
    for name in entries:
        if name not in names:
            yield f"docs/DEVELOPMENT.md: the layout does not name {name}"
        if (top / name).is_dir() and name not in WITHOUT_README and not (top / name / "README.md").is_file():
            yield f"{name} has no README.md"


def missing_parts(top):
    """What a reader would look for on a page and does not find there."""
    for name, parts in PARTS.items():
        text = (top / name).read_text()
        yield from (f"{name}: it does not say {what}" for what, pattern in parts.items() if not re.search(pattern, text, re.M))


def wide_lines(top):
    """The lines of JavaScript and style sheets that have too many columns without their texts."""
    files = subprocess.run(["git", "-C", top, "ls-files", "*.mjs", "*.css"], capture_output=True, text=True).stdout.split()
    for name in files:
        whole = (top / name).read_text()
        left = re.sub(f"{TEXTS}|({COMMENTS})", lambda found: found[1] or "\n" * found[0].count("\n"), whole, flags=re.S)
        for at, (line, rest) in enumerate(zip(whole.split("\n"), left.split("\n")), 1):
            alone = re.sub(f"{TEXTS}|{PATTERN}", "", line)
            if min(len(rest), len(alone)) > WIDTH:
                yield f"{name}:{at}: a line of {len(line)} columns; {WIDTH} is most"


def gaps(top):
    """All that is not complete or too wide."""
    return [*unlike_sections(top), *unlisted_documents(top), *unexplained_entries(top), *missing_parts(top), *wide_lines(top)]
