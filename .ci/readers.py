"""Where the records of the packages for JavaScript and Python are not those of docs/records.schema.json.

A field of a package's record is made of the key of its name, or of those listed here. Each field is made of keys that the schema has, or of
none if a list says so; each key of the schema is in some field, or is left out by name; and a field that is made of one key has the type of
that, and can be null where that can be. Such a record with a field too many or without one of its fields has to be found. What reads
records knows the keys of an account, and asks for no key that the schema does not have.
"""

import ast
import re

SWITCHES = ["bp32", "bp16", "bp8", "bp4", "transfer", "sixbit"]
PHASES = ["find", "take", "seek", "act"]
STORED = ["stored", "found", "found-order", "found-number", "left", "left-order", "left-number"]
PUT = ["put-by", "put-at", "put-clock", "put-ago", "put-over"]
LOST = ["before", "before-order", "before-number"]
PUT_THERE = {"order": ["by-order"], "at": ["by-at"], "clock": ["by-clock"], "lost": LOST}
RUN = {"orders": ["ran"], "end": ["ran"], "rule": ["ran"]}
PLACES = {"columns": ["at"], "kind": ["fault"], "wrong": [], "right": []}
# of a word, and of a line of a source, what the packages do not say there
OF_WORD = ["address", "label", "digits", "order", "number", "changed-by", "by-label"]
OF_LINE = ["label", "operation", "operands", "comment", "declared", "place", "digits", "first"]
# The records of each package, each with that of the schema, the fields that are not made of the key of their name, and the keys that are
# left out. A field without keys is made of other ones.
JAVASCRIPT = {
    "Panel": ("panel", {"reading": ["reader"], "down": SWITCHES}, []),
    "Run": ("run-end", {**RUN, "isMet": []}, []),
    "Rule": ("rule", {"number": ["rule"]}, []),
    "PutThere": ("origin", PUT_THERE, [*OF_WORD, "by-ago"]),
    "Gain": ("gain", {"address": ["word"]}, ["freedom"]),
    "Optimum": ("optimum", {"free": [], "performed": [], "namedByChanged": []}, []),
    "WordOptimum": ("word-optimum", {"address": ["word"], "own": ["sector"], "kind": ["freedom"], "reason": ["freedom-sentence"]}, []),
    "Word": ("word", {}, ["address", "label", "fraction", "changed"]),
    "Account": ("account", {
        "label": [], "order": ["order", "status"], "cost": [], "inRegister": [], "putThere": PUT, "stored": STORED,
        "printed": ["printed", "sign"], "notes": [],
    }, []),
    "Profile": ("profile", {"parts": [*PHASES, "elsewhere"], "places": []}, []),
    "Share": ("place", {"name": ["place"], "percent": []}, []),
    "Fault": ("source-line", PLACES, OF_LINE),
}
PYTHON = {
    "Panel": ("panel", {"reading": ["reader"], "switches": SWITCHES}, []),
    "Run": ("run-end", {**RUN, "is_met": []}, []),
    "Rule": ("rule", {"number": ["rule"]}, []),
    "PutThere": ("origin", {**PUT_THERE, "orders_ago": ["by-ago"]}, OF_WORD),
    "Gain": ("gain", {"address": ["word"]}, ["freedom"]),
    "Optimum": ("optimum", {"free": [], "performed": [], "named_by_changed": []}, []),
    "WordOptimum": ("word-optimum", {"by_sector": ["numbers"]}, ["word", "label", "sector", "freedom", "freedom-sentence"]),
    "Account": ("account", {
        "label": [], "order": ["order", "status"], "in_register": [], "put_there": PUT, "stored": STORED,
    }, ["sign"]),
    "Stored": ("account", {"address": ["stored"], "label": ["stored"], "before": STORED[1:4], "after": STORED[4:]}, None),
    "Profile": ("profile", {"places": []}, ["turns"]),
    "Place": ("place", {"address": ["place"], "label": []}, []),
    "Fault": ("source-line", PLACES, OF_LINE),
}
# what the panel's line for people has
NOT_OF_RECORDS = {"switches"}
# what is not made of records
OTHERS = {"Options", "DrumRow", "Drum", "Faults", "Listing", "Replies", "Source"}
# Where the key is null there is no such record, or the field is 0.
NEVER_NULL = {("PutThere", "clock"), ("Account", "passed"), ("Fault", "kind")}
# fields whose texts the packages read as something else
READ = {("Panel", "reading"), ("Profile", "turns")}
# the types of both languages as those of JSON; a type that is not here is that of another record or a list
TYPES = {
    "string": "string", "number": "integer", "bigint": "integer", "boolean": "boolean", "null": "null",
    "str": "string", "Word": "string", "int": "integer", "bool": "boolean", "None": "null",
}


def interfaces(top):
    """The records of the package for JavaScript: the type of each field."""
    text = re.sub(r"/\*.*?\*/", "", (top / "libraries/javascript/index.d.ts").read_text(), flags=re.S)
    bodies = re.findall(r"^export interface (\w+) \{(.*?)^\}", text, re.M | re.S)
    return {name: dict(re.findall(r"^ {4}(\w+): (.*);$", body, re.M)) for name, body in bodies}


def dataclasses(top):
    """The records of the package for Python: the type of each field."""
    found = {}
    for file in sorted(top.glob("libraries/python/condugwa/*.py")):
        for node in ast.parse(file.read_text()).body:
            if isinstance(node, ast.ClassDef) and any("dataclass" in ast.unparse(made) for made in node.decorator_list):
                fields = [inner for inner in node.body if isinstance(inner, ast.AnnAssign)]
                found[node.name] = {field.target.id: ast.unparse(field.annotation).strip("'") for field in fields}
    return found


def types_in(text):
    """A type of a package as types of JSON."""
    parts = [part.strip() for part in text.split("|")]
    return {TYPES.get(part, "string" if part.startswith('"') else "array") for part in parts}


def types_of(part, definitions):
    """The types of JSON that a part of the schema takes; a number that may be large is a number."""
    if "$ref" in part:
        name = part["$ref"].rpartition("/")[2]
        return {"integer"} if name == "large" else types_of(definitions[name], definitions)
    if "anyOf" in part:
        return set().union(*(types_of(inner, definitions) for inner in part["anyOf"]))
    if "type" in part:
        return {part["type"]} if isinstance(part["type"], str) else set(part["type"])
    words = part.get("enum", [part.get("const")])
    return {"null" if word is None else "boolean" if isinstance(word, bool) else "string" for word in words}


def key_of(field):
    """The key of a field's name."""
    return re.sub(r"[A-Z]", lambda found: f"-{found[0].lower()}", field).replace("_", "-")


def record_faults(name, fields, described, definitions):
    """Where the fields of a package's record are not those of the schema."""
    kind, made, left_out = described
    keys = definitions[kind]["properties"]
    sources = {field: made.get(field, [key_of(field)]) for field in fields}
    yield from (f"it has no field {field}" for field in sorted(made.keys() - fields.keys()))
    for field, parts in sources.items():
        yield from (f"{field}: {kind} has no key {key}" for key in parts if key not in keys)
        if len(parts) != 1 or parts[0] not in keys or (name, field) in READ or sum(parts[0] in other for other in sources.values()) > 1:
            continue
        ours, theirs = types_in(fields[field]), types_of(keys[parts[0]], definitions)
        if ours - {"null"} != theirs - {"null"} or (theirs > ours and (name, field) not in NEVER_NULL):
            yield f"{field} is {fields[field]}, and {parts[0]} of {kind} is {' or '.join(sorted(theirs))}"
    if left_out is not None:
        used = {key for parts in sources.values() for key in parts}
        yield from (f"no field has {key} of {kind}" for key in keys.keys() - used - set(left_out))
        yield from (f"{key} of {kind} is not left out, or there is none" for key in left_out if key in used or key not in keys)


def unfound(name, fields, described, definitions):
    """Which changes of a package's record would not be found."""
    changes = [{**fields, "paper": "string"}, *({key: fields[key] for key in fields if key != left} for left in fields)]
    for changed in changes:
        if not [*record_faults(name, changed, described, definitions)]:
            yield f"{' or '.join(changed.keys() ^ fields.keys())} could be there or not"


def reading_faults(top, definitions):
    """Where what reads records has other keys than the schema."""
    replies = (top / "libraries/javascript/replies.mjs").read_text()
    listed = set(re.findall(r'"([\w-]+)"', re.search(r"const ACCOUNT_KEYS = new Set\(\[(.*?)\]\)", replies, re.S)[1]))
    yield from (f"libraries/javascript/replies.mjs: ACCOUNT_KEYS: {key}" for key in listed ^ definitions["account"]["properties"].keys())
    known = {key for part in definitions.values() for key in part.get("properties", ())} | NOT_OF_RECORDS
    for file in [*top.glob("libraries/javascript/*.mjs"), *top.glob("libraries/python/condugwa/*.py")]:
        asked = re.findall(r'\b(?:valueOf|numberOf|standingOf|value_of|number_of|_standing)\(\w+, "([^"]+)"', file.read_text())
        yield from (f"{file.relative_to(top)}: no record has the key {key}" for key in asked if key not in known)


def faults(top, definitions):
    """All such differences, and changes that would not be found."""
    yield from reading_faults(top, definitions)
    packages = {"libraries/javascript/index.d.ts": (interfaces(top), JAVASCRIPT), "libraries/python/condugwa": (dataclasses(top), PYTHON)}
    for where, (records, described) in packages.items():
        yield from (f"{where}: {name} is not compared, or not there" for name in (records.keys() - OTHERS) ^ described.keys())
        for name in records.keys() & described.keys():
            known = (name, records[name], described[name], definitions)
            yield from (f"{where}: {name}: {fault}" for fault in [*record_faults(*known), *unfound(*known)])
