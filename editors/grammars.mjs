#!/usr/bin/env node
// @ts-check
// The words of the source language in the grammars of editors, that of the page among them. They are those of the monitor's
// `operations-data`.
//
//     node editors/grammars.mjs            fails where a grammar has other words
//     node editors/grammars.mjs --write    writes them
import { readFileSync, writeFileSync } from "node:fs";
import { Laboratory } from "./language/laboratory.mjs";
import { bytes } from "./module.mjs";
import { Session } from "../libraries/javascript/session.mjs";

const MADE = ["the words below are written by editors/grammars.mjs", "the words above are written by editors/grammars.mjs"];

const laboratory = new Laboratory(() => new Session(bytes));
const { operations } = laboratory;
/** The operations that may have the name of a label after them, and the others; longer ones first, since one may begin as another does. */
const takesName = (name) => laboratory.takesName(name);
const sorted = [...operations.keys()].sort((one, other) => other.length - one.length || (one < other ? -1 : 1));
const [named, others] = [sorted.filter(takesName), sorted.filter((name) => !takesName(name))];

const quoted = (words) => words.map((word) => `"${word}"`).join(", ");
const listed = (words) => words.map((word) => `"${word}"`).join(" ");

/** What each grammar has between the two lines that say so. */
const WORDS = {
    "vim/syntax/lgp30.vim": `let s:named = '\\%(${named.join("\\|")}\\)'\nlet s:others = '\\%(${others.join("\\|")}\\)'`,
    "emacs/lgp-mode.el": [
        `(defconst lgp-named '(${listed(named)})`, '  "Operations that may have the name of a label after them.")',
        `(defconst lgp-others '(${listed(others)})`, '  "Operations that have a number after them.")',
    ].join("\n"),
    "pygments/lgp30.py": `NAMED = (${quoted(named)})\nOTHERS = (${quoted(others)})`,
    "../page/language.mjs": [
        "/** The operations that are no letter of an order; and those of whose operands none is a name. */",
        `export const OTHERS = [${quoted([...operations.keys()].filter((name) => name.length > 1))}];`,
        `const WITHOUT_NAMES = new Set([${quoted([...operations.keys()].filter((name) => !takesName(name)))}]);`,
    ].join("\n"),
    "highlight/lgp30.js": `    const named = [${quoted(named)}];\n    const others = [${quoted(others)}];`,
};

/** A statement of the grammar for TextMate: a label perhaps, an operation of some, and its operands up to the end of the line. */
const statement = (words, operands) => ({
    begin: `^([^ \\t;][^ \\t\\r]*)?[ \\t]+(${words.join("|")})(?=[ \\t\\r]|$)`, end: "$",
    beginCaptures: { 1: { name: "entity.name.function.label.lgp30" }, 2: { name: "keyword.control.operation.lgp30" } },
    patterns: [{ include: "#comment" }, ...operands, { match: "[^ \\t\\r;][^ \\t\\r]*", name: "constant.numeric.lgp30" }],
});

const textMate = {
    name: "LGP-30", scopeName: "source.lgp30",
    patterns: [
        { include: "#comment" },
        statement(named, [{ match: "[a-z][^ \\t\\r]*", name: "variable.other.lgp30" }]),
        statement(others, []),
        { match: "^[^ \\t;\\r][^ \\t\\r]*", name: "entity.name.function.label.lgp30" },
    ],
    repository: { comment: { match: "(?:^|(?<=[ \\t]));[^\\r]*", name: "comment.line.semicolon.lgp30" } },
};

/** A text with other words between the two lines that say so. */
function withWords(text, words) {
    const [above, below] = MADE.map((made) => text.indexOf(made));
    const from = text.indexOf("\n", above) + 1;
    return text.slice(0, from) + words + text.slice(text.lastIndexOf("\n", below));
}

/** @type {Record<string, (text: string) => string>} */
const made = {
    "vscode/lgp30.tmLanguage.json": () => `${JSON.stringify(textMate, null, 4)}\n`,
    ...Object.fromEntries(Object.entries(WORDS).map(([file, words]) => [file, (text) => withWords(text, words)]))
};

for (const [file, make] of Object.entries(made)) {
    const path = new URL(file, import.meta.url);
    const before = file.endsWith(".json") && process.argv[2] === "--write" ? "" : readFileSync(path, "utf8");
    const after = make(before);
    if (process.argv[2] === "--write") writeFileSync(path, after);
    else if (after !== before) {
        console.error(`editors/grammars.mjs: ${file} has other words than the monitor's operations-data: --write writes them`);
        process.exitCode = 1;
    }
}
