// Each grammar divides each source of the repository as the language server does.
import assert from "node:assert/strict";
import { execFileSync, spawnSync } from "node:child_process";
import { copyFileSync, existsSync, mkdtempSync, readFileSync, readdirSync, rmSync, writeFileSync } from "node:fs";
import { createRequire } from "node:module";
import { tmpdir } from "node:os";
import { join } from "node:path";
import { after, test } from "node:test";
import { fileURLToPath } from "node:url";
import { Document } from "../../language/document.mjs";
import { Laboratory } from "../../language/laboratory.mjs";
import { LEGEND, wordsIn } from "../../language/tokens.mjs";
import { openSession } from "../client.mjs";
import { textMateTokens } from "./text_mate.mjs";

const editors = fileURLToPath(new URL("../..", import.meta.url));
const clients = join(editors, "tests/clients");
const top = join(editors, "..");
const folder = mkdtempSync(join(tmpdir(), "grammars-"));
after(() => rmSync(folder, { recursive: true }));

/** The sources of the repository, as copies by their numbers. */
const sources = ["examples", "teaching/tasks"].flatMap((part) => readdirSync(
    join(top, part), { recursive: true }
).filter((name) => name.endsWith(".source")).map((name) => join(top, part, name)));
const copies = sources.map((source, at) => {
    const copy = join(folder, `${at}.source`);
    copyFileSync(source, copy);
    return copy;
});
/** What the sources have nothing of. */
const RARE = [
    "; head", "", "b\tb b ;b", " -t\tb+1", " p =;", " p =a ; a", " p ;a", "w word fgjkqw00", " frac -.5;", " int -1 0", " u *-2", "only",
    "   ; far", " end b", "",
].join("\n");
sources.push("what the sources have nothing of");
copies.push(join(folder, "rare.source"));
writeFileSync(copies.at(-1), RARE);

const laboratory = new Laboratory(openSession);

/** The rows of a source as the server has them, and whether a row is of a line without a fault: of others the grammars know nothing. */
function served(text) {
    const document = new Document("", text, 0);
    const source = laboratory.read(document.sourceLines());
    const rows = source.lines.flatMap((line) => wordsIn(line).map(
        ({ span: [from, to], type }) => `${line.line} ${from} ${to - from} ${LEGEND.tokenTypes[type]}`
    ));
    return { rows, isRight: (row) => source.line(parseInt(row)).fault === null };
}

/** What the grammars call what the server calls so. */
const KINDS = {
    lgp30Label: "function", lgp30Named: "keyword", lgp30Others: "keyword", lgp30Name: "variable", lgp30Number: "number",
    lgp30Rest: "number", lgp30Comment: "comment",
    "font-lock-function-name-face": "function", "font-lock-keyword-face": "keyword", "font-lock-variable-name-face": "variable",
    "font-lock-constant-face": "number", "font-lock-comment-face": "comment",
    "Token.Name.Function": "function", "Token.Keyword": "keyword", "Token.Name.Variable": "variable", "Token.Literal.Number": "number",
    "Token.Comment.Single": "comment",
    "entity.name.function.label.lgp30": "function", "keyword.control.operation.lgp30": "keyword", "variable.other.lgp30": "variable",
    "constant.numeric.lgp30": "number", "comment.line.semicolon.lgp30": "comment",
    "hljs-title": "function", "hljs-keyword": "keyword", "hljs-variable": "variable", "hljs-number": "number", "hljs-comment": "comment",
};

const named = (rows) => rows.filter((row) => row !== "").map((row) => row.replace(/\S+$/, (kind) => KINDS[kind] ?? kind)).sort();

/** Compares what a grammar has written for each copy, or gives of its text, with what the server says. */
function compared(rowsOf) {
    assert.ok(copies.length > 39);
    for (const [at, copy] of copies.entries()) {
        const text = readFileSync(copy, "utf8");
        const { rows, isRight } = served(text);
        assert.deepEqual(named(rowsOf(copy, text)).filter(isRight), rows.filter(isRight).sort(), sources[at]);
    }
}

const written = (copy) => readFileSync(`${copy}.tokens`, "utf8").split("\n");
const isThere = (command) => spawnSync(command, ["--version"]).status === 0;

test("the grammar for Vim, in Neovim and in Vim", { skip: !isThere("nvim") || !isThere("vim") }, () => {
    const script = join(folder, "tokens.vim");
    writeFileSync(
        script,
        [
            `set runtimepath^=${join(editors, "vim")}`, `source ${join(clients, "tokens.vim")}`, "syntax on",
            ...copies.flatMap((copy) => [`edit ${copy}`, "set filetype=lgp30", `call Tokens('${copy}.tokens')`]), "quitall!", "",
        ].join("\n")
    );
    for (const [program, ...words] of [
        ["nvim", "--headless", "-u", "NONE", "-i", "NONE"], ["vim", "-es", "-N", "-u", "NONE", "-i", "NONE"],
    ]) {
        execFileSync(program, [...words, "-S", script], { stdio: "ignore" });
        compared(written);
        for (const copy of copies) rmSync(`${copy}.tokens`);
    }
});

test("the grammar for Emacs", { skip: !isThere("emacs") }, () => {
    execFileSync(
        "emacs", ["--batch", "-Q", "-L", join(editors, "emacs"), "-l", join(clients, "tokens.el"), "-f", "tokens-write", ...copies],
        { stdio: "ignore" }
    );
    compared(written);
});

test("the grammar for Pygments", { skip: spawnSync("/usr/bin/python3", ["-c", "import pygments"]).status !== 0 }, () => {
    execFileSync(
        "/usr/bin/python3", [join(clients, "tokens.py"), join(editors, "pygments/lgp30.py"), ...copies],
        { env: { ...process.env, PYTHONDONTWRITEBYTECODE: "1" } }
    );
    compared(written);
});

test("the grammar for TextMate, which VS Code has", () => {
    const grammar = JSON.parse(readFileSync(join(editors, "vscode/lgp30.tmLanguage.json"), "utf8"));
    compared((copy, text) => textMateTokens(grammar, text));
});

const HIGHLIGHT = "/usr/share/nodejs/highlight.js/lib/highlight.js";

test("the grammar for highlight.js", { skip: !existsSync(HIGHLIGHT) }, () => {
    const hljs = createRequire(import.meta.url)(HIGHLIGHT);
    hljs.registerLanguage("lgp30", createRequire(import.meta.url)(join(editors, "highlight/lgp30.js")));
    compared((copy, text) => rowsOfHtml(hljs.highlight("lgp30", text).value));
});

/** A row for each marked piece of a text as highlight.js writes it. */
function rowsOfHtml(html) {
    const rows = [];
    const open = [];
    let [line, column] = [1, 0];
    for (const [, kind, end, text] of html.matchAll(/<span class="([^"]*)">|(<\/span>)|(&\w+;|[^<&])/g)) {
        if (kind !== undefined) open.push({ kind, line, column, length: 0 });
        else if (end !== undefined) {
            const { kind: shown, line: at, column: from, length } = open.pop();
            rows.push(`${at} ${from} ${length} ${shown}`);
        } else {
            for (const each of open) each.length += 1;
            [line, column] = text === "\n" ? [line + 1, 0] : [line, column + 1];
        }
    }
    return rows;
}
