// The language server, asked at random: its faults are those that lgp_lab finds, and what it changes changes no word.
import { spawnSync } from "node:child_process";
import { mkdtempSync, rmSync, writeFileSync } from "node:fs";
import { tmpdir } from "node:os";
import { join } from "node:path";
import { answerSource, bytesOf, textOf } from "../../../libraries/javascript/session.mjs";
import { module } from "../client.mjs";
import { Peer, sources, wants } from "./chance.mjs";

const URI = "file:///random.lgp30";
const PIECES = [
    "b ", "two", "\n", "\r\n", "\r", "\t", " ", ";", "z", "end", "\u00e4", "\u{1d49c}", "\ud800", ".", "\n.\n", " word 00000002\n",
    " frac .5\n", "=", "a z\n", " org 0100\n", " int 1 30\n", "\r\r\n", " p =a\n", "\n end a\n", "x", "0300", " h two\n", "two z\n", "*-1",
    "+2", "fjgkqw",
];
const ALLOWED = new Set([-32602, -32803]);
const LINE_END = /\r\n|\n|\r/g;

/** What lgp_lab writes of a source: by the module in this process, or by a program. */
function assembled(text, program) {
    if (program === null) return textOf(answerSource(module, "asm", bytesOf(text)).replies);
    const folder = mkdtempSync(join(tmpdir(), "random-"));
    try {
        writeFileSync(join(folder, "random.source"), text);
        return spawnSync(program, ["asm", join(folder, "random.source")], { maxBuffer: 2 ** 28 }).stdout.toString();
    } finally {
        rmSync(folder, { recursive: true });
    }
}

/** The faults in what lgp_lab has written, or null where that is a listing. */
const faultsIn = (written) => (
    /^line \d+ \w+$/m.test(written.split("\n")[0]) ? written.trimEnd().split("\n").map((row) => row.replace(/^line /, "")) : null
);
/** The words of a listing: places and digits. */
const wordsIn = (written) => written.split("\n").map(
    (row) => /^\d{4} [0-9fgjkqw]{8}/.exec(row)?.[0]
).filter((it) => it !== undefined).join("\n");

/** Where the lines of an editor begin. */
const startsOf = (text) => [0, ...Array.from(text.matchAll(LINE_END), ({ 0: end, index }) => index + end.length)];
const lineEnd = (text, starts, line) => (
    line + 1 < starts.length ? starts[line + 1] - /(\r\n|\n|\r)$/.exec(text.slice(starts[line], starts[line + 1]))[0].length : text.length
);

function offsetOf(text, { line, character }) {
    const starts = startsOf(text);
    return line >= starts.length ? text.length : Math.min(starts[line] + character, lineEnd(text, starts, line));
}

/** A text after edits that do not overlap. */
function edited(text, edits) {
    const placed = edits.map(({ range, newText }) => [
        offsetOf(text, range.start), offsetOf(text, range.end), newText,
    ]).sort(([one], [other]) => other - one);
    return placed.reduce((after, [from, to, put]) => after.slice(0, from) + put + after.slice(to), text);
}

export const NAME = "lgp30-language-server.mjs";

/** One round: a document that is changed and asked about. */
export class Round {
    #chance;
    #peer;
    #counts;
    #program;
    #id = 0;
    #version = 0;
    #text = "";

    constructor(chance, counts, { program = null }) {
        this.#chance = chance;
        this.#counts = counts;
        this.#program = program;
        this.#peer = new Peer(NAME);
    }

    #count(what) {
        this.#counts.set(what, (this.#counts.get(what) ?? 0) + 1);
    }

    async play() {
        try {
            await this.#asks(
                "initialize", this.#chance.once(2) ? {} : { capabilities: { workspace: { workspaceEdit: { documentChanges: true } } } }
            );
            this.#peer.send({ jsonrpc: "2.0", method: "initialized", params: {} });
            this.#open(this.#chance.of([...sources.slice(0, 30), "", " z\n end\n"]));
            for (let deed = 0; deed < 60; deed += 1) await this.#deed();
            await this.#compared();
            await this.#asks("shutdown");
            this.#peer.send({ jsonrpc: "2.0", method: "exit" });
            await this.#peer.end();
            this.#oneResponseEach();
        } finally {
            this.#peer.kill();
        }
    }

    #open(text) {
        this.#count("documents");
        this.#text = text;
        this.#peer.send({
            jsonrpc: "2.0", method: "textDocument/didOpen",
            params: { textDocument: { uri: URI, languageId: "lgp30", version: ++this.#version, text } },
        });
    }

    async #deed() {
        const deeds = [
            () => this.#change(), () => this.#change(), () => this.#question(), () => this.#question(), () => this.#question(),
            () => this.#bad(), () => this.#format(), () => this.#rename(), () => this.#mend(),
        ];
        await this.#chance.of(deeds)();
        if (this.#chance.once(12)) await this.#compared();
        if (this.#chance.once(40)) this.#open(this.#chance.of(sources));
    }

    /** The response to a request; one that is an error is of those that a client may cause. */
    async #asks(method, params) {
        const id = this.#id++;
        this.#count("requests");
        const from = this.#peer.messages.length;
        this.#peer.send({ jsonrpc: "2.0", id, method, ...(params === undefined ? {} : { params }) });
        const response = await this.#peer.next((message) => message.id === id, from);
        wants(response !== null, `${method} has no response`);
        wants(
            response.error === undefined || ALLOWED.has(response.error.code),
            `${method} ${JSON.stringify(params)}: ${JSON.stringify(response.error)}`
        );
        return response;
    }

    /** A position in the text, or a little beside it. */
    #position() {
        const starts = startsOf(this.#text);
        const line = this.#chance.below(starts.length + 1);
        return { line, character: this.#chance.below(line < starts.length ? lineEnd(this.#text, starts, line) - starts[line] + 3 : 4) };
    }

    #range() {
        const [one, other] = [this.#position(), this.#position()];
        const isForward = one.line < other.line || (one.line === other.line && one.character <= other.character);
        return isForward ? { start: one, end: other } : { start: other, end: one };
    }

    #change() {
        const text = this.#chance.once(6) ? "" : this.#chance.of(PIECES);
        const point = this.#position();
        const range = this.#chance.once(4) ? this.#range() : { start: point, end: point };
        const isShort = offsetOf(this.#text, range.end) - offsetOf(this.#text, range.start) < 200;
        const change = isShort ? { range, text } : { range: { start: range.start, end: range.start }, text };
        this.#text = edited(this.#text, [{ range: change.range, newText: text }]);
        this.#count("changes");
        this.#peer.send({
            jsonrpc: "2.0", method: "textDocument/didChange",
            params: { textDocument: { uri: URI, version: ++this.#version }, contentChanges: [change] },
        });
    }

    #of(more = {}) {
        return { textDocument: { uri: URI }, ...more };
    }

    async #question() {
        const at = ["hover", "completion", "definition", "references", "documentHighlight", "prepareRename", "signatureHelp"];
        const within = ["inlayHint", "rangeFormatting"];
        const method = this.#chance.of([...at, ...within, "documentSymbol", "semanticTokens/full"]);
        const more = at.includes(method)
            ? { position: this.#position(), context: { includeDeclaration: true } }
            : within.includes(method)
            ? { range: this.#range() }
            : {};
        const { result } = await this.#asks(`textDocument/${method}`, this.#of(more));
        if (method === "semanticTokens/full") this.#sorted(result.data);
    }

    /** Tokens come in their order, and each is in its line. */
    #sorted(data) {
        const lengths = this.#text.split(LINE_END).map((line) => line.length);
        let [line, column] = [0, 0];
        for (let at = 0; at < data.length; at += 5) {
            const [down, right, length] = data.slice(at, at + 3);
            [line, column] = down > 0 ? [line + down, right] : [line, column + right];
            wants(
                down >= 0 && right >= 0 && length > 0 && column + length <= lengths[line],
                `a token is not in its line: ${line} ${column} ${length}`
            );
        }
        this.#count("lists of tokens");
    }

    /** A request that has not what it is to have is refused as that, and nothing else happens. */
    async #bad() {
        const bad = [
            ["textDocument/hover", undefined], ["textDocument/hover", {}],
            ["textDocument/hover", this.#of({ position: { line: -1, character: 0 } })],
            ["textDocument/inlayHint", this.#of({ range: { start: { line: 2, character: 0 }, end: { line: 1, character: 0 } } })],
            ["textDocument/rename", this.#of({ position: this.#position() })],
            ["textDocument/codeAction", this.#of({ range: { start: { line: 0, character: "1" }, end: { line: 0, character: 2 } } })],
            ["textDocument/hover", { textDocument: { uri: "file:///gone" }, position: { line: 0, character: 0 } }],
        ];
        const [method, params] = this.#chance.of(bad);
        const { error } = await this.#asks(method, params);
        wants(
            error?.code === -32602 && !/undefined|not a function/.test(error.message),
            `${method} ${JSON.stringify(params)} is refused as ${JSON.stringify(error)}`
        );
        this.#count("bad requests");
        if (this.#chance.once(3)) this.#peer.send({
            jsonrpc: "2.0", method: "textDocument/didChange",
            params: {
                textDocument: { uri: URI, version: this.#version },
                contentChanges: [{ range: { start: { line: 3, character: 0 }, end: { line: 1, character: 0 } }, text: "x" }],
            },
        });
    }

    /** No word and no fault is another one after edits, unless a mending was wanted. */
    #alike(before, after, what) {
        const [one, other] = [before, after].map((text) => assembled(text, this.#program));
        const [faults, others] = [faultsIn(one), faultsIn(other)];
        if (faults === null) wants(
            others === null && wordsIn(one) === wordsIn(other),
            `${what}: the words are others\n${JSON.stringify(before)}\n${JSON.stringify(after)}`
        );
        else wants(
            others !== null && others.length === faults.length,
            `${what}: the faults are others\n${JSON.stringify(before)}\n${JSON.stringify(after)}`
        );
    }

    async #format() {
        const { result, error } = await this.#asks("textDocument/formatting", this.#of());
        wants(error === undefined, `columns are refused: ${error?.message}\n${JSON.stringify(this.#text)}`);
        const after = edited(this.#text, result);
        this.#alike(this.#text, after, "columns");
        this.#count("columns");
        if (this.#chance.once(2)) return;
        this.#replace(after);
        const again = await this.#asks("textDocument/formatting", this.#of());
        wants(again.result.length === 0, `columns are put into columns again: ${JSON.stringify(again.result)}`);
    }

    #replace(text) {
        this.#text = text;
        this.#peer.send({
            jsonrpc: "2.0", method: "textDocument/didChange",
            params: { textDocument: { uri: URI, version: ++this.#version }, contentChanges: [{ text }] },
        });
    }

    /** The edits of an answer to what is changed. */
    #edits({ changes, documentChanges }) {
        if (documentChanges === undefined) return changes[URI];
        wants(
            documentChanges[0].textDocument.version === this.#version,
            `edits are of version ${documentChanges[0].textDocument.version}, and not of ${this.#version}`
        );
        return documentChanges[0].edits;
    }

    async #rename() {
        const newName = this.#chance.of(["pair", "two", "x1", "9a", "a b", "", "longlabel9", "z"]);
        const { result } = await this.#asks("textDocument/rename", this.#of({ position: this.#position(), newName }));
        if (!result) return;
        this.#alike(this.#text, edited(this.#text, this.#edits(result)), `renamed ${newName}`);
        this.#count("renames");
    }

    /** An action leaves fewer faults. */
    async #mend() {
        const { result } = await this.#asks("textDocument/codeAction", this.#of({ range: this.#range(), context: { diagnostics: [] } }));
        const before = faultsIn(assembled(this.#text, this.#program)) ?? [];
        for (const { title, edit } of result) {
            const after = edited(this.#text, this.#edits(edit));
            const left = faultsIn(assembled(after, this.#program)) ?? [];
            wants(left.length < before.length, `${title} mends nothing\n${JSON.stringify(this.#text)}\n${JSON.stringify(after)}`);
            this.#count("actions");
        }
    }

    /** The faults that are shown are those that lgp_lab finds. */
    async #compared() {
        const version = this.#version;
        const told = await this.#peer.next(
            ({ method, params }) => method === "textDocument/publishDiagnostics" && params.version === version, 0
        );
        wants(told !== null, "no faults are told");
        const lines = this.#text.split("\n");
        const shown = told.params.diagnostics.map(
            ({ code, range }) => `${this.#text.slice(0, offsetOf(this.#text, range.start)).split("\n").length} ${code}`
        );
        const found = faultsIn(assembled(this.#text, this.#program)) ?? [];
        // that of a missing end is for the line after the last one, which an editor need not have
        const placed = found.map((row) => (row.endsWith(" NoEnd") ? `${Math.min(parseInt(row), lines.length)} NoEnd` : row)).slice(0, 1000);
        wants(
            JSON.stringify(shown) === JSON.stringify(placed),
            `faults are others: ${shown.join(", ")} and of lgp_lab ${placed.join(", ")}\n${JSON.stringify(this.#text)}`
        );
        this.#count("comparisons with lgp_lab");
    }

    #oneResponseEach() {
        const ids = this.#peer.messages.filter(({ id, method }) => id !== undefined && method === undefined).map(({ id }) => id);
        wants(ids.length === this.#id && new Set(ids).size === ids.length, `${this.#id} requests have ${ids.length} responses`);
    }
}
