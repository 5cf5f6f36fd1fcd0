// A client of the language server in this process: it sends a text and its changes, and waits for answers.
import assert from "node:assert/strict";
import { LanguageServer } from "../language/server.mjs";
import { openSession } from "./client.mjs";

export const SUM = [
    "first   b two           ; bring", "        a three", "        h sum", "        z", "two     int 2 30", "three   int 3 30",
    "sum     int 0 30", "        end first", "",
].join("\n");
export const URI = "file:///sum.source";

/** A client with a source that is open. */
export class Editor {
    #server;
    #id = 0;
    #waiting = [];
    messages = [];

    /** With a text that is open, and what the client can; without a text nothing is asked yet. */
    constructor(text, initialize = {}, linkOf = undefined) {
        this.#server = new LanguageServer(openSession, (message) => {
            this.messages.push(message);
            for (const wait of this.#waiting.splice(0)) wait();
        }, undefined, linkOf);
        if (text === undefined) return;
        this.asks("initialize", initialize);
        this.open(text);
    }

    open(text) {
        this.text = text;
        this.version = 1;
        this.tells("textDocument/didOpen", { textDocument: { uri: URI, languageId: "lgp30", version: 1, text } });
    }

    take(message) {
        this.#server.take(message);
    }

    tells(method, params) {
        this.take({ jsonrpc: "2.0", method, params });
    }

    /** The response to a request, which is given at once. */
    response(method, params) {
        const id = this.#id++;
        this.take({ jsonrpc: "2.0", id, method, params });
        return this.messages.find((message) => message.id === id);
    }

    /** The response to a request that is answered later. */
    async later(method, params) {
        const id = this.#id++;
        this.take({ jsonrpc: "2.0", id, method, params });
        for (;;) {
            const found = this.messages.find((message) => message.id === id);
            if (found !== undefined) return found;
            await new Promise((resume) => { this.#waiting.push(resume); });
        }
    }

    /** The number of the last request. */
    get lastId() {
        return this.#id - 1;
    }

    /** What mends the faults within a range. */
    async actions(within, context = { diagnostics: [] }) {
        const { result, error } = await this.later("textDocument/codeAction", { textDocument: { uri: URI }, range: within, context });
        assert.equal(error, undefined, error?.message);
        return result;
    }

    asks(method, params) {
        const { result, error } = this.response(method, params);
        assert.equal(error, undefined, error?.message);
        return result;
    }

    refused(method, params) {
        return this.response(method, params).error;
    }

    /** The answer about a place in the text, which is written as the text before it. */
    at(method, before, more = {}) {
        const lines = before.split("\n");
        return this.asks(
            `textDocument/${method}`,
            { textDocument: { uri: URI }, position: { line: lines.length - 1, character: lines.at(-1).length }, ...more }
        );
    }

    of(method, more = {}) {
        return this.asks(`textDocument/${method}`, { textDocument: { uri: URI }, ...more });
    }

    /** The faults of the text as it is now. */
    async faults() {
        for (;;) {
            const told = this.messages.findLast(
                ({ method, params }) => method === "textDocument/publishDiagnostics" && params.version === this.version
            );
            if (told !== undefined) return told.params.diagnostics;
            await new Promise((resume) => { this.#waiting.push(resume); });
        }
    }

    /** Changes the text by ranges, as an editor does. */
    change(...contentChanges) {
        this.version += 1;
        this.tells("textDocument/didChange", { textDocument: { uri: URI, version: this.version }, contentChanges });
    }
}

export const range = (line, from, to, last = line) => ({ start: { line, character: from }, end: { line: last, character: to } });

/** The lines of a text after edits, the last one first. */
export function edited(text, edits) {
    const lines = text.split("\n");
    for (const { range: { start, end }, newText } of [...edits].reverse()) lines.splice(
        start.line, end.line - start.line + 1,
        ...`${lines[start.line].slice(0, start.character)}${newText}${(lines[end.line] ?? "").slice(end.character)}`.split("\n")
    );
    return lines.join("\n");
}
