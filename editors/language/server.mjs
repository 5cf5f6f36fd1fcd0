// @ts-check
// A language server: it takes the messages of the Language Server Protocol, and gives those that answer them. What it says of a source the
// monitor has said.
import { Misshapen } from "../shapes.mjs";
import { Document } from "./document.mjs";
import { Diagnostics, Mendings, QUICK_FIX, sentenceOf } from "./faults.mjs";
import { hoverOf } from "./hover.mjs";
import { Laboratory, TooLong } from "./laboratory.mjs";
import { layoutOf } from "./layout.mjs";
import { PARAMETERS } from "./requests.mjs";
import { signatureOf } from "./signature.mjs";
import { LEGEND, tokensOf } from "./tokens.mjs";
import { areAlike, askedAt, declaredAt, nameIn, usesOf } from "./words.mjs";

const [
    PARSE, INVALID, NO_METHOD, BAD_PARAMS, INTERNAL, NOT_YET, FAILED, CANCELLED,
] = [-32700, -32600, -32601, -32602, -32603, -32002, -32803, -32800];
const [KEYWORD, VARIABLE, SYMBOL] = [14, 6, 13];
const [TEXT, WRITTEN] = [1, 3];
/** How many columns the place and the digits of a line have in a listing. */
const LISTED = 13;

const CAPABILITIES = {
    positionEncoding: "utf-16", textDocumentSync: { openClose: true, change: 2 }, hoverProvider: true,
    completionProvider: { triggerCharacters: [" ", "\t"] }, definitionProvider: true, referencesProvider: true,
    documentHighlightProvider: true, documentSymbolProvider: true, renameProvider: { prepareProvider: true }, inlayHintProvider: true,
    documentFormattingProvider: true,
    documentRangeFormattingProvider: true, codeActionProvider: { codeActionKinds: [QUICK_FIX] },
    semanticTokensProvider: { legend: LEGEND, full: true },
    signatureHelpProvider: { triggerCharacters: [" ", "\t"] },
};

/** Whether a kind of code actions is another one, or a part of that. */
const isOfKind = (kind, wanted) => wanted === "" || kind === wanted || kind.startsWith(`${wanted}.`);

/** A place and its digits, as far as there are any. */
const listed = (...parts) => parts.filter((part) => part !== null).join(" ");

/** Lets what waits be done. */
const letOthersGo = () => new Promise((resume) => { setTimeout(resume); });

/** An error of the protocol. */
class Failure extends Error {
    constructor(code, message) {
        super(message);
        this.code = code;
    }
}

export class LanguageServer {
    #laboratory;
    #diagnostics;
    #mendings;
    #send;
    #ended;
    #state = "new";
    /** What the client takes and wants. */
    #takesVersions = false;
    #showsHints = true;
    /** The requests that are answered later, and those of them that are taken back. */
    #later = new Set();
    #cancelled = new Set();
    #methods = this.#table();
    #documents = new Map();
    /** What the monitor has said of documents as they are. */
    #readings = new WeakMap();
    #stale = new Set();
    /** @type {any} */
    #timer = null;

    /**
     * A server over what opens a session; `send` is given its messages, `ended` a status where it is told to end, and `linkOf` says where a
     * kind of faults is described, or null.
     * @param {() => import("../../libraries/javascript/session.mjs").Session} openSession
     * @param {(message: object) => void} send
     * @param {(status: number) => void} ended
     * @param {(kind: string) => string | null} linkOf
     */
    constructor(openSession, send, ended = () => {}, linkOf = () => null) {
        this.#laboratory = new Laboratory(openSession);
        this.#diagnostics = new Diagnostics(this.#laboratory, linkOf);
        this.#mendings = new Mendings(this.#laboratory);
        this.#send = (message) => send({ jsonrpc: "2.0", ...message });
        this.#ended = ended;
    }

    /** Takes a message. */
    take(message) {
        const { id, method, params } = message ?? {};
        if (typeof method !== "string") return id === undefined || !("result" in message || "error" in message)
            ? this.#fail(id ?? null, new Failure(INVALID, "a message is no request: it wants a method"))
            : undefined;
        const isNotice = id === undefined;
        try {
            const result = this.#workFor(method, isNotice)(this.#checked(method, params ?? {}), id);
            if (result instanceof Promise) return this.#answerLater(id, result);
            if (!isNotice) this.#send({ id, result: result ?? null });
        } catch (failure) {
            if (!isNotice) this.#fail(id, failure);
            else this.#send({ method: "window/logMessage", params: { type: 1, message: `${method}: ${failure.message}` } });
        }
    }

    /** Answers a request when its answer is there, unless it is taken back before. */
    #answerLater(id, coming) {
        this.#later.add(id);
        return coming.then((result) => this.#send({ id, result: result ?? null }), (failure) => this.#fail(id, failure)).finally(() => {
            this.#later.delete(id);
            this.#cancelled.delete(id);
        });
    }

    /** Lets other messages be taken. Throws where the request was taken back by one of them. */
    async #pause(id) {
        await letOthersGo();
        if (this.#cancelled.has(id)) throw new Failure(CANCELLED, "cancelled");
    }

    /** The parameters of a method, which have what they are to have. */
    #checked(method, params) {
        return Object.hasOwn(PARAMETERS, method) ? PARAMETERS[method](params, "") : params;
    }

    /** Tells of bytes that are no message. */
    refuse(why) {
        this.#fail(null, new Failure(PARSE, why));
    }

    /** No more messages come. */
    end() {
        this.#ended(this.#state === "shut" ? 0 : 1);
    }

    #fail(id, failure) {
        const code = failure instanceof Misshapen ? BAD_PARAMS : typeof failure.code === "number" ? failure.code : INTERNAL;
        const message = code === INTERNAL ? `an error of the language server itself: ${failure.message}` : failure.message;
        this.#send({ id, error: { code, message } });
    }

    #workFor(method, isNotice) {
        if (method === "exit") return () => this.end();
        if (this.#state === "new" && method !== "initialize") throw new Failure(NOT_YET, `${method} came before initialize`);
        if (this.#state === "open" && method === "initialize") throw new Failure(INVALID, "initialize has come already");
        if (this.#state === "shut") throw new Failure(INVALID, `${method} came after shutdown`);
        if (Object.hasOwn(this.#methods, method)) return this.#methods[method];
        if (isNotice) return () => {};
        throw new Failure(NO_METHOD, `there is no method ${method} here`);
    }

    /**
     * What is done for each method.
     * @returns {import("../types/language.js").Methods}
     */
    #table() {
        return { ...this.#life(), ...this.#questions(), ...this.#changes() };
    }

    #life() {
        return {
            initialize: ({ capabilities, initializationOptions }) => {
                this.#state = "open";
                this.#takesVersions = capabilities?.workspace?.workspaceEdit?.documentChanges === true;
                this.#setUp(initializationOptions);
                return { capabilities: CAPABILITIES, serverInfo: { name: "lgp30-language-server" } };
            },
            shutdown: () => { this.#state = "shut"; },
            "workspace/didChangeConfiguration": ({ settings }) => this.#setUp(settings?.lgp30),
            "$/cancelRequest": ({ id }) => { if (this.#later.has(id)) this.#cancelled.add(id); },
            "textDocument/didOpen": ({ textDocument: { uri, text, version } }) => this.#put(new Document(uri, text, version)),
            "textDocument/didChange": ({ textDocument: { uri, version }, contentChanges }) => this.#put(
                this.#document(uri).changed(contentChanges, version)
            ),
            "textDocument/didClose": ({ textDocument: { uri } }) => {
                this.#documents.delete(uri);
                this.#send({ method: "textDocument/publishDiagnostics", params: { uri, diagnostics: [] } });
            },
        };
    }

    /** Takes what a client has set: whether places and digits are shown beside lines. */
    #setUp(settings) {
        if (typeof settings?.inlayHints === "boolean") this.#showsHints = settings.inlayHints;
    }

    #questions() {
        return {
            "textDocument/semanticTokens/full": ({ textDocument: { uri } }) => {
                const { document, source } = this.#read(uri);
                return { data: tokensOf(document, source) };
            },
            "textDocument/hover": (given) => {
                const { document, source, line, byte } = this.#at(given);
                return hoverOf(this.#laboratory, document, source, line, byte);
            },
            "textDocument/completion": (given) => this.#completions(this.#at(given)),
            "textDocument/signatureHelp": (given) => {
                const { document, line, byte } = this.#at(given);
                return signatureOf(this.#laboratory, document, line, byte);
            },
            "textDocument/definition": (given) => {
                const { document, source, line, byte } = this.#at(given);
                const declared = declaredAt(line, byte);
                return declared === null ? null : { uri: document.uri, range: document.rangeOf(declared, source.line(declared).label) };
            },
            "textDocument/references": (given) => {
                const { document, uses } = this.#uses(given, given.context?.includeDeclaration === true);
                return uses.map(({ line, span }) => ({ uri: document.uri, range: document.rangeOf(line, span) }));
            },
            "textDocument/documentHighlight": (given) => {
                const { document, declared, uses } = this.#uses(given, true);
                return uses.map(({ line, span }) => ({ range: document.rangeOf(line, span), kind: line === declared ? WRITTEN : TEXT }));
            },
            "textDocument/documentSymbol": ({ textDocument: { uri } }) => {
                const { document, source } = this.#read(uri);
                return source.lines.filter(({ label }) => label !== null).map(({ line, label, place, digits }) => (
                    {
                        name: document.textOf(line, label), detail: listed(place, digits), kind: SYMBOL, range: document.lineRange(line),
                        selectionRange: document.rangeOf(line, label),
                    }));
            },
            "textDocument/inlayHint": (given) => this.#hints(given),
        };
    }

    #hints({ textDocument: { uri }, range }) {
        const { document, source } = this.#read(uri);
        if (!this.#showsHints) return [];
        const [from, to] = [document.placeOf(range.start).number, document.placeOf(range.end).number];
        return source.lines.slice(from - 1, to).filter(({ digits }) => digits !== null).map(({ line, place, digits }) => (
            { position: document.lineRange(line).start, label: `${place} ${digits}`.padEnd(LISTED), paddingRight: true }));
    }

    #changes() {
        return {
            "textDocument/prepareRename": (given) => {
                const { document, declared, number, byte, uses } = this.#uses(given, true);
                const use = uses.find(({ line, span: [from, to] }) => line === number && from <= byte && byte <= to);
                return use === undefined
                    ? null
                    : {
                        range: document.rangeOf(number, use.span), placeholder: nameIn(document, this.#read(document.uri).source, declared),
                    };
            },
            "textDocument/rename": (given) => this.#renamed(given),
            "textDocument/formatting": ({ textDocument: { uri } }) => this.#laidOut(uri, 1, Infinity),
            "textDocument/rangeFormatting": ({ textDocument: { uri }, range }) => {
                const document = this.#document(uri);
                return this.#laidOut(uri, document.placeOf(range.start).number, document.placeOf(range.end).number);
            },
            "textDocument/codeAction": (given, id) => this.#actions(given, id),
        };
    }

    /**
     * What mends the faults within a range, as code actions: after each line others have their turn, since a source may be long.
     * @returns {Promise<import("../types/language.js").CodeAction[]>}
     */
    async #actions({ textDocument: { uri }, range, context: { only } = /** @type {{ only?: string[] }} */ ({}) }, id) {
        if (only !== undefined && !only.some((kind) => isOfKind(QUICK_FIX, kind))) return [];
        const { document, source } = this.#read(uri);
        const actions = [];
        for (const line of Mendings.faultyIn(document, source, range)) {
            const diagnostics = [this.#diagnostics.of(document, source, line)];
            const found = this.#mendings.of(document, source, line);
            actions.push(...found.map(
                ({ title, edit }, at) => ({
                    title, kind: QUICK_FIX, diagnostics, ...(at === 0 ? { isPreferred: true } : {}), edit: this.#edit(document, [edit]),
                })
            ));
            await this.#pause(id);
        }
        return actions;
    }

    /**
     * Edits of a document as it is now, as the client takes them.
     * @param {Document} document
     * @param {import("../types/language.js").TextEdit[]} edits
     * @returns {import("../types/language.js").WorkspaceEdit}
     */
    #edit({ uri, version }, edits) {
        return this.#takesVersions
            ? { documentChanges: [{ textDocument: { uri, version: version ?? null }, edits }] }
            : { changes: { [uri]: edits } };
    }

    #document(uri) {
        const document = this.#documents.get(uri);
        if (document === undefined) throw new Failure(BAD_PARAMS, `${uri} is not open`);
        return document;
    }

    /** Keeps a document as it is now. Its faults are told when no further message waits. */
    #put(document) {
        this.#documents.set(document.uri, document);
        this.#stale.add(document.uri);
        this.#timer ??= setTimeout(() => this.#tell());
    }

    #tell() {
        this.#timer = null;
        for (const uri of this.#stale) {
            this.#stale.delete(uri);
            const document = this.#documents.get(uri);
            if (document !== undefined) this.#send({
                method: "textDocument/publishDiagnostics",
                params: {
                    uri, ...(document.version === undefined ? {} : { version: document.version }), diagnostics: this.#faultsIn(document),
                },
            });
        }
    }

    #faultsIn(document) {
        try {
            return this.#diagnostics.all(document, this.#reading(document));
        } catch (failure) {
            if (failure instanceof TooLong) return [this.#diagnostics.ofWhole(document, failure)];
            this.#send({ method: "window/logMessage", params: { type: 1, message: failure.message } });
            return [];
        }
    }

    /** What the monitor says of a document. */
    #reading(document) {
        if (!this.#readings.has(document)) this.#readings.set(document, this.#readNow(document));
        const source = this.#readings.get(document);
        if (source instanceof TooLong) throw source;
        return source;
    }

    /** What the monitor says now, or why the source is too long. */
    #readNow(document) {
        try {
            return this.#laboratory.read(document.sourceLines());
        } catch (failure) {
            if (!(failure instanceof TooLong)) throw failure;
            return failure;
        }
    }

    #read(uri) {
        const document = this.#document(uri);
        return { document, source: this.#reading(document) };
    }

    /** What is at a position. */
    #at({ textDocument: { uri }, position }) {
        const { document, source } = this.#read(uri);
        const { number, byte } = document.placeOf(position);
        return { document, source, number, byte, line: source.line(number) };
    }

    /** Where the label at a position is named; nowhere where there is none. */
    #uses(given, isDeclared) {
        const at = this.#at(given);
        const declared = declaredAt(at.line, at.byte);
        return { ...at, declared, uses: declared === null ? [] : usesOf(at.source, declared, isDeclared) };
    }

    #completions({ document, source, number, byte, line }) {
        const asked = askedAt(line, byte);
        if (asked === null) return [];
        const range = document.rangeOf(number, [asked.span[0], Math.max(asked.span[1], byte)]);
        if (asked.kind === "operation") {
            return [...this.#laboratory.operations.values()].map((record) => (
                {
                    label: record.get("operation"), kind: KEYWORD, detail: record.get("operands"),
                    documentation: `${record.get("does")}, as in ${record.get("example")}`,
                    textEdit: { range, newText: record.get("operation") },
                }));
        }
        const operation = line.operation === null ? null : document.textOf(number, line.operation);
        if (operation !== null && this.#laboratory.operations.has(operation) && !this.#laboratory.takesName(operation)) return [];
        return source.lines.filter(({ label }) => label !== null).map(({ line: at, label, place, digits }) => {
            const name = document.textOf(at, label);
            return {
                label: name, kind: VARIABLE, detail: listed(place, digits), documentation: document.line(at).trim(),
                textEdit: { range, newText: name },
            };
        });
    }

    /** The edits that give a label another name. They are refused where a word or a fault of the source would be another one. */
    #renamed({ newName, ...given }) {
        const { document, source, declared, uses } = this.#uses(given, true);
        if (declared === null) throw new Failure(FAILED, "there is no label here");
        const edits = uses.map(({ line, span }) => ({ range: document.rangeOf(line, span), newText: newName }));
        const after = document.edited(edits);
        const tried = this.#reading(after);
        if (this.#areAlike(source, tried)) return this.#edit(document, edits);
        // a line that had nothing but the label may be there no more
        const faulty = [tried.line(declared), ...tried.faulty()].filter((line) => line !== undefined).find(
            ({ line, fault }) => fault !== null && source.line(line)?.fault?.kind !== fault.kind
        );
        const others = "the words would be others than before";
        throw new Failure(FAILED, `${newName}: ${faulty === undefined ? others : sentenceOf(this.#laboratory, after, tried, faulty)}`);
    }

    #areAlike(one, other) {
        return areAlike(one, other, (kind) => this.#laboratory.isMarked(kind));
    }

    #laidOut(uri, from, to) {
        const { document, source } = this.#read(uri);
        const edits = layoutOf(document, source, from, to);
        if (!this.#areAlike(source, this.#reading(document.edited(edits)))) throw new Failure(
            FAILED, "in columns the words or the faults would be others than before"
        );
        return edits;
    }
}
