// A stand-in for VS Code in node: what its extensions use of it, and what it would show.
import { readFileSync } from "node:fs";
import { normalize } from "node:path/posix";

class Value {
    constructor(...parts) {
        this.parts = parts;
    }
}

/** A class of the editor whose parts have names. */
const valueOf = (...names) => class extends Value {
    constructor(...parts) {
        super(...parts);
        for (const [at, name] of names.entries()) this[name] = parts[at];
    }
};

export class Uri {
    constructor(scheme, path) {
        Object.assign(this, { scheme, fsPath: path, path });
    }

    static parse(text) {
        const [, scheme, path] = /^([a-z-]+):\/\/(.*)$/.exec(text);
        return new Uri(scheme, path);
    }

    static joinPath = ({ scheme, path }, ...names) => new Uri(scheme, normalize([path, ...names].join("/")));
    static file = (path) => new Uri("file", path);

    toString() {
        return `${this.scheme}://${this.path}`;
    }
}

class EventEmitter {
    #heard = [];
    event = (hear) => {
        this.#heard.push(hear);
        return { dispose: () => {} };
    };

    fire(value) {
        for (const hear of this.#heard) hear(value);
    }
}

class WorkspaceEdit {
    changes = [];

    set(uri, edits) {
        this.changes.push([uri.toString(), edits]);
    }
}

/** An editor with files by their addresses, and the module by which an extension knows it. */
export class StandInEditor {
    providers = {};
    shown = new Map();
    documents = [];
    events = Object.fromEntries([
        "onDidOpenTextDocument", "onDidChangeTextDocument", "onDidCloseTextDocument", "onDidChangeConfiguration",
    ].map((name) => [name, new EventEmitter()]));
    factory = null;
    commands = {};
    #waiting = [];

    constructor(files) {
        this.files = files;
        this.settings = {};
        this.errors = [];
        this.window = {
            activeTextEditor: undefined, showErrorMessage: async (text) => { this.errors.push(text); },
            showTextDocument: async (uri) => this.files.get(uri.toString()), showInformationMessage: async (text) => text,
        };
    }

    #languages() {
        const register = (kind) => (selector, provider, ...more) => {
            this.providers[kind] = { selector, provider, more };
            return { dispose: () => {} };
        };
        const kinds = [
            "Hover", "SignatureHelp", "CompletionItem", "Definition", "Reference", "DocumentHighlight", "DocumentSymbol", "InlayHints",
            "Rename", "DocumentFormattingEdit", "DocumentRangeFormattingEdit", "CodeActions", "DocumentSemanticTokens",
        ];
        const createDiagnosticCollection = () => ({
            set: (uri, faults) => { this.shown.set(uri.toString(), faults); this.#waiting.splice(0).forEach((wait) => wait()); },
            dispose: () => {},
        });
        return { createDiagnosticCollection, ...Object.fromEntries(kinds.map((kind) => [`register${kind}Provider`, register(kind)])) };
    }

    /** What `import "vscode"` gives. */
    get module() {
        const debug = {
            registerDebugConfigurationProvider: (type, provider) => { this.configurations = provider; return { dispose: () => {} }; },
            registerDebugAdapterDescriptorFactory: (type, factory) => { this.factory = factory; return { dispose: () => {} }; },
        };
        const readFile = async (uri) => {
            if (uri.scheme === "file" && !this.files.has(uri.toString())) return new Uint8Array(readFileSync(uri.fsPath));
            if (!this.files.has(uri.toString())) throw new Error("it cannot be opened");
            return new TextEncoder().encode(this.files.get(uri.toString()));
        };
        const fs = {
            readFile, createDirectory: async () => {},
            writeFile: async (uri, bytes) => { this.files.set(uri.toString(), new TextDecoder().decode(bytes)); },
            readDirectory: async (uri) => [...this.files.keys()].filter((name) => name.startsWith(`${uri}/`)).map((name) => [
                name.slice(`${uri}/`.length), 1,
            ]),
            delete: async (uri) => { if (!this.files.delete(uri.toString())) throw new Error("there is no such file"); },
        };
        const commands = { registerCommand: (name, work) => { this.commands[name] = work; return { dispose: () => {} }; } };
        const getConfiguration = (section) => ({ get: (name, otherwise) => this.settings[`${section}.${name}`] ?? otherwise });
        const workspace = {
            textDocuments: this.documents, fs, getConfiguration,
            ...Object.fromEntries(Object.entries(this.events).map(([name, { event }]) => [name, event]))
        };
        return {
            languages: this.#languages(), commands, debug, workspace, window: this.window, Uri, EventEmitter, WorkspaceEdit,
            Position: valueOf("line", "character"), Range: valueOf("start", "end"), Location: valueOf("uri", "range"),
            TextEdit: valueOf("range", "newText"), Hover: valueOf("contents", "range"),
            MarkdownString: valueOf("value"), Diagnostic: valueOf("range", "message", "severity"),
            DiagnosticRelatedInformation: valueOf("location", "message"), DiagnosticSeverity: { Error: 0 },
            CompletionItem: valueOf("label", "kind"), DocumentHighlight: valueOf("range", "kind"),
            DocumentSymbol: valueOf("name", "detail", "kind", "range", "selectionRange"), InlayHint: valueOf("position", "label"),
            SignatureHelp: valueOf(), SignatureInformation: valueOf("label", "documentation"), ParameterInformation: valueOf("label"),
            CodeAction: valueOf("title", "kind"), CodeActionKind: { QuickFix: { value: "quickfix" } }, SemanticTokens: valueOf("data"),
            SemanticTokensLegend: valueOf("tokenTypes", "tokenModifiers"), DebugAdapterInlineImplementation: valueOf("adapter"),
        };
    }

    /** A document that is opened. */
    open(address, text) {
        const document = { uri: Uri.parse(address), languageId: "lgp30", version: 1, getText: () => text };
        this.files.set(address, text);
        this.events.onDidOpenTextDocument.fire(document);
        return document;
    }

    /** What a provider of a kind gives. */
    asks(kind, method, ...given) {
        return this.providers[kind].provider[method](...given);
    }

    /** The faults that are shown of a document, once they fit. */
    async faults(address, isWanted) {
        const isThere = () => this.shown.has(address) && isWanted(this.shown.get(address));
        while (!isThere()) await new Promise((resume) => { this.#waiting.push(resume); });
        return this.shown.get(address);
    }
}
