// @ts-check
// The language server in the worker: what the editor asks becomes a message, and the answer becomes the editor's values.
import * as vscode from "vscode";

const DOCUMENTS = { language: "lgp30" };
/** How much later the editor counts the kinds of completions and symbols. */
const KINDS_FROM = 1;

const positionOf = ({ line, character }) => new vscode.Position(line, character);
const rangeOf = ({ start, end }) => new vscode.Range(positionOf(start), positionOf(end));
const plain = ({ line, character }) => ({ line, character });
const plainRange = ({ start, end }) => ({ start: plain(start), end: plain(end) });
const locationOf = ({ uri, range }) => new vscode.Location(vscode.Uri.parse(uri), rangeOf(range));
const textEdit = ({ range, newText }) => new vscode.TextEdit(rangeOf(range), newText);
/** After these an operand is asked for. */
const BLANKS = [" ", "\t"];
const severity = vscode.DiagnosticSeverity.Error;

function workspaceEdit({ changes }) {
    const edit = new vscode.WorkspaceEdit();
    for (const [uri, edits] of Object.entries(changes)) edit.set(vscode.Uri.parse(uri), edits.map(textEdit));
    return edit;
}

/** A fault as the editor shows it. The code has a link to what is said of its kind. */
function diagnosticOf({ range, message, code, codeDescription, source, relatedInformation = [] }) {
    const relatedTo = relatedInformation.map(
        ({ location, message: told }) => new vscode.DiagnosticRelatedInformation(locationOf(location), told)
    );
    const linked = codeDescription === undefined ? code : { value: code, target: vscode.Uri.parse(codeDescription.href) };
    return Object.assign(new vscode.Diagnostic(rangeOf(range), message, severity), { code: linked, source, relatedInformation: relatedTo });
}

/** What mends a fault, as the editor shows it. */
const actionOf = ({ title, edit, diagnostics, isPreferred = false }) => (
    Object.assign(
        new vscode.CodeAction(title, vscode.CodeActionKind.QuickFix),
        { edit: workspaceEdit(edit), diagnostics: diagnostics.map(diagnosticOf), isPreferred }
    ));

/** The signature of an operation, as the editor shows it. */
function signatureHelpOf({ signatures, activeSignature, activeParameter }) {
    const shown = signatures.map(({ label, documentation, parameters }) => (
        Object.assign(
            new vscode.SignatureInformation(label, documentation),
            { parameters: parameters.map((it) => new vscode.ParameterInformation(it.label)) }
        )));
    return Object.assign(new vscode.SignatureHelp(), { signatures: shown, activeSignature, activeParameter });
}

/** What is set of the language. */
const settings = () => ({ inlayHints: vscode.workspace.getConfiguration("lgp30").get("inlayHints", true) });

/** The server, with the documents that the editor has. */
export class LanguageClient {
    #say;
    #next = 0;
    #waiting = new Map();
    #diagnostics = vscode.languages.createDiagnosticCollection("lgp30");

    constructor(connection) {
        this.#say = connection.language((message) => this.#took(message));
    }

    #took({ id, method, params, result, error }) {
        const isOfFaults = method === "textDocument/publishDiagnostics";
        if (isOfFaults) this.#diagnostics.set(vscode.Uri.parse(params.uri), params.diagnostics.map(diagnosticOf));
        else if (id !== undefined && error === undefined) this.#waiting.get(id)?.resolve(result);
        else if (id !== undefined) this.#waiting.get(id)?.reject(new Error(error.message));
        this.#waiting.delete(id);
    }

    /** The answer to a request, which the editor may take back. */
    asks(method, params, token) {
        const id = this.#next++;
        token?.onCancellationRequested(() => this.#tells("$/cancelRequest", { id }));
        return new Promise((resolve, reject) => {
            this.#waiting.set(id, { resolve, reject });
            this.#say({ jsonrpc: "2.0", id, method, params });
        });
    }

    #tells(method, params) {
        this.#say({ jsonrpc: "2.0", method, params });
    }

    /** The settings are other ones. */
    configured() {
        this.#tells("workspace/didChangeConfiguration", { settings: { lgp30: settings() } });
    }

    /** The answer about a document. */
    of(document, method, more = {}, token = undefined) {
        return this.asks(`textDocument/${method}`, { textDocument: { uri: document.uri.toString() }, ...more }, token);
    }

    /** The answer about a position of a document. */
    at(document, position, method, more = {}) {
        return this.of(document, method, { position: plain(position), ...more });
    }

    opened(document) {
        if (document.languageId !== DOCUMENTS.language) return;
        const { languageId, version } = document;
        const textDocument = { uri: document.uri.toString(), languageId, version, text: document.getText() };
        this.#tells("textDocument/didOpen", { textDocument });
    }

    changed({ document, contentChanges }) {
        if (document.languageId !== DOCUMENTS.language || contentChanges.length === 0) return;
        const changed = contentChanges.map(({ range, text }) => ({ range: plainRange(range), text }));
        const textDocument = { uri: document.uri.toString(), version: document.version };
        this.#tells("textDocument/didChange", { textDocument, contentChanges: changed });
    }

    closed(document) {
        if (document.languageId !== DOCUMENTS.language) return;
        this.#tells("textDocument/didClose", { textDocument: { uri: document.uri.toString() } });
    }

    dispose() {
        this.#diagnostics.dispose();
    }
}

const hoverOf = ({ contents, range }) => new vscode.Hover(new vscode.MarkdownString(contents.value), rangeOf(range));
const highlightOf = ({ range, kind }) => new vscode.DocumentHighlight(rangeOf(range), kind - KINDS_FROM);
const hintOf = ({ position, label, paddingRight }) => Object.assign(new vscode.InlayHint(positionOf(position), label), { paddingRight });

const completionOf = ({ label, kind, detail, documentation, textEdit: { range, newText } }) => (
    Object.assign(
        new vscode.CompletionItem(label, kind - KINDS_FROM), { detail, documentation, range: rangeOf(range), insertText: newText }));

const symbolOf = ({ name, detail, kind, range, selectionRange }) => (
    new vscode.DocumentSymbol(name, detail, kind - KINDS_FROM, rangeOf(range), rangeOf(selectionRange)));

/** What is made of an answer that may be none, and of a list. */
const one = (convert) => (answer) => answer && convert(answer);
const each = (convert) => (answers) => answers.map(convert);

/** What asks a method about a document, about a position, and about a range, and makes something of the answer. */
const of = (client, method, convert) => async (document) => convert(await client.of(document, method));
const at = (client, method, convert) => async (document, position) => convert(await client.at(document, position, method));
const within = (client, method, convert) => async (document, range) => (
    convert(await client.of(document, method, { range: plainRange(range) })));

/** What the editor asks about a source. */
function questions(client) {
    const { languages } = vscode;
    const provideReferences = async (document, position, context) => (
        (await client.at(document, position, "references", { context })).map(locationOf));
    return [
        languages.registerHoverProvider(DOCUMENTS, { provideHover: at(client, "hover", one(hoverOf)) }),
        languages.registerCompletionItemProvider(
            DOCUMENTS, { provideCompletionItems: at(client, "completion", each(completionOf)) }, ...BLANKS),
        languages.registerSignatureHelpProvider(
            DOCUMENTS, { provideSignatureHelp: at(client, "signatureHelp", one(signatureHelpOf)) }, ...BLANKS),
        languages.registerDefinitionProvider(DOCUMENTS, { provideDefinition: at(client, "definition", one(locationOf)) }),
        languages.registerReferenceProvider(DOCUMENTS, { provideReferences }),
        languages.registerDocumentHighlightProvider(
            DOCUMENTS, { provideDocumentHighlights: at(client, "documentHighlight", each(highlightOf)) }),
        languages.registerDocumentSymbolProvider(DOCUMENTS, { provideDocumentSymbols: of(client, "documentSymbol", each(symbolOf)) }),
        languages.registerInlayHintsProvider(DOCUMENTS, { provideInlayHints: within(client, "inlayHint", each(hintOf)) }),
    ];
}

/** What the editor asks to change. */
function changes(client) {
    const { languages } = vscode;
    const prepareRename = async (document, position) => {
        const found = await client.at(document, position, "prepareRename");
        if (found === null) throw new Error("there is no label here");
        return { range: rangeOf(found.range), placeholder: found.placeholder };
    };
    const provideRenameEdits = async (document, position, newName) => (
        workspaceEdit(await client.at(document, position, "rename", { newName })));
    const provideCodeActions = async (document, range, context, token) => {
        const only = context?.only === undefined ? {} : { only: [context.only.value] };
        const asked = { range: plainRange(range), context: { diagnostics: [], ...only } };
        return (await client.of(document, "codeAction", asked, token)).map(actionOf);
    };
    return [
        languages.registerRenameProvider(DOCUMENTS, { prepareRename, provideRenameEdits }),
        languages.registerDocumentFormattingEditProvider(
            DOCUMENTS, { provideDocumentFormattingEdits: of(client, "formatting", each(textEdit)) }),
        languages.registerDocumentRangeFormattingEditProvider(
            DOCUMENTS, { provideDocumentRangeFormattingEdits: within(client, "rangeFormatting", each(textEdit)) }),
        languages.registerCodeActionsProvider(
            DOCUMENTS, { provideCodeActions }, { providedCodeActionKinds: [vscode.CodeActionKind.QuickFix] }),
    ];
}

/** Serves the editor's documents; what ends that. */
export async function serveLanguage(connection) {
    const client = new LanguageClient(connection);
    const { capabilities } = await client.asks("initialize", { initializationOptions: settings() });
    const { legend } = capabilities.semanticTokensProvider;
    const provideDocumentSemanticTokens = of(client, "semanticTokens/full", ({ data }) => new vscode.SemanticTokens(new Uint32Array(data)));
    for (const document of vscode.workspace.textDocuments) client.opened(document);
    return [
        client,
        vscode.workspace.onDidChangeConfiguration((event) => event.affectsConfiguration("lgp30") && client.configured()),
        vscode.workspace.onDidOpenTextDocument((document) => client.opened(document)),
        vscode.workspace.onDidChangeTextDocument((event) => client.changed(event)),
        vscode.workspace.onDidCloseTextDocument((document) => client.closed(document)),
        vscode.languages.registerDocumentSemanticTokensProvider(
            DOCUMENTS, { provideDocumentSemanticTokens }, new vscode.SemanticTokensLegend(legend.tokenTypes, legend.tokenModifiers)),
        ...questions(client), ...changes(client),
    ];
}
