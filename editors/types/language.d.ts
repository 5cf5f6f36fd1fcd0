// What the language server gives, as the Language Server Protocol has it: Debian has no package with its types.
export interface Position { line: number; character: number }
export interface Range { start: Position; end: Position }
export interface Location { uri: string; range: Range }
export interface TextEdit { range: Range; newText: string }
export interface WorkspaceEdit { changes?: Record<string, TextEdit[]>; documentChanges?: { textDocument: { uri: string; version: number | null }; edits: TextEdit[] }[] }
export interface Diagnostic { range: Range; severity: number; code: string; codeDescription?: { href: string }; source: string; message: string; relatedInformation?: { location: Location; message: string }[] }
export interface CodeAction { title: string; kind: string; diagnostics: Diagnostic[]; isPreferred?: boolean; edit: WorkspaceEdit }
export interface CompletionItem { label: string; kind: number; detail: string; documentation: string; textEdit: TextEdit }
export interface Hover { contents: { kind: "markdown"; value: string }; range: Range }
export interface SignatureHelp { signatures: { label: string; documentation: string; parameters: { label: number[] }[] }[]; activeSignature: number; activeParameter: number }
export interface DocumentSymbol { name: string; detail: string; kind: number; range: Range; selectionRange: Range }
export interface InlayHint { position: Position; label: string; paddingRight: boolean }

type Soon<Value> = Value | null | Promise<Value | null>;
interface InDocument { textDocument: { uri: string } }
interface At extends InDocument { position: Position }

/** What is done for each method: what it takes, and what it gives. */
export interface Methods {
    initialize(given: any): { capabilities: object; serverInfo: { name: string } };
    shutdown(): void;
    "workspace/didChangeConfiguration"(given: { settings?: any }): void;
    "$/cancelRequest"(given: { id: number | string }): void;
    "textDocument/didOpen"(given: { textDocument: { uri: string; text: string; version?: number } }): void;
    "textDocument/didChange"(given: { textDocument: { uri: string; version?: number }; contentChanges: { range?: Range; text: string }[] }): void;
    "textDocument/didClose"(given: InDocument): void;
    "textDocument/semanticTokens/full"(given: InDocument): { data: number[] };
    "textDocument/hover"(given: At): Hover | null;
    "textDocument/completion"(given: At): CompletionItem[];
    "textDocument/signatureHelp"(given: At): SignatureHelp | null;
    "textDocument/definition"(given: At): Location | null;
    "textDocument/references"(given: At & { context?: { includeDeclaration?: boolean } }): Location[];
    "textDocument/documentHighlight"(given: At): { range: Range; kind: number }[];
    "textDocument/documentSymbol"(given: InDocument): DocumentSymbol[];
    "textDocument/inlayHint"(given: InDocument & { range: Range }): InlayHint[];
    "textDocument/prepareRename"(given: At): { range: Range; placeholder: string } | null;
    "textDocument/rename"(given: At & { newName: string }): WorkspaceEdit;
    "textDocument/formatting"(given: InDocument): TextEdit[];
    "textDocument/rangeFormatting"(given: InDocument & { range: Range }): TextEdit[];
    "textDocument/codeAction"(given: InDocument & { range: Range; context?: { only?: string[] } }, id: number | string): Promise<CodeAction[]>;
}

/** A part of a line, in bytes: where it begins and where it has ended. */
export type Span = [number, number];
/** A line as the monitor has read it. */
export interface Line { line: number; label: Span | null; operation: Span | null; operands: Span[]; comment: Span | null; declared: number | null; place: string | null; digits: string | null; fault: { kind: string; at: Span | null; first: number | null } | null }
