// @ts-check
// What the messages of the Language Server Protocol have to have.
import { anything, count, flag, listOf, maybe, named, record, such, text, whole } from "../shapes.mjs";

/** @typedef {{ line: number, character: number }} Position */
/** @typedef {{ start: Position, end: Position }} Range */

const position = record({ line: count, character: count });

/** @param {Range} range */
const isForward = ({ start, end }) => start.line < end.line || (start.line === end.line && start.character <= end.character);

/** @type {import("../shapes.mjs").Shape} */
const range = (value, name) => such(isForward, "a range that ends where it begins, or later")(
    record({ start: position, end: position })(value, name), name
);

const textDocument = record({ uri: named });
const at = record({ textDocument, position });
const within = record({ textDocument, range });
const ofDocument = record({ textDocument });

/** @type {Record<string, import("../shapes.mjs").Shape>} */
export const PARAMETERS = {
    initialize: record({ capabilities: maybe(record({})), initializationOptions: maybe(anything) }),
    "workspace/didChangeConfiguration": record({ settings: maybe(anything) }),
    "$/cancelRequest": record({ id: such((value) => ["number", "string"].includes(typeof value), "a number or a text") }),
    "textDocument/didOpen": record({ textDocument: record({ uri: named, text, version: maybe(whole) }) }),
    "textDocument/didChange": record({
        textDocument: record({ uri: named, version: maybe(whole) }), contentChanges: listOf(record({ range: maybe(range), text })),
    }),
    "textDocument/didClose": ofDocument, "textDocument/semanticTokens/full": ofDocument, "textDocument/documentSymbol": ofDocument,
    "textDocument/formatting": ofDocument,
    "textDocument/hover": at, "textDocument/completion": at, "textDocument/definition": at, "textDocument/documentHighlight": at,
    "textDocument/prepareRename": at, "textDocument/signatureHelp": at,
    "textDocument/references": record({ textDocument, position, context: maybe(record({ includeDeclaration: maybe(flag) })) }),
    "textDocument/rename": record({ textDocument, position, newName: text }),
    "textDocument/inlayHint": within, "textDocument/rangeFormatting": within,
    "textDocument/codeAction": record({ textDocument, range, context: maybe(record({ only: maybe(listOf(text)) })) }),
};
