#!/usr/bin/env node
// @ts-check
// Writes what the language server says of a source with a fault, for the picture of the package: the lines, the fault, and what an order
// does.
import { bytes } from "../module.mjs";
import { LanguageServer } from "../language/server.mjs";
import { Session } from "../../libraries/javascript/session.mjs";

const TEXT = `; Two and three, and where their sum goes, for an LGP-30.
first   b two
        a tree
        h sum
        z
two     int 2 30
three   int 3 30
sum     int 0 30
        end first
`;
const [URI, HOVERED] = ["file:///sum.lgp30", { line: 3, character: 8 }];
const messages = [];
const server = new LanguageServer(() => new Session(bytes), (message) => messages.push(message));
const asks = (id, method, params) => {
    server.take({ id, method, params });
    return messages.find((message) => message.id === id).result;
};

asks(1, "initialize", {});
server.take({ method: "textDocument/didOpen", params: { textDocument: { uri: URI, text: TEXT } } });
const hover = asks(2, "textDocument/hover", { textDocument: { uri: URI }, position: HOVERED });
const hints = asks(
    3, "textDocument/inlayHint", { textDocument: { uri: URI }, range: { start: { line: 0, character: 0 }, end: { line: 9, character: 0 } } }
);
const { data } = asks(4, "textDocument/semanticTokens/full", { textDocument: { uri: URI } });
setTimeout(() => {
    const { params: { diagnostics } } = messages.find(({ method }) => method === "textDocument/publishDiagnostics");
    process.stdout.write(JSON.stringify(
        { lines: TEXT.split("\n").slice(0, -1), hover: { ...hover, at: HOVERED }, hints, tokens: data, faults: diagnostics }
    ));
});
