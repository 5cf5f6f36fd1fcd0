// Types, by the compiler of TypeScript: those of all sources, in which what the debug adapter takes and gives has the protocol's own types;
// and each message of
// a session, which has what the protocol's description wants.
import assert from "node:assert/strict";
import { spawnSync } from "node:child_process";
import { cpSync, existsSync, mkdtempSync, readFileSync, readdirSync, rmSync, symlinkSync, writeFileSync } from "node:fs";
import { tmpdir } from "node:os";
import { join } from "node:path";
import { test } from "node:test";
import { fileURLToPath } from "node:url";
import { Client } from "../client.mjs";

const editors = fileURLToPath(new URL("../..", import.meta.url));
const TYPES = "/usr/share/nodejs/@vscode/debugprotocol/lib/debugProtocol";
const skip = !existsSync(`${TYPES}.d.ts`) || spawnSync("tsc", ["--version"]).status !== 0;
const LOOP = [
    "start   b count", "        a one", "        h count", "        p =a", "        u start", "count   int 0 30", "one     int 1 30",
    "        end start", "",
].join("\n");
const SOURCE = { path: "/loop" };
const FOLDERS = [".", "debug", "language", "vscode"];

const compiled = (folder) => spawnSync("tsc", ["-p", join(folder, "tsconfig.json")]);

test("each source is looked at, and has no wrong type", { skip }, () => {
    for (const folder of FOLDERS) {
        for (const name of readdirSync(join(editors, folder)).filter((it) => it.endsWith(".mjs"))) assert.match(
            readFileSync(join(editors, folder, name), "utf8"), /^(#!.*\n)?\/\/ @ts-check\n/, `${folder}/${name}`
        );
    }
    const { status, stdout } = compiled(editors);
    assert.equal(status, 0, stdout.toString());
});

/** Edits after which a message has not the type of the protocol. */
const WRONG = [
    ["debug/variables.mjs", "return String(state.get(name));", "return 5;"],
    ["debug/adapter.mjs", "return { result, variablesReference: 0 };", "return { result: 5, variablesReference: 0 };"],
    ["debug/adapter.mjs", 'category: "important", output: `${why}\\n`', 'category: "important"'],
    ["debug/adapter.mjs", "totalFrames: 1", 'totalFrames: "1"'], ["debug/adapter.mjs", 'breakMode: "always"', 'breakMode: "often"'],
    ["debug/adapter.mjs", "{ threads: [{ id: THREAD, name", "{ threads: [{ name"],
    ["language/faults.mjs", "severity: ERROR, code: fault.kind", 'severity: "error", code: fault.kind'],
    ["debug/rules.mjs", "id: this.id, verified: this.message === null,", "id: this.id, verified: this.message,"],
];

test("a message that has a wrong type is found", { skip }, () => {
    const folder = mkdtempSync(join(tmpdir(), "types-"));
    cpSync(editors, join(folder, "editors"), { recursive: true, filter: (path) => !path.includes("/tests") });
    for (const name of ["page", "libraries"]) symlinkSync(join(editors, "..", name), join(folder, name));
    const changed = [...new Set(WRONG.map(([name]) => name))];
    for (const name of changed) {
        const text = readFileSync(join(editors, name), "utf8");
        const edits = WRONG.filter(([file]) => file === name);
        for (const [, from] of edits) assert.equal(text.split(from).length, 2, from);
        writeFileSync(join(folder, "editors", name), edits.reduce((after, [, from, to]) => after.replace(from, to), text));
    }
    const { stdout } = compiled(join(folder, "editors"));
    const found = stdout.toString().split("\n").filter((row) => /^\S+\(\d+,\d+\): error/.test(row));
    rmSync(folder, { recursive: true });
    assert.ok(found.length >= WRONG.length, found.join("\n"));
});

/** A session with every request that is answered. */
async function session() {
    const client = new Client({ "/loop": LOOP });
    await client.refused("continue");
    await client.launched(
        { program: "/loop", stopOnEntry: true }, [{ line: 2, logMessage: "{count}" }, { line: 99 }, { line: 1, condition: "count == 1" }],
        { supportsInvalidatedEvent: true, supportsMemoryEvent: true }
    );
    await client.event("stopped");
    const state = [
        "@clock", "@kept", "@live-start", "@counter", "@accumulator-number",
    ].map((expression) => ["evaluate", { expression, context: "watch" }]);
    const asked = [
        ["threads"], ["stackTrace", { threadId: 1 }], ["scopes", { frameId: 1 }],
        ...[1, 2, 3, 4, 5].map((variablesReference) => ["variables", { variablesReference }]),
        ["setFunctionBreakpoints", { breakpoints: [{ name: "nobody" }] }],
        ["setInstructionBreakpoints", { breakpoints: [{ instructionReference: "0100" }] }], ["dataBreakpointInfo", { name: "count" }],
        ["dataBreakpointInfo", { name: "nobody" }],
        ["setDataBreakpoints", { breakpoints: [{ dataId: "count" }] }], ["setExceptionBreakpoints", { filters: ["overflow"] }],
        ["breakpointLocations", { source: SOURCE, line: 1, endLine: 9 }], ["evaluate", { expression: "count", context: "watch" }], ...state,
        ["completions", { text: "words c", column: 8 }], ["source", { sourceReference: 1 }], ["cancel", { requestId: 99 }],
        ["setVariable", { variablesReference: 4, name: "one", value: "= 1" }],
        ["setExpression", { expression: "@transfer", value: "down" }], ["readMemory", { memoryReference: "6363", count: 8 }],
        ["writeMemory", { memoryReference: "count", data: "AAAAAA==" }],
        ["disassemble", { memoryReference: "0000", instructionOffset: -1, instructionCount: 3 }],
        ["gotoTargets", { source: SOURCE, line: 2 }], ["exceptionInfo", { threadId: 1 }],
        ["evaluate", { expression: "press oneop", context: "repl" }], ["evaluate", { expression: "press normal", context: "repl" }],
    ];
    for (const [command, given] of asked) await client.asks(command, given);
    for (const [command, given] of [
        ["goto", { threadId: 1, targetId: 0 }], ["continue", { threadId: 1 }], ["next", { threadId: 1 }], ["stepIn", { threadId: 1 }],
        ["stepBack", { threadId: 1 }], ["reverseContinue", { threadId: 1 }], ["restart", {}],
    ]) {
        await client.asks(command, given);
        await client.event("stopped");
    }
    await client.asks("pause", { threadId: 1 });
    await client.asks("terminate");
    await client.asks("disconnect");
    return client.messages;
}

const capital = (word) => word[0].toUpperCase() + word.slice(1);
const typeOf = ({ type, event, command, success }) => (
    type === "event" ? `${capital(event)}Event` : success ? `${capital(command)}Response` : "ErrorResponse"
);

test("each message has the type of the protocol", { skip }, async () => {
    const messages = await session();
    const folder = mkdtempSync(join(tmpdir(), "types-"));
    const file = join(folder, "messages.ts");
    writeFileSync(
        file,
        `import { DebugProtocol } from "${TYPES}";\n${messages.map((message, at) => `export const m${at}: DebugProtocol.${typeOf(message)} = ${JSON.stringify(message)};\n`).join("")}`
    );
    const { status, stdout } = spawnSync("tsc", ["--strict", "--noEmit", "--target", "es2022", "--moduleResolution", "node", file]);
    rmSync(folder, { recursive: true });
    assert.equal(status, 0, stdout.toString());
    assert.ok(messages.length > 60);
});
