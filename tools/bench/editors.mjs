// How fast the programs for editors are: until the language server's first answer, until the faults of 4,000 lines are told after a change,
// how long it takes to
// find what mends a line of them, how long a step of the debugger takes, and a megabyte of print, and how much memory both have then.
// Beside each is what is
// aimed at.
//
//     node tools/bench/editors.mjs [FOLDER OF editors/build]
//
// Times on the wall vary: other work on the machine makes them longer. No part of the check.
import { spawn } from "node:child_process";
import { mkdtempSync, readFileSync, rmSync, writeFileSync } from "node:fs";
import { tmpdir } from "node:os";
import { dirname, join } from "node:path";
import { fileURLToPath } from "node:url";
import { Framing, framed } from "../../editors/framing.mjs";

const programs = process.argv[2] ?? join(dirname(fileURLToPath(import.meta.url)), "../../editors");
const [LINES, CHANGES, STEPS] = [4000, 20, 500];
const folder = mkdtempSync(join(tmpdir(), "editors-"));

/** A program that messages are sent to. */
class Program {
    #child;
    #wake = () => {};
    #messages = [];

    constructor(name) {
        this.#child = spawn(
            process.execPath, [join(programs, `${name}.mjs`)],
            { stdio: ["pipe", "pipe", "inherit"], env: { ...process.env, XDG_STATE_HOME: folder } }
        );
        const framing = new Framing((message) => { this.#messages.push(message); this.#wake(); }, (why) => { throw new Error(why); });
        this.#child.stdout.on("data", (bytes) => framing.push(bytes));
    }

    send(message) {
        this.#child.stdin.write(framed(message));
    }

    /** The next message that fits. */
    async next(isWanted) {
        for (;;) {
            const at = this.#messages.findIndex(isWanted);
            if (at >= 0) return this.#messages.splice(0, at + 1).at(-1);
            await new Promise((resume) => { this.#wake = resume; });
        }
    }

    /** The most memory that the process has had, in megabytes. */
    get memory() {
        return Number(/^VmHWM:\s*(\d+) kB/m.exec(readFileSync(`/proc/${this.#child.pid}/status`, "utf8"))[1]) / 1000;
    }

    end() {
        this.#child.kill();
    }
}

/** How many milliseconds a deed takes. */
async function milliseconds(deed) {
    const begun = performance.now();
    await deed();
    return performance.now() - begun;
}

const middleOf = (times) => times.sort((one, other) => one - other)[times.length >> 1];
const told = (what, value, unit, aim) => console.log(`${what}: ${value.toFixed(1)} ${unit}, aimed at ${aim}`);

const source = [
    ...Array.from({ length: LINES - 1 }, (_, at) => `l${at}     b l${(7 * at) % (LINES - 1)} ; a comment`), "        end l0", "",
].join("\n");

/** A program that prints rows without end. */
const PRINTS = `start${" p =a\n".repeat(70)} p 1600\n u start\n end start\n`;

async function language() {
    let server;
    told("the language server's first answer", await milliseconds(async () => {
        server = new Program("lgp30-language-server");
        server.send({ jsonrpc: "2.0", id: 1, method: "initialize", params: {} });
        await server.next(({ id }) => id === 1);
    }), "ms", 300);
    const faults = (version) => server.next(
        ({ method, params }) => method === "textDocument/publishDiagnostics" && params.version === version
    );
    const uri = "file:///long.source";
    server.send({
        jsonrpc: "2.0", method: "textDocument/didOpen", params: { textDocument: { uri, languageId: "lgp30", version: 0, text: source } },
    });
    await faults(0);
    const times = [];
    for (let version = 1; version <= CHANGES; version += 1) {
        const line = 100 * version;
        times.push(await milliseconds(() => {
            server.send({
                jsonrpc: "2.0", method: "textDocument/didChange",
                params: {
                    textDocument: { uri, version },
                    contentChanges: [
                        { range: { start: { line, character: 9 }, end: { line, character: 10 } }, text: version % 2 === 1 ? "q" : "b" }
                    ],
                },
            });
            return faults(version);
        }));
    }
    told(`the faults of ${LINES} lines after a change, the middle of ${CHANGES}`, middleOf(times), "ms", 150);
    const broken = source.split("\n").map((line, at) => (at % 100 === 7 ? line.replace(/ b l\d+ ; /, " b 0300 ") : line)).join("\n");
    server.send({
        jsonrpc: "2.0", method: "textDocument/didChange",
        params: { textDocument: { uri, version: 1000 }, contentChanges: [{ text: broken }] },
    });
    await faults(1000);
    const mended = [];
    for (let at = 1; at <= CHANGES; at += 1) {
        const line = 100 * at + 7;
        mended.push(await milliseconds(() => {
            server.send({
                jsonrpc: "2.0", id: 1000 + at, method: "textDocument/codeAction",
                params: {
                    textDocument: { uri }, range: { start: { line, character: 0 }, end: { line, character: 1 } },
                    context: { diagnostics: [] },
                },
            });
            return server.next(({ id }) => id === 1000 + at);
        }));
    }
    told(`what mends a line of ${LINES}, the middle of ${CHANGES}`, middleOf(mended), "ms", 50);
    told("the language server's memory", server.memory, "MB", 150);
    server.end();
}

async function debugging() {
    const file = join(folder, "long.source");
    writeFileSync(file, source);
    const adapter = new Program("lgp30-debug-adapter");
    let seq = 0;
    const asks = (command, given) => {
        seq += 1;
        const own = seq;
        adapter.send({ seq, type: "request", command, arguments: given });
        return adapter.next(({ type, request_seq: asked }) => type === "response" && asked === own);
    };
    await asks("initialize", {});
    await asks("launch", { program: file, stopOnEntry: true });
    await asks("configurationDone");
    await adapter.next(({ event }) => event === "stopped");
    const times = [];
    for (let step = 0; step < STEPS; step += 1) {
        times.push(await milliseconds(async () => {
            adapter.send({ seq: ++seq, type: "request", command: "next", arguments: { threadId: 1 } });
            await adapter.next(({ event }) => event === "stopped");
        }));
    }
    told(`a step of the debugger, the middle of ${STEPS}`, middleOf(times), "ms", 2);
    told("the debug adapter's memory", adapter.memory, "MB", 150);
    writeFileSync(file, PRINTS);
    await asks("restart", { arguments: { program: file } });
    let printed = 0;
    const isPrintOrStop = ({ event, body }) => event === "stopped" || (event === "output" && body.category === "stdout");
    const took = await milliseconds(async () => {
        while (printed < 1_000_000) {
            const { event, body } = await adapter.next(isPrintOrStop);
            if (event === "output") printed += body.output.length;
            else adapter.send({ seq: ++seq, type: "request", command: "continue", arguments: { threadId: 1 } });
        }
    });
    told("a megabyte of print", took / 1000, "s", 2);
    adapter.end();
}

await language();
await debugging();
rmSync(folder, { recursive: true });
