// Both programs at standard input and output: messages whole and in pieces, and bytes that are none.
import assert from "node:assert/strict";
import { spawn, spawnSync } from "node:child_process";
import { mkdtempSync, readFileSync, readdirSync, rmSync, writeFileSync } from "node:fs";
import { tmpdir } from "node:os";
import { join } from "node:path";
import { test } from "node:test";
import { fileURLToPath } from "node:url";
import { Framing, framed } from "../framing.mjs";

const editors = fileURLToPath(new URL("..", import.meta.url));
const state = mkdtempSync(join(tmpdir(), "editors-"));

/** A program that is given bytes, and what it sends. */
class Program {
    #child;
    #waiting = [];
    messages = [];

    constructor(name, complaints = "inherit") {
        this.#child = spawn(
            "node", [join(editors, name)], { stdio: ["pipe", "pipe", complaints], env: { ...process.env, XDG_STATE_HOME: state } }
        );
        const framing = new Framing((message) => this.#took(message), (why) => assert.fail(why));
        this.#child.stdout.on("data", (bytes) => framing.push(bytes));
        this.ended = new Promise((resolve) => { this.#child.on("exit", resolve); });
    }

    #took(message) {
        this.messages.push(message);
        for (const wait of this.#waiting.splice(0)) wait();
    }

    write(bytes) {
        this.#child.stdin.write(bytes);
    }

    send(...messages) {
        this.write(Buffer.concat(messages.map(framed)));
    }

    close() {
        this.#child.stdin.end();
    }

    /** The first message that fits. */
    async until(isWanted) {
        while (!this.messages.some(isWanted)) await new Promise((resume) => { this.#waiting.push(resume); });
        return this.messages.find(isWanted);
    }
}

const asked = (id, method, params = {}) => ({ jsonrpc: "2.0", id, method, params });

test("the language server takes messages in any pieces, refuses one that is no JSON, and goes on", async () => {
    const server = new Program("lgp30-language-server.mjs");
    for (const byte of framed(asked(1, "initialize"))) server.write(Buffer.from([byte]));
    assert.equal((await server.until(({ id }) => id === 1)).result.serverInfo.name, "lgp30-language-server");
    server.write("Content-Length: 4\r\n\r\n{no}");
    assert.match((await server.until(({ error }) => error?.code === -32700)).error.message, /^a message is no JSON/);
    server.write("X-Other: 1\r\n");
    server.send(asked(2, "shutdown"), { jsonrpc: "2.0", method: "exit" });
    assert.equal(await server.ended, 0);
});

const request = (seq, command, given) => ({ seq, type: "request", command, arguments: given });
const whole = framed(asked(2, "shutdown"));
const withLength = (length) => Buffer.from(whole.toString().replace(/\d+(?=\r)/, length(whole.length - whole.indexOf("\r\n\r\n") - 4)));
/** Bytes after which nobody knows where the next message begins. */
const BROKEN = {
    "a length that is too small": withLength(() => 5),
    "a length that is too large, and a message after it": Buffer.concat([withLength((length) => length + 5), whole]),
    "a text": Buffer.from("hello world\n\n"),
    "a header that ends by line feeds": Buffer.from(whole.toString().replace("\r\n\r\n", "\n\n")),
    "a header without a length": Buffer.from("X-Other: 1\r\n\r\n{}"),
    "a length beyond all bounds": Buffer.from("Content-Length: 999999999\r\n\r\n"),
    "a header that does not end": Buffer.from(`X-Other: ${"x".repeat(5000)}`),
};

for (const [what, bytes] of Object.entries(BROKEN)) {
    test(`after ${what} both programs say so and end with status 1, so that they are started again`, async () => {
        const server = new Program("lgp30-language-server.mjs", "ignore");
        server.send(asked(1, "initialize"));
        await server.until(({ id }) => id === 1);
        server.write(bytes);
        assert.match(
            (await server.until(({ error }) => error?.message.startsWith("these bytes are no message: "))).error.message,
            /; a header is Content-Length, a number of bytes and two line ends$/
        );
        assert.equal(await server.ended, 1);
        const adapter = new Program("lgp30-debug-adapter.mjs", "ignore");
        adapter.send(request(1, "initialize", { adapterID: "lgp30" }));
        await adapter.until(({ request_seq: seq }) => seq === 1);
        adapter.write(bytes);
        await adapter.until(({ event, body }) => event === "output" && body.output.startsWith("these bytes are no message"));
        assert.equal(await adapter.ended, 1);
    });
}

test("the language server links a fault to the document beside it", async () => {
    const server = new Program("lgp30-language-server.mjs");
    server.send(
        asked(1, "initialize"),
        { jsonrpc: "2.0", method: "textDocument/didOpen", params: { textDocument: { uri: "file:///a", version: 1, text: " z" } } }
    );
    const { params: { diagnostics: [{ codeDescription: { href } }] } } = await server.until(
        ({ method }) => method === "textDocument/publishDiagnostics"
    );
    assert.match(href, /#faults$/);
    assert.match(readFileSync(new URL(href), "utf8"), /^### Faults$/m);
    server.close();
});

test("the language server ends with its input, and says by its status whether it was told to", async () => {
    const server = new Program("lgp30-language-server.mjs");
    server.send(asked(1, "initialize"));
    await server.until(({ id }) => id === 1);
    server.close();
    assert.equal(await server.ended, 1);
});

test("the debug adapter runs a source of a file, takes console lines that name files, and keeps what was done", async () => {
    const [source, lines] = ["sum.source", "lines.txt"].map((name) => join(state, name));
    writeFileSync(source, "first b two\n z\ntwo int 2 30\n end first\n");
    writeFileSync(lines, "put two = 9\nwords two 1\n");
    const adapter = new Program("lgp30-debug-adapter.mjs");
    adapter.write("Content-Length: 1\r\n\r\nx");
    await adapter.until(({ event, body }) => event === "output" && /no JSON/.test(body.output));
    adapter.send(request(1, "initialize", { adapterID: "lgp30" }), request(2, "launch", { program: join(state, "gone.source") }));
    assert.match((await adapter.until(({ request_seq: seq }) => seq === 2)).message, /gone\.source: ENOENT/);
    adapter.send(request(3, "launch", { program: source }), request(4, "configurationDone"));
    await adapter.until(({ event }) => event === "stopped");
    adapter.send(request(5, "evaluate", { expression: `do ${lines}`, context: "repl" }));
    assert.equal((await adapter.until(({ request_seq: seq }) => seq === 5)).body.result, "ok\n0002 00000012");
    // what was only asked stands in no transcript, whoever asks for that
    writeFileSync(lines, "transcript\n");
    adapter.send(
        request(8, "evaluate", { expression: "nobody", context: "watch" }),
        request(9, "evaluate", { expression: `do ${lines}`, context: "repl" })
    );
    const { result } = (await adapter.until(({ request_seq: seq }) => seq === 9)).body;
    assert.match(result, /\nload\n/);
    assert.doesNotMatch(result, /nobody|\u0001|\u0002/);
    adapter.send(request(6, "evaluate", { expression: "quit", context: "repl" }));
    await adapter.until(({ event }) => event === "terminated");
    adapter.send(request(7, "disconnect"));
    assert.equal(await adapter.ended, 0);
    const sessions = join(state, "condugwa/debugger/sessions");
    assert.match(
        readFileSync(join(sessions, readdirSync(sessions)[0]), "utf8"),
        /^source\nfirst b two\n[^]*\nload\nrun 2000\nput 0002 00000012\nwords 0002 1\n$/
    );
    rmSync(state, { recursive: true });
});

test("the words of the command lines", () => {
    for (const name of ["lgp30-language-server", "lgp30-debug-adapter"]) {
        const ran = (...words) => spawnSync("node", [join(editors, `${name}.mjs`), ...words]);
        const { version } = JSON.parse(readFileSync(join(editors, "../libraries/javascript/package.json"), "utf8"));
        assert.equal(ran("--version").stdout.toString(), `${name} ${version}\n`);
        assert.match(ran("--stdio", "-h").stdout.toString(), /--stdio .*standard input and output/);
        const { status, stderr } = ran("--fly");
        assert.deepEqual([status, stderr.toString()], [64, `${name}: --fly is not an option of this program; --help lists them\n`]);
    }
});
