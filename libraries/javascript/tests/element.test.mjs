// The custom element, as docs/EMBEDDING.md shows it, in a browser: the lines of that page are served with the package, and the buttons
// are pressed.
import assert from "node:assert/strict";
import { spawn, spawnSync } from "node:child_process";
import { mkdtempSync, readFileSync, rmSync } from "node:fs";
import { createServer } from "node:http";
import { tmpdir } from "node:os";
import { join } from "node:path";
import { test } from "node:test";
import { fileURLToPath } from "node:url";

const top = fileURLToPath(new URL("../../..", import.meta.url));
const browser = ["chromium", "chromium-browser", "google-chrome"].find((name) => spawnSync(name, ["--version"]).error === undefined);
const TYPES = { mjs: "text/javascript", wasm: "application/wasm", html: "text/html", txt: "text/plain", source: "text/plain" };
const [, SHOWN] = /\n((?: {4}.*\n)*? {4}<lgp-machine [^\n]*\n(?: {4}.*\n)*)/.exec(readFileSync(join(top, "docs/EMBEDDING.md"), "utf8"));
const PAGE = SHOWN.replace(/^ {4}/gm, "");

/** What the page tells when its buttons are pressed: it posts that to the server. */
const PRESSES = `<script type="module">
const machine = document.querySelector("lgp-machine");
await customElements.whenDefined("lgp-machine");
await machine.ready;
const shown = () => [...machine.shadowRoot.querySelectorAll("p, pre")].map((part) => part.textContent);
const press = (name) => [...machine.shadowRoot.querySelectorAll("button")].find((button) => button.textContent === name).click();
const told = [shown()];
press("Step"); told.push(shown());
press("Run"); told.push(shown());
press("Step"); told.push(shown());
press("Start over"); await machine.ready; told.push(shown());
await fetch("/told", { method: "POST", body: JSON.stringify({ told, squares: machine.shadowRoot.querySelectorAll("rect").length }) });
</script>`;

/** A server of the package as an npm folder has it, with a page; what is posted to it is promised. */
function served(page, script) {
    let settle;
    const told = new Promise((resolve) => { settle = resolve; });
    const server = createServer(async (request, response) => {
        if (request.method === "POST") {
            let body = "";
            for await (const part of request) body += part;
            response.end();
            settle(JSON.parse(body));
            return;
        }
        const name = request.url === "/" ? "page.html" : request.url.slice(1);
        const [, packaged] = /^node_modules\/condugwa\/([\w.]+)$/.exec(name) ?? [];
        const texts = { "page.html": page, "program.txt": script };
        const text = texts[name] ?? (packaged ? readFileSync(join(top, "libraries/javascript", packaged)) : null);
        response.writeHead(text === null ? 404 : 200, { "content-type": TYPES[name.split(".").at(-1)] ?? "text/plain" });
        response.end(text);
    });
    return new Promise((resolve) => {
        server.listen(0, "127.0.0.1", () => resolve({ server, told, address: `http://127.0.0.1:${server.address().port}/` }));
    });
}

test("a page of ten lines has a machine in it", { skip: browser === undefined }, async () => {
    assert.ok(PAGE.trimEnd().split("\n").length <= 10);
    const script = readFileSync(join(top, "examples/first-run.txt"), "utf8");
    const { server, told, address } = await served(PAGE + PRESSES, script);
    const folder = mkdtempSync(join(tmpdir(), "element-"));
    const flags = ["--headless=new", "--no-sandbox", "--disable-gpu", `--user-data-dir=${folder}`, "--remote-debugging-port=0"];
    const chromium = spawn(browser, [...flags, address], { stdio: "ignore" });
    const ended = new Promise((resolve) => { chromium.on("exit", resolve); });
    try {
        const { told: [first, stepped, ran, rested, again], squares } = await told;
        assert.equal(first[1], "Press Step to execute one order.");
        assert.match(stepped[1], /^0000 {2}b \d{4}: \d+ word times, \d+ of them waiting; accumulator [0-9fgjkqw]{8} = -?\d+$/);
        assert.match(ran[1], /^\d+ orders; a stop order halted the machine: /);
        assert.match(rested[1], /^a stop order halted the machine: /);
        assert.match(ran[0], /accumulator 00000010 = 8 {2}halted stop/);
        assert.deepEqual(again, first);
        assert.ok(squares > 1);
    } finally {
        chromium.kill();
        await ended;
        server.close();
        server.closeAllConnections();
        rmSync(folder, { recursive: true, force: true, maxRetries: 5 });
    }
});
