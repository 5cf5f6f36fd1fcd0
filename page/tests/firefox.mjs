// Drives Firefox over WebDriver BiDi, with the calls of driver.mjs.
import { spawn } from "node:child_process";
import { mkdtempSync, writeFileSync } from "node:fs";
import { tmpdir } from "node:os";
import { join } from "node:path";
import { Driver } from "./driver.mjs";
import { openSocket } from "./socket.mjs";

/** A page of a Firefox without a window. */
export class Firefox extends Driver {
    engine = "Firefox";
    #process;
    #folder = mkdtempSync(join(tmpdir(), "page-"));
    #send;
    #number = 0;
    #waiting = new Map();
    #context;

    /** Starts Firefox with an empty page of this size, and settings as a profile has them. */
    static async start(width = 1500, height = 1250, settings = {}) {
        const browser = new Firefox();
        const prefs = {
            "intl.accept_languages": "en",
            "browser.shell.checkDefaultBrowser": false,
            "datareporting.policy.dataSubmissionEnabled": false,
            ...settings,
        };
        writeFileSync(
            join(browser.#folder, "user.js"),
            Object.entries(prefs).map(([name, value]) => `user_pref(${JSON.stringify(name)}, ${JSON.stringify(value)});\n`).join("")
        );
        browser.#send = await openSocket(`${await browser.#launch()}/session`, (text) => browser.#settle(JSON.parse(text)));
        await browser.#ask("session.new", { capabilities: {} });
        await browser.#ask("session.subscribe", { events: ["log.entryAdded"] });
        const { contexts } = await browser.#ask("browsingContext.getTree");
        browser.#context = contexts[0].context;
        await browser.size(width, height);
        return browser;
    }

    #launch() {
        const words = ["--headless", "--no-remote", "--profile", this.#folder, "--remote-debugging-port", "0"];
        this.#process = spawn(
            process.env.FIREFOX ?? "firefox-esr",
            words,
            { stdio: ["ignore", "ignore", "pipe"], env: { ...process.env, MOZ_HEADLESS_WIDTH: "1600", MOZ_HEADLESS_HEIGHT: "1400" } }
        );
        return new Promise((resolve, reject) => {
            let text = "";
            this.#process.stderr.setEncoding("utf8").on("data", (piece) => {
                text += piece;
                const [, address] = /listening on (ws:\S+)\s/.exec(text) ?? [];
                if (address !== undefined) resolve(address);
            });
            this.#process.once("exit", () => reject(new Error(`Firefox has ended: ${text}`)));
        });
    }

    #settle({ id, type, result, message, method, params }) {
        if (method === "log.entryAdded") this.told.push(params.text);
        if (!this.#waiting.has(id)) return;
        const { resolve, reject } = this.#waiting.get(id);
        this.#waiting.delete(id);
        if (type === "error") reject(new Error(message));
        else resolve(result);
    }

    #ask(method, params = {}) {
        this.#number += 1;
        const id = this.#number;
        this.#send(JSON.stringify({ id, method, params }));
        return new Promise((resolve, reject) => this.#waiting.set(id, { resolve, reject }));
    }

    async navigate(url) {
        await this.#ask("browsingContext.navigate", { context: this.#context, url, wait: "none" });
    }

    async run(script) {
        const { type, result, exceptionDetails } = await this.#ask("script.evaluate", {
            expression: script, target: { context: this.#context }, awaitPromise: true,
        });
        if (type === "exception") throw new Error(exceptionDetails.text);
        return result.value;
    }

    async size(width, height) {
        await this.#ask("browsingContext.setViewport", { context: this.#context, viewport: { width, height } });
    }

    async preload(source) {
        const { script } = await this.#ask("script.addPreloadScript", { functionDeclaration: `() => { ${source} }` });
        return () => this.#ask("script.removePreloadScript", { script });
    }

    async perform(actions) {
        await this.#ask("input.performActions", { context: this.#context, actions });
    }

    async pixels() {
        return (await this.#ask("browsingContext.captureScreenshot", { context: this.#context })).data;
    }

    async end() {
        const ended = new Promise((resolve) => this.#process.once("exit", resolve));
        this.#ask("browser.close").catch(() => {});
        await ended;
        this.remove(this.#folder);
    }
}
