// Drives Chromium over its debugging pipe: messages are JSON with a zero after each.
import { spawn } from "node:child_process";
import { mkdtempSync } from "node:fs";
import { tmpdir } from "node:os";
import { join } from "node:path";
import { Driver } from "./driver.mjs";

/** The codes of keys, as Windows numbers them, that are no letter, digit or blank. */
const CODES = {
    Tab: 9, Enter: 13, Escape: 27, PageUp: 33, PageDown: 34, End: 35, Home: 36, ArrowLeft: 37, ArrowUp: 38, ArrowRight: 39, ArrowDown: 40,
    F1: 112, F4: 115, F5: 116, F8: 119, F9: 120, F10: 121, ";": 186, "=": 187, "+": 187, ",": 188, "-": 189, ".": 190, "/": 191, "'": 222,
};

/** A page of a Chromium without a window. */
export class Chromium extends Driver {
    engine = "Chromium";
    #process;
    #folder = mkdtempSync(join(tmpdir(), "page-"));
    #held = { x: 0, y: 0, isDown: false };
    #rest = "";
    #number = 0;
    #waiting = new Map();
    #session;

    /** Starts Chromium with an empty page of this size. */
    static async start(width = 1500, height = 1250, flags = []) {
        const browser = new Chromium();
        browser.#launch(flags);
        const { targetId } = await browser.#ask("Target.createTarget", { url: "about:blank" });
        const { sessionId } = await browser.#ask("Target.attachToTarget", { targetId, flatten: true });
        browser.#session = sessionId;
        for (const domain of ["Page", "Runtime"]) await browser.ask(`${domain}.enable`);
        await browser.size(width, height);
        return browser;
    }

    #launch(flags) {
        const words = [
            "--headless=new", "--no-sandbox", "--disable-gpu", "--disable-dev-shm-usage", "--no-first-run", "--hide-scrollbars",
            "--lang=en",
            `--user-data-dir=${this.#folder}`, "--remote-debugging-pipe", ...flags
        ];
        this.#process = spawn(process.env.CHROMIUM ?? "chromium", words, { stdio: ["ignore", "ignore", "ignore", "pipe", "pipe"] });
        this.#process.stdio[4].setEncoding("utf8");
        this.#process.stdio[4].on("data", (piece) => this.#take(piece));
    }

    #take(piece) {
        const messages = (this.#rest + piece).split("\0");
        this.#rest = messages.pop();
        for (const message of messages.map((text) => JSON.parse(text))) this.#settle(message);
    }

    #settle({ id, result, error, method, params }) {
        if (method === "Runtime.exceptionThrown") {
            this.told.push(params.exceptionDetails.exception?.description ?? params.exceptionDetails.text);
        }
        if (method === "Runtime.consoleAPICalled") this.told.push(params.args.map(({ value }) => value).join(" "));
        if (!this.#waiting.has(id)) return;
        const { resolve, reject } = this.#waiting.get(id);
        this.#waiting.delete(id);
        if (error === undefined) resolve(result);
        else reject(new Error(error.message));
    }

    #ask(method, params = {}, sessionId = undefined) {
        this.#number += 1;
        const id = this.#number;
        this.#process.stdio[3].write(`${JSON.stringify({ id, method, params, sessionId })}\0`);
        return new Promise((resolve, reject) => this.#waiting.set(id, { resolve, reject }));
    }

    /** Asks the page's end of the protocol. */
    ask(method, params = {}) {
        return this.#ask(method, params, this.#session);
    }

    async navigate(url) {
        await this.ask("Page.navigate", { url });
    }

    async run(script) {
        const { result, exceptionDetails } = await this.ask("Runtime.evaluate", {
            expression: script, awaitPromise: true, returnByValue: true,
        });
        if (exceptionDetails !== undefined) throw new Error(exceptionDetails.exception?.description ?? exceptionDetails.text);
        return result.value;
    }

    async size(width, height) {
        await this.ask("Emulation.setDeviceMetricsOverride", { width, height, deviceScaleFactor: 1, mobile: width < 500 });
    }

    /** What the page is told that its reader wants, by the names of media features. */
    async media(features) {
        await this.ask("Emulation.setEmulatedMedia", { features: Object.entries(features).map(([name, value]) => ({ name, value })) });
    }

    async preload(source) {
        const { identifier } = await this.ask("Page.addScriptToEvaluateOnNewDocument", { source });
        return () => this.ask("Page.removeScriptToEvaluateOnNewDocument", { identifier });
    }

    async strike(key, ...held) {
        const code = CODES[key] ?? key.toUpperCase().charCodeAt(0);
        const text = held.includes("Control") ? undefined : key === "Enter" ? "\r" : key.length === 1 ? key : undefined;
        const modifiers = (held.includes("Control") ? 2 : 0) + (held.includes("Shift") ? 8 : 0);
        const struck = { key, code: key, windowsVirtualKeyCode: code, modifiers };
        await this.ask("Input.dispatchKeyEvent", { type: text === undefined ? "rawKeyDown" : "keyDown", ...struck, text });
        await this.ask("Input.dispatchKeyEvent", { type: "keyUp", ...struck });
    }

    async touch(x, y) {
        await this.lead([[x, y], "down", "up"], "touch");
    }

    async lead(steps, pointerType = "mouse") {
        const isMouse = pointerType === "mouse";
        if (!isMouse) await this.ask("Emulation.setTouchEmulationEnabled", { enabled: true });
        for (const step of steps) await (isMouse ? this.#mouse(step) : this.#finger(step));
        if (!isMouse && !this.#held.isDown) await this.ask("Emulation.setTouchEmulationEnabled", { enabled: false });
    }

    #step(step) {
        const { x, y, isDown } = this.#held;
        this.#held = Array.isArray(step) ? { x: step[0], y: step[1], isDown } : { x, y, isDown: step === "down" };
        return this.#held;
    }

    async #mouse(step) {
        const { x, y, isDown } = this.#step(step);
        const type = Array.isArray(step) ? "mouseMoved" : isDown ? "mousePressed" : "mouseReleased";
        await this.ask("Input.dispatchMouseEvent", {
            type,
            x,
            y,
            button: type === "mouseMoved" && !isDown ? "none" : "left",
            buttons: isDown ? 1 : 0,
            clickCount: type === "mouseMoved" ? 0 : 1,
        });
    }

    async #finger(step) {
        const { x, y, isDown } = this.#step(step);
        if (Array.isArray(step) && !isDown) return;
        const type = Array.isArray(step) ? "touchMove" : { down: "touchStart", up: "touchEnd", cancel: "touchCancel" }[step];
        await this.ask("Input.dispatchTouchEvent", { type, touchPoints: isDown ? [{ x, y }] : [] });
    }

    async pixels() {
        return (await this.ask("Page.captureScreenshot", { format: "png" })).data;
    }

    /** Ends Chromium. */
    async end() {
        const ended = new Promise((resolve) => this.#process.once("exit", resolve));
        await this.#ask("Browser.close").catch(() => {});
        await ended;
        this.remove(this.#folder);
    }
}
