// Drives WebKit, as GTK has it, over WebKitWebDriver under Xvfb, with the calls of driver.mjs.
import { spawn, spawnSync } from "node:child_process";
import { createServer } from "node:net";
import { Driver } from "./driver.mjs";

const MACHINE = spawnSync("dpkg-architecture", ["-qDEB_HOST_MULTIARCH"], { encoding: "utf8" }).stdout?.trim() || "x86_64-linux-gnu";
const BROWSER = process.env.MINIBROWSER ?? `/usr/lib/${MACHINE}/webkit2gtk-4.1/MiniBrowser`;
const TRIES = 100;

const pause = (milliseconds) => new Promise((resolve) => setTimeout(resolve, milliseconds));

/** A port of this machine that nothing listens at. */
const freePort = () => new Promise((resolve) => {
    const server = createServer().listen(0, "127.0.0.1", () => {
        const { port } = server.address();
        server.close(() => resolve(port));
    });
});

/** A page of WebKit on a screen that nobody sees. */
export class WebKit extends Driver {
    engine = "WebKit";
    #screen;
    #driver;
    #address;

    /** Starts WebKit with an empty page of this size, and variables of its environment. */
    static async start(width = 1500, height = 1250, variables = {}) {
        const browser = new WebKit();
        const display = await browser.#showScreen();
        const port = await freePort();
        // in a group of its own, with the browser that it starts
        browser.#driver = spawn(
            "WebKitWebDriver",
            [`--port=${port}`],
            {
                stdio: "ignore",
                detached: true,
                env: { ...process.env, DISPLAY: `:${display}`, GDK_BACKEND: "x11", LANGUAGE: "en", ...variables },
            }
        );
        // a full screen has no bars, by which a window would be wider than a telephone
        const options = { "webkitgtk:browserOptions": { binary: BROWSER, args: ["--automation", "--full-screen"] } };
        browser.#address = `http://127.0.0.1:${port}/session`;
        const { sessionId } = await browser.#ask("POST", "", { capabilities: { alwaysMatch: options } }, TRIES);
        browser.#address += `/${sessionId}`;
        await browser.#ask("POST", "/timeouts", { script: 300_000 });
        await browser.size(width, height);
        return browser;
    }

    #showScreen() {
        this.#screen = spawn(
            "Xvfb", ["-displayfd", "1", "-screen", "0", "1800x1500x24", "-nolisten", "tcp"], { stdio: ["ignore", "pipe", "ignore"] }
        );
        return new Promise((resolve, reject) => {
            this.#screen.stdout.setEncoding("utf8").once("data", (text) => resolve(text.trim()));
            this.#screen.once("exit", () => reject(new Error("Xvfb has ended")));
        });
    }

    /** Asks the driver; where it has only been started it may not hear yet, and is asked again. */
    async #ask(method, path, body = undefined, tries = 1) {
        try {
            const answer = await fetch(this.#address + path, { method, body: body === undefined ? undefined : JSON.stringify(body) });
            const { value } = await answer.json();
            if (!answer.ok) throw new Error(value.message || value.error);
            return value;
        } catch (failure) {
            if (tries === 1 || failure.message !== "fetch failed") throw failure;
            await pause(100);
            return this.#ask(method, path, body, tries - 1);
        }
    }

    async navigate(url) {
        await this.#ask("POST", "/url", { url });
    }

    async run(script) {
        const { value, failure } = await this.#ask("POST", "/execute/async", { args: [],
            script: `const done = arguments[0]; (async () => ${script})().then((value) => done({ value }), (failure) => done({ failure: String(failure) + "\\n" + failure.stack }));` });
        if (failure !== undefined) throw new Error(failure);
        return value;
    }

    /** Makes the page so large; that takes the window a while. */
    async size(width, height) {
        await this.#ask("POST", "/window/rect", { width, height });
        await this.waitFor(`innerWidth === ${width} && innerHeight === ${height}`);
    }

    async perform(actions) {
        await this.#ask("POST", "/actions", { actions });
    }

    async pixels() {
        return this.#ask("GET", "/screenshot");
    }

    async end() {
        await this.#ask("DELETE", "").catch(() => {});
        const ended = [this.#driver, this.#screen].map((program) => new Promise((resolve) => { program.once("exit", resolve); }));
        process.kill(-this.#driver.pid);
        this.#screen.kill();
        await Promise.all(ended);
    }
}
