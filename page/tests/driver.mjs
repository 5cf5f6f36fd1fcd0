// What the drivers of all engines share: the calls by which visits look at the page, over the few that each engine has its own way for.
import { rmSync, writeFileSync } from "node:fs";

const KEYS = {
    Tab: "\ue004", Enter: "\ue007", Escape: "\ue00c", Shift: "\ue008", Control: "\ue009", PageUp: "\ue00e", PageDown: "\ue00f",
    End: "\ue010", Home: "\ue011", ArrowLeft: "\ue012", ArrowUp: "\ue013", ArrowRight: "\ue014", ArrowDown: "\ue015", F1: "\ue031",
    F4: "\ue034", F5: "\ue035", F8: "\ue038", F9: "\ue039", F10: "\ue03a",
};

/** How long is waited for something at most; beside other work a browser may be slow. */
const LONGEST_WAIT = Number(process.env.LONGEST_WAIT ?? 30_000);

const pause = (milliseconds) => new Promise((resolve) => setTimeout(resolve, milliseconds));

/** A page of some engine. Each has `navigate`, `run`, `size`, `perform`, `pixels` and `end`, and perhaps `preload`. */
export class Driver {
    /** What the page has told on its console, and what it has failed with, as far as the engine tells that. */
    told = [];

    /** Opens an address and waits until the page says that it is ready, or until `until` holds in it. */
    async open(address, until = "document.documentElement.dataset.ready === 'true'") {
        await this.navigate("about:blank");
        await this.navigate(address);
        await this.waitFor(until);
    }

    /** The value of an expression in the page; a promise is awaited. */
    async value(expression) {
        const text = await this.run(`(async () => JSON.stringify(await (${expression})))()`);
        return text === undefined || text === null ? undefined : JSON.parse(text);
    }

    /** Waits until an expression holds in the page. */
    async waitFor(expression, milliseconds = LONGEST_WAIT) {
        const end = Date.now() + milliseconds;
        while (Date.now() < end) {
            if (await this.value(`Boolean(${expression})`).catch(() => false)) return;
            await pause(30);
        }
        throw new Error(`waited in vain for ${expression}; told: ${this.told.join(" | ")}`);
    }

    /**
     * Removes the folder of an engine that has ended. Its processes may write there a moment longer: then it stays, since that says nothing
     * of the page.
     */
    remove(folder) {
        try {
            rmSync(folder, { recursive: true, force: true, maxRetries: 5, retryDelay: 100 });
        } catch ({ message }) {
            console.error(`not removed: ${message}`);
        }
    }

    /** Closes the dialog, if there is one: it has left the page only a moment after it was closed. */
    async closeDialog() {
        await this.value("document.querySelector('dialog')?.close()");
        await this.waitFor("document.querySelector('dialog') === null");
    }

    /** Presses what a selector names, as a mouse does. */
    press(selector) {
        return this.value(`document.querySelector(${JSON.stringify(selector)}).click()`);
    }

    /** Goes on in a pace: chooses it, and presses Go on where the machine does not go on already. */
    go(pace) {
        return this.value(
            `(() => { document.querySelector("#pace-${pace}").click(); if (document.querySelector("#go-on").dataset.on === "false") document.querySelector("#go-on").click(); })()`
        );
    }

    /** Stops what goes on or is played, by its key. */
    halt() {
        return this.value('void document.body.dispatchEvent(new KeyboardEvent("keydown", { key: "h", bubbles: true }))');
    }

    /** Writes a text into an editor in place of all that is there. */
    write(text, within = ".source") {
        return this.value(
            `(() => { const { CodeMirror: it } = document.querySelector(${JSON.stringify(`${within} .CodeMirror`)}); it.execCommand("selectAll"); it.replaceSelection(${JSON.stringify(text)}); })()`
        );
    }

    /** Chooses the tabs under which something is seen. */
    reveal(selector) {
        return this.value(
            `(() => { for (let it = document.querySelector(${JSON.stringify(selector)}).closest(".tab-panel"); it != null; it = it.parentElement.closest(".tab-panel")) it.dispatchEvent(new Event("reveal")); })()`
        );
    }

    /** The text of an editor. */
    written(within = ".source") {
        return this.value(`document.querySelector(${JSON.stringify(`${within} .CodeMirror`)}).CodeMirror.getValue()`);
    }

    /** Presses a key, as a keyboard does, while others are held. */
    async strike(key, ...held) {
        const values = [...held, key].map((name) => KEYS[name] ?? name);
        const actions = [
            ...values.map((value) => ({ type: "keyDown", value })), ...values.reverse().map((value) => ({ type: "keyUp", value })),
        ];
        await this.perform([{ type: "key", id: "keys", actions }]);
    }

    /** Types a text where the focus is. */
    async type(text) {
        for (const sign of text) await this.strike(sign);
    }

    /** Taps the middle of what a selector names, as a finger does. */
    async tap(selector) {
        const [x, y] = await this.value(
            `(() => { const it = document.querySelector(${JSON.stringify(selector)}); it.scrollIntoView({ block: "center" }); const { x, y, width, height } = it.getBoundingClientRect(); return [x + width / 2, y + height / 2].map(Math.round); })()`
        );
        await this.touch(x, y);
    }

    /** Touches a place of the window with a finger. */
    async touch(x, y) {
        const actions = [{ type: "pointerMove", x, y }, { type: "pointerDown", button: 0 }, { type: "pointerUp", button: 0 }];
        await this.perform([{ type: "pointer", id: "finger", parameters: { pointerType: "touch" }, actions }]);
    }

    /**
     * Leads the mouse, or a finger: to places of the window, each a pair, `down`, and `up`. It stays where it is, and held, until it is led
     * on.
     */
    async lead(steps, pointerType = "mouse") {
        const actionOf = (step) => (
            Array.isArray(step)
                ? { type: "pointerMove", x: step[0], y: step[1], duration: 0 }
                : { type: step === "down" ? "pointerDown" : "pointerUp", button: 0 }
        );
        await this.perform([
            {
                type: "pointer",
                id: pointerType === "mouse" ? "mouse" : "finger",
                parameters: { pointerType },
                actions: steps.map(actionOf),
            },
        ]);
    }

    /** Writes a picture of the page into a file. */
    async picture(path) {
        writeFileSync(path, Buffer.from(await this.pixels(), "base64"));
    }
}
