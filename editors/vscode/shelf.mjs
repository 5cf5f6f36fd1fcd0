// @ts-check
// What was done in debuggers, kept in the folder that the editor gives to an extension: a file for each session, and the source that is
// open in its console.
import * as vscode from "vscode";

/** How many sessions are kept. */
const MOST_KEPT = 20;

/** The names of the sessions that are kept, the oldest one first. */
async function namesIn(folder) {
    await vscode.workspace.fs.createDirectory(folder);
    const entries = await vscode.workspace.fs.readDirectory(folder);
    return entries.map(([name]) => name).filter((name) => name.startsWith("session-")).sort();
}

/** What is kept of one debugger. */
class Shelf {
    #folder;
    #number;
    /** @type {string | null} */
    #session = null;
    #text = "";
    #made = 0;
    #tail = Promise.resolve();

    constructor(folder, number) {
        this.#folder = folder;
        this.#number = number;
    }

    /** When all that was to be written is. */
    get written() {
        return this.#tail;
    }

    /** Does what writes, one after another. What cannot be written is left, since the session goes on. */
    #write(work) {
        this.#tail = this.#tail.then(work).catch((failure) => console.error(failure));
    }

    #file(name) {
        return vscode.Uri.joinPath(this.#folder, name);
    }

    async #prune() {
        for (const name of (await namesIn(this.#folder)).slice(0, -MOST_KEPT)) await vscode.workspace.fs.delete(this.#file(name));
    }

    putSessionAway() {
        this.#session = null;
    }

    keepSession(text) {
        if (this.#session === null) {
            this.#session = `session-${new Date().toISOString().replaceAll(":", "")}-${this.#number}-${this.#made++}.txt`;
            this.#write(() => this.#prune());
        }
        const name = this.#session;
        this.#text = text;
        this.#write(() => (
            this.#text === text || name !== this.#session
                ? vscode.workspace.fs.writeFile(this.#file(name), new TextEncoder().encode(text))
                : undefined
        ));
    }

    keepSource(lines) {
        this.#write(() => vscode.workspace.fs.writeFile(
            this.#file(`open-${this.#number}.source`), new TextEncoder().encode(lines.map((line) => `${line}\n`).join(""))
        ));
    }

    dropSource() {
        this.#write(() => vscode.workspace.fs.delete(this.#file(`open-${this.#number}.source`)));
    }
}

/** What is kept of all debuggers in a folder, each by its number. */
export class Shelves {
    #folder;
    /** @type {Map<number, Shelf>} */
    #shelves = new Map();

    constructor(folder) {
        this.#folder = folder;
    }

    of(number) {
        const shelf = this.#shelves.get(number) ?? new Shelf(this.#folder, number);
        this.#shelves.set(number, shelf);
        return shelf;
    }

    /** Shows the session that was begun last. */
    async showLast() {
        await Promise.all([...this.#shelves.values()].map(({ written }) => written));
        const name = (await namesIn(this.#folder)).at(-1);
        if (name === undefined) return vscode.window.showInformationMessage("no session of the LGP-30 is kept");
        return vscode.window.showTextDocument(vscode.Uri.joinPath(this.#folder, name));
    }
}
