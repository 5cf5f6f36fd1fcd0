// Edits a source: with the editor that a user has named, or line by line at the terminal.
import { spawnSync } from "node:child_process";
import { existsSync, mkdtempSync, readFileSync, rmSync, writeFileSync } from "node:fs";
import { tmpdir } from "node:os";
import { join } from "node:path";
import { FileTrouble, keepFile, readFile } from "./files.mjs";
import { END, INTERRUPT } from "./keyboard.mjs";
import { bytesFrom, linesIn, textFrom, withoutReturn } from "./lines.mjs";

/** The name of a source's file while it is edited; editors know the language by it. */
const FILE = "source.lgp";

/** The editor that the user has named; empty where there is none. */
const editorOf = ({ VISUAL: visual = "", EDITOR: editor = "" }) => visual.trim() || editor.trim();

/** The line that opens a source. */
const OPENING = /^ *source *\r?$/;

const textOf = (lines) => lines.map((line) => `${line}\n`).join("");

/** The lines of the last source of a transcript, whether it assembled or not; null where there is none. */
export function lastSource(transcript) {
    let [source, open] = [null, null];
    for (const line of linesIn(transcript)) {
        if (open === null) open = OPENING.test(line) ? [] : null;
        else if (line === ".") [source, open] = [open, null];
        else open.push(withoutReturn(line));
    }
    return source;
}

/** Lines up to a source that they open and do not close, and the lines of that source; null where there is none. */
export function partedAtOpen(lines) {
    let at = null;
    for (const [place, line] of lines.entries()) {
        if (at === null) at = OPENING.test(line) ? place : null;
        else if (line === ".") at = null;
    }
    return at === null ? { closed: lines, open: null } : { closed: lines.slice(0, at), open: lines.slice(at + 1) };
}

/** What is told of a line with only a point, which would end the source; null where there is none. */
export function pointIn(lines) {
    const at = lines.indexOf(".");
    return at < 0 ? null : `line ${at + 1} has only a point, which would end the source`;
}

export class Editing {
    #keyboard;
    #note;
    #keep;

    /**
     * The keyboard that is lent, what tells a sentence, and what keeps lines that were given up and gives the name of their file, or null.
     */
    constructor({ keyboard, note, keep }) {
        this.#keyboard = keyboard;
        this.#note = note;
        this.#keep = keep;
    }

    /** The lines that a source has after it was edited; null where it stays as it is. */
    async lines(before) {
        if (editorOf(process.env) === "") return this.#byLines(before);
        const folder = mkdtempSync(join(tmpdir(), "condugwa-"));
        const file = join(folder, FILE);
        writeFileSync(file, bytesFrom(textOf(before)), { mode: 0o600 });
        const isWell = await this.#inEditor(file);
        const after = linesIn(textFrom(readFileSync(file))).map(withoutReturn);
        const isChanged = textOf(after) !== textOf(before);
        const trouble = isWell ? pointIn(after) : "the editor did not end well";
        if (trouble !== null && isChanged) this.#note(`${trouble}: the source is as it was, and the edited lines are in ${file}`);
        else rmSync(folder, { recursive: true, force: true });
        if (isWell && !isChanged) this.#note("the source was not changed");
        return trouble === null && isChanged ? after : null;
    }

    /** One line of a source in the place of another; null where it stays as it is. */
    async line(before, number) {
        const typed = await this.#typed(number, before[number - 1]);
        if (typed === null || typed === before[number - 1]) return null;
        const after = before.map((line, at) => (at === number - 1 ? typed : line));
        const trouble = pointIn(after);
        if (trouble !== null) this.#note(`${trouble}: the source is as it was`);
        return trouble === null ? after : null;
    }

    /** Edits a file; whether it is to be assembled. Throws FileTrouble. */
    async file(name) {
        if (editorOf(process.env) !== "") return this.#inEditor(bytesFrom(name).toString());
        const before = existsSync(bytesFrom(name)) ? linesIn(textFrom(this.#read(name))).map(withoutReturn) : [];
        const after = await this.#byLines(before);
        if (after !== null) keepFile(name, bytesFrom(textOf(after)));
        return after !== null;
    }

    #read(name) {
        try {
            return readFile(name);
        } catch (trouble) {
            if (trouble instanceof FileTrouble) throw new FileTrouble(trouble.what, "it cannot be read");
            throw trouble;
        }
    }

    /** Whether the editor has ended well. */
    #inEditor(file) {
        const editor = editorOf(process.env);
        return this.#keyboard.lend(() => {
            const { status, error } = spawnSync("sh", ["-c", `${editor} "$1"`, "sh", file], { stdio: "inherit" });
            if (error !== undefined || status !== 0) this.#note(`the editor ${editor} ended with ${error?.message ?? `status ${status}`}`);
            return error === undefined && status === 0;
        });
    }

    // ---- line by line

    /** A line of the terminal that begins as a line of the source; null where it was given up. */
    async #typed(number, begun) {
        const typed = await this.#keyboard.line(`line ${number}> `, begun === undefined ? "" : Buffer.from(bytesFrom(begun)).toString());
        return typed === INTERRUPT || typed === END ? null : textFrom(Buffer.from(typed));
    }

    /** Each line in its turn; after the last one more may be typed, up to one with only a point. A line that is emptied goes. */
    async #byLines(before) {
        this.#note(
            "each line can be changed; an emptied one goes, a line with only a point ends the editing, and VISUAL or EDITOR names an editor"
        );
        const after = [];
        for (let number = 1; ; number++) {
            const begun = before[number - 1];
            const typed = await this.#typed(number, begun);
            if (typed === null) return this.#giveUp([...after, ...before.slice(number - 1)], before);
            if (typed === ".") return this.#changed([...after, ...before.slice(number - 1)], before);
            if (typed !== "" || begun === "") after.push(typed);
        }
    }

    #giveUp(lines, before) {
        if (textOf(lines) === textOf(before)) this.#note("the source was not changed");
        else this.#note(["the source is as it was;", ...this.#whereabouts(lines)].join(" "));
        return null;
    }

    #whereabouts(lines) {
        const file = this.#keep(lines);
        return file === null ? [`the edited lines:\n${lines.join("\n")}`] : [`the edited lines are in ${file}`];
    }

    #changed(after, before) {
        if (textOf(after) !== textOf(before)) return after;
        this.#note("the source was not changed");
        return null;
    }
}
