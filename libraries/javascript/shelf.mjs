// What a person did at a terminal, kept in the user's state folder: the sessions' lines, sources that were left, and the lines typed.
//
//     $XDG_STATE_HOME/condugwa/          ~/.local/state/condugwa/ where that is not set
//         sessions/DATE-START-PROCESS-N  the lines of a session: its transcript when it was left, before that the lines as typed
//         sources/DATE-START-PROCESS-N   a source that is open in the session of this name; with .left after it one that was left
//         history                        the lines typed, the last one last
import { appendFileSync, existsSync, mkdirSync, readFileSync, readdirSync, renameSync, rmSync, statSync, writeFileSync } from "node:fs";
import { homedir } from "node:os";
import { dirname, join } from "node:path";
import { reasonOf } from "./files.mjs";
import { isKeptElsewhere, newName } from "./keepers.mjs";
import { bytesFrom, linesIn, textFrom } from "./lines.mjs";

/** How many sessions, and how many sources, are kept. */
const MOST_KEPT = 20;
/** How many typed lines are kept. */
const MOST_LINES = 1000;
const OPTIONS = { mode: 0o600 };
const LEFT = ".left";
const NEW = ".new";

/** What is kept, as a sentence about it begins. */
const PARTS = { session: "this session is", source: "this source is", history: "the lines typed are" };

/** The user's state folder. */
export function stateFolder(environment = process.env) {
    const { XDG_STATE_HOME: home } = environment;
    return join(home?.startsWith("/") ? home : join(environment.HOME ?? homedir(), ".local", "state"), "condugwa");
}

const textOf = (lines) => bytesFrom(lines.map((line) => `${line}\n`).join(""));

/** Makes a folder and those above it. One call of node that does it never ends where a folder of the system takes none. */
function makeFolder(folder) {
    if (existsSync(folder)) return;
    makeFolder(dirname(folder));
    try {
        mkdirSync(folder, { mode: 0o700 });
    } catch (failure) {
        if (failure.code !== "EEXIST") throw failure;
    }
}

/** Puts lines in the place of what a file has, or leaves it as it is. */
function writeWhole(path, lines) {
    try {
        writeFileSync(path + NEW, textOf(lines), OPTIONS);
        renameSync(path + NEW, path);
    } catch (failure) {
        rmSync(path + NEW, { force: true });
        throw failure;
    }
}

/** Newer names first; one process may make several at the same time. */
const isNewer = (one, other) => {
    const [at, , , number = "0"] = one.split("-");
    const [otherAt, , , otherNumber = "0"] = other.split("-");
    return at === otherAt ? parseInt(otherNumber, 10) - parseInt(number, 10) : at < otherAt ? 1 : -1;
};

/** The lines of a file that ends within one: that one is no line. */
function wholeLines(text) {
    const isCut = text !== "" && !text.endsWith("\n");
    const lines = linesIn(text);
    return { lines: isCut ? lines.slice(0, -1) : lines, isCut };
}

export class Shelf {
    #folder;
    #troubles = new Map();
    /** What has to be told of each part. */
    #news = new Map();
    /** The name of this session, once something of it is kept. */
    #name = null;
    #lines = [];
    /** How many of the lines stand in its file, and whether that has these lines and no others. */
    #written = 0;
    #isExact = true;
    #hasSource = false;
    #left = 0;
    #unread = new Set();

    /** The shelf in a folder. Where nothing can be kept there, `trouble` says why, and it is tried again with each line. */
    constructor(folder = stateFolder()) {
        this.#folder = folder;
        this.#try("session", () => this.#makeFolders());
        this.#news.clear();
    }

    /** Why nothing of the session is kept, or null. */
    get trouble() {
        return this.#troubles.get("session") ?? null;
    }

    /** What of this has to be told once: the sentences since this was asked last. What is so of the session is so of the lines typed. */
    takeNews() {
        if (this.#news.has("session")) this.#news.delete("history");
        const news = [...this.#news.values()];
        this.#news.clear();
        return news;
    }

    /** The lines of this session. */
    get lines() {
        return this.#lines;
    }

    #makeFolders() {
        for (const part of ["sessions", "sources"]) makeFolder(join(this.#folder, part));
    }

    #path(part, name) {
        return join(this.#folder, part, name);
    }

    /** What a work that keeps a part of what is done gives. That it fails, and that it goes well again, is noted once. */
    #try(part, work, otherwise) {
        try {
            if (this.#troubles.has(part)) this.#makeFolders();
            const given = work();
            if (this.#troubles.delete(part)) this.#news.set(part, `${PARTS[part]} kept again`);
            return given;
        } catch (failure) {
            if (failure.syscall === undefined) throw failure;
            this.#fail(part, failure);
            return otherwise;
        }
    }

    #fail(part, failure) {
        const isKnown = this.#troubles.has(part) || this.#troubles.has("session");
        const trouble = `in ${this.#folder}: ${reasonOf(failure)}`;
        this.#troubles.set(part, trouble);
        if (!isKnown) this.#news.set(part, `${PARTS[part]} not kept any more, ${trouble}; it is tried again with each line`);
    }

    // ---- the session that goes on

    #named() {
        if (this.#name !== null) return;
        this.#name = newName();
        this.#prune("sessions");
        this.#prune("sources");
    }

    #write() {
        this.#try("session", () => {
            if (this.#lines.length === 0 && this.#name === null) return;
            this.#named();
            const path = this.#path("sessions", this.#name);
            const isExact = this.#isExact;
            // a line that is written in part is written again with all the others
            this.#isExact = false;
            if (isExact) appendFileSync(path, textOf(this.#lines.slice(this.#written)), OPTIONS);
            else writeWhole(path, this.#lines);
            this.#written = this.#lines.length;
            this.#isExact = true;
        });
    }

    /** Keeps lines of the session that goes on. */
    keepTyped(...lines) {
        this.#lines.push(...lines);
        this.#write();
    }

    /** Keeps the transcript of the session that goes on, in the place of the lines that were typed. */
    keepSession(text) {
        const lines = linesIn(text);
        const isLonger = this.#lines.every((line, at) => line === lines[at]);
        if (!isLonger) this.#isExact = false;
        this.#lines = lines;
        if (!isLonger || this.#written < lines.length) this.#write();
    }

    /** Puts the session away; the next one is kept beside it. */
    putSessionAway() {
        this.#name = null;
        this.#lines = [];
        this.#written = 0;
        this.#isExact = true;
    }

    // ---- the sessions before it

    /** The names in a part of which no running program keeps the file, the newest first. */
    #namesLeft(part) {
        try {
            const names = readdirSync(join(this.#folder, part)).filter((name) => !name.endsWith(NEW));
            return names.filter((name) => name !== this.#name && !isKeptElsewhere(name)).sort(isNewer);
        } catch (failure) {
            if (failure.syscall === undefined) throw failure;
            return [];
        }
    }

    #prune(part) {
        for (const name of this.#namesLeft(part).slice(MOST_KEPT)) this.#without(() => rmSync(this.#path(part, name), { force: true }));
    }

    /** What a work on an entry gives; null where the entry cannot be read or removed. */
    #without(work) {
        try {
            return work();
        } catch (failure) {
            if (failure.syscall === undefined) throw failure;
            return null;
        }
    }

    /** What an entry holds and when it was kept; null where it is not there, or cannot be read. */
    #entry(part, name) {
        const path = this.#path(part, name);
        if (!existsSync(path)) return null;
        const entry = this.#without(() => ({ ...wholeLines(textFrom(readFileSync(path))), when: statSync(path).mtime, path }));
        if (entry === null) this.#unread.add(path);
        return entry;
    }

    /**
     * The sessions that can be gone on with, the newest first: the lines of each, when it was kept, whether its last line was cut off,
     * and the source that was open in it.
     */
    sessions() {
        const sources = this.#namesLeft("sources").filter((name) => !name.includes(LEFT));
        const names = [...new Set([...this.#namesLeft("sessions"), ...sources])].sort(isNewer);
        const found = names.map((name) => {
            const [session, source] = [this.#entry("sessions", name), sources.includes(name) ? this.#entry("sources", name) : null];
            const when = (source ?? session)?.when;
            return { lines: session?.lines ?? [], isCut: session?.isCut ?? false, when, source };
        });
        return found.filter(({ lines, source }) => lines.length > 0 || source !== null);
    }

    /** The last session that can be gone on with; null where there is none. */
    lastSession() {
        return this.sessions()[0] ?? null;
    }

    /** The entries that could not be read. */
    get unread() {
        return [...this.#unread];
    }

    // ---- the source that is open

    /** Keeps the lines of the source that is open. */
    keepSource(lines) {
        this.#try("source", () => {
            this.#named();
            this.#hasSource = true;
            writeWhole(this.#path("sources", this.#name), lines);
        });
    }

    /** The file of a source that is left; it stays. Null where it could not be kept. */
    leaveSource() {
        if (!this.#hasSource) return null;
        this.#hasSource = false;
        const path = this.#path("sources", this.#name);
        const left = `${path}${LEFT}${this.#left++}`;
        return this.#troubles.has("source") ? null : this.#without(() => {
            renameSync(path, left);
            return left;
        });
    }

    /** Lets go of a source that is in the session. */
    dropSource() {
        if (this.#hasSource) this.#without(() => rmSync(this.#path("sources", this.#name), { force: true }));
        this.#hasSource = false;
    }

    // ---- the lines typed

    /** The lines typed, the last one first. */
    history() {
        return this.#without(() => {
            const file = join(this.#folder, "history");
            if (!existsSync(file)) return [];
            const lines = linesIn(readFileSync(file, "utf8"));
            const last = lines.slice(-MOST_LINES);
            if (lines.length > 2 * MOST_LINES) this.#without(() => writeFileSync(file, last.map((line) => `${line}\n`).join("")));
            return last.reverse();
        }) ?? [];
    }

    /** Keeps a line that was typed. */
    keepLine(line) {
        this.#try("history", () => appendFileSync(join(this.#folder, "history"), `${line}\n`, OPTIONS));
    }
}
