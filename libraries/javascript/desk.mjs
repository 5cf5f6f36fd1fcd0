// The desk of a session in a program: what it wishes for is done with files, and what it says is written.
import { FileTrouble, keepFile, readFile } from "./files.mjs";
import { bytesFrom, standInOf, textFrom } from "./lines.mjs";

/** What a call that concerns a file gives, or what the desk is told of the trouble. */
function orTrouble(call) {
    try {
        return call();
    } catch (trouble) {
        if (!(trouble instanceof FileTrouble)) throw trouble;
        return [trouble.what];
    }
}

export class Desk {
    #session;
    #write;
    #isRefused = false;

    /**
     * The desk of a session; `manner` says how it writes replies: "bare", "prompting", "echo" or "json", and `write` takes the bytes that
     * are to be written.
     */
    constructor(session, write, manner = "bare") {
        this.#session = session;
        this.#write = write;
        session.setManner(manner);
    }

    /** Whether `quit` was typed. */
    get hasLeft() {
        return this.#session.wish === "nothing";
    }

    /** Whether a reply was a refusal. */
    get isRefused() {
        return this.#isRefused;
    }

    /** The prompt in front of the next line, where prompts are written. */
    get prompt() {
        return textFrom(this.#session.show("prompt"));
    }

    /** Types the lines of files, one file after another. */
    typeFirst(names) {
        for (const name of names) this.#tell("first", bytesFrom(name));
    }

    /** Types a line. */
    typeLine(line) {
        this.#tell("typed", bytesFrom(standInOf(line)));
    }

    /** No line is typed any more. */
    close() {
        this.#say(this.#session.leave());
    }

    #tell(what, bytes) {
        this.#say(this.#session.tell(what, bytes));
        for (let told = this.#granted(); told !== null; told = this.#granted()) this.#say(this.#session.tell(...told));
    }

    #say({ reply, isRefused }) {
        this.#isRefused ||= isRefused;
        this.#write(reply);
    }

    /** Does what the desk wishes for, if that concerns files: what it is told then, or null. */
    #granted() {
        switch (this.#session.wish) {
            case "onward":
                return ["onward"];
            case "file":
                return orTrouble(() => ["found", readFile(this.#name)]);
            case "kept":
                return orTrouble(() => this.#keep());
            default:
                return null;
        }
    }

    get #name() {
        return textFrom(this.#session.show("name"));
    }

    #keep() {
        keepFile(this.#name, this.#session.show("made"));
        return ["kept"];
    }
}
