// The lines that a person types at a terminal, with what hands know from a shell: Ctrl-C clears the line, Ctrl-Z stops the program, Ctrl-R
// searches the lines typed before. What is typed while a line is answered waits for the next prompt. What is pasted is text, tabs too.
import { PassThrough } from "node:stream";
import { createInterface } from "node:readline";

const CTRL_C = 0x03;
const CTRL_D = 0x04;
const CTRL_G = 0x07;
const BACKSPACES = [0x08, 0x7f];
const CTRL_R = 0x12;
const CTRL_Z = 0x1a;
const CTRL_BACKSLASH = 0x1c;
const TAB = 0x09;
/** A tab that is text stands so among the keys that wait. */
const TAB_AS_TEXT = 0x00;
const ENDS = [0x0a, 0x0d];
const OWN_KEYS = [CTRL_R, CTRL_Z, CTRL_D, TAB_AS_TEXT];
/** Tab, and the ends of a line. */
const LAST_KEYS = [TAB, ...ENDS];
/** What a terminal sends before and after what is pasted, once it has been asked to. */
const PASTED = Buffer.from("\x1b[200~");
const WAS_PASTED = Buffer.from("\x1b[201~");
const ASK_FOR_PASTES = "\x1b[?2004h";
const ASK_NO_MORE = "\x1b[?2004l";

/** What ended the wait for a line that is none: Ctrl-C, or Ctrl-D at an empty line. */
export const INTERRUPT = Symbol("interrupt");
export const END = Symbol("end");

/** A search among the lines typed before, the last one first. */
class Search {
    #lines;
    #term = "";
    #at = 0;

    constructor(lines) {
        this.#lines = lines;
    }

    get found() {
        return this.#term === "" ? null : (this.#lines[this.#at] ?? null);
    }

    get shown() {
        return `(search) ${this.#term}: ${this.found ?? (this.#term === "" ? "" : "nothing")}`;
    }

    #look(from) {
        const at = this.#lines.findIndex((line, place) => place >= from && line.includes(this.#term));
        this.#at = at < 0 ? this.#lines.length : at;
    }

    add(letter) {
        this.#term += letter;
        this.#look(Math.min(this.#at, this.#lines.length - 1));
    }

    takeBack() {
        this.#term = this.#term.slice(0, -1);
        this.#look(0);
    }

    goOn() {
        if (this.found !== null) this.#look(this.#at + 1);
    }
}

/** How many bytes at the end of some are the beginning of others, where these are at least as many as `least`. */
function begunAtEnd(bytes, wanted, least) {
    for (let length = Math.min(bytes.length, wanted.length - 1); length >= least; length--) {
        if (bytes.subarray(-length).equals(wanted.subarray(0, length))) return length;
    }
    return 0;
}

const withTextTabs = (bytes) => Buffer.from(bytes.map((key) => (key === TAB ? TAB_AS_TEXT : key)));

/** Bytes with each tab as text, and of what else is no letter only the ends of lines. */
const asText = (bytes) => withTextTabs(bytes.filter((key) => key >= 32 || key === TAB || ENDS.includes(key)));

/** Tells what is pasted from what is typed. */
class Pastes {
    #isWithin = false;
    #begun = Buffer.alloc(0);

    /** Some bytes of a terminal as keys: what was pasted is text; so is a tab that came with others. */
    keysOf(read) {
        let rest = Buffer.concat([this.#begun, read]);
        const keys = [];
        for (let mark = this.#mark; rest.includes(mark); mark = this.#mark) {
            const at = rest.indexOf(mark);
            keys.push(this.#keys(rest.subarray(0, at)));
            rest = rest.subarray(at + mark.length);
            this.#isWithin = !this.#isWithin;
        }
        const held = begunAtEnd(rest, this.#mark, this.#isWithin ? 1 : 3);
        this.#begun = rest.subarray(rest.length - held);
        return Buffer.concat([...keys, this.#keys(rest.subarray(0, rest.length - held))]);
    }

    get #mark() {
        return this.#isWithin ? WAS_PASTED : PASTED;
    }

    #keys(bytes) {
        if (this.#isWithin) return asText(bytes);
        const typed = bytes.filter((key) => key !== TAB_AS_TEXT);
        const isTypedAlone = typed.every((key) => key === TAB);
        return isTypedAlone ? Buffer.from(typed) : withTextTabs(typed);
    }
}

export class Keyboard {
    #input;
    #output;
    #keys;
    #reader;
    #waiting = Buffer.alloc(0);
    #taken = null;
    #search = null;
    #isCompleting = false;
    #hasEnded = false;
    #pastes = new Pastes();
    #isPlain;

    /** Whether Ctrl-C was pressed since a line was given out. */
    isInterrupted = false;

    /**
     * A keyboard at a terminal, with what completes a line (later) and the lines typed before, the last one first; a plain one is asked
     * nothing.
     */
    constructor({ input = process.stdin, output = process.stdout, completer, history, isPlain = false }) {
        this.#input = input;
        this.#output = output;
        this.#isPlain = isPlain;
        this.#keys = new PassThrough();
        const completed = (line, done) => this.#complete(completer(line), done);
        this.#reader = createInterface({
            input: this.#keys, output, terminal: true, completer: completed, history: [...history], historySize: 1000,
            removeHistoryDuplicates: true,
        });
        this.#reader.on("line", (line) => this.#give(line));
        this.#takeTerminal();
        input.on("data", (bytes) => this.#hear(bytes));
        input.on("end", () => this.#hangUp());
        process.on("SIGCONT", () => this.#comeBack());
    }

    #takeTerminal() {
        this.#input.setRawMode(true);
        if (!this.#isPlain) this.#output.write(ASK_FOR_PASTES);
    }

    #leaveTerminal() {
        this.#input.setRawMode(false);
        if (!this.#isPlain) this.#output.write(ASK_NO_MORE);
    }

    /** Whether the terminal has gone: no key will come. */
    get hasEnded() {
        return this.#hasEnded;
    }

    /** Whether keys wait for the next line. */
    get isAhead() {
        return this.#waiting.length > 0;
    }

    /** Lends the terminal to another program while a work is done. */
    async lend(work) {
        const ignored = () => {};
        process.on("SIGINT", ignored);
        this.#leaveTerminal();
        this.#input.pause();
        try {
            return await work();
        } finally {
            process.off("SIGINT", ignored);
            this.#input.resume();
            this.#takeTerminal();
        }
    }

    /** The next line, or what there is in its place. The line may have a beginning, which can be changed. */
    line(prompt, begun = "") {
        this.isInterrupted = false;
        this.#reader.setPrompt(prompt);
        this.#reader.prompt();
        if (begun !== "") this.#showLine(begun);
        return new Promise((resolve) => {
            this.#taken = resolve;
            if (this.#hasEnded) this.#give(END);
            else this.#feed();
        });
    }

    /** Takes back the terminal's own ways. */
    close() {
        this.#leaveTerminal();
        this.#input.pause();
        this.#reader.close();
    }

    /** Hands on no keys until the end of a line is completed. */
    #complete(found, done) {
        this.#isCompleting = true;
        const goOn = (failure, words) => {
            this.#isCompleting = false;
            done(failure, words);
            this.#feed();
        };
        found.then((words) => goOn(null, words), goOn);
    }

    #give(line) {
        const taken = this.#taken;
        this.#taken = null;
        taken?.(line);
    }

    #hangUp() {
        this.#hasEnded = true;
        this.#give(END);
    }

    #hear(read) {
        const bytes = this.#pastes.keysOf(read);
        const cut = bytes.lastIndexOf(CTRL_C);
        if (cut >= 0 && this.#search === null) {
            // what was typed before it is given up, as a shell does
            this.#waiting = bytes.subarray(cut + 1);
            this.#interrupt();
        } else this.#waiting = Buffer.concat([this.#waiting, bytes]);
        if (this.#taken === null) this.#hearWithin();
        this.#feed();
    }

    /** While a line is answered, Ctrl-Z stops the program at once, and Ctrl-\ ends it. */
    #hearWithin() {
        if (this.#waiting.includes(CTRL_BACKSLASH)) {
            this.#leaveTerminal();
            this.#output.write("^\\\n");
            process.kill(process.pid, "SIGQUIT");
        }
        const at = this.#waiting.indexOf(CTRL_Z);
        if (at < 0) return;
        this.#waiting = Buffer.concat([this.#waiting.subarray(0, at), this.#waiting.subarray(at + 1)]);
        this.#suspend();
    }

    #interrupt() {
        this.isInterrupted = true;
        if (this.#taken === null) return;
        this.#output.write("^C\n");
        this.#setLine("");
        this.#give(INTERRUPT);
    }

    #setLine(line) {
        this.#reader.line = line;
        this.#reader.cursor = line.length;
    }

    #showLine(line) {
        this.#setLine(line);
        this.#reader.prompt(true);
    }

    /** Puts a tab into the line. */
    #addTab() {
        this.#drop();
        const { line, cursor } = this.#reader;
        this.#reader.line = `${line.slice(0, cursor)}\t${line.slice(cursor)}`;
        this.#reader.cursor = cursor + 1;
        this.#reader.prompt(true);
    }

    /** Hands on what waits, up to the end of a line. */
    #feed() {
        while (this.#taken !== null && !this.#isCompleting && this.#waiting.length > 0) {
            const [key] = this.#waiting;
            if (this.#search !== null) this.#seek(key);
            else if (key === CTRL_R) this.#begin();
            else if (key === CTRL_Z) this.#stop();
            else if (key === TAB_AS_TEXT) this.#addTab();
            else if (key === CTRL_D && this.#reader.line === "") this.#leave();
            else this.#pass();
        }
    }

    #drop(count = 1) {
        this.#waiting = this.#waiting.subarray(count);
    }

    /** Hands on keys up to the next one that is none of the reader's, or up to one after which the reader is busy. */
    #pass() {
        const next = this.#waiting.findIndex((key, at) => (at > 0 && OWN_KEYS.includes(key)) || LAST_KEYS.includes(key));
        const count = next < 0 ? this.#waiting.length : LAST_KEYS.includes(this.#waiting[next]) ? next + 1 : next;
        const keys = this.#waiting.subarray(0, count);
        this.#drop(count);
        this.#reader.input.emit("data", keys);
    }

    #leave() {
        this.#drop();
        this.#output.write("\n");
        this.#give(END);
    }

    // ---- Ctrl-Z

    #stop() {
        this.#drop();
        this.#suspend();
    }

    #suspend() {
        this.#leaveTerminal();
        this.#output.write("^Z\n");
        process.kill(process.pid, "SIGTSTP");
    }

    #comeBack() {
        this.#takeTerminal();
        if (this.#taken !== null) this.#reader.prompt(true);
    }

    // ---- Ctrl-R

    #begin() {
        this.#drop();
        this.#search = new Search(this.#reader.history ?? []);
        this.#draw();
    }

    #draw() {
        this.#output.write(`\r\x1b[K${this.#search.shown}`);
    }

    #seek(key) {
        if (key === CTRL_C || key === CTRL_G) return this.#endSearch(this.#reader.line);
        if (key >= 32 && key !== 0x7f) this.#search.add(this.#letter());
        else if (BACKSPACES.includes(key)) this.#search.takeBack(this.#drop());
        else if (key === CTRL_R) this.#search.goOn(this.#drop());
        else return this.#endSearch(this.#search.found ?? this.#reader.line, 0);
        this.#draw();
    }

    /** Takes a letter that waits, of one byte or of several. */
    #letter() {
        const [first] = this.#waiting;
        const length = first < 0x80 ? 1 : first < 0xe0 ? 2 : first < 0xf0 ? 3 : 4;
        const letter = this.#waiting.subarray(0, length).toString();
        this.#drop(length);
        return letter;
    }

    /** Ends the search with a line; the key that ended it is taken, or handed on where none is. */
    #endSearch(line, taken = 1) {
        this.#drop(taken);
        this.#search = null;
        this.#setLine(line);
        this.#output.write("\r\x1b[K");
        this.#reader.prompt(true);
    }
}
