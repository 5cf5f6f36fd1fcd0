// Texts as bytes: strings of which each sign is a byte. The monitor takes any bytes, and names and lines are compared as they are.

/** How many bytes of a line are kept. */
export const LINE_LIMIT = 4096;

/** The text of bytes. */
export const textFrom = (bytes) => Buffer.from(bytes).toString("latin1");

/** The bytes of a text. */
export const bytesFrom = (text) => Buffer.from(text, "latin1");

/** The words of a line, which has spaces between them. */
export const wordsOf = (line) => line.split(" ").filter((word) => word !== "");

/** The front of a line that is kept. */
export const frontOf = (line) => line.slice(0, LINE_LIMIT);

/** Whether a line has more than its front. */
export const isLonger = (line) => line.length > LINE_LIMIT;

/** A line of at most a byte more than its front that is answered as the line is. */
export const standInOf = (line) => (isLonger(line) ? frontOf(line) + (/^ *$/.test(line) ? " " : ".") : line);

/** A line without a carriage return at its end. */
export const withoutReturn = (line) => (line.endsWith("\r") ? line.slice(0, -1) : line);

/** A text with a line feed at its end, if it is not empty. */
export const endedText = (text) => (text === "" || text.endsWith("\n") ? text : `${text}\n`);

/** The lines of a text, without their line feeds. */
export const linesIn = (text) => (text === "" ? [] : text.replace(/\n$/, "").split("\n"));

/** Whether a text has this line, a carriage return at its end aside. */
export const hasLine = (text, wanted) => text.split("\n").some((line) => withoutReturn(line) === wanted);

/** A text with each byte but the printed characters of ASCII by its number, as the proved program writes strings of JSON. */
export const escapedOf = (text) => (
    text.replace(/["\\]|[^ -~]/g, (sign) => (/["\\]/.test(sign) ? `\\${sign}` : `\\u00${sign.charCodeAt(0).toString(16).padStart(2, "0")}`))
);

/**
 * Parts lines from a text that comes in pieces. Of a line that is longer than what is kept only its stand-in is held, however long it is.
 */
export class LineParts {
    #front = "";
    #isLong = false;
    #isBlank = true;
    #endsInReturn = false;

    /** The lines that a piece ends, each as it is or as its stand-in. */
    linesIn(piece) {
        const parts = piece.split("\n");
        const last = parts.pop();
        const lines = parts.map((part) => {
            this.#add(part);
            return this.end();
        });
        this.#add(last);
        return lines;
    }

    #add(part) {
        if (part === "") return;
        // a return that is not the last sign of a line is none of its blanks
        if (this.#endsInReturn) this.#isBlank = false;
        this.#endsInReturn = part.endsWith("\r");
        this.#isBlank &&= /^ *\r?$/.test(part);
        const room = LINE_LIMIT + 2 - this.#front.length;
        this.#front += part.slice(0, room);
        this.#isLong ||= part.length > room;
    }

    /** Whether a line has begun. */
    get hasBegun() {
        return this.#front !== "";
    }

    /** The line that has begun, without a return at its end. */
    end() {
        const [isLong, isBlank] = [this.#isLong, this.#isBlank];
        const last = this.rest();
        return isLong ? frontOf(last) + (isBlank ? " " : ".") : withoutReturn(last);
    }

    /** The line that has begun, whose end is not there. */
    rest() {
        const [front, isLong, isBlank] = [this.#front, this.#isLong, this.#isBlank && !this.#endsInReturn];
        this.#front = "";
        this.#isLong = this.#endsInReturn = false;
        this.#isBlank = true;
        return isLong ? frontOf(front) + (isBlank ? " " : ".") : front;
    }
}
