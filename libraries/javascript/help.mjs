// What a terminal says where somebody asks for help: the groups of commands, a command with an example and what is replied to it, the
// sixteen orders, and the
// source language. All of it is made of what the laboratory tells about its commands and operations.
import { wordsOf } from "./lines.mjs";
import { formsIn } from "./own.mjs";
import { isRefusal, linesOf, panelOf, recordsOf } from "./replies.mjs";
import { SHORT, meantBy } from "./shortcuts.mjs";
import { Views, narrowRows } from "./views.mjs";

const WIDTH = 80;
const INDENT = "    ";
/** Of a longer reply to an example only the first lines are shown. */
const MOST_SHOWN = 8;
/**
 * What is done before an example, so that there is something to see: a small program is loaded, and has performed orders up to one that
 * changes a word.
 */
const PREPARED = [
    "source", "start p =a", " b value", " a value", " h value", " p =b", " z", "value int 5 30", " end start", ".", "load", "watch value",
    "run 4",
];
/** The machine rests, or is going, when an example is typed; what says so to the reader. */
const STATES = [
    { lines: [...PREPARED, "press manual"], says: "after the lines that help example shows, and press manual:" },
    { lines: PREPARED, says: "after the lines that help example shows:" },
];
/** Examples that are not tried: they end the program, or say something of this computer's files. */
const UNTRIED = ["quit", "exit", "finish", "when", "edit", "sessions", "resume", "forward", "past", "alias", "unalias", "undisplay"];
/** The group of the commands that are for programs. */
const PROGRAMS = "programs";
const didNothing = (reply) => linesOf(reply).some((line) => line.startsWith("ran 0 ") || line.startsWith("orders 0 "));

const LAST_LINES = [
    "help GROUP shows the commands of a group, help COMMAND shows one command,",
    "help orders shows the sixteen orders, help source the source language, help",
    "address what an address is, and help of an operation or a fault what it is.",
    "Tab completes a word, Ctrl-R searches the lines typed before, Ctrl-C clears the",
    "line or stops what takes long, and Enter repeats the last step, run or back.",
];
const ADDRESS = [
    "An address, ttss, is two digits for the track, from 00 to 63, and two for the sector, from 00 to 63.",
    "A label of the last source stands for its address, and * for the address in the counter.",
    "+ or - and a number may come after it: table+3, *-1.",
];
const OPERANDS = "An operand is an address, a label, or * for the line's own place, with + or - and a number: loop+1. "
    + "p =a prints an a; p 5700 prints code 57. A label has one to eight small letters and digits, a letter first; a line at most 4,096 bytes.";
/** What is to be known of an operation beside what it does. */
const NOTES = new Map([
    ["n", "Two whole numbers, with their points after place 30, give twice their product; m of two with their points after place 15 gives it "
        + "once, with its point after place 30."],
    ["int", "The second number is the place after which the point is: int 5 30 is the whole number 5, which numbers shows."],
]);
const LINE_OF_A_SOURCE =
    "A line of a source has a label, which starts in the first column, an operation, its operands, and a comment after a semicolon; any of them may be missing.";

/** Words in lines of at most 80 columns; all but the first line begin so far in. */
function wrapped(front, words, indent) {
    const lines = [front];
    for (const word of words.split(" ")) {
        const line = `${lines.at(-1)} ${word}`;
        if (line.length <= WIDTH || lines.at(-1).trim() === "") lines[lines.length - 1] = line;
        else lines.push(`${" ".repeat(indent)} ${word}`);
    }
    return lines;
}

/** Sentences, each in lines of its own. */
const sentences = (all) => all.flatMap((each) => wrapped("", each, 0).map((line) => line.trim()));
const indented = (all) => all.flatMap((each) => wrapped(INDENT.slice(1), each, INDENT.length - 1));

/** A table of names, each with its sentence. */
function table(rows) {
    const width = Math.max(...rows.map(([name]) => name.length));
    return rows.flatMap(([name, says]) => wrapped(name.padEnd(width), says, width));
}

const refusedWhen = (refused) => (refused.startsWith("never") ? `never refused${refused.slice("never".length)}` : `refused ${refused}`);

export class Help {
    #ask;
    #own;
    #openScratch;
    #isNarrow;

    /**
     * What answers a line that only asks, the commands of the terminal's own, what opens a laboratory in which an example is tried, and
     * what
     * tells whether the terminal is narrow.
     */
    constructor(ask, own, openScratch, isNarrow = () => false) {
        this.#isNarrow = isNarrow;
        this.#ask = ask;
        this.#own = own;
        this.#openScratch = openScratch;
    }

    /** The lines of help about a word, or about everything; null where there is nothing of this name. */
    async about(word) {
        const commands = await this.#commands();
        if (word === undefined) return this.#overview(commands);
        const named = commands.find(({ command }) => command === (SHORT.get(word) ?? word));
        const group = commands.filter((command) => command.group === word);
        const others = group.filter(({ command }) => command !== word);
        const parts = [
            named === undefined ? [] : await this.#named(word, named),
            group.length === 0 ? [] : [`the group ${word}:`, ...table(others.map(({ command, does }) => [command, does]))],
            word === "orders" ? await this.#orders() : [],
            word === "source" ? await this.#language() : [],
            ["ttss", "address"].includes(word) ? sentences(ADDRESS) : [],
            word === "example" ? ["The examples are tried after these lines:", ...PREPARED.map((line) => `${INDENT}${line}`)] : [],
            await this.#operation(word),
            await this.#fault(word),
        ].filter((lines) => lines.length > 0);
        return parts.length === 0 ? null : parts.flatMap((lines, place) => (place === 0 ? lines : ["", ...lines]));
    }

    async #named(word, named) {
        const short = named.command === word ? [] : [`${word} is short for ${named.command}`];
        return [...short, ...(await this.#command(named))];
    }

    /** An operation of the source language: its operands, what it does, and an example. */
    async #operation(word) {
        const found = (await this.#records("operations-data")).find(({ operation }) => operation === word);
        if (found === undefined) return [];
        const { operands, does, waits, example } = found;
        const waiting = waits === "yes" ? ["It waits for the word at its address."] : [];
        const notes = NOTES.has(word) ? [NOTES.get(word)] : [];
        return [`the operation ${word}; its operands: ${operands}`, ...indented([does, ...waiting, ...notes, `in a source: ${example}`])];
    }

    /** A kind of fault: what is wrong, what would be right, and an example. */
    async #fault(word) {
        const found = (await this.#records("faults-data")).find(({ fault }) => fault === word);
        if (found === undefined) return [];
        const { wrong, right, example, mended } = found;
        const told = example === undefined ? [] : [`wrong: ${example}`, `right: ${mended}`, "where / stands for the end of a line"];
        return [`the fault ${word}`, ...indented([wrong, right, ...told])];
    }

    async #records(line) {
        return recordsOf(await this.#ask(`json ${line}`)).map((record) => Object.fromEntries(record));
    }

    /** All commands, with those of the terminal in the place of the monitor's where both have one. Those for programs are other ones. */
    async #commands() {
        const told = await this.#records("commands-data");
        const ownOf = (command) => {
            const { operands, does, note, refused, example } = this.#own.get(command);
            return { command, operands, does, note, refused, example };
        };
        const isElsewhere = (name) => told.some(({ group, command }) => command === name && group !== PROGRAMS);
        return [
            ...told.filter(({ group, command }) => group !== PROGRAMS || !this.#own.has(command)).map(
                (each) => (this.#own.has(each.command) ? { ...ownOf(each.command), group: each.group } : each)
            ),
            ...[...this.#own.keys()].filter((name) => !isElsewhere(name)).map((name) => ({ ...ownOf(name), group: "terminal" })),
        ];
    }

    #overview(commands) {
        const groups = new Map(commands.map(({ group }) => [group, commands.filter((command) => command.group === group)]));
        return [...table([...groups].map(([group, those]) => [group, those.map(({ command }) => command).join(" ")])), ...LAST_LINES];
    }

    async #command({ command, operands, does, note, refused, example }) {
        const refusal = refused === undefined ? [] : [refusedWhen(refused)];
        return [
            ...formsIn(command, operands),
            ...indented([does, ...(note === undefined ? [] : [note]), ...refusal]),
            ...(example === undefined ? [] : await this.#example(command, example)),
        ];
    }

    /** An example and what is replied to it, with what comes before it where that matters. One that names a file is not tried. */
    async #example(command, example) {
        if (/\.(txt|bin)\b/.test(example) || UNTRIED.includes(command)) return [`${INDENT}> ${example}`];
        const { reply, says } = await this.#tried(example);
        const lines = linesOf(reply);
        const shown = lines.length > MOST_SHOWN ? [...lines.slice(0, MOST_SHOWN), ".."] : lines;
        return [...(says === null ? [] : [INDENT + says]), `${INDENT}> ${example}`, ...shown.map((line) => `${INDENT}${line}`)];
    }

    /**
     * The reply to an example, in the first state in which it does something, and what says which state that is; a new machine needs none.
     */
    async #tried(example) {
        let found = { reply: "", says: null };
        for (const { lines, says } of STATES) {
            found = { reply: await this.#replyAfter(lines, example), says };
            if (!isRefusal(found.reply) && !didNothing(found.reply)) break;
        }
        return (await this.#replyAfter([], example)) === found.reply ? { ...found, says: null } : found;
    }

    async #replyAfter(lines, example) {
        const scratch = this.#openScratch();
        for (const line of lines) await scratch.type(line);
        const reply = await this.#shown(scratch, example);
        await scratch.close();
        return reply;
    }

    /** What the terminal shows for a line. */
    async #shown(scratch, line) {
        const type = (typed) => scratch.type(typed);
        const [command, ...operands] = wordsOf(meantBy(line));
        const views = new Views(type, false);
        const linesText = (lines) => lines.map((each) => `${each}\n`).join("");
        switch (command) {
            case "look":
                return linesText(await views.look());
            case "around": {
                const [word] = recordsOf(await type(`json show-data ${operands[0]} 1`).then((told) => (isRefusal(told) ? "" : told)));
                return word === undefined ? "" : linesText(await views.around(word.get("address"), Number(operands[1])));
            }
            case "display":
                views.display(operands[0]);
                return linesText(await views.displayed());
            case "put-listing":
                return type(`put ${operands.slice(0, 2).join(" ")}`);
            case "go": {
                const reply = await type(line);
                const { counter, status } = panelOf(await type("json panel-data"));
                return isRefusal(reply) ? reply : `started: ${counter} ${status}\n`;
            }
            case "trace": {
                const reply = this.#isNarrow() ? await type(`json trace-data ${operands[0]}`) : await type(meantBy(line));
                return this.#isNarrow() && !isRefusal(reply) ? linesText(narrowRows(reply).lines) : reply;
            }
            case "change":
                return type(`put ${operands.join(" ")}`);
            default:
                return type(meantBy(line));
        }
    }

    /** The sixteen orders: what each does, and which wait for the word at their address. */
    async #orders() {
        const orders = (await this.#records("operations-data")).filter(({ operation }) => operation.length === 1);
        return [
            "the sixteen orders; those with a + wait for the word at their address:",
            ...table(orders.map(({ operation, waits, does }) => [`${operation} ${waits === "yes" ? "+" : " "}`, does])),
        ];
    }

    /** A line of a source, and the operations that are no orders. */
    async #language() {
        const others = (await this.#records("operations-data")).filter(({ operation }) => operation.length > 1);
        return [
            ...sentences([LINE_OF_A_SOURCE, OPERANDS]),
            "Its operations are the sixteen orders, and these:",
            ...table(others.map(({ operation, does, example }) => [operation, `${does}: ${example}`])),
        ];
    }
}
