// The programs lgp_lab and lgp_monitor over the proved module, for ./lgp_lab and ./lgp_monitor where the native programs are not made.
//
//     node terminal.mjs lgp_lab|lgp_monitor WORDS..
import { existsSync, openSync, readFileSync } from "node:fs";
import { isatty } from "node:tty";
import { Desk } from "./desk.mjs";
import { readAll, readSome, reasonOf, writeAll } from "./files.mjs";
import { LineParts, bytesFrom, textFrom } from "./lines.mjs";
import { helpFor } from "./recorded_help.mjs";
import { NoMemory, Session, answerScript, answerSource, compiled } from "./session.mjs";
import { sitWith } from "./sitting.mjs";
import { ThreadEngine } from "./thread_engine.mjs";
import { MistakenWords, UnreadWords, sittingOf, taskOf } from "./words.mjs";

const WELL = 0;
const QUESTIONS = 1;
const FAILED = 2;
const MEMORY = 3;
const USAGE = 64;
const REGIONS = [2 ** 26, 2 ** 28, 2 ** 30];
// for a session beside another one, in which lines are tried
const BESIDE = 2 ** 22;

const module = compiled(readFileSync(new URL("lgp_c_region.wasm", import.meta.url)));

const write = (bytes) => writeAll(1, bytes);

/** Writes a line on standard error; whether it could be written. */
function tell(line) {
    try {
        writeAll(2, Buffer.from(`${line}\n`));
        return true;
    } catch (failure) {
        if (failure.syscall === undefined) throw failure;
        return false;
    }
}

/** Says at a terminal, once, what runs here and how there would be a native program. A package has no ./prove. */
function tellWay(maker) {
    const hasSources = existsSync(new URL("../../prove", import.meta.url));
    if (hasSources && isatty(2)) tell(`${program}: running the WebAssembly build in node; ${maker} builds the native program`);
}

/** What the module answers, with more memory where that is too little. */
function answered(call) {
    for (const region of REGIONS) {
        try {
            return call(region);
        } catch (failure) {
            if (!(failure instanceof NoMemory)) throw failure;
        }
    }
    throw new NoMemory("there is not enough memory");
}

/** Writes what is answered; the status. */
function writeAnswer(call) {
    const { replies, questions } = answered(call);
    write(replies);
    return questions > 0 ? QUESTIONS : WELL;
}

const answerWhole = (script) => writeAnswer((region) => answerScript(module, script, region));

/** All bytes of an open file. Where it is a folder, the failure names it. */
function bytesIn(descriptor, name) {
    try {
        return readAll(descriptor);
    } catch (failure) {
        throw failure.code === "EISDIR" ? Object.assign(failure, { folder: name }) : failure;
    }
}

const contents = (name) => bytesIn(openSync(name, "r"), name);

/** Answers the script on standard input when all of it is there. */
function answerInput() {
    if (isatty(0)) tell("lgp_lab: the script is answered after Ctrl-D; ./lgp_monitor answers line by line");
    return answerWhole(readAll(0));
}

function batch(names) {
    let worst = WELL;
    for (const name of names) {
        const script = openSync(name, "r");
        write(Buffer.from(`file ${name}\n`));
        worst = Math.max(worst, answerWhole(bytesIn(script, name)));
    }
    return worst;
}

/** Does what the words of lgp_lab ask for; the status. */
function perform({ command, files, limit }) {
    switch (command) {
        case "stdin":
            return answerInput();
        case "script":
            return answerWhole(contents(files[0]));
        case "batch":
            return batch(files);
        default: {
            const source = contents(files[0]);
            return writeAnswer((region) => answerSource(module, command, source, limit, region));
        }
    }
}

/** Types the lines of standard input as they come. */
function typeInput(desk) {
    const portion = Buffer.alloc(65_536);
    const parts = new LineParts();
    while (!desk.hasLeft) {
        const count = readSome(0, portion);
        if (count === 0) break;
        for (const line of parts.linesIn(textFrom(portion.subarray(0, count)))) desk.typeLine(line);
    }
    if (parts.hasBegun) desk.typeLine(parts.rest());
}

async function runMonitor({ names, manner }) {
    const typed = names.map((name) => textFrom(Buffer.from(name)));
    if (isatty(0) && isatty(1) && manner === "bare") {
        const engine = new ThreadEngine(module, REGIONS[1], () => new Session(module, BESIDE));
        write(bytesFrom(await engine.begin(typed)));
        await (engine.hasLeft ? engine.close() : sitWith(engine));
        return WELL;
    }
    const desk = new Desk(new Session(module, REGIONS[1]), write, manner);
    desk.typeFirst(typed);
    typeInput(desk);
    desk.close();
    return desk.isRefused ? QUESTIONS : WELL;
}

const [program, ...words] = process.argv.slice(2);

const PROGRAMS = ["lgp_lab", "lgp_monitor"];
const USAGE_TEXT = `node terminal.mjs lgp_lab|lgp_monitor WORDS..

Runs one of the two programs over the proved module. With --help after its name a program explains its words.
`;

function work() {
    if (!PROGRAMS.includes(program)) {
        if (program !== "--help" && program !== "-h") {
            throw new MistakenWords(`there is no program '${program ?? ""}'`, "node terminal.mjs lgp_lab|lgp_monitor WORDS..");
        }
        write(Buffer.from(USAGE_TEXT));
        return WELL;
    }
    const help = helpFor(program, words);
    if (help !== null) {
        write(Buffer.from(help));
        return WELL;
    }
    if (program === "lgp_monitor") {
        const sitting = sittingOf(words);
        tellWay("./prove lgp30m");
        return runMonitor(sitting);
    }
    const task = taskOf(words);
    tellWay("./prove");
    return perform(task);
}

/** What went wrong with the input or the output, in words. */
function troubleOf(failure) {
    if (failure.folder !== undefined) return `'${failure.folder}' is a folder, and no file`;
    return `${failure.syscall === "write" ? "the output could not be written" : "the input could not be read"}: ${reasonOf(failure)}`;
}

/** The status for what went wrong, and a line or more that say what that is. */
function statusFor(failure) {
    if (failure instanceof MistakenWords || failure instanceof UnreadWords) return tell(failure.message.trimEnd()) ? USAGE : FAILED;
    if (failure instanceof NoMemory) return MEMORY;
    if (failure.syscall === undefined) throw failure;
    // who reads the output may have had enough
    if (failure.syscall !== "open" && failure.code !== "EPIPE") tell(`${program}: ${troubleOf(failure)}`);
    return FAILED;
}

async function status() {
    try {
        return await work();
    } catch (failure) {
        return statusFor(failure);
    }
}

process.exitCode = await status();
