// A task of teaching/tasks and its check, for the page and for ./check_task: each try is a script of the laboratory, and what is missing is
// read from the
// replies to its lines. teaching/tasks/README.md has the form of a task, and teaching/tasks/language the sentences.
import { linesIn } from "./lines.mjs";
import { heldOf, isRefusal, panelOf, printedOf, refusalOf, runOf, sourceOf, wholeOf } from "../libraries/javascript/replies.mjs";

/** What is shown of a line or a text, in bytes; of how many faults of a source; and the orders of a run where the task has no limit. */
const [SHOWN, FAULTS, LIMIT] = [100, 10, 10_000];

/** The number of the least word that is an order other than z. */
const FIRST_ORDER = 32_768;

/** The sentences of a file of teaching/tasks/language, by their names. */
export const sentencesIn = (text) => Object.fromEntries(
    linesIn(text).filter((line) => !/^(#|$)/.test(line)).map((line) => [line.split(" ")[0], line.slice(line.indexOf(" ") + 1)])
);

/** What writes a sentence of a table by its name and the words that are put into it. */
export const speaker = (sentences) => (name, ...words) => sentences[name].replace(/\{(\d)\}/g, (unused, place) => words[place - 1]);

/** A line that begins a try, or wants something of it. */
const LINE =
    /^(?:begin (?:put|mount|press) .+|want (?:printed(?: .*)?|like .+|word \d{4} [0-9fgjkqw]{8}(?: .+)?|shows \d{4} .+|counter \d{4}|status .+)|most (?:times|orders|words) \d+)$/;

/** A task with a mistake: the name of the sentence that says so, and the words after the task's own name. */
export class TaskFault extends Error {
    constructor(sentence, ...words) {
        super([sentence, ...words].join(": "));
        Object.assign(this, { sentence, words });
    }
}

/**
 * A task as its file has it: how many minutes it takes, the most orders of a run, what its pattern is called by languages, and its tries,
 * each by its lines.
 */
export function taskIn(text) {
    const [task, shared] = [{ minutes: 0, limit: LIMIT, likes: {}, tries: [] }, []];
    for (const [place, line] of linesIn(text).entries()) {
        const [, name, rest] = /^((?:(?:want|most) )?\S+) ?(.*)$/.exec(line) ?? ["", "", ""];
        if (/^(#|$)/.test(line)) continue;
        if (/^(minutes|limit) \d+$/.test(line)) task[name] = Number(rest);
        else if (/^like\.[a-z]+ /.test(line)) task.likes[name.slice("like.".length)] = rest;
        else if (line === "try") task.tries.push([...shared]);
        else if (LINE.test(line)) (task.tries.at(-1) ?? shared).push({ name, rest });
        else throw new TaskFault("faulty-task", place + 1, line);
    }
    return { ...task, tries: task.tries.length === 0 ? [shared] : task.tries };
}

const restsOf = (lines, wanted) => lines.filter(({ name }) => name === wanted).map(({ rest }) => rest);

/** The lines that open a source, and the point that ends it. */
const sourceLines = (source) => ["source", ...(source === "" ? [] : linesIn(source)), "."];

/** The lines that bring a machine to the beginning of a try: the task's words come over what is loaded, and it is started. */
const beginning = (lines) => ["press manual", ...restsOf(lines, "begin"), "press normal", "press start"];

/** The script that sets a new machine up as the first try begins, with a source or, where that is null, without one. */
export const setUpOf = ({ tries: [first] }, source) => (
    [...(source === null ? [] : [...sourceLines(source), "load"]), ...beginning(first)].join("\n")
);

const COMMAND = /^ {4}(put|mount|press) /;

/**
 * A task's text as the page has it: where a paragraph asks for lines of the monitor to be typed, which the page does by itself, it has its
 * first sentence alone, and then `done`, which says that.
 */
export function textAtPage(text, done) {
    const blocks = text.trim().split(/\n\n+/);
    return blocks.map((block, place) => (
        COMMAND.test(blocks[place + 1] ?? "") ? `${/^[^]*?[.!?](?= |$)/.exec(block)?.[0] ?? block} ${done}` : block
    )).join("\n\n");
}

/** A text without what is no sign of ASCII: a question mark for each byte of that. */
const plain = (text) => text.replace(/[^ -~]/gu, (sign) => "?".repeat(new TextEncoder().encode(sign).length));

/** A text as sentences show it: within quotes, and not above its length. */
function shown(text, say) {
    const signs = plain(text);
    return signs === "" ? say("nothing") : `"${signs.slice(0, SHOWN)}${signs.length > SHOWN ? ".." : ""}"`;
}

const atMost = (name, is, most) => (is <= Number(most) ? null : [name, is, most]);

/** A word that a task calls by its number: that first, and then its digits. */
const asNumber = (digits) => `${wholeOf(digits)} (${digits})`;

/** A line that begins a try, as pupils type it: a word that is too small for an order is a number. */
const asTyped = (line) => line.replace(/^(put \d{4}) ([0-9fgjkqw]{8})$/, (whole, put, digits) => {
    const number = wholeOf(digits);
    return Math.abs(number) < FIRST_ORDER ? `${put} = ${number}` : whole;
});

/** What is missing of a try's end, by each line of a task that wants something: the name of a sentence and its words, or null. */
const LOOKS = {
    "want status": () => null,
    "want printed": ({ printed, say }, text) => (printed === text ? null : ["printed", shown(printed, say), shown(text, say)]),
    "want like": ({ printed, say, like }, pattern) => (
        new RegExp(`^(${pattern})$`).test(printed) ? null : ["printed-like", shown(printed, say), like]
    ),
    "want word": ({ asked }, rest) => {
        const [address, digits, name] = /^(\S+) (\S+) ?(.*)$/.exec(rest).slice(1);
        const is = asked.get(address).digits;
        if (is === digits) return null;
        const isNumber = name === String(wholeOf(digits));
        const wanted = name === "" ? digits : `${digits} (${name})`;
        return isNumber ? ["word", address, asNumber(is), asNumber(digits)] : ["word", address, is, wanted];
    },
    "want shows": ({ asked }, rest) => {
        const [address, order] = [rest.slice(0, 4), rest.slice(5)];
        const { digits, order: held } = asked.get(address);
        const is = held ?? `word ${digits}`;
        return is === order ? null : ["shows", address, is, order];
    },
    "want counter": ({ after }, counter) => (after.counter === counter ? null : ["counter", after.counter, counter]),
    "most words": ({ cells }, most) => atMost("words", cells, most),
    "most times": ({ times, isEnded }, most) => (isEnded ? atMost("times", times, most) : null),
    "most orders": ({ ran, isEnded }, most) => (isEnded ? atMost("orders", ran.orders, most) : null),
};

/** What is missing of how a run has ended, or null: it has ended, and in the status that is wanted. */
function missingAtEnd({ ran, after: { status, counter }, limit, sentences }, wanted) {
    if (ran === null) return ["clock-end"];
    if (ran.end === "limit") return ["not-ended", limit, counter];
    if (status === wanted) return null;
    const name = `ended-in.${status.replaceAll(" ", "-")}`;
    return name in sentences ? [name, counter] : ["ended-in", status, wanted, counter];
}

/** The reply to a line of a task, which nothing but a mistake in the task refuses. */
async function replyTo(link, line, isRight) {
    const reply = await link.ask(line);
    if (!isRight(reply)) throw new TaskFault("faulty-line", reply.split("\n")[0]);
    return reply;
}

const isAnswered = (reply) => !isRefusal(reply);

async function asksOf(link, lines) {
    const asked = new Map();
    for (const { rest } of lines.filter(({ name }) => name === "want word" || name === "want shows")) {
        const [word] = heldOf(await replyTo(link, `json show-data ${rest.slice(0, 4)} 1`, isAnswered));
        asked.set(word.address, word);
    }
    return asked;
}

/** Runs a try of a source that is assembled: what is missing, and its word times. */
async function tried(link, lines, about) {
    await link.ask("load");
    for (const line of beginning(lines)) await replyTo(link, line, (reply) => reply.startsWith("live") || reply.startsWith("ok"));
    const before = panelOf(await link.ask("json panel-data"));
    const reply = await replyTo(link, `run ${about.limit}`, (said) => isAnswered(said) || refusalOf(said).kind === "ClockEnd");
    const ran = isRefusal(reply) ? null : runOf(reply);
    const after = panelOf(await link.ask("json panel-data"));
    const printed = printedOf(await link.ask("printed")).text;
    const end = { ...about, ran, after, printed, times: after.clock - before.clock, asked: await asksOf(link, lines) };
    const atEnd = missingAtEnd(end, restsOf(lines, "want status")[0] ?? "halted stop");
    const others = lines.filter(({ name }) => name in LOOKS).map(({ name, rest }) => (
        LOOKS[name]({ ...end, isEnded: atEnd === null }, rest)
    ));
    return { missing: [atEnd, ...others].filter((it) => it !== null).map((it) => about.say(...it)), times: end.times };
}

/**
 * The sentences of what is missing of a try, with its number where there are several, and how a later one than the first, which is that of
 * the text, began.
 */
function ofTry(missing, place, { tries }, say) {
    if (missing.length === 0 || tries.length === 1) return missing;
    const begun = restsOf(tries[place], "begin");
    const all = place > 0 && begun.length > 0 ? [...missing, say("try-began", begun.map(asTyped).join("; "))] : missing;
    return all.map((sentence) => say("in-try", place + 1, sentence));
}

/** The sentences of a source's faults, each with its line; no line has the fault that there is no end line. */
function ofFaults(faults, source, say) {
    const lines = linesIn(source);
    const textOf = ({ line, kind }) => (kind === "NoEnd" || (lines[line - 1] ?? "") === "" ? "" : `: ${shown(lines[line - 1], say)}`);
    const told = faults.slice(0, FAULTS).map((fault) => say("fault", fault.line, say(`fault.${fault.kind}`), textOf(fault)));
    return faults.length > FAULTS ? [...told, say("more-faults", faults.length - FAULTS)] : told;
}

/** What keeps a source from being tried, by a reply to it: sentences, none where it can be tried. */
function notTried(reply, source, say) {
    if (isRefusal(reply) && refusalOf(reply).kind === "TooLong") return [say("too-long")];
    const { faults, start } = sourceOf(reply);
    if (faults.length > 0) return ofFaults(faults, source, say);
    return start === null ? [say("no-start")] : [];
}

/** Assembles a source in a new laboratory of a link: its words, or why it cannot be tried, by sentences. */
export async function assembled(link, source, say) {
    if (/[\0-\x08\x0b\x0c\x0e-\x1f\x7f]/.test(source)) return { missing: [say("no-text")] };
    if (linesIn(source).includes(".")) return { missing: [say("point")] };
    await link.anew();
    const reply = await link.askAll(sourceLines(source));
    const missing = notTried(reply, source, say);
    return { missing, cells: missing.length === 0 ? sourceOf(reply).cells : 0 };
}

/**
 * Checks a source against a task in laboratories of a link, a new one for each try; throws a TaskFault. Gives whether it is right, the
 * sentence that says so, with the
 * name of its file, and the sentences of what is missing. `sentences` are those of the language, which `code` names.
 */
export async function checked(link, task, source, { file, sentences, code }) {
    const say = speaker(sentences);
    const [missing, times] = [[], []];
    for (const [place, lines] of task.tries.entries()) {
        const { missing: faulty, cells } = await assembled(link, source, say);
        if (faulty.length > 0) return { isRight: false, verdict: say("wrong", file), missing: [...missing, ...faulty] };
        const done = await tried(link, lines, { limit: task.limit, like: task.likes[code] ?? task.likes.en, cells, say, sentences });
        missing.push(...ofTry(done.missing, place, task, say));
        times.push(done.times);
    }
    const isRight = missing.length === 0;
    return { isRight, verdict: isRight ? say("right", file, times.join(", ")) : say("wrong", file), missing };
}
