// A work as it is sent to others: in a link, or in a file where that would be too long. What comes back is a text of somebody else's: it is
// looked at as a text, and only what has the form of a work is taken. Nothing here knows of a page.
import { areInSource, isIdle, linesIn } from "./lines.mjs";
import { LIMITS } from "./memory_budget.mjs";

/** The letter of this form, before what is packed. A form that this page cannot read has a later one. */
const VERSION = "a";

/**
 * The most characters of a link: everybody should take an address of that length (RFC 9110, 4.1). Browsers take more, but what links are
 * sent through, and the servers of some pages, do not.
 */
export const LONGEST_LINK = 8000;

/**
 * The most bytes that are unpacked, how many packed ones are unpacked at once, so that no more than these are unpacked beyond that, and the
 * orders up to which portions are put together.
 */
const MOST = { bytes: LIMITS.lines, piece: 256, orders: 500_000 };

/**
 * What stands beside a work's machine and is not sent: torn pieces, since the paper in the machine is sent whole, and where words were
 * moved for a try.
 */
const NOT_SENT = ["pieces", "carried"];

/** Why something was not opened: its name is that of a text of the page. */
class Wrong extends Error {}

const PORTION = /^ *orders +(\d{1,6}) *$/;
const [RULE, DROP] = [/^ *(?:break|watch)( |$)/, /^ *drop +(\d{1,4}) *$/];

/**
 * How many rules there may be after a line, by how many there were before it: never fewer than there are, also where the line was refused.
 */
const rulesAfter = (line, rules) => rules + (RULE.test(line) ? 1 : Number(DROP.exec(line)?.[1] ?? Infinity) < rules ? -1 : 0);

/**
 * The same lines with portions of orders that follow one another as one, where there is no rule, which may end a portion: they lead to the
 * same machine.
 */
export function together(lines) {
    const inSource = areInSource(lines);
    const made = [];
    let rules = 0;
    for (const [place, line] of lines.entries()) {
        if (!inSource[place]) rules = rulesAfter(line, rules);
        const [, orders] = inSource[place] || rules > 0 ? [] : PORTION.exec(line) ?? [];
        const before = made.at(-1);
        if (orders !== undefined && before?.orders + Number(orders) <= MOST.orders) before.orders += Number(orders);
        else made.push(orders === undefined ? { line } : { orders: Number(orders) });
    }
    return made.map(({ line, orders }) => line ?? `orders ${orders}`);
}

/** The lines of a script that are done when it is. */
function doneOf(lines) {
    const inSource = areInSource(lines);
    return lines.filter((line, place) => inSource[place] || !isIdle(line));
}

/** A number of a text, by which another edition of an example is told from it. */
function sumOf(text) {
    let sum = 0x811c9dc5;
    for (let at = 0; at < text.length; at += 1) sum = Math.imul(sum ^ text.charCodeAt(at), 0x01000193) >>> 0;
    return sum;
}

/** A script as it is sent: an example by its name and its language, with a number of its text; else its lines. */
function scriptOf(script, editions) {
    const { name, lines, at } = script;
    const [code, text] = editions(name).find(([, edition]) => linesIn(edition).join("\n") === lines.join("\n")) ?? [];
    return code === undefined ? { name, lines, at } : { name, code, sum: sumOf(text), at };
}

/**
 * What of a work is sent. `editions` gives the texts that an example has in the page's languages, by its name, each with its language. Of
 * the lines that were done those at the beginning are not sent that are the example's.
 */
export function sentOf({ door, lines, script, drafts, task, source, pupil, isPaperUp }, editions) {
    const sent = script === null ? null : scriptOf(script, editions);
    const [done, own] = [together(lines === "" ? [] : lines.split("\n")), sent?.code === undefined ? [] : together(doneOf(script.lines))];
    const end = done.findIndex((line, place) => line !== own[place]);
    const same = end < 0 ? done.length : end;
    const fields = Object.fromEntries(Object.entries(drafts).filter(([name]) => !NOT_SENT.includes(name)));
    return { door, script: sent, same, lines: done.slice(same), drafts: fields, task, source, pupil, isPaperUp };
}

const isText = (it) => typeof it === "string" && !/[\0\ufffd]/.test(it);
const isLine = (it) => isText(it) && !it.includes("\n");
const isCount = (it) => Number.isSafeInteger(it) && it >= 0;
const isListOf = (isOne) => (it) => Array.isArray(it) && it.every(isOne);
const isObject = (it) => it !== null && typeof it === "object" && !Array.isArray(it);
const isForm = (form) => (it) => isObject(it) && Object.entries(form).every(([name, is]) => is(it[name]));
const orNone = (is) => (it) => it === null || is(it);
const FORM = isForm({
    door: (it) => ["learn", "work"].includes(it), same: isCount, lines: isListOf(isLine),
    script: orNone((it) => (
        isForm({ name: isText, at: isCount })(it)
            && (it.code === undefined ? isListOf(isLine)(it.lines) : isForm({ code: isText, sum: isCount })(it))
    )),
    drafts: (it) => isObject(it) && Object.values(it).every(isText), task: orNone(isText), source: orNone(isText),
    pupil: orNone(isForm({ lesson: isText, at: isCount, isDone: isListOf(isCount) })), isPaperUp: (it) => typeof it === "boolean",
});

/** The work that was sent so. An example that it names has to be the same here. */
function workOfSent(sent, editions) {
    if (!FORM(sent)) throw new Wrong("broken");
    const { door, script, same, lines, drafts, task, source, pupil, isPaperUp } = sent;
    const text = script?.code === undefined ? undefined : new Map(editions(script.name)).get(script.code);
    if (script?.code !== undefined && (text === undefined || sumOf(text) !== script.sum)) throw new Wrong("otherEdition");
    const all = text === undefined ? script?.lines : linesIn(text);
    const own = text === undefined ? [] : together(doneOf(all));
    if (same > own.length || (script !== null && script.at > all.length)) throw new Wrong("broken");
    const fields = Object.fromEntries(Object.entries(drafts).filter(([name]) => !NOT_SENT.includes(name)));
    return {
        door,
        lines: [...own.slice(0, same), ...lines].join("\n"),
        script: script === null ? null : { name: script.name, lines: all, at: script.at },
        drafts: fields,
        task,
        source,
        pupil,
        isPaperUp,
    };
}

const pumped = (bytes, stream) => new Blob([bytes]).stream().pipeThrough(stream);

async function bytesOf(stream, most) {
    const [parts, reader] = [[], stream.getReader()];
    let size = 0;
    for (let { done, value } = await reader.read(); !done; { done, value } = await reader.read()) {
        size += value.length;
        if (size > most) {
            reader.cancel().catch(() => {});
            throw new Wrong("tooLong");
        }
        parts.push(value);
    }
    return new Uint8Array(await new Blob(parts).arrayBuffer());
}

/** Bytes, piece by piece: the next one is given when the one before it is unpacked. */
const inPieces = (bytes) => new ReadableStream({
    start() { this.at = 0; },
    pull(control) {
        if (this.at >= bytes.length) return control.close();
        control.enqueue(bytes.slice(this.at, this.at + MOST.piece));
        this.at += MOST.piece;
        return undefined;
    },
}, { highWaterMark: 0 });

/** Whether a browser can make and read links: that of a few years ago cannot. */
export const canPack = () => typeof DecompressionStream === "function";

/**
 * What is sent, packed for a link: compressed, in the format that has a sum of its bytes, and in the letters of base 64 that an address may
 * have.
 */
export async function packedWork(sent) {
    const bytes = await bytesOf(pumped(new TextEncoder().encode(JSON.stringify(sent)), new CompressionStream("deflate")), Infinity);
    const letters = Array.from(bytes, (byte) => String.fromCharCode(byte)).join("");
    return VERSION + btoa(letters).replaceAll("+", "-").replaceAll("/", "_").replace(/=+$/, "");
}

/** The text in a link, unpacked. Whatever fails on the way, the link is not as it was made. */
async function unpackedText(text) {
    if (text.length > LONGEST_LINK) throw new Wrong("tooLong");
    if (/^[b-z]/.test(text)) throw new Wrong("later");
    if (!/^a[\w-]+$/.test(text) || text.length % 4 === 2) throw new Wrong("broken");
    if (!canPack()) throw new Wrong("cannotUnpack");
    try {
        const bytes = Uint8Array.from(atob(text.slice(1).replaceAll("-", "+").replaceAll("_", "/")), (letter) => letter.charCodeAt(0));
        return new TextDecoder("utf-8", { fatal: true }).decode(
            await bytesOf(inPieces(bytes).pipeThrough(new DecompressionStream("deflate")), MOST.bytes)
        );
    } catch (failure) {
        throw failure instanceof Wrong ? failure : new Wrong("broken");
    }
}

function parsed(text) {
    try {
        return JSON.parse(text);
    } catch {
        throw new Wrong("broken");
    }
}

/** A work, with `wrong` as null; or the name of what is wrong. */
async function tried(read) {
    try {
        return { work: await read(), wrong: null };
    } catch (failure) {
        if (!(failure instanceof Wrong)) throw failure;
        return { work: null, wrong: failure.message };
    }
}

/** The work in a link. */
export const workInLink = (text, editions) => tried(async () => workOfSent(parsed(await unpackedText(text)), editions));

/** What is sent, as a file. */
export const fileOf = (sent) => `${JSON.stringify({ condugwa: VERSION, ...sent }, null, 1)}\n`;

/** Whether a text is such a file, of this version or a later one. */
export const isWorkFile = (text) => /^\s*\{\s*"condugwa"\s*:/.test(text);

/** The work in a file. */
export const workInFile = (text, editions) => tried(async () => {
    if (text.length > MOST.bytes) throw new Wrong("tooLong");
    const { condugwa, ...sent } = parsed(text);
    if (condugwa !== VERSION) throw new Wrong(/^[b-z]$/.test(condugwa) ? "later" : "broken");
    return workOfSent(sent, editions);
});

/** The address of the page, without what it asks for; whether others can reach it is known of one that a server has given. */
export const pageOf = ({ origin, protocol, pathname }) => (
    { page: protocol === "file:" ? `file://${pathname}` : `${origin}${pathname}`, isServed: /^https?:$/.test(protocol) }
);

/** The link that opens a work, whatever its length. */
export const linkTo = async (sent, location) => `${pageOf(location).page}#work=${await packedWork(sent)}`;

const ASKED = /^ *(?:json +)?(?:run|orders|operate|profile|trace|drum|optimum|profile-data|trace-data|optimum-data) +(\d+)/;

/** How many orders the lines of a work ask for at most, since they are performed when it is opened. */
export function ordersIn(lines) {
    const all = lines.split("\n");
    const inSource = areInSource(all);
    return all.reduce((sum, line, place) => sum + (inSource[place] ? 0 : Number(ASKED.exec(line)?.[1] ?? 0)), 0);
}
