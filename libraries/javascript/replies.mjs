// Reads the monitor's replies. What a page knows of the machine stands in them, and is read here.
//
// Each function takes a reply, or lines of one, and throws ReplyError where the text is not what it should be. The forms are those of
// docs/FORMATS.md, docs/EMBEDDING.md and docs/ACCOUNTS.md.

/** A reply that is not in the form that was asked for. */
export class ReplyError extends Error {}

const misread = (what, text) => new ReplyError(`no ${what}: ${JSON.stringify(text)}`);

/** The lines of a reply, without their line feeds. */
export function linesOf(reply) {
    const lines = reply.split("\n");
    return lines.at(-1) === "" ? lines.slice(0, -1) : lines;
}

/** The words of a line after its first one, which is given. */
function wordsAfter(first, line = "") {
    const [word, ...words] = line.split(" ");
    if (word !== first) throw misread(`reply of ${first}`, line);
    return words;
}

const isDecimal = (word) => word !== "" && [...word].every((sign) => "0123456789".includes(sign));

/** A word that is a number in decimal. */
function decimalIn(word = "") {
    if (!isDecimal(word)) throw misread("number", word);
    return word;
}

const numberIn = (word) => Number(decimalIn(word));

/** Whether a reply tells that its line was refused. */
export const isRefusal = (reply) => reply.startsWith("?");

/** A refusal: its number and kind, the number after them where there is one, and the reason. */
export function refusalOf(reply) {
    const [said, ...reasons] = (linesOf(reply)[0] ?? "").split(": ");
    const [code, kind = "", number] = wordsAfter("?", said);
    if (kind === "") throw misread("refusal", reply);
    return {
        code: numberIn(code),
        kind,
        number: number === undefined ? null : numberIn(number),
        reason: reasons.length === 0 ? null : reasons.join(": "),
    };
}

const DIGITS = "0123456789fgjkqw";

/** The 32 bits of a word in digits, the first one first. */
export function bitsOf(digits) {
    return [...digits].flatMap((digit) => {
        const value = DIGITS.indexOf(digit);
        if (value < 0) throw misread("word", digits);
        return [value >> 3, (value >> 2) & 1, (value >> 1) & 1, value & 1];
    });
}

/** The digits of a word, of the number of its 32 bits with a sign. */
export const digitsOf = (value) => Array.from({ length: 8 }, (unused, at) => DIGITS[(value >>> (28 - 4 * at)) & 15]).join("");

/** A word in digits as the number of its 32 bits with a sign. */
export function signedOf(digits) {
    return bitsOf(digits).reduce((value, bit) => ((value << 1) | bit) | 0, 0);
}

/** A word read as a fraction from -1 to below 1. Exact: a number of JavaScript has more places. */
export const fractionOf = (digits) => signedOf(digits) / 2 ** 31;

/** A word read as a whole number with the point after place 30: half of its bits. */
export const wholeOf = (digits) => Math.floor(signedOf(digits) / 2);

/** The records of a reply for programs, an object of JSON on each line: each a value by its key. A key without a value is left out. */
export function recordsOf(reply) {
    try {
        return linesOf(reply).map((line) => new Map(Object.entries(JSON.parse(line)).filter(([, value]) => value !== null)));
    } catch {
        throw misread("records", reply);
    }
}

/** What a run tells of its orders to a program: the records, and what ends it: the record of the run, or the line of a refusal. */
export function reportOf(reply) {
    const lines = linesOf(reply);
    const last = lines.pop() ?? "";
    const [end] = isRefusal(last) ? [] : recordsOf(last);
    return {
        told: recordsOf(lines.join("\n")), end: end === undefined ? last : `ran ${valueOf(end, "ran")}`, state: end?.get("state") ?? null,
    };
}

/** The value of a key. */
function valueOf(record, key) {
    if (!record.has(key)) throw misread(`value of ${key}`, [...record].join("\n"));
    return record.get(key);
}

const numberOf = (record, key) => Number(valueOf(record, key));

/** An address, and the label after it where there is one. */
function placeOf(value) {
    const [address, label] = value.split(" ");
    return { address, label: label ?? null };
}

/** The switches of a panel by their names in `press`. */
export const SWITCHES = ["bp32", "bp16", "bp8", "bp4", "transfer", "sixbit"];

/** What a panel shows, of a reply of `panel-data`, `state-data` or `look`. The clock is a BigInt, since it may have 62 bits. */
export function panelOf(reply) {
    const [record] = recordsOf(reply);
    if (record === undefined) throw misread("panel", reply);
    const texts = ["counter", "accumulator", "register", "status", "mode"].map((key) => [key, valueOf(record, key)]);
    return {
        ...Object.fromEntries(texts),
        down: Object.fromEntries(SWITCHES.map((name) => [name, valueOf(record, name) === "down"])),
        readerOn: valueOf(record, "reader") === "on",
        tape: numberOf(record, "tape"),
        clock: BigInt(valueOf(record, "clock")),
    };
}

const LIVE = "live-";

/**
 * The names of what is live, and what lets the machine go on, of a reply of `state-data`: its kind is `go` where orders are performed,
 * `keys`, `start`, or `mode` where the button of a mode comes first.
 */
export function liveOf(reply) {
    const [record] = recordsOf(reply);
    if (record === undefined) throw misread("state", reply);
    const [first, second] = valueOf(record, "way").split("-");
    const way = second === undefined ? { kind: first === "orders" ? "go" : first } : { kind: "mode", mode: first };
    const live = [...record].filter(([key, value]) => key.startsWith(LIVE) && value).map(([key]) => key.slice(LIVE.length));
    return { live: new Set(live), way };
}

/** Lines of an address and a word in digits, as `words` writes them. */
export const placesOf = (reply) => linesOf(reply).map((line) => {
    const [address, text, more] = line.split(" ");
    if (address.length !== 4 || text?.length !== 8 || more !== undefined) throw misread("line of a place", line);
    return { address: decimalIn(address), text };
});

const ENDS = ["rest", "limit", "rule"];

/** What a run did: its orders, why it ended, and the rule that stopped it. */
export function runOf(reply) {
    const [orders, end, rule] = wordsAfter("ran", toldOf(reply).end);
    if (!ENDS.includes(end)) throw misread("run", reply);
    return { orders: numberIn(orders), end, rule: end === "rule" ? numberIn(rule) : null };
}

/** What is said of a run that waited for a condition. */
const [IS_MET, IS_NOT_MET] = ["the condition is met", "the condition is not met"];
const MET = new Map([[IS_MET, true], [IS_NOT_MET, false]]);

/** Whether a run has met its condition; null where it waited for none. */
export const metIn = (reply) => linesOf(reply).map((line) => MET.get(line.trimStart())).find((it) => it !== undefined) ?? null;

/** The reply of a run whose condition was met, but not as often as was waited for. */
export const asUnmet = (reply) => reply.replace(IS_MET, IS_NOT_MET);

/** What stands before the number of starts in a reply of `operate`. */
export const STARTED = "started again at a z after a p: ";

/** How often `operate` has pressed Start. */
export function startsOf(reply) {
    const told = linesOf(reply).map((line) => line.trimStart()).find((line) => line.startsWith(STARTED));
    return told === undefined ? 0 : numberIn(told.slice(STARTED.length));
}

/** How many orders `orders` performed, and the status after them. */
export function ordersOf(reply) {
    const [orders, ...status] = wordsAfter("orders", linesOf(reply)[0]);
    return { orders: numberIn(orders), status: status.join(" ") };
}

/** The clock that `back` or `turn` tells. */
export const clockOf = (reply) => BigInt(decimalIn(wordsAfter("clock", linesOf(reply)[0])[0]));

/** The number of the order to whose beginning `to` went. */
export const orderOf = (reply) => numberIn(wordsAfter("order", linesOf(reply)[0])[0]);

/** How many orders `last` went back, and the rule that they hit. */
export function lastOf(reply) {
    const [orders, , rule] = wordsAfter("back", linesOf(reply)[0]);
    return { orders: numberIn(orders), rule: numberIn(rule) };
}

/** How many orders the loader performed for `load`. */
export const loadedOf = (reply) => numberIn(wordsAfter("loaded", linesOf(reply)[0])[0]);

/** What has been printed: how many codes, and their tape text. */
export function printedOf(reply) {
    const [count, ...text] = wordsAfter("printed", linesOf(reply)[0]);
    return { count: numberIn(count), text: text.join(" ") };
}

/** The typewriter's paper: how many codes were printed, and the rows with them, each but the last with a line feed after it. */
export function paperOf(reply) {
    const [head, ...rows] = linesOf(reply);
    const [count, more] = wordsAfter("paper", head);
    if (more !== undefined || rows.length === 0) throw misread("reply of paper", reply);
    return { count: numberIn(count), text: rows.join("\n") };
}

/** What put a word where it is: an order, whose place is null where that was in the register, or a hand, whose order is null. */
function originOf({ order, at, clock, lost }) {
    return { order: order ?? null, at: at ?? null, clock: BigInt(clock), lost };
}

/**
 * Words, of replies of `show-data`, `look` or `why-data`: the address, the digits, the order, which is null where the word is none, and, of
 * the first, whether a step that is kept has changed it.
 */
export const heldOf = (reply) => recordsOf(reply).filter((record) => record.has("address")).map((record) => (
    {
        address: valueOf(record, "address"),
        digits: valueOf(record, "digits"),
        order: record.get("order") ?? null,
        isChanged: record.get("changed") === true,
    }));

/** What a word was, as the record of another one that took its place says it: the order, or the digits and the number. */
const lostIn = (record) => record.get("before-order") ?? `${valueOf(record, "before")} = ${valueOf(record, "before-number")}`;

/** What replies of `why-data` say of the origins of their words, by the addresses; a word that no kept step has changed has none. */
export function originsOf(reply) {
    const changed = recordsOf(reply).filter((record) => valueOf(record, "changed-by") !== "none");
    return new Map(
        changed.map((record) => [
            valueOf(record, "address"),
            originOf({ order: record.get("by-order"), at: record.get("by-at"), clock: valueOf(record, "by-clock"), lost: lostIn(record) }),
        ])
    );
}

const IN_REGISTER = "register";

/** The keys of an account that are read; what other ones say is kept as it is: later monitors may say more. */
const ACCOUNT_KEYS = new Set([
    "clock", "at", "order", "status", "find", "take", "seek", "act", "before", "after", "put-by", "put-at", "put-clock", "put-ago",
    "put-over",
    "stored", "found", "found-order", "found-number", "left", "left-order", "left-number", "printed", "sign", "passed",
]);

const wordOf = (record, name) => (
    { digits: valueOf(record, name), order: record.get(`${name}-order`) ?? null, number: numberOf(record, `${name}-number`) });

/** Where an order stood, with the label there; nowhere where that was in the register. */
function standingOf(record, key) {
    const value = record.get(key) ?? IN_REGISTER;
    return value === IN_REGISTER ? { address: null, label: null } : placeOf(value);
}

function putThereOf(record) {
    if (!record.has("put-by")) return null;
    const by = record.get("put-by");
    const [order, at] = by === "hand" ? [undefined, undefined] : [by, standingOf(record, "put-at").address];
    return originOf({ order, at, clock: valueOf(record, "put-clock"), lost: valueOf(record, "put-over") });
}

const storedOf = (record) => (
    record.has("stored") ? { ...placeOf(record.get("stored")), before: wordOf(record, "found"), after: wordOf(record, "left") } : null);

function accountOf(record) {
    const [find, take, seek, act] = ["find", "take", "seek", "act"].map((phase) => numberOf(record, phase));
    const { address: at, label } = standingOf(record, "at");
    return {
        clock: BigInt(valueOf(record, "clock")), at, label, order: record.get("order") ?? valueOf(record, "status"),
        find, take, seek, act, sum: find + take + seek + act,
        before: valueOf(record, "before"), after: valueOf(record, "after"),
        inRegister: record.get("at") === IN_REGISTER, origin: putThereOf(record), stored: storedOf(record),
        printed: record.has("printed") ? { code: numberOf(record, "printed"), sign: record.get("sign") ?? null } : null,
        passed: Number(record.get("passed") ?? 0),
        notes: [...record].filter(([key]) => !ACCOUNT_KEYS.has(key)).map((field) => field.join(" ")),
    };
}

/** The accounts that a reply of `trace-data` tells. */
export const accountsOf = (records) => records.map(accountOf);

/** Rows of `drum`: the clock of each turn, and after two blanks its signs, one for each word time. */
export const drumRowsOf = (lines) => lines.map((line) => {
    const row = line.trimStart();
    const end = row.indexOf("  ");
    return { clock: BigInt(decimalIn(row.slice(0, Math.max(end, 0)))), signs: row.slice(end + 2) };
});

const PARTS = ["find", "take", "seek", "act", "elsewhere"];

/**
 * The records of `profile-data`: the totals, the parts of an order by their keys, and the places with most word times. Per cents are
 * rounded down.
 */
export function profileOf([whole, ...places]) {
    if (whole === undefined) throw misread("profile", "");
    const times = numberOf(whole, "times");
    const share = (name, part) => ({ name, times: part, percent: times === 0 ? 0 : Math.floor((100 * part) / times) });
    return {
        orders: numberOf(whole, "orders"), times, turns: numberOf(whole, "turns"),
        parts: PARTS.map((name) => share(name, numberOf(whole, name))),
        places: places.map((place) => share(valueOf(place, "place"), numberOf(place, "times"))),
    };
}

/**
 * What orders would have taken with one word at each sector, of the records of `optimum-data NUMBER ttss`: `numbers` by sector. `kind` is
 * `free` where the word may be moved, and `none` where no order was performed; where it may not, `reason` says why, and nothing is saved.
 */
export function costsOf([record]) {
    if (record === undefined) throw misread("optimum of a word", "");
    const orders = numberOf(record, "orders");
    const kind = orders === 0 ? "none" : valueOf(record, "freedom");
    return {
        orders,
        times: numberOf(record, "times"),
        address: kind === "none" ? null : valueOf(record, "word"),
        label: record.get("label") ?? null,
        own: numberOf(record, "sector"), best: numberOf(record, "best"), saved: kind === "free" ? numberOf(record, "saved") : 0,
        kind, reason: kind === "free" ? null : valueOf(record, "freedom-sentence"), numbers: valueOf(record, "numbers").map(Number),
    };
}

/**
 * What a run tells of its orders, and the line that ends it. What the monitor says after that line begins with a blank, or with the key
 * `state`.
 */
export function toldOf(reply) {
    const lines = linesOf(reply);
    const last = lines.findLastIndex((line) => !line.startsWith(" ") && !line.startsWith("state "));
    return { told: lines.slice(0, Math.max(last, 0)), end: lines[last] ?? "" };
}

/** What a source was answered: its words and start, or its faults by their lines. The source's line below a fault, and the mark below
 * that, begin with blanks. */
export function sourceOf(reply) {
    const [first = "", ...lines] = linesOf(reply);
    if (!isRefusal(first)) {
        const [cells, , start] = wordsAfter("cells", first);
        return { cells: numberIn(cells), start: start === "none" ? null : decimalIn(start), faults: [] };
    }
    if (refusalOf(reply).kind !== "Faults") throw misread("reply of a source", reply);
    const faults = lines.filter((line) => !line.startsWith(" ")).map((line) => wordsAfter("line", line));
    return { cells: 0, start: null, faults: faults.map(([number, kind]) => ({ line: numberIn(number), kind })) };
}

/**
 * The labels of the last source, by their addresses, of a reply of `labels-data`; a place may have several. A label whose value is past the
 * drum is left out.
 */
export function labelsOf(reply) {
    const labels = new Map();
    for (const record of recordsOf(reply).filter((it) => it.has("place"))) {
        const place = record.get("place");
        labels.set(place, [...(labels.get(place) ?? []), valueOf(record, "name")]);
    }
    return labels;
}

/** The rules in the order of their numbers, each by the command that made it and the label of its address, of a reply of `rules-data`. */
export const rulesOf = (reply) => recordsOf(reply).map((record) => (
    [valueOf(record, "kind"), valueOf(record, "address"), ...(record.has("label") ? [record.get("label")] : [])].join(" ")));

/** The number of the rule that `break` or `watch` has made. */
export const ruleOf = (reply) => numberIn(wordsAfter("rule", linesOf(reply)[0])[0]);

/** What halted the machine and how it can continue, of a reply of `state-data`. */
export function stateOf(reply) {
    const [record] = recordsOf(reply);
    if (record === undefined) throw misread("state", reply);
    return `${valueOf(record, "state-sentence")}: ${valueOf(record, "way-sentence")}`;
}

const FREEDOMS = { free: "free", performed: "performed", changed: "namedByChanged" };

/** The words of a run whose relocation would save most, of the records of `optimum-data NUMBER`, by whether they may be moved. */
export function optimumOf([whole, ...words]) {
    if (whole === undefined) throw misread("optimum", "");
    const gains = { free: [], performed: [], namedByChanged: [] };
    for (const word of words) {
        gains[FREEDOMS[valueOf(word, "freedom")]].push({
            address: valueOf(word, "word"), label: word.get("label") ?? null, sector: numberOf(word, "sector"),
            best: numberOf(word, "best"), saved: numberOf(word, "saved"),
        });
    }
    return { orders: numberOf(whole, "orders"), times: numberOf(whole, "times"), together: numberOf(whole, "together"), ...gains };
}

/** The commands by their names, of a reply of `commands`: whether each only asks, and what it takes. */
export const commandsOf = (reply) => new Map(linesOf(reply).map((line) => {
    const [name, asks, ...takes] = line.split(" ");
    if (!["asks", "does"].includes(asks) || takes.length === 0) throw misread("line of a command", line);
    return [name, { asks: asks === "asks", takes: takes.join(" ") }];
}));

/** The operations that wait for the word at their address, of a reply of `operations-data`. */
export const waitingOf = (reply) => (
    new Set(recordsOf(reply).filter((record) => valueOf(record, "waits") === "yes").map((record) => valueOf(record, "operation")))
);

// The signs of codes, as docs/FORMATS.md lists them. A group such as [16] is the code with that number, even one that has a sign.
const SIGNS = new Map([
    ...[..."0123456789fgjkqw"].map((sign, digit) => [sign, 4 * digit + 2]),
    ...[..."zbyridnmpeuthcas"].map((sign, order) => [sign, 4 * order + 1]),
    ...[..."-+;/.,vox"].map((sign, place) => [sign, 4 * place + 7]),
    [" ", 3], ["'", 32], ["l", 6],
]);
/** The sign of each code that has one; the l is the key of the 1. */
const SIGN_OF = new Map([...SIGNS].filter(([sign]) => sign !== "l").map(([sign, code]) => [code, sign]));

/** A code as a tape text has it where it has no sign. */
export const groupOf = (code) => `[${String(code).padStart(2, "0")}]`;

/** The pieces of a tape text: each its code, and its sign where it has one. */
export function codesOf(text) {
    const codes = [];
    for (let at = 0; at < text.length; at += 1) {
        const number = text.slice(at + 1, at + 3);
        if (text[at] === "[" && text[at + 3] === "]" && isDecimal(number)) {
            codes.push({ code: Number(number), sign: SIGN_OF.get(Number(number)) ?? null });
            at += 3;
        } else if (SIGNS.has(text[at])) {
            codes.push({ code: SIGNS.get(text[at]), sign: text[at] });
        } else if (text[at] !== "\r" && text[at] !== "\n") {
            throw misread("tape text", text[at]);
        }
    }
    return codes;
}
