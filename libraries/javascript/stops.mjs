// What a terminal says of a stop: which rule it was, why nothing was done, and what to type.
import { isRefusal, lastOf, recordsOf, runOf, toldOf } from "./replies.mjs";

const RUNS = ["run", "operate", "trace", "profile", "drum", "optimum"];

/** The rule that a reply says has stopped a run, or that `last` went back to; null where it names none. */
function ruleIn(command, reply) {
    try {
        if (command === "last") return isRefusal(reply) ? null : lastOf(reply).rule;
        return RUNS.includes(command) && !isRefusal(toldOf(reply).end) ? runOf(reply).rule : null;
    } catch {
        return null;
    }
}

const placeOf = (record) => [record.get("address"), record.get("label")].filter((it) => it !== undefined).join(" ");

/** A word as a watchpoint shows it. */
const wordOf = (digits, order, number) => `${order ?? digits} = ${number}`;

/** The word of a watchpoint before and after the order that changed it; nothing where no step that is kept did. */
async function changeOf(ask, address) {
    const [word] = recordsOf(await ask(`json why-data ${address}`));
    if (word === undefined || word.get("changed-by") === "none") return "";
    const before = wordOf(word.get("before"), word.get("before-order"), word.get("before-number"));
    return `: ${before} -> ${wordOf(word.get("digits"), word.get("order"), word.get("number"))}`;
}

/** The line about the rule that a reply names: its number, kind and address, and of a watchpoint the word before and after. */
async function ruleLines(ask, command, reply) {
    const number = ruleIn(command, reply);
    if (number === null) return [];
    const rule = recordsOf(await ask("json rules-data")).find((record) => record.get("rule") === number);
    if (rule === undefined) return [];
    const change = rule.get("kind") === "watch" && command !== "last" ? await changeOf(ask, rule.get("address")) : "";
    return [`rule ${number}: ${rule.get("kind")} ${placeOf(rule)}${change}`];
}

/** What goes farther back than the orders that are kept; nothing where no others were performed. */
async function fartherBack(ask, reply) {
    const kept = /^\? 8 NoHit (\d+):/.exec(reply)?.[1];
    if (kept === undefined || isRefusal(await ask(`at ${Number(kept) + 1} panel-data`))) return [];
    return ["earlier orders are not kept: to NUMBER and to last CONDITION go to the beginning of any order of this session"];
}

/** What is said below a reply. */
export async function saidOfStop(ask, command, reply, standstill) {
    if (command === "run" && reply.startsWith("ran 0 rest\n")) return [await standstill()];
    const isWithoutRules = command === "last" && reply.startsWith("? 8 ") && (await ask("json rules-data")) === "";
    if (isWithoutRules) return ["there are no rules: break and watch add one"];
    if (command === "last" && isRefusal(reply)) return fartherBack(ask, reply);
    if (command === "load" && !isRefusal(reply)) return loadedLines(ask);
    return ruleLines(ask, command, reply);
}

/** What to type after a source without a start was loaded. */
async function loadedLines(ask) {
    const [end] = recordsOf(await ask("json source-data")).slice(-1);
    const hasStart = end !== undefined && end.get("operands") !== undefined;
    return hasStart ? [] : ["the source has no start: go with an address or a label starts it"];
}
