// @ts-check
// What the requests of the Debug Adapter Protocol have to have.
import { SWITCHES } from "../../libraries/javascript/replies.mjs";
import { count, flag, listOf, maybe, named, oneOf, record, such, text, upTo, whole } from "../shapes.mjs";
import { isOfSwitches } from "./program.mjs";

/** The most bytes and the most instructions that are given at once. */
const [MOST_BYTES, MOST_INSTRUCTIONS] = [2 ** 20, 2 ** 16];

const nothing = record({});
const source = record({ path: maybe(text), sourceReference: maybe(count) });
const wanted = { condition: maybe(text), hitCondition: maybe(text), logMessage: maybe(text) };
const base64 = such(
    (value) => typeof value === "string" && value.length % 4 === 0 && /^[A-Za-z0-9+/]*={0,2}$/.test(value), "bytes in base 64"
);

const launch = record({
    program: such((value) => typeof value === "string" && value !== "", "the path of a source"), how: maybe(oneOf(["load", "put"])),
    tape: maybe(such((value) => typeof value === "string", "the path of a tape text")),
    switches: maybe(such(isOfSwitches, `${SWITCHES.join(", ")}, each up or down`)), stopOnEntry: maybe(flag), operate: maybe(flag),
    noDebug: maybe(flag),
});

/** @type {Record<string, import("../shapes.mjs").Shape>} */
export const ARGUMENTS = {
    initialize: record({
        linesStartAt1: maybe(flag), columnsStartAt1: maybe(flag), supportsInvalidatedEvent: maybe(flag), supportsMemoryEvent: maybe(flag),
    }),
    launch, attach: nothing, configurationDone: nothing, restart: record({ arguments: maybe(launch) }), disconnect: nothing,
    terminate: nothing, cancel: record({ requestId: maybe(whole) }),
    threads: nothing, stackTrace: nothing, scopes: nothing, variables: record({ variablesReference: count }),
    source: record({ sourceReference: count }),
    setVariable: record({ variablesReference: count, name: text, value: text }), setExpression: record({ expression: text, value: text }),
    evaluate: record({ expression: text, context: maybe(text) }), completions: record({ text, column: count, line: maybe(whole) }),
    exceptionInfo: nothing,
    readMemory: record({ memoryReference: text, offset: maybe(whole), count: upTo(MOST_BYTES) }),
    writeMemory: record({ memoryReference: text, offset: maybe(whole), data: base64 }),
    disassemble: record({
        memoryReference: text, offset: maybe(whole), instructionOffset: maybe(whole), instructionCount: upTo(MOST_INSTRUCTIONS),
    }),
    setBreakpoints: record({ source, breakpoints: maybe(listOf(record({ line: whole, ...wanted }))) }),
    setFunctionBreakpoints: record({ breakpoints: listOf(record({ name: text, ...wanted })) }),
    setInstructionBreakpoints: record({ breakpoints: listOf(record({ instructionReference: text, offset: maybe(whole), ...wanted })) }),
    setDataBreakpoints: record({ breakpoints: listOf(record({ dataId: text, ...wanted })) }),
    setExceptionBreakpoints: record({ filters: listOf(named) }),
    dataBreakpointInfo: record({ variablesReference: maybe(count), name: text }),
    breakpointLocations: record({ source, line: whole, endLine: maybe(whole) }),
    continue: nothing, next: nothing, stepIn: nothing, stepOut: nothing, stepBack: nothing, reverseContinue: nothing, pause: nothing,
    gotoTargets: record({ source, line: whole }), goto: record({ targetId: whole }),
};
