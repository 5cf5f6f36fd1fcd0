// @ts-check
// A debug adapter: it takes the messages of the Debug Adapter Protocol, and gives those that answer them. All that is known of the machine
// is asked of the monitor.
import { NoMemory } from "../../libraries/javascript/session.mjs";
import { Misshapen } from "../shapes.mjs";
import { Breakpoints, ofAddress, ofLabel, ofLine, ofWord } from "./breakpoints.mjs";
import { Machine, Refused } from "./machine.mjs";
import { Memory, partsOf } from "./memory.mjs";
import { Printing } from "./printing.mjs";
import { Program } from "./program.mjs";
import { Prompt } from "./prompt.mjs";
import { ARGUMENTS } from "./requests.mjs";
import { Rules } from "./rules.mjs";
import { Runner } from "./runner.mjs";
import { Typewriter } from "./typewriter.mjs";
import { Variables } from "./variables.mjs";

const THREAD = 1;
/** The filter by which an overflow is a stop. */
const OVERFLOW = "overflow";
/** How many sources of a stop there can be: one for each track. */
const TRACKS = 64;
const CAPABILITIES = {
    supportsConfigurationDoneRequest: true, supportsFunctionBreakpoints: true, supportsConditionalBreakpoints: true,
    supportsHitConditionalBreakpoints: true, supportsLogPoints: true,
    supportsDataBreakpoints: true, supportsInstructionBreakpoints: true, supportsStepBack: true, supportsSetVariable: true,
    supportsSetExpression: true,
    supportsRestartRequest: true, supportsGotoTargetsRequest: true, supportsReadMemoryRequest: true, supportsWriteMemoryRequest: true,
    supportsDisassembleRequest: true, supportsEvaluateForHovers: true, supportsTerminateRequest: true,
    supportsBreakpointLocationsRequest: true,
    supportsSteppingGranularity: true, supportsExceptionInfoRequest: true, supportsCompletionsRequest: true, supportsCancelRequest: true,
    exceptionBreakpointFilters: [
        {
            filter: OVERFLOW, label: "Overflow", default: true,
            description: "Stop where an overflow halts the machine; without it the machine is started again",
        }
    ],
};
/** What may be asked while the machine runs; all else asks for a machine that stands still. */
const TAKEN_WHILE_RUNNING = new Set([
    "pause", "threads", "disconnect", "terminate", "restart", "evaluate", "completions", "cancel", "setBreakpoints",
    "setFunctionBreakpoints", "setDataBreakpoints", "setInstructionBreakpoints",
    "setExceptionBreakpoints", "breakpointLocations", "dataBreakpointInfo"]);
/** What ends a long run of the console. */
const INTERRUPTS = new Set(["pause", "cancel", "disconnect", "terminate", "restart"]);
const TAKEN_BEFORE = new Set(["initialize", "disconnect", "cancel"]);
/** What is done where no program is in the machine. */
const NEEDS_NONE = new Set([
    "initialize", "launch", "attach", "restart", "disconnect", "terminate", "threads", "setExceptionBreakpoints", "cancel",
]);

const nameOf = (path) => path.split(/[\\/]/).at(-1);

export class DebugAdapter {
    #openSession;
    #send;
    #options;
    #typewriter;
    #sequence = 1;
    /** @type {any} what the client counts from, and what it takes */
    #client = null;
    /** @type {import("../types/debug.js").Launch | null} */
    #launch = null;
    /** @type {any} the machine of the program that is launched, or null */
    #machine = null;
    /** @type {any} that program */
    #program = null;
    /** @type {Rules} */
    #rules;
    /** @type {Runner} */
    #runner;
    /** @type {Variables} */
    #variables;
    /** @type {Memory} */
    #memory;
    /** @type {Printing} */
    #printing;
    #prompt;
    #breakpoints = new Breakpoints();
    #stopsAtOverflow = true;
    #reason = { sentence: "" };
    #stops = 0;
    /** @type {(() => unknown)[]} */
    #after = [];
    #tail = Promise.resolve();
    /** @type {Promise<unknown> | null} */
    #running = null;
    /** How many messages were taken, and which of them last wanted a long run of the console to end. */
    #taken = 0;
    #interruptedAt = 0;
    #waiting = new Set();
    #cancelled = new Set();
    #requests = this.#table();

    /**
     * An adapter over what opens a session; `send` is given its messages. Options: `readFile` gives the bytes of a file, `resolve` a whole
     * path, found beside another file if one is given,
     * `identityOf` what is the same of all paths of a file, `consoleOver` types lines that may name files, `fileNames` gives names that
     * begin so, and `shelf` keeps what was done.
     * @param {() => import("../../libraries/javascript/session.mjs").Session} openSession
     * @param {(message: object) => void} send
     * @param {import("../types/debug.js").Options} options
     */
    constructor(openSession, send, options) {
        this.#openSession = openSession;
        this.#send = send;
        this.#options = options;
        this.#typewriter = new Typewriter(openSession);
        this.#prompt = new Prompt(() => ({ machine: this.#machine, variables: this.#variables }), options);
    }

    /**
     * Takes a message. What it asks for is done when all before it is; a long run in the console ends where a later message wants a pause,
     * or takes it back.
     */
    take(message) {
        const order = ++this.#taken;
        if (INTERRUPTS.has(message?.command)) this.#interruptedAt = order;
        const { requestId } = (message?.command === "cancel" ? message.arguments : null) ?? {};
        if (this.#waiting.has(requestId)) this.#cancelled.add(requestId);
        if (typeof message?.seq === "number") this.#waiting.add(message.seq);
        this.#tail = this.#tail.then(() => this.#answer(message, order));
        return this.#tail;
    }

    /** Tells of what went wrong, such as a message that is none. */
    refuse(why) {
        this.#event("output", { category: "important", output: `${why}\n` });
    }

    /** Keeps what was done. */
    keep() {
        if (this.#machine !== null) this.#options.shelf?.keepSession(this.#machine.transcript());
    }

    /** No more messages come. */
    end() {
        this.#runner?.pause();
        this.keep();
        this.#options.ended?.();
    }

    /**
     * @template {keyof import("../types/debug.js").Events} Name
     * @param {Name} event
     * @param {import("../types/debug.js").Events[Name]} [body]
     */
    #event(event, body) {
        this.#send({ seq: this.#sequence++, type: "event", event, ...(body === undefined ? {} : { body }) });
    }

    async #answer(request, order) {
        const { seq, type, command, arguments: given } = request ?? {};
        const isRequest = type === "request" && typeof seq === "number" && typeof command === "string";
        if (!isRequest) return this.refuse("a message is no request: it wants seq, type and command");
        const response = { type: "response", request_seq: seq, command };
        this.#waiting.delete(seq);
        try {
            if (this.#cancelled.delete(seq)) throw new Refused("cancelled");
            const body = await this.#bodyFor(command, given ?? {}, order);
            this.#send({ seq: this.#sequence++, ...response, success: true, ...(body === undefined ? {} : { body }) });
        } catch (failure) {
            const message = this.#toldOf(failure);
            this.#send({
                seq: this.#sequence++, ...response, success: false, message,
                body: { error: { id: 1, format: "{message}", variables: { message }, showUser: true } },
            });
        }
        this.#settle();
    }

    /** Does what comes after a response. */
    #settle() {
        try {
            for (const deed of this.#after.splice(0)) deed();
        } catch (failure) {
            this.#broken(failure);
        }
    }

    /** What is said of a failure. A laboratory whose memory has run out is closed; a restart opens another one. */
    #toldOf(failure) {
        if (failure instanceof Refused) return failure.message;
        if (!(failure instanceof NoMemory)) return `an error of the debug adapter itself: ${failure.message}`;
        const printed = this.#printing?.count ?? 0;
        this.#leave();
        const kept = "what was done is kept, and restart begins anew";
        return `the laboratory's memory is used up after ${printed} printed codes: ${failure.message}; ${kept}`;
    }

    /** Ends the session of the machine, and keeps what was done. */
    #leave() {
        this.keep();
        this.#after.push(() => this.#event("terminated"));
        this.#machine = null;
    }

    #bodyFor(command, given, order) {
        if (!Object.hasOwn(this.#requests, command)) throw new Refused(`there is no request ${command} here`);
        if (this.#client === null && !TAKEN_BEFORE.has(command)) throw new Refused(`${command} came before initialize`);
        if (this.#machine === null && !NEEDS_NONE.has(command)) throw new Refused(`${command} wants a program: launch comes first`);
        const isTooEarly = this.#runner?.isRunning && !TAKEN_WHILE_RUNNING.has(command);
        if (isTooEarly) throw new Refused(`${command} wants a machine at rest: pause stops it`);
        return this.#requests[command](this.#checked(command, given), order);
    }

    /** The arguments of a request, which have what they are to have. */
    #checked(command, given) {
        try {
            return ARGUMENTS[command](given, "");
        } catch (failure) {
            throw failure instanceof Misshapen ? new Refused(`${command}: ${failure.message}`) : failure;
        }
    }

    /**
     * What is done for each request.
     * @returns {import("../types/debug.js").Requests}
     */
    #table() {
        return { ...this.#life(), ...this.#looks(), ...this.#changes(), ...this.#points(), ...this.#moves() };
    }

    /**
     * @returns {Pick<import("../types/debug.js").Requests, "initialize" | "launch" | "attach" | "configurationDone" | "restart" |
     * "disconnect" | "terminate" | "cancel">}
     */
    #life() {
        return {
            initialize: (given) => {
                this.#client = {
                    linesFrom: given.linesStartAt1 === false ? 0 : 1, columnsFrom: given.columnsStartAt1 === false ? 0 : 1,
                    takesInvalidated: given.supportsInvalidatedEvent === true, takesMemory: given.supportsMemoryEvent === true,
                };
                return CAPABILITIES;
            },
            launch: async (given) => {
                await this.#begin(given);
                const trouble = this.#options.shelf?.trouble ?? null;
                if (trouble !== null) this.refuse(`nothing of this session is kept: ${trouble}`);
                this.#after.push(() => this.#event("initialized"));
            },
            attach: () => { throw new Refused("there is no machine to attach to: launch opens one"); },
            configurationDone: () => { this.#after.push(() => this.#enter()); },
            restart: ({ arguments: again = this.#launch }) => this.#restart(again),
            disconnect: () => { this.#after.push(() => this.end()); },
            terminate: () => {
                this.#runner?.pause();
                this.#leave();
            },
            cancel: () => undefined,
        };
    }

    async #restart(again) {
        if (again === null) throw new Refused("restart wants a program: launch comes first");
        this.#runner?.pause();
        await this.#running;
        await this.#begin(again);
        const tellOfRun = () => this.#runner.isRunning && this.#event("continued", { threadId: THREAD, allThreadsContinued: true });
        this.#after.push(() => this.#enter(), tellOfRun);
    }

    /**
     * @returns {Pick<import("../types/debug.js").Requests, "threads" | "stackTrace" | "scopes" | "variables" | "evaluate" | "completions" |
     * "exceptionInfo" | "readMemory" | "disassemble" | "source">}
     */
    #looks() {
        return {
            threads: () => ({ threads: [{ id: THREAD, name: "LGP-30" }] }),
            stackTrace: () => ({ stackFrames: [this.#frame()], totalFrames: 1 }),
            scopes: () => ({ scopes: this.#variables.scopes() }),
            variables: ({ variablesReference }) => ({ variables: this.#variables.variables(variablesReference) }),
            evaluate: (given, order) => (given.context === "repl" ? this.#typed(given.expression, order) : this.#evaluated(given)),
            completions: (given) => this.#completions(given),
            exceptionInfo: () => ({
                exceptionId: this.#machine.state().get("status"), description: this.#reason.sentence, breakMode: "always",
            }),
            readMemory: (given) => this.#memory.read(given),
            disassemble: (given) => ({ instructions: this.#memory.disassembled(given, (address) => this.#locationOf(address)) }),
            source: ({ sourceReference }) => ({ content: this.#memory.track((sourceReference - 1) % TRACKS) }),
        };
    }

    /** @returns {Pick<import("../types/debug.js").Requests, "setVariable" | "setExpression" | "writeMemory">} */
    #changes() {
        return {
            setVariable: ({ variablesReference: scope, name, value }) => (
                this.#changed(() => ({ value: this.#variables.set(scope, name, value) }))),
            setExpression: ({ expression, value }) => this.#changed(() => ({ value: this.#variables.setNamed(expression.trim(), value) })),
            writeMemory: (given) => this.#changed(() => this.#memory.write(given)),
        };
    }

    /**
     * @returns {Pick<import("../types/debug.js").Requests, "setBreakpoints" | "setFunctionBreakpoints" | "setInstructionBreakpoints" |
     * "setDataBreakpoints" | "setExceptionBreakpoints" | "dataBreakpointInfo" | "breakpointLocations">}
     */
    #points() {
        return {
            setBreakpoints: async ({ source, breakpoints = [] }) => {
                const identity = source.path === undefined ? null : await this.#identityOf(source.path);
                return this.#want(`source ${identity}`, breakpoints, (session, it) => ofLine(session, identity, it));
            },
            setFunctionBreakpoints: ({ breakpoints }) => this.#want("function", breakpoints, ofLabel),
            setInstructionBreakpoints: ({ breakpoints }) => this.#want("instruction", breakpoints, ofAddress),
            setDataBreakpoints: ({ breakpoints }) => this.#want("data", breakpoints, ofWord),
            setExceptionBreakpoints: ({ filters }) => {
                this.#stopsAtOverflow = filters.includes(OVERFLOW);
                if (this.#runner !== undefined) this.#runner.stopsAtOverflow = this.#stopsAtOverflow;
                const unknown = (filter) => ({ verified: false, message: `there is no filter ${filter} here` });
                return { breakpoints: filters.map((filter) => (filter === OVERFLOW ? { verified: true } : unknown(filter))) };
            },
            dataBreakpointInfo: ({ variablesReference = 0, name }) => {
                const address = this.#variables.addressOf(variablesReference, name);
                return address === null
                    ? { dataId: null, description: `${name} is no word of the drum` }
                    : { dataId: address, description: `the word at ${address}`, accessTypes: ["write"] };
            },
            breakpointLocations: ({ line, endLine = line }) => {
                const isAmong = (it) => it.line >= this.#lineIn(line) && it.line <= this.#lineIn(endLine);
                return { breakpoints: this.#program.source.words.filter(isAmong).map((it) => ({ line: this.#lineOut(it.line) })) };
            },
        };
    }

    /**
     * @returns {Pick<import("../types/debug.js").Requests, "continue" | "next" | "stepIn" | "stepOut" | "stepBack" | "reverseContinue" |
     * "pause" | "gotoTargets" | "goto">}
     */
    #moves() {
        const stopping = (/** @type {import("../types/debug.js").Stop} */ stop) => { this.#after.push(() => this.#stop(stop)); };
        return {
            continue: () => {
                this.#after.push(() => this.#goOn());
                return { allThreadsContinued: true };
            },
            next: () => stopping(this.#runner.step()),
            stepIn: () => stopping(this.#runner.step()),
            stepOut: () => {
                throw new Refused("this machine has no calls to step out of: set a breakpoint where the routine returns to");
            },
            stepBack: (given, order) => this.#goneBack(order, (isInterrupted) => this.#runner.stepBack(isInterrupted)).then(stopping),
            reverseContinue: (given, order) => this.#goneBack(order, (isInterrupted) => this.#runner.runBack(isInterrupted)).then(stopping),
            pause: () => this.#runner.pause(),
            gotoTargets: async ({ source, line }) => {
                const isOwn = source.path !== undefined && await this.#identityOf(source.path) === this.#program.identity;
                const target = isOwn ? this.#program.placedFrom(this.#lineIn(line)) : null;
                if (target === null) return { targets: [] };
                const { place, line: found } = target;
                return { targets: [{ id: Number(place), label: place, line: this.#lineOut(found), instructionPointerReference: place }] };
            },
            goto: ({ targetId }) => {
                this.#machine.goTo(String(targetId).padStart(4, "0"));
                stopping({ reason: "goto", what: "a jump to {}" });
            },
        };
    }

    /** Goes back. What an operator did after that moment is taken back with it: that is told, and kept as it was. */
    async #goneBack(order, work) {
        const stop = await work(() => this.#interruptedAt > order);
        const [first, ...more] = this.#machine.takenBack.splice(0);
        if (first !== undefined) {
            this.#options.shelf?.putSessionAway();
            const others = more.length === 0 ? "" : ` and ${more.length} more`;
            this.#event("output", { category: "console", output: `taken back, since it was done later: ${first}${others}\n` });
        }
        return stop;
    }

    #identityOf(path) {
        return this.#options.identityOf?.(path) ?? path;
    }

    /** Brings the program of a launch into a new laboratory, with the breakpoints that are wanted. */
    async #begin(launch) {
        this.keep();
        this.#options.shelf?.putSessionAway();
        const machine = new Machine(this.#openSession, this.#options.consoleOver);
        const program = await Program.broughtInto(machine, launch, this.#options);
        machine.begin();
        [this.#launch, this.#machine, this.#program] = [launch, machine, program];
        [this.#rules, this.#variables, this.#memory] = [new Rules(machine, program), new Variables(machine), new Memory(machine)];
        this.#printing = new Printing(machine, this.#typewriter, (output) => this.#event("output", { category: "stdout", output }));
        this.#runner = new Runner(machine, this.#rules, this.#printing, (message) => this.#log(message), launch.operate === true);
        this.#runner.stopsAtOverflow = this.#stopsAtOverflow;
        const breakpoints = this.#breakpoints.groups.flatMap((group) => this.#breakpoints.set(group, this.#session));
        for (const breakpoint of breakpoints) this.#after.push(() => this.#event("breakpoint", { reason: "changed", breakpoint }));
    }

    /** What breakpoints are set in. */
    get #session() {
        return {
            launch: this.#launch, machine: this.#machine, program: this.#program, rules: this.#rules, lineIn: (line) => this.#lineIn(line),
            lineOut: (line) => this.#lineOut(line),
        };
    }

    /** Begins where the program does. */
    #enter() {
        if (this.#launch?.stopOnEntry === true) this.#stop({ reason: "entry", what: "before the first order, at {}" });
        else this.#goOn(true);
    }

    /** Lets the machine run. What stops it is told, unless the program is another one by then. */
    #goOn(isEntering = false) {
        const machine = this.#machine;
        const isOver = () => machine !== this.#machine;
        const stopped = (stop) => isOver() || this.#stop(stop);
        this.#running = this.#runner.run(isEntering).then(stopped).catch((failure) => isOver() || this.#broken(failure));
    }

    /** Tells of what went wrong where no request is to be answered. */
    #broken(failure) {
        const description = this.#toldOf(failure);
        this.refuse(description);
        if (this.#machine !== null) this.#event("stopped", { reason: "exception", description, threadId: THREAD, allThreadsStopped: true });
        this.#settle();
    }

    /**
     * Tells of a stop: with the monitor's sentence, or what it is and where. What is said of a word besides is written too, since few
     * clients show it.
     * @param {import("../types/debug.js").Stop} stop
     */
    #stop({ reason, what = "a stop at {}", sentence, points = [], text }) {
        this.#printing.show();
        if (text !== undefined) this.#event("output", { category: "console", output: `${sentence}\nbefore that: ${text}\n` });
        this.keep();
        this.#stops += 1;
        this.#reason = { sentence: sentence ?? what.replace("{}", this.#place()) };
        const ids = points.map(({ id }) => id);
        this.#event(
            "stopped",
            {
                reason, description: this.#reason.sentence, ...(text === undefined ? {} : { text }), threadId: THREAD,
                allThreadsStopped: true, ...(ids.length > 0 ? { hitBreakpointIds: ids } : {})
            }
        );
    }

    /** Where the machine is: the counter, and the label there. */
    #place() {
        const state = this.#machine.state();
        return [state.get("counter"), state.get("counter-label")].filter((it) => it !== undefined).join(" ");
    }

    /** Does what changes the machine, and keeps it. */
    #changed(work) {
        const body = work();
        this.keep();
        this.#after.push(() => this.#drumChanged());
        return body;
    }

    /** Tells clients that show memory to read it again. */
    #drumChanged() {
        if (this.#client.takesMemory) this.#event("memory", { memoryReference: "0000", offset: 0, count: Memory.BYTES });
    }

    /** Keeps the breakpoints that are wanted of a kind, and sets them. */
    #want(group, breakpoints, placed) {
        this.#breakpoints.want(group, breakpoints, placed);
        return { breakpoints: this.#breakpoints.set(group, this.#session) };
    }

    #lineIn(line) {
        return line + 1 - this.#client.linesFrom;
    }

    #lineOut(line) {
        return line - 1 + this.#client.linesFrom;
    }

    /** Where the source has the word of an address, if it has. */
    #locationOf(address) {
        const line = this.#program.lineAt(address);
        return line === null ? {} : { location: { name: nameOf(this.#program.path), path: this.#program.path }, line: this.#lineOut(line) };
    }

    /** Where the machine is. A place that no line has is shown in its track, as that is at this stop. */
    #frame() {
        const counter = this.#machine.state().get("counter");
        const [word] = this.#machine.words(counter);
        const { track, sector } = partsOf(counter);
        const drum = { name: `track ${counter.slice(0, 2)}`, sourceReference: TRACKS * this.#stops + track + 1 };
        const { location: source = drum, line = this.#lineOut(sector + 1) } = this.#locationOf(counter);
        const name = [counter, word.get("label"), word.get("order") ?? word.get("digits")].filter((it) => it !== undefined).join("  ");
        return { id: 1, name, line, column: this.#client.columnsFrom, instructionPointerReference: counter, source };
    }

    /** @param {import("@vscode/debugprotocol").DebugProtocol.EvaluateArguments} given */
    #evaluated({ expression, context }) {
        const { value: result, variablesReference, memoryReference } = this.#variables.evaluated(expression.trim(), context !== "hover");
        return { result, variablesReference, ...(memoryReference === undefined ? {} : { memoryReference }) };
    }

    async #completions({ text, column, line = this.#client.linesFrom }) {
        const lines = text.split("\n");
        const at = Math.max(0, column - this.#client.columnsFrom);
        const before = (lines[line - this.#client.linesFrom] ?? "").slice(0, at);
        const words = await this.#prompt.completed(before);
        return {
            targets: words.map(({ word, begun }) => (
                { label: word.trim(), text: word, start: before.length - begun + this.#client.columnsFrom, length: begun }
            ))
        };
    }

    /** Writes what a logpoint says: between braces is what is evaluated. */
    #log(message) {
        const output = message.replace(/\{([^{}]*)\}/g, (whole, expression) => {
            try {
                return this.#variables.evaluated(expression.trim(), true).value;
            } catch (failure) {
                return this.#toldOf(failure);
            }
        });
        this.#event("output", { category: "console", output: `${output}\n` });
    }

    /** The replies to lines that were typed in the console. */
    async #typed(expression, order) {
        const machine = this.#machine;
        const isInterrupted = () => this.#interruptedAt > order;
        const changed = (line) => machine === this.#machine && this.#typedInto(line);
        const result = await this.#prompt.typed(expression, () => this.#runner.isRunning, isInterrupted, changed);
        return { result, variablesReference: 0 };
    }

    /** What a line that does something has changed is shown anew. */
    #typedInto(line) {
        if (this.#machine.hasLeft) return this.#leave();
        if (line.trim() === "new") this.#options.shelf?.putSessionAway();
        this.#rules.look();
        if (!this.#client.takesInvalidated) return this.#after.push(
            () => this.#stop({ reason: "console", what: "a line of the console, at {}" })
        );
        this.#printing.show();
        this.keep();
        this.#after.push(() => this.#event("invalidated", { areas: ["all"] }), () => this.#drumChanged());
    }
}
