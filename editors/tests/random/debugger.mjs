// The debug adapter, driven at random: each request has one response, and n steps back lead exactly where n steps began.
import { mkdtempSync, rmSync, writeFileSync } from "node:fs";
import { tmpdir } from "node:os";
import { join } from "node:path";
import { Peer, sources, wants } from "./chance.mjs";

export const NAME = "lgp30-debug-adapter.mjs";
const PLACES = ["0000", "0001", "0005", "0050", "6363", "start", "first", "count", "none", "", "0064"];

/** A small program: a loop that counts, changes its own orders and prints. */
function program(chance) {
    const letters = ["b", "y", "r", "i", "d", "n", "m", "p", "e", "u", "t", "h", "c", "a", "s", "z"];
    const line = () => (
        chance.once(5)
            ? ` p =${chance.of(["a", "z", "5"])}`
            : ` ${chance.of(letters)} ${chance.of(["count", "one", "start", "*+1", "*+2", "0040", "0100"])}`
    );
    const body = Array.from({ length: 3 + chance.below(12) }, line);
    return [
        "start b count", " a one", " h count", ...body, " u start", `count int ${chance.below(50)} 30`, "one int 1 30", " end start", "",
    ].join("\n");
}

export class Round {
    #chance;
    #peer;
    #counts;
    #folder = mkdtempSync(join(tmpdir(), "random-"));
    #source;
    #seq = 0;
    #read = 0;

    constructor(chance, counts) {
        this.#chance = chance;
        this.#counts = counts;
        this.#peer = new Peer(NAME, { XDG_STATE_HOME: this.#folder });
        this.#source = join(this.#folder, "random.lgp30");
    }

    #count(what, number = 1) {
        this.#counts.set(what, (this.#counts.get(what) ?? 0) + number);
    }

    async play() {
        try {
            writeFileSync(this.#source, this.#chance.once(3) ? this.#chance.of(sources) : program(this.#chance));
            await this.#asks(
                "initialize",
                {
                    adapterID: "lgp30", linesStartAt1: !this.#chance.once(3), supportsInvalidatedEvent: this.#chance.once(2),
                    supportsMemoryEvent: this.#chance.once(2),
                }
            );
            const { success } = await this.#asks(
                "launch", { program: this.#source, how: this.#chance.of(["load", "put"]), stopOnEntry: true, operate: this.#chance.once(2) }
            );
            if (success) await this.#session();
            await this.#asks("disconnect");
            await this.#peer.ended;
            await this.#peer.end();
            this.#inOrder();
        } finally {
            this.#peer.kill();
            rmSync(this.#folder, { recursive: true, force: true, maxRetries: 5, retryDelay: 100 });
        }
    }

    async #session() {
        this.#count("programs");
        await this.#asks("configurationDone");
        await this.#stopped();
        for (let deed = 0; deed < 25; deed += 1) await this.#chance.of([
            () => this.#forwardsAndBack(), () => this.#forwardsAndBack(), () => this.#goOn(), () => this.#question(),
            () => this.#question(), () => this.#breakpoints(), () => this.#change(),
        ])();
    }

    /** The response to a request. None is told in words of JavaScript, or is an error of the adapter itself. */
    async #asks(command, given) {
        const seq = ++this.#seq;
        this.#count("requests");
        const from = this.#peer.messages.length;
        this.#peer.send({ seq, type: "request", command, ...(given === undefined ? {} : { arguments: given }) });
        const response = await this.#peer.next((message) => message.type === "response" && message.request_seq === seq, from);
        wants(response !== null, `${command} has no response`);
        wants(
            response.success || !/adapter itself|undefined|not a function/.test(response.message),
            `${command} ${JSON.stringify(given)}: ${response.message}`
        );
        return response;
    }

    /** The next stop, which a pause brings about where it does not come by itself. */
    async #stopped() {
        const isStop = ({ event }) => event === "stopped";
        let stop = await this.#peer.next(isStop, this.#read, 300);
        if (stop === null) {
            await this.#asks("pause", { threadId: 1 });
            this.#count("pauses");
            stop = await this.#peer.next(isStop, this.#read);
        }
        wants(stop !== null, "the machine does not stop");
        wants(
            /\S/.test(stop.body.description) && !/^\?|undefined|\{\}/.test(stop.body.description),
            `a stop is described as ${stop.body.description}`
        );
        this.#read = this.#peer.messages.indexOf(stop) + 1;
        return stop.body;
    }

    /** What the machine is: its panel and its drum. */
    async #machine() {
        const { body: { result } } = await this.#asks("evaluate", { expression: "panel", context: "watch" });
        const { body: { data } } = await this.#asks("readMemory", { memoryReference: "0000", count: 4 * 4096 });
        return { panel: result, drum: data };
    }

    /** The clock says whether an order was performed. */
    async #clock() {
        return (await this.#asks("evaluate", { expression: "@clock", context: "watch" })).body.result;
    }

    async #forwardsAndBack() {
        const steps = 1 + this.#chance.below(12);
        const [before, clock] = [await this.#machine(), await this.#clock()];
        let performed = 0;
        for (let at = 0, last = clock; at < steps; at += 1) {
            const { success, message } = await this.#asks(this.#chance.of(["next", "stepIn"]), { threadId: 1, granularity: "instruction" });
            wants(success || /ClockEnd/.test(message), `a step is refused: ${message}`);
            if (!success) break;
            await this.#stopped();
            const now = await this.#clock();
            if (now === last) break;
            [last, performed] = [now, performed + 1];
        }
        for (let at = 0; at < performed; at += 1) {
            const { success, message } = await this.#asks("stepBack", { threadId: 1 });
            wants(success, `a step back is refused: ${message}`);
            await this.#stopped();
        }
        const after = await this.#machine();
        wants(before.drum === after.drum, `after ${performed} steps and as many back the drum is another one`);
        // the first step may have pressed a button of a machine at rest, which a step back over an order does not undo
        const wasGoing = /status (going|executing|reading) /.test(before.panel);
        wants(!wasGoing || before.panel === after.panel, `after ${performed} steps and as many back: ${before.panel} and ${after.panel}`);
        this.#count("ways forwards and back");
        this.#count("steps", performed);
    }

    async #goOn() {
        const command = this.#chance.of(["continue", "reverseContinue", "restart"]);
        const { success } = await this.#asks(command, command === "restart" ? {} : { threadId: 1 });
        if (!success) return;
        const { hitBreakpointIds = [] } = await this.#stopped();
        this.#count("runs");
        if (hitBreakpointIds.length > 0) this.#count("hits");
    }

    async #question() {
        const place = () => this.#chance.of(PLACES);
        const asked = [
            () => ["threads"], () => ["stackTrace", { threadId: 1 }], () => ["scopes", { frameId: 1 }],
            () => ["variables", { variablesReference: this.#chance.below(9) }], () => ["exceptionInfo", { threadId: 1 }],
            () => [
                "evaluate",
                {
                    expression: this.#chance.of([...PLACES, "@counter", "@fly", "words 0000 2", "run 1", "why 0001"]),
                    context: this.#chance.of(["watch", "hover"]),
                },
            ],
            () => [
                "completions", { text: this.#chance.of(["", "tra", "words ", "press ", "@a", "do "]), column: 1 + this.#chance.below(8) },
            ],
            () => ["readMemory", { memoryReference: place(), offset: this.#chance.below(20) - 10, count: this.#chance.below(40) }],
            () => [
                "disassemble",
                { memoryReference: place(), instructionOffset: this.#chance.below(20) - 10, instructionCount: this.#chance.below(30) },
            ],
            () => ["gotoTargets", { source: { path: this.#source }, line: this.#chance.below(20) }],
            () => [
                "breakpointLocations", { source: { path: this.#source }, line: this.#chance.below(20), endLine: this.#chance.below(30) },
            ],
            () => ["dataBreakpointInfo", { name: place() }], () => ["source", { sourceReference: 1 + this.#chance.below(64) }],
            () => ["cancel", { requestId: this.#chance.below(99) }],
            () => [this.#chance.of(["variables", "setBreakpoints", "evaluate", "goto", "readMemory", "fly", "launch"])],
        ];
        const [command, given] = this.#chance.of(asked)();
        const { success, body } = await this.#asks(command, given);
        if (success && command === "evaluate") wants(
            typeof body.result === "string", `${JSON.stringify(given)} is ${JSON.stringify(body.result)}`
        );
    }

    async #breakpoints() {
        const line = () => this.#chance.below(16);
        const more = () => this.#chance.of([
            {}, {}, { hitCondition: this.#chance.of(["2", ">3", "%2", "x"]) },
            {
                condition: this.#chance.of([
                    "count > 3", "count == 12", "@accumulator < 0", "one == 1", "nobody == 1", "often", "@counter != 0001", "0005 >= .5",
                ])
            },
            { logMessage: "{count} {@counter}" },
        ]);
        const wanted = [
            () => [
                "setBreakpoints",
                {
                    source: { path: this.#source },
                    breakpoints: Array.from({ length: this.#chance.below(4) }, () => ({ line: line(), ...more() })),
                },
            ],
            () => [
                "setFunctionBreakpoints",
                { breakpoints: Array.from({ length: this.#chance.below(3) }, () => ({ name: this.#chance.of(PLACES), ...more() })) },
            ],
            () => [
                "setDataBreakpoints",
                { breakpoints: Array.from({ length: this.#chance.below(2) }, () => ({ dataId: this.#chance.of(PLACES), ...more() })) },
            ],
            () => [
                "setInstructionBreakpoints",
                { breakpoints: [{ instructionReference: this.#chance.of(PLACES), offset: 4 * this.#chance.below(9) }] },
            ],
            () => ["setExceptionBreakpoints", { filters: this.#chance.once(2) ? [] : ["overflow"] }],
        ];
        const [command, given] = this.#chance.of(wanted)();
        const { success, message, body } = await this.#asks(command, given);
        wants(success, `${command} ${JSON.stringify(given)}: ${message}`);
        for (const { verified, message: why } of body.breakpoints) wants(
            verified || /\S/.test(why), `a breakpoint is refused without a reason: ${JSON.stringify(given)}`
        );
        this.#count("sets of breakpoints");
    }

    async #change() {
        const lines = [
            "run 3", "press manual", "press oneop", "press normal", "type 12'", "break count", "drop 0", "trace 2", "turn 5", "source\n z",
            " end\n.", "panel", "put 0100 = 5", "back 2", "last", "new",
        ];
        const changes = [
            () => [
                "setVariable",
                {
                    variablesReference: 1 + this.#chance.below(6),
                    name: this.#chance.of(["counter", "accumulator", "register", "mode", "one", "left", "bp4", "kept"]),
                    value: this.#chance.of(["0000", "= 3", "b 0002", "oneop", "down", "12'", "?", ""]),
                },
            ],
            () => [
                "setExpression",
                {
                    expression: this.#chance.of(["count", "0050", "@counter", "@bp4", "@clock", "nobody"]),
                    value: this.#chance.of(["= 9", "0000", "up", "b 0001", ".5"]),
                },
            ],
            () => [
                "writeMemory",
                {
                    memoryReference: this.#chance.of(PLACES), offset: this.#chance.below(5),
                    data: this.#chance.of(["AAAAAgAA", "AAAAAA==", "?", ""]),
                },
            ],
            () => ["goto", { threadId: 1, targetId: this.#chance.of([0, 1, 50, 9999]) }],
            () => ["evaluate", { expression: this.#chance.of(lines), context: "repl" }],
        ];
        const [command, given] = this.#chance.of(changes)();
        await this.#asks(command, given);
        await this.#asks("threads");
        this.#read = this.#peer.messages.length;
        this.#count("changes");
    }

    /** Messages are counted without a gap, and each request has one response. */
    #inOrder() {
        wants(this.#peer.messages.every(({ seq }, at) => seq === at + 1), "messages are not counted one after another");
        const answered = this.#peer.messages.filter(({ type }) => type === "response").map(({ request_seq: seq }) => seq);
        wants(
            answered.length === this.#seq && new Set(answered).size === this.#seq, `${this.#seq} requests have ${answered.length} responses`
        );
    }
}
