// A sitting at a terminal: what a person types is answered line by line, nothing that was typed is lost, and what takes long can be
// stopped.
import { Ahead, goesBack } from "./ahead.mjs";
import { NAME } from "./aliases.mjs";
import { Earlier } from "./earlier.mjs";
import { Editing, lastSource, partedAtOpen } from "./editing.mjs";
import { Stopped } from "./engines.mjs";
import { fromHome } from "./file_names.mjs";
import { FileTrouble, Written, keepFile } from "./files.mjs";
import { Help } from "./help.mjs";
import { END, INTERRUPT } from "./keyboard.mjs";
import { bytesFrom, linesIn, textFrom, withoutReturn, wordsOf } from "./lines.mjs";
import { LongLines, Progress, letOthersGo } from "./long.mjs";
import { OWN, formsOf } from "./own.mjs";
import { commandsOf, heldOf, isRefusal, liveOf, panelOf, recordsOf } from "./replies.mjs";
import { NoMemory } from "./session.mjs";
import { SHORT, meantBy } from "./shortcuts.mjs";
import { saidOfStop } from "./stops.mjs";
import { Views } from "./views.mjs";
import { Interrupted } from "./way.mjs";

const INDENT = "        ";
/** The lines that an empty line repeats. */
const REPEATED = ["run", "c", "orders", "operate", "trace", "step", "s", "back", "b", "forward", "look", "around"];
/** The columns that `trace` needs. */
const TRACE_COLUMNS = 88;
/** From how many orders on a line is done in portions, and from how many on one without portions can be taken back while it is answered. */
const PORTIONED = { run: 100_000, orders: 100_000, operate: 1000, trace: 1, drum: 1000 };
const TAKEN_BACK = { profile: 1_000_000, optimum: 1_000_000, json: 10_000, at: 1_000_000 };
/** The number after a command that takes one, null where it is none, and what may come after it. */
function countedIn(command, [number, until, ...condition]) {
    const isUntil = command === "run" && until === "until";
    const isCounted = number !== undefined && isNumber(number) && (until === undefined || isUntil);
    return { limit: isCounted ? Number(number) : null, more: isUntil ? ` until ${condition.join(" ")}` : "" };
}
/** How often a line that is answered asks whether a key was pressed, in milliseconds. */
const HEARS_EVERY = 50;
/** The commands that write a file, with what stands after their first word. */
const WRITING = /^ *(?:transcript|(?:copy|punch|save)(?:-\S+)?) +(.*?) *$/;

/** How a reply ends that says of no step what put a word where it is. */
const UNKNOWN = ", changed by no kept step\n";

/** A question about an order that no session has had, whose refusal says how many there were. */
const BEYOND = "at 9999999999 panel-data";

/** The commands that put the session away. */
const PUTTING_AWAY = ["new", "resume", "to"];

const isNumber = (word) => /^\d{1,10}$/.test(word ?? "");

export class Front {
    #engine;
    #keyboard;
    #shelf;
    #aliases;
    #write;
    #hasColour;
    #isPlain;
    /** Draws what stays for a while: how far a line is. A plain terminal cannot take it away again. */
    #draw;
    #columns;
    #views;
    #helper;
    #long;
    #earlier;
    #editing;
    #source = null;
    /** The condition that each run waits for; null where there is none. */
    #condition = null;
    /** The transcript at the order that was gone to last. */
    #came = null;
    #ahead = new Ahead();
    /** Whether lines are kept that are typed to the engine. */
    #isKept = true;
    #atHand = null;
    #isAsked = false;
    /** The line that was asked about: typed once more, it is done. */
    #doubted = null;
    #repeated = "";
    #isFileTyped = false;
    #takes = null;
    #written = new Written();

    /**
     * A sitting with an engine, a keyboard, the shelf on which it is kept, the user's short names, what writes, whether there is colour,
     * whether replies alone are shown, and what tells the terminal's columns.
     */
    constructor({ engine, keyboard, shelf, aliases, write, hasColour, isPlain, columns }) {
        this.#engine = engine;
        this.#keyboard = keyboard;
        this.#shelf = shelf;
        this.#aliases = aliases;
        this.#write = write;
        this.#hasColour = hasColour;
        this.#isPlain = isPlain;
        this.#draw = isPlain ? () => {} : write;
        this.#columns = isPlain ? () => TRACE_COLUMNS : columns;
        const ask = (line) => engine.ask(line);
        this.#views = new Views(ask, hasColour);
        this.#helper = new Help(ask, OWN, () => engine.openBeside(), () => this.#isNarrow);
        const type = (line) => this.#type(line);
        const isInterrupted = () => keyboard.isInterrupted;
        this.#long = new LongLines({ type, isInterrupted, write, draw: this.#draw });
        this.#earlier = new Earlier({ engine, isInterrupted, draw: this.#draw, askLong: (line) => this.#askLong(line) });
        this.#editing = new Editing({ keyboard, note: (text) => this.#note(text), keep: (lines) => this.#keepLeft(lines) });
    }

    get #isNarrow() {
        return this.#columns() < TRACE_COLUMNS;
    }

    /** The lines of the source that is open; null where none is. */
    get openSource() {
        return this.#source;
    }

    /** Types lines until the person has left. */
    async sit() {
        this.#greet();
        if (!this.#isPlain) await this.#views.settle();
        while (!this.#engine.hasLeft) {
            const line = await this.#keyboard.line(await this.#prompt());
            if (line === END && (this.#source === null || this.#keyboard.hasEnded)) break;
            if (line === INTERRUPT || line === END) this.#interrupt();
            else await this.#takeSafely(textFrom(Buffer.from(line)));
            for (const told of this.#shelf.takeNews()) this.#note(told);
        }
        await this.#keepTranscript();
    }

    #say(text) {
        this.#write(this.#hasColour ? text.replace(/^\?.*$/gm, "\x1b[31m$&\x1b[0m") : text);
    }

    #note(text) {
        this.#write(`${text}\n`);
    }

    /** What a command of the terminal's own refuses. */
    #refuse(command, why) {
        this.#say(`? 1 Form: ${formsOf(command)}: ${why}\n`);
    }

    #greet() {
        if (this.#shelf.trouble !== null) this.#note(`nothing of this session is kept: ${this.#shelf.trouble}`);
        const last = this.#shelf.lastSession();
        if (last !== null) this.#note(`the last session was saved (${told(last)}): resume continues it`);
        for (const path of this.#shelf.unread) this.#note(`${path} cannot be read, and is ignored`);
    }

    async #prompt() {
        if (this.#source !== null || this.#engine.isSourceOpen) return "source> ";
        const { counter, status } = panelOf(await this.#engine.ask("json panel-data"));
        return `${counter} ${status}> `;
    }

    // ---- a source, whose lines reach the laboratory when it is closed

    /** Ctrl-C: at a source it asks once, and then leaves it. */
    #interrupt() {
        if (this.#source === null) return;
        if (!this.#isAsked) {
            this.#isAsked = true;
            const open = `a source is open, lines: ${this.#source.length}`;
            return this.#note(`${open}. Press Ctrl-C again to abandon it; a line with only a point ends it`);
        }
        const lines = this.#source;
        this.#source = null;
        this.#isAsked = false;
        if (lines.length === 0) return this.#note("the source was abandoned");
        this.#atHand = lines;
        const file = this.#shelf.leaveSource();
        this.#note(`the source was abandoned; its lines${file === null ? `:\n${lines.join("\n")}` : ` are in ${file}`}`);
    }

    /** Keeps lines as those of a source that was left; the name of their file, or null. */
    #keepLeft(lines) {
        this.#shelf.keepSource(lines);
        return this.#shelf.leaveSource();
    }

    async #takeSourceLine(line) {
        this.#isAsked = false;
        if (line !== ".") {
            this.#source.push(line);
            return this.#shelf.keepSource(this.#source);
        }
        const lines = this.#source;
        this.#source = null;
        await this.#assemble(lines);
        this.#shelf.dropSource();
    }

    async #assemble(lines) {
        const typed = ["source", ...lines, "."];
        for (const each of typed) this.#say(await this.#engine.type(each));
        this.#atHand = null;
        this.#shelf.keepTyped(...typed);
    }

    // ---- a line

    /** No fault of the terminal's own ends a session; that nothing can be written any more does, and that there is no memory. */
    async #takeSafely(typed) {
        try {
            await this.#take(typed);
        } catch (failure) {
            const isMemory = failure instanceof NoMemory;
            if (isMemory && failure.isTakenBack) return this.#note(`there was not enough memory for this line; ${TAKEN}`);
            if (isMemory || failure.syscall === "write" || failure.isEnd) throw failure;
            this.#note(`this line met a fault of the program: ${failure.message}. The session goes on`);
        }
    }

    async #take(typed) {
        const line = withoutReturn(typed);
        if (this.#source !== null) return this.#takeSourceLine(line);
        if (line.trim() !== "") this.#shelf.keepLine(Buffer.from(line, "latin1").toString());
        if (this.#engine.isSourceOpen) return this.#answer(line);
        const isBlank = line.trim() === "";
        if (!isBlank) this.#repeated = REPEATED.includes(wordsOf(line)[0]) ? line : "";
        const expanded = await this.#withHome(this.#aliases.expanded(isBlank ? this.#repeated : line));
        if (await this.#isDoubted(expanded)) return;
        const name = WRITING.exec(expanded)?.[1];
        if (name === undefined) await this.#takeCommand(expanded);
        else await this.#written.by(name, () => this.#takeCommand(expanded));
    }

    /** A line with the user's home in its file's name, where that is written as in a shell. */
    async #withHome(line) {
        const [, front, command, name] = /^( *(\S+) +)(~.*)$/.exec(line) ?? [];
        return name !== undefined && (await this.#takesFile(command)) ? front + textFrom(Buffer.from(fromHome(name))) : line;
    }

    /** Whether a line would lose something and has not been typed twice; then that is said. */
    async #isDoubted(line) {
        const isPuttingAway = await this.#putsAway(wordsOf(meantBy(line)));
        // what cannot be kept is found out before it is put away
        if (isPuttingAway) await this.#keepTranscript();
        const why = this.#doubted === line ? null : this.#lossBy(line, isPuttingAway);
        this.#doubted = why === null ? null : line;
        if (why !== null) this.#note(`${why}; the same line again does it`);
        return why !== null;
    }

    /** Whether a line puts the session away. */
    async #putsAway([command, ...operands]) {
        return PUTTING_AWAY.includes(command) || (command === "back" && (operands[0] === "to" || this.#isFar(operands)));
    }

    /** What a line would lose; null where that is nothing. */
    #lossBy(line, isPuttingAway) {
        const name = WRITING.exec(line)?.[1];
        const isOthers = name !== undefined && this.#written.isOthers(name);
        if (isOthers) return `${name} is there, and was not written in this session: it would be replaced`;
        const isLost = isPuttingAway && this.#shelf.trouble !== null && this.#shelf.lines.length > 0;
        return isLost ? `nothing of this session is kept, ${this.#shelf.trouble}: it would be lost` : null;
    }

    async #takeCommand(line) {
        const [typed] = wordsOf(line);
        const own = OWN.get(SHORT.get(typed) ?? typed);
        const work = own === undefined || typed === "exit" ? null : this.#ownWork(SHORT.get(typed) ?? typed, own, line);
        const meant = this.#waiting(meantBy(line));
        await (work ?? this.#monitorWork(meant, wordsOf(meant)) ?? (() => this.#answer(meant)))();
        if (this.#isPlain || this.#source !== null || this.#engine.isSourceOpen || this.#engine.hasLeft) return;
        for (const shown of await this.#views.afterMove()) this.#note(shown);
    }

    /** What is done for a command of the terminal's own; null where its line stands for one of the monitor. */
    #ownWork(command, { most }, line) {
        const operands = wordsOf(line).slice(1);
        const rest = / *\S+ *(.*?) *$/.exec(line)[1];
        if (operands.length > most) return () => this.#refuse(command, `${operands[most]} is a word too many`);
        const isStep = command === "step" && (operands.length === 0 || isNumber(operands[0]));
        if (command === "step") return isStep ? null : () => this.#refuse(command, `${operands[0]} is not a number`);
        if (command === "until") return operands.length > 0 ? null : () => this.#refuse(command, "what to wait for is missing");
        const works = {
            paper: operands.length === 0 ? null : () => this.#typedPaper(operands[0]),
            finish: () => this.#finish(),
            look: async () => this.#note((await this.#views.look()).join("\n")),
            around: () => this.#around(...operands),
            change: () => this.#change(operands, rest),
            display: () => this.#display(operands[0]),
            undisplay: () => this.#undisplay(operands[0]),
            when: () => this.#waitFor(rest),
            forward: () => this.#forward(operands[0]),
            past: () => this.#past(),
            "put-listing": () => this.#putListing(line),
            edit: () => this.#edit(operands, rest),
            sessions: () => this.#listSessions(),
            resume: () => this.#resume(operands[0] ?? "1"),
            transcript: rest === "" ? null : () => this.#writeTranscript(rest),
            alias: () => this.#alias(operands, / *\S+ *\S* *(.*?) *$/.exec(line)[1]),
            unalias: () => this.#unalias(operands[0]),
        };
        return works[command] ?? null;
    }

    /** What is done for a line of the monitor, where the terminal does more than type it; null where it does not. */
    #monitorWork(line, [command, ...operands]) {
        const form = `${command} ${operands.length}`;
        if (form === "source 0") return () => (this.#source = []);
        if (form === "new 0") return () => this.#beginAnew(line);
        if (command === "to" && operands.length > 0) return () => this.#goTo(line);
        if (command === "back") return () => this.#back(line, operands);
        if (form === "why 1") return () => this.#why(line, operands[0]);
        // a breakpoint has no count, but a condition has
        if (form === "break 2" && isNumber(operands[1])) return () => this.#waitFor(`${operands[1]} times ${operands[0]}`);
        if (["help 0", "help 1"].includes(form)) return () => this.#help(line, operands[0]);
        if (form === "go 1") return () => this.#go(line);
        if (form === "press 1") return () => this.#press(line);
        const { limit, more } = countedIn(command, operands);
        if (limit >= PORTIONED[command]) return () => this.#inPortions(command, limit, more);
        return this.#isLong([command, ...operands]) ? () => this.#patiently(line) : null;
    }

    /** Whether a line may take so long that it has to be stopped, and has no portions. */
    #isLong([command, ...operands]) {
        return command === "do" || operands.some((word) => isNumber(word) && Number(word) >= TAKEN_BACK[command]);
    }

    async #help(line, word) {
        const lines = await this.#helper.about(word);
        const meant = this.#aliases.all.get(word);
        if (lines !== null) this.#note(lines.join("\n"));
        else if (meant !== undefined) this.#note(`${word} stands for ${meant}`);
        else await this.#answer(line);
    }

    async #around(address = "*", count = "7") {
        // the monitor says which address that is, or why it is none, and whether that number of words can be shown
        const told = await this.#engine.ask(`json show-data ${address} 1`);
        if (isRefusal(told)) return this.#say(told);
        const isCount = !isRefusal(await this.#engine.ask(`json show-data 0000 ${count}`));
        if (!isCount) return this.#say("? 1 Form: around ttss NUMBER, at most 64\n");
        const [{ address: middle }] = heldOf(told);
        this.#note((await this.#views.around(middle, Number(count))).join("\n"));
    }

    /** The typewriter's paper with what was typed between what was printed. */
    async #typedPaper(word) {
        if (word !== "typed") return this.#refuse("paper", `${word} is not typed`);
        const mark = (keys) => (this.#hasColour ? `\x1b[31m${keys}\x1b[0m` : `<${keys}>`);
        const paper = await this.#found(() => this.#earlier.typedPaper(mark));
        if (paper !== null) this.#note(`paper ${paper.printed} typed ${paper.typed}\n${paper.text}`);
    }

    // ---- lines of the monitor

    /** `go`: its eight lines are in the transcript, and one line says what came of them. */
    async #go(line) {
        const reply = await this.#type(line);
        if (linesIn(reply).some(isRefusal)) this.#say(reply);
        else this.#note(`started: ${(await this.#prompt()).replace(/> $/, "")}`);
    }

    async #press(line) {
        const reply = await this.#type(line);
        this.#say(reply);
        if (reply !== "dead\n") return;
        const { live } = liveOf(await this.#engine.ask("json state-data"));
        this.#note(`${INDENT}these do something now: ${[...live].join(" ")}`);
    }

    /** Puts the word of a line as a listing has it: its address, its digits, and what comes after them. */
    async #putListing(line) {
        const [, before, address, between, digits] = /^( *\S+ *)(\S*)( *)(\S*)/.exec(line);
        const refuse = (columns, why) => this.#say(`? 1 Form: column ${columns.join("").length + 1}: ${why}\n`);
        if (!/^\d{4}$/.test(address)) {
            return refuse([before], "a line of a listing begins with an address, two digits for the track and two for the sector");
        }
        if (digits.length !== 8) return refuse([before, address, between], "the eight digits of a word come after the address");
        await this.#answer(`put ${address} ${digits}`);
    }

    /** Puts in a word; while the machine goes by the lines that an operator would type. */
    async #change(operands, rest) {
        if (operands.length < 2) return this.#refuse("change", "a word is missing");
        const { status } = panelOf(await this.#engine.ask("json panel-data"));
        if (status !== "going") return this.#answer(`put ${rest}`);
        for (const line of ["press manual", `put ${rest}`, "press normal", "press start"]) {
            const reply = await this.#type(line);
            this.#write(`${INDENT}${line}\n`);
            this.#say(reply);
        }
    }

    /** Runs until the subroutine that is under way returns. */
    async #finish() {
        const NONE = {};
        const call = await this.#found(async () => (await this.#earlier.call()) ?? NONE);
        if (call === null) return;
        if (call === NONE) return this.#refuse("finish", "no subroutine is under way: no r was performed whose u was not");
        const [{ order }] = heldOf(await this.#engine.ask(`json show-data ${call.address} 1`));
        if (order === null) return this.#refuse("finish", `the word at ${call.address}, whose address r has stored, is no order now`);
        const line = meantBy(`until ${wordsOf(order)[1]}`);
        const place = call.place === null ? "in the instruction register" : `at ${call.place}`;
        this.#note(`${INDENT}called by r ${place}; it returns by ${order} at ${call.address}`);
        await this.#monitorWork(line, wordsOf(line))();
    }

    /** Types a line and shows what is answered, and what there is to say about a stop. */
    async #answer(line) {
        const [command, ...operands] = wordsOf(line);
        const before = goesBack(command) && !this.#engine.isSourceOpen ? await this.#engine.ask("transcript") : null;
        const reply = await this.#type(line);
        this.#say(reply);
        if (before !== null) this.#ahead.answered(command, operands, reply, before, await this.#engine.ask("transcript"));
        await this.#sayOfStop(line, reply);
    }

    async #sayOfStop(line, reply) {
        if (this.#isPlain || this.#engine.isSourceOpen || this.#engine.hasLeft) return;
        const lines = await saidOfStop((asked) => this.#engine.ask(asked), wordsOf(line)[0], reply, () => this.#views.standstill());
        for (const each of lines) this.#note(`${INDENT}${each}`);
    }

    /** Types a line to the engine, and keeps it. */
    async #type(line, options) {
        const reply = await this.#engine.type(line, options);
        if (this.#engine.hasLeft || !this.#isKept) return reply;
        this.#isFileTyped ||= await this.#readsFile(line);
        if (!this.#isFileTyped || this.#engine.isSourceOpen) this.#shelf.keepTyped(line);
        else {
            // what a file held is kept, and not its name
            this.#isFileTyped = false;
            this.#shelf.keepSession(await this.#engine.ask("transcript"));
        }
        return reply;
    }

    async #readsFile(line) {
        const [command, ...operands] = wordsOf(line);
        return operands.length > 0 && this.#takesFile(command);
    }

    async #takesFile(command) {
        if (OWN.get(command)?.takes === "file") return true;
        this.#takes ??= commandsOf(await this.#engine.ask("commands"));
        return ["file", "source"].includes(this.#takes.get(command)?.takes);
    }

    async #keepTranscript() {
        if (this.#engine.isSourceOpen || this.#shelf.lines.length === 0) return;
        this.#shelf.keepSession(await this.#engine.ask("transcript"));
    }

    // ---- what takes long

    async #inPortions(command, limit, more) {
        const isTold = ["trace", "drum"].includes(command);
        const reply = isTold ? await this.#long.tell(command === "trace" && this.#isNarrow ? "narrow" : command, limit)
            : command === "operate" ? await this.#long.operate(limit) : await this.#long.run(command, limit, more);
        this.#say(reply);
        await this.#sayOfStop(command, reply);
        if (!this.#long.wasStopped) return;
        const { counter } = panelOf(await this.#engine.ask("json panel-data"));
        this.#note(`${INDENT}stopped early by Ctrl-C, at ${counter}`);
    }

    /** Types a line that has no portions: how long it takes is shown, and Ctrl-C takes it back. */
    async #patiently(line) {
        const reply = await this.#saidPatiently(line);
        if (reply !== null) await this.#sayOfStop(line, reply);
    }

    /** The same; its reply, or null where it was taken back. */
    async #saidPatiently(line, type) {
        const reply = await this.#typeStoppably(line, (progress) => progress.showTime(), type);
        if (reply === null) this.#noteTakenBack();
        else this.#say(reply);
        return reply;
    }

    #noteTakenBack() {
        this.#note(`${INDENT}stopped by Ctrl-C before it was done; ${TAKEN}`);
    }

    /** The reply to a line, which is kept where nothing else is said; null where Ctrl-C has taken it back. */
    async #typeStoppably(line, show, type = (options) => this.#type(line, options)) {
        const progress = new Progress(this.#draw);
        const lines = [...this.#shelf.lines];
        let isOver = false;
        const listening = (async () => {
            while (!isOver) {
                await new Promise((resolve) => setTimeout(resolve, HEARS_EVERY));
                if (isOver) return;
                // a line of which nothing is kept yet is asked again
                if (this.#keyboard.isInterrupted) await this.#engine.takeBack(lines);
                else show(progress);
            }
        })();
        try {
            return await type({ isLong: true });
        } catch (failure) {
            if (!(failure instanceof Stopped)) throw failure;
            return null;
        } finally {
            isOver = true;
            await listening;
            progress.clear();
        }
    }

    /** The reply to a question that may take long; null where Ctrl-C has stopped it. */
    #askLong(line) {
        return this.#typeStoppably(line, (progress) => progress.showTime(), (options) => this.#engine.type(line, options));
    }

    /** What a search of what was done earlier finds; null where Ctrl-C has stopped it, which is said. */
    async #found(search) {
        try {
            return await search();
        } catch (failure) {
            if (!(failure instanceof Interrupted)) throw failure;
            this.#noteTakenBack();
            return null;
        }
    }

    /** What put a word where it is, by the kept steps, or else over the whole session. */
    async #why(line, address) {
        const reply = await this.#type(line);
        if (!reply.endsWith(UNKNOWN)) return this.#say(reply);
        const [record] = recordsOf(await this.#engine.ask(`json why-data ${address}`));
        const origin = await this.#found(() => this.#earlier.origin(record.get("address")));
        this.#say(origin === null ? reply : `${reply.slice(0, -UNKNOWN.length)}, ${origin.says}\n`);
    }

    // ---- sessions

    async #beginAnew(line) {
        this.#say(await this.#engine.type(line));
        this.#putAway();
    }

    #putAway() {
        const isThere = this.#shelf.lines.length > 0;
        this.#shelf.putSessionAway();
        if (isThere && this.#shelf.trouble === null) this.#note("the session before this one was saved: resume continues it");
    }

    #listSessions() {
        const sessions = this.#shelf.sessions();
        if (sessions.length === 0) return this.#note("no session has been saved");
        for (const [at, session] of sessions.entries()) this.#note(`${String(at + 1).padStart(3)}  ${told(session)}`);
        this.#note("resume NUMBER continues one");
    }

    /** Does the lines of a session again. */
    async #resume(number) {
        const isWell = isNumber(number) && Number(number) > 0;
        if (!isWell) return this.#refuse("resume", `${number} is not the number of a session; sessions lists them`);
        const sessions = this.#shelf.sessions();
        const session = sessions[Number(number) - 1];
        if (sessions.length === 0) return this.#note("no session has been saved");
        if (session === undefined) return this.#note(`no session has this number; they are ${sessions.length}: sessions lists them`);
        await this.#engine.type("new");
        this.#shelf.putSessionAway();
        const { closed, open } = partedAtOpen(session.lines);
        const isDone = await this.#repeatAll(closed);
        if (session.isCut) this.#note("its last line was kept only in part, and was not repeated");
        const source = open ?? session.source?.lines ?? null;
        if (source !== null && isDone) this.#openAgain(source);
    }

    /** Goes to the beginning of an order by `to`. */
    #goTo(line) {
        return this.#leaveBy("to", [], () => this.#come(line));
    }

    /** The reply to a line that goes to the beginning of an order; null where Ctrl-C has stopped it. */
    #come(line) {
        return this.#saidPatiently(line, (options) => this.#engine.type(line, options));
    }

    /** Goes to the beginning of an order. The session that is left is put away, unless all that it did was to go to one. */
    async #leaveBy(command, operands, go) {
        const before = await this.#engine.ask("transcript");
        const reply = await go();
        if (reply === null || isRefusal(reply)) return;
        if (this.#came !== before) this.#putAway();
        this.#came = await this.#engine.ask("transcript");
        this.#ahead.answered(command, operands, reply, before, this.#came);
        this.#shelf.keepSession(this.#came);
    }

    /** Whether `back` goes over more orders than those of which steps are kept. */
    async #isFar([orders, ...others]) {
        return isNumber(orders) && others.length === 0 && Number(orders) > await this.#earlier.kept();
    }

    /** Goes back over orders, also over more than those of which steps are kept. */
    async #back(line, operands) {
        if (operands[0] === "to") return this.#backToWhy(operands);
        if (!(await this.#isFar(operands))) return this.#answer(line);
        await this.#leaveBy("back", operands, () => this.#comeFar(Number(operands[0])));
    }

    /** Goes back to the order that put a word where it is. */
    async #backToWhy([, why, address]) {
        if (why !== "why" || address === undefined) return this.#refuse("back", "after to comes why, and an address");
        const told = await this.#engine.ask(`json why-data ${address}`);
        if (isRefusal(told)) return this.#say(told);
        const [record] = recordsOf(told);
        if (record.get("changed-by") === "order") return this.#answer(`back ${record.get("by-ago")}`);
        const isHand = record.get("changed-by") === "hand";
        const found = () => this.#earlier.origin(record.get("address"));
        const origin = isHand ? { says: "put there by hand", number: null } : await this.#found(found);
        if (origin?.number === null) this.#note(`no order to go back to: the word at ${record.get("address")} was ${origin.says}`);
        else if (origin !== null) await this.#leaveBy("back", [origin.back], () => this.#comeTo(origin.number));
    }

    /** The reply to going a number of orders back; null where Ctrl-C has stopped it, or there are fewer, which is said. */
    async #comeFar(orders) {
        const way = await this.#found(() => this.#earlier.way());
        const order = way?.numberBack(orders) ?? null;
        if (order !== null) return this.#comeTo(order);
        if (way !== null) this.#say(`? 7 TooFar ${way.orders}: only this many orders led here since the session began\n`);
        return null;
    }

    /** The reply to going back to the order of a number; null where Ctrl-C has stopped it. Sources and rules stay, as with each `back`. */
    async #comeTo(order) {
        const lines = linesIn(await this.#engine.ask("transcript"));
        const reply = await this.#come(`to ${order}`);
        if (reply !== null) await this.#earlier.typeBesideMachine(lines);
        return reply;
    }

    /** Tells how much was done earlier: all can be gone back to, and it takes as long as it took. */
    async #past() {
        const reply = await this.#askLong(BEYOND);
        if (reply === null) return this.#noteTakenBack();
        const transcript = await this.#engine.ask("transcript");
        const [, orders] = /^\? 7 TooFar (\d+):/.exec(reply);
        const script = `lines that lead here: ${linesIn(transcript).length}, bytes: ${transcript.length}`;
        this.#note(`orders since the session began: ${orders}; ${script}`);
    }

    /** Goes forward again over what was gone back over: a number of orders, or all. */
    async #forward(number) {
        if (number !== undefined && !isNumber(number)) return this.#refuse("forward", `${number} is not a number`);
        const orders = number === undefined ? null : Number(number);
        const transcript = await this.#engine.ask("transcript");
        const why = this.#ahead.refusalAt(transcript, orders);
        if (why !== null) return this.#note(why);
        const { lines, line } = this.#ahead.way(orders);
        const isWhole = await this.#doneAgain(lines, line);
        const now = await this.#engine.ask("transcript");
        if (!isWhole && linesIn(now).length < lines.length) this.#putAway();
        if (this.#came === transcript) this.#came = now;
        this.#ahead.went(now, isWhole ? orders : null);
        this.#shelf.keepSession(now);
    }

    /** Does lines of a session again, and then another one; whether Ctrl-C did not stop it. All of the lines are kept before. */
    async #doneAgain(lines, last) {
        this.#shelf.keepSession(lines.map((line) => `${line}\n`).join(""));
        this.#isKept = false;
        try {
            await this.#engine.type("new");
            const { done } = await this.#repeat(lines);
            return done === lines.length && (last === null || await this.#goesBy(last));
        } finally {
            this.#isKept = true;
        }
    }

    /** Goes by a line to an order of what was done again; whether Ctrl-C did not stop it. */
    async #goesBy(line) {
        const [command, ...operands] = wordsOf(line);
        if (command === "back" && await this.#isFar(operands)) return await this.#comeFar(Number(operands[0])) !== null;
        const reply = await this.#engine.type(line);
        if (!isRefusal(reply)) this.#say(reply);
        return true;
    }

    /** Does lines again, and says how many; whether all of them were done. */
    async #repeatAll(lines) {
        const { done, refused } = await this.#repeat(lines);
        const repeated = done < lines.length ? `${done} of ${lines.length}, stopped by Ctrl-C; the session stays saved` : done;
        this.#note(`lines repeated: ${repeated}${refused > 0 ? `, refused again: ${refused}` : ""}`);
        return done === lines.length;
    }

    #openAgain(lines) {
        this.#source = [...lines];
        this.#shelf.keepSource(this.#source);
        this.#note(`the source that was open is open again, lines: ${lines.length}`);
    }

    /** How many lines were repeated, and how many were refused, up to Ctrl-C. A source that is not closed is open. */
    async #repeat(lines) {
        const progress = new Progress(this.#draw);
        let [done, refused] = [0, 0];
        for (const line of lines) {
            const reply = await this.#repeatLine(line, () => progress.showLines(done, lines.length));
            if (reply === null) break;
            if (isRefusal(reply)) refused++;
            done++;
            await letOthersGo();
            if (this.#keyboard.isInterrupted) break;
            progress.showLines(done, lines.length);
        }
        progress.clear();
        return { done, refused };
    }

    /** The reply to a line that is repeated; null where it was stopped within. */
    async #repeatLine(line, show) {
        const words = wordsOf(line);
        const { limit, more } = countedIn(words[0], words.slice(1));
        const isRun = ["run", "orders"].includes(words[0]) && limit !== null;
        if (this.#engine.isSourceOpen || !(isRun || this.#isLong(words))) return this.#type(line);
        if (!isRun) return this.#typeStoppably(line, show);
        const reply = await this.#long.run(words[0], limit, more, show);
        return this.#long.wasStopped ? null : reply;
    }

    async #writeTranscript(name) {
        const transcript = await this.#engine.ask("transcript");
        this.#withFile(name, () => {
            keepFile(name, bytesFrom(transcript));
            this.#note(`saved ${name}, lines: ${linesIn(transcript).length}`);
        });
    }

    /** What a work on a file gives, or a refusal. */
    async #withFile(name, work) {
        try {
            return await work();
        } catch (trouble) {
            if (!(trouble instanceof FileTrouble)) throw trouble;
            this.#say(`? 13 File ${name}: ${trouble.message}\n`);
            return null;
        }
    }

    // ---- a source that is edited

    async #edit(operands, rest) {
        if (operands.length > 0 && !isNumber(rest)) {
            if (await this.#withFile(rest, () => this.#editing.file(rest))) await this.#answer(`source ${rest}`);
            return;
        }
        const before = this.#atHand ?? lastSource(await this.#engine.ask("transcript"));
        const isThere = rest === "" || before?.[Number(rest) - 1] !== undefined;
        if (!isThere) return this.#refuse("edit", before === null ? "there is no source yet" : `the source has ${before.length} lines`);
        const after = rest === "" ? await this.#editing.lines(before ?? []) : await this.#editing.line(before, Number(rest));
        if (after !== null) await this.#assemble(after);
    }

    // ---- words that are shown after each move

    async #display(address) {
        if (address !== undefined) {
            const reply = await this.#engine.ask(`json show-data ${address} 1`);
            if (isRefusal(reply)) return this.#say(reply);
            this.#views.display(address);
        }
        const shown = await this.#views.displayed();
        this.#note(shown.length === 0 ? "no word is displayed: display ttss shows one after each move" : shown.join("\n"));
    }

    #undisplay(address = null) {
        if (!this.#views.hide(address)) this.#note(address === null ? "no word is displayed" : `${address} is not displayed`);
    }

    // ---- the condition that each run waits for

    /** A line that runs, with the condition that each run waits for; any other as it is. */
    #waiting(line) {
        const [command, number, ...others] = wordsOf(line);
        const isRun = command === "run" && isNumber(number) && others.length === 0;
        return isRun && this.#condition !== null ? `${line} until ${this.#condition}` : line;
    }

    async #waitFor(condition) {
        const refusal = ["", "none"].includes(condition) ? null : await this.#refusalOf(condition);
        if (refusal !== null) return this.#say(refusal);
        if (condition !== "") this.#condition = condition === "none" ? null : condition;
        this.#note(this.#condition === null ? "no run waits for a condition" : `each run ends where this is met: ${this.#condition}`);
    }

    /** Why a text is no condition, by the labels of the last source; null where it is one. */
    async #refusalOf(condition) {
        const source = lastSource(await this.#engine.ask("transcript"));
        const beside = this.#engine.openBeside();
        try {
            for (const line of source === null ? [] : ["source", ...source, "."]) await beside.type(line);
            const reply = await beside.type(`run 0 until ${condition}`);
            return isRefusal(reply) ? reply : null;
        } finally {
            await beside.close();
        }
    }

    // ---- short names

    async #alias([name], line) {
        const { all } = this.#aliases;
        const listed = [...all].map(([each, meant]) => `${each}  ${meant}`).join("\n");
        if (name === undefined) return this.#note(listed || "there are no short names: alias NAME LINE makes one");
        if (line === "") return this.#note(all.has(name) ? `${name}  ${all.get(name)}` : `${name} stands for nothing`);
        const isCommand = OWN.has(name) || SHORT.has(name) || commandsOf(await this.#engine.ask("commands")).has(name);
        if (isCommand) return this.#refuse("alias", `${name} is a command`);
        if (!NAME.test(name)) return this.#refuse("alias", "a name has small letters, digits and hyphens, and begins with a letter");
        await this.#withFile("the file of short names", () => {
            this.#aliases.set(name, line);
            this.#note(`${name} stands for ${line}`);
        });
    }

    async #unalias(name) {
        if (name === undefined) return this.#refuse("unalias", "a name is missing");
        await this.#withFile("the file of short names", () => {
            if (!this.#aliases.forget(name)) this.#note(`${name} stands for nothing`);
        });
    }
}

const TAKEN = "it was taken back, and the machine is as it was before it";

/** A saved session in a few words: when it was kept, by this computer's clock, its lines, and whether a source is open in it. */
function told({ when, lines, source }) {
    const open = source === null ? "" : `, lines of an open source: ${source.lines.length}`;
    return `${when.toLocaleString("sv-SE").slice(0, 16)}, by this computer's clock, lines: ${lines.length}${open}`;
}
