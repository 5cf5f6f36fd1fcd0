// The controller. All that the page does is lines to the monitor, and all that it knows are their replies.
import { ActionHistory } from "./action_history.mjs";
import { PLACES, addressOf, addressesFrom, isAmong, numberOf, partsOfOrder, trackOf, windowAt } from "./addresses.mjs";
import { commandIn, commentsIn, isIdle, linesIn, plainOf, setUp } from "./lines.mjs";
import { LIMITS, MemoryBudget } from "./memory_budget.mjs";
import * as replies from "../libraries/javascript/replies.mjs";
import { NoMemory } from "../libraries/javascript/session.mjs";
import { Run, questionOf, startsText } from "./portions.mjs";
import { Queries, SHOWN, costsIn, rowsIn } from "./queries.mjs";
import { Transcript } from "./transcript.mjs";
import { WordCache } from "./word_cache.mjs";

const ACCOUNTS_KEPT = 400;
const TALK_KEPT = 300;
const TOLD_AT_ONCE = 48;
const STEPPED_AT_ONCE = 200;
const LAST_TOLD = 12;
const TO_PRINT = 50;
/** Up to which order the machine is gone to by performing all again at once, and how many orders are performed at once on the way. */
const AT_ONCE = 2_000_000;
const ON_THE_WAY = 500_000;
/** For how many orders, taken as often as rows are asked for, each row's place is asked. */
const ROWS_ASKED = 10_000_000;
const MUCH = 1000;
/** How many steps the machine keeps. */
const KEPT = 4096;
/** More orders than a session performs. */
const ENDLESS = 9_999_999_999;
const PLACED_AT_MOST = 10_000;
const NEW = /^ *new *$/;
const IN_DIGITS = /^ *put +\d{4} +[0-9fgjkqw]{8} *$/;
const STEPS = new Set(["put", "mount", "press", "type", "turn"]);
const RUNS = new Set(["run", "operate", "trace", "profile", "drum", "optimum", "trace-data", "profile-data", "optimum-data"]);

/** How many orders a line has performed, by its reply; null where that does not tell it. */
function performedBy(line, reply) {
    const [verb] = plainOf(line).trim().split(/ +/);
    if (!["go", "orders"].includes(verb) && !RUNS.has(verb) || reply === "") return 0;
    if (verb === "go") return Number(/^orders (\d+)/m.exec(reply)?.[1] ?? 0);
    const { end } = commandIn(line) === "json" ? replies.reportOf(reply) : replies.toldOf(reply);
    if (replies.isRefusal(end) || replies.startsOf(reply) > 0) return null;
    return verb === "orders" ? replies.ordersOf(reply).orders : replies.runOf(end).orders;
}

/** The lines that assemble a source. */
const linesOfSource = (source) => ["source", ...linesIn(source).map((line) => (line === "." ? " ." : line)), "."];

/** Whether lines that were gone back over are kept where something else is done: what an operator did, or many orders. */
const isMuch = (lines) => (
    lines.some((line) => !line.startsWith("orders ")) || lines.reduce((sum, line) => sum + Number(line.split(" ")[1]), 0) >= MUCH
);

/** An action that was not begun, and the notice that says why. */
class Held extends Error {
    constructor(notice) {
        super(notice.kind);
        this.notice = notice;
    }
}

/** The controller of a laboratory. After each change it dispatches an event `change`; views read its fields. */
export class Controller extends EventTarget {
    /**
     * The last panel; the words shown, each with the order that changed it last, or null; the words of the track that the counter names;
     * and how many codes have been printed, with the typewriter's paper; and the code that was printed last, or null.
     */
    panel = null;
    words = [];
    track = [];
    printed = { count: 0, text: "" };
    struck = null;
    /**
     * The accounts of the last orders, each with the `word` that its order used, and the rows of their turns, as far as these orders were
     * told; and the last profile.
     */
    accounts = [];
    rows = [];
    profile = null;
    /** What the last orders would have taken with one word at each sector, as long as nothing is done after it was asked; or null. */
    costs = null;
    /** Lines and their replies, the newest last. */
    talk = [];
    /** The lines of the source that is open, or null. All that is sent goes into it until a point alone. */
    openSource = null;
    /** The last source, its faults, and the labels of the last one that assembled. */
    source = "";
    assembled = null;
    labels = new Map();
    /** The source that was loaded last, or null; and what its words are, by their places. */
    loaded = null;
    kinds = new Map();
    /** How many words were loaded, and by how many orders of the loader, as long as no order has been performed after it; or null. */
    loading = null;
    /** The rules, each by the command that made it, and the lines of a script that are still to be done. */
    rules = [];
    script = null;
    /** Addresses to which the list of words is scrolled, as far as it shows them, before it is scrolled to the next order. */
    lookedAt = [];
    /** Whether a step asks for a count, which is not told beside it. */
    isCounted = false;
    /** What the script says of the words that it puts, by their addresses. */
    comments = new Map();
    /** Whether an action is under way: until it has ended, what is known may be partly of before it. */
    isActing = false;
    /** What a run under way has done so far, or null, and what the last one did. */
    progress = null;
    lastRun = null;
    /** What the reader of the page should know: a refusal, or a word of the page's own. */
    notice = null;
    /** The lines of laboratories that were lost because memory had ended, until they are put away. */
    lost = [];
    /** Whether the last orders of a run are told after it, and whether the page shows something of its own, which no reader has done. */
    wantsLast = false;
    isOnShow = false;
    history = new ActionHistory();
    /** The clock before the first order that the history knows of. */
    begunAt = 0n;
    /** How many orders were performed since the laboratory was opened, and again where they were performed again. */
    performed = 0;
    /** The last replies to `questionsToo`, none before the first look with them. */
    answers = [];
    #questionsToo = [];
    /** Addresses whose words a view wants known at each look as well, also while a run goes on; and these words, by their addresses. */
    wordsToo = [];
    known = new Map();

    #link;
    #queries;
    #transcript;
    #first = "0000";
    #live = { live: new Set(), way: { kind: "go" } };
    #commands = new Map();
    #questions = new Set();
    #waiting = new Set();
    #tail = Promise.resolve();
    #stops = false;
    #said = [];
    #budget = new MemoryBudget();
    #isInScript = false;
    #isRuleOfScript = [];
    #hit = null;
    #costsOfLine = null;
    #isTouched = false;
    #image = null;
    #cache;
    #isPrinted = false;
    #between = null;
    /** How many orders the monitor has performed, and before the last line; null where its reply did not tell that. */
    #count = 0;
    #countBefore = 0;

    constructor(link) {
        super();
        this.#link = link;
        this.#queries = new Queries(link);
        this.#cache = new WordCache(link);
        this.#transcript = new Transcript(link);
    }

    /** Lines that only ask and leave no trace, which a view wants asked at each look as well. Replies to others are forgotten. */
    get questionsToo() {
        return this.#questionsToo;
    }

    set questionsToo(lines) {
        if (lines.join("\n") === this.#questionsToo.join("\n")) return;
        [this.#questionsToo, this.answers] = [lines, []];
    }

    /** Opens the laboratory, and asks which commands there are, and which operations wait for a word. */
    open() {
        return this.#act(async () => {
            await this.#link.opened;
            [this.#commands, this.#waiting] = await Promise.all([this.#queries.commands(), this.#queries.waiting()]);
            this.#questions = new Set([...this.#commands].filter(([, { asks }]) => asks).map(([name]) => name));
            await this.#look();
        });
    }

    /** The names of what is live now, as the monitor said when the page last looked. */
    get live() {
        return this.#live.live;
    }

    /** What lets the machine go on, in the same way. */
    get way() {
        return this.#live.way;
    }

    /** The commands that only ask. */
    get questions() {
        return this.#questions;
    }

    /** How many lines have been said where the reader has done something that a script had not, else none. */
    get doings() {
        return this.#isTouched ? this.#said.length : 0;
    }

    /** All that was done so far was not the reader's doing: it counts from here on. */
    countFromHere() {
        this.#isTouched = false;
    }

    /** Whether an order with a letter uses the word at its address. */
    usesWord(letter) {
        return this.#waiting.has(letter);
    }

    /** The address of the word that an order uses, or null where it uses none. */
    wordOf(order) {
        const { letter, address } = partsOfOrder(order);
        return this.usesWord(letter) ? address : null;
    }

    /** The lines that lead here from a new laboratory, as they were sent, without those that the page asked for itself. */
    get lines() {
        return this.#said;
    }

    /** The lines that do again what was gone back over. */
    get later() {
        return this.history.later;
    }

    /** Whether the monitor has a command. */
    knows(command) {
        return this.#commands.has(command);
    }

    // Actions come one after another; each ends with a look at the machine.

    #act(action) {
        const done = this.#tail.then(async () => {
            this.isActing = true;
            const { later } = this;
            const before = later.length > 0 ? [...this.lines] : [];
            try {
                return await action();
            } catch (failure) {
                await this.#recover(failure);
                return undefined;
            } finally {
                Object.assign(this, { isActing: false, progress: null });
                if (this.history.left > 0 && isMuch(later)) this.#tellLeft([...before, ...later]);
                this.history.left = 0;
                this.dispatchEvent(new Event("change"));
            }
        });
        this.#tail = done;
        return done;
    }

    /** Something else was done in place of what was ahead, to which these lines lead. */
    #tellLeft(lines) {
        this.dispatchEvent(Object.assign(new Event("left"), { lines }));
    }

    /** An action whose lines an open source would take for its own: while one is open it is held. */
    #question(action) {
        return this.#act(async () => {
            if (this.openSource !== null) throw new Held({ kind: "sourceIsOpen" });
            return action();
        });
    }

    #action(action) {
        return this.#question(async () => {
            Object.assign(this, { notice: null, lastRun: null });
            return action();
        });
    }

    /** An action that takes memory: where little is left it is held. */
    #work(action) {
        return this.#action(async () => {
            if (this.#budget.isUsedUp) throw new Held({ kind: "usedUp" });
            return action();
        });
    }

    /** Goes on after a failure; another one may come up on the way. */
    #recover(failure) {
        return this.#failed(failure)
            .catch((second) => this.#failed(second))
            .catch(({ message }) => { this.notice = { kind: "broken", detail: message, lines: "" }; });
    }

    async #failed(failure) {
        if (failure instanceof Held) {
            this.notice = failure.notice;
            return this.#look();
        }
        this.#cache.forget();
        const lines = this.#said.join("\n");
        const isMemory = failure instanceof NoMemory;
        this.notice = { kind: isMemory ? "noMemory" : "broken", detail: failure.message, lines };
        if (!isMemory) return undefined;
        this.lost = [...this.lost, lines];
        return this.#anew();
    }

    /** Puts the lines of lost laboratories away. */
    putAway() {
        return this.#act(async () => { this.lost = []; });
    }

    /** Tells the reader something. */
    tell(notice) {
        return this.#act(async () => { this.notice = notice; });
    }

    /** Begins with a new module. */
    async #anew() {
        await this.#link.anew();
        this.#budget.anew();
        this.#forget();
        await this.#look();
    }

    /**
     * Begins with a new laboratory, in the same memory where little of it is used. An open source is given up. Gives the notice that offers
     * the lines of the one before, or null where the reader has done nothing there that a script had not.
     */
    async #fresh() {
        if (this.openSource !== null) await this.#ask(".");
        const before = await this.#offer();
        if (this.#budget.isFresh) {
            await this.#ask("new");
            this.#forget();
            await this.#look();
        } else {
            await this.#anew();
        }
        return before;
    }

    async #offer() {
        return this.#isTouched ? { kind: "before", lines: await this.#transcript.script() } : null;
    }

    #forget() {
        this.history.begin();
        this.#first = "0000";
        this.#isTouched = false;
        this.#hit = null;
        Object.assign(
            this,
            {
                openSource: null, accounts: [], rows: [], profile: null, costs: null, assembled: null, labels: new Map(), loaded: null,
                kinds: new Map(), loading: null, rules: [], lastRun: null, performed: 0,
            }
        );
        this.#isRuleOfScript = [];
        this.#said = [];
        this.#count = 0;
        this.#cache.forget();
        this.#transcript.begin();
    }

    async #ask(line) {
        if (commandIn(plainOf(line)) !== "trace-data") this.#cache.forget();
        this.#budget.sent(line);
        const reply = await this.#link.ask(line);
        this.#countBefore = this.#count;
        const performed = this.openSource === null ? performedBy(line, reply) : 0;
        this.#count = performed === null || this.#count === null ? null : this.#count + performed;
        return reply;
    }

    /** How many orders the monitor has performed: it is asked where no reply has told that. Null where it does not know it either. */
    async #counted() {
        if (this.#count !== null) return this.#count;
        const reply = await this.#link.ask(`at ${ENDLESS} panel`);
        const { kind, number } = replies.isRefusal(reply) ? replies.refusalOf(reply) : {};
        this.#count = kind === "TooFar" ? number : null;
        return this.#count;
    }

    /**
     * Asks a line that the reader sees, and notes what it did. Of a line that the page asks for itself the end of the reply alone is shown.
     */
    async #say(line, isAgain = false, isOwn = false) {
        const parts = this.openSource === null ? this.#budget.partsOf(line, ON_THE_WAY) : [];
        for (const part of parts.slice(1)) await this.#say(part, isAgain, isOwn);
        if (parts.length > 1) return this.#say(parts[0], isAgain, isOwn);
        if (this.openSource === null && await this.#isLongRun(line)) return this.#longRun(line);
        const before = this.openSource === null && NEW.test(line) ? await this.#offer() : null;
        this.#said.push(line);
        this.#isTouched ||= !this.#isInScript && !this.isOnShow;
        const reply = await this.#ask(line);
        this.talk = [...this.talk, { line, reply: isOwn ? `${replies.reportOf(reply).end}\n` : reply }].slice(-TALK_KEPT);
        if (this.openSource !== null) await this.#sourceLine(line, reply);
        else if (replies.isRefusal(reply)) this.#refused(line, reply);
        else if (line.trim() === "source") this.openSource = [];
        else await this.#note(line, reply, isAgain);
        this.notice = before ?? this.notice;
        return reply;
    }

    /** Holds a line for which memory may not be enough. Whether it is a run that is to be done in portions. */
    async #isLongRun(line) {
        if (this.#budget.isUsedUp || this.#budget.mostIn(line) !== null) await this.#lookAtPaper();
        if (this.#budget.isUsedUp && !MemoryBudget.isAlwaysTaken(line, this.#questions)) throw new Held({ kind: "usedUp" });
        if (this.#budget.longRunIn(line) !== null) return true;
        const most = this.#budget.mostIn(line);
        if (most !== null) throw new Held({ kind: "tooMany", line, most });
        return false;
    }

    /**
     * Does a line `run` in portions. Where they stop before its end the line of a script is left with the orders that are still to be done.
     */
    async #longRun(line) {
        const limit = this.#budget.longRunIn(line);
        this.#stops = false;
        const run = await this.#portions(limit);
        const reply = run.reply ?? `ran ${run.orders} ${run.end === "rule" ? `rule ${run.rule}` : run.end}\n`;
        this.talk = [...this.talk, { line, reply }].slice(-TALK_KEPT);
        const isHeld = ["printed", "usedUp"].includes(run.end) || (run.end === "limit" && run.orders < limit);
        if (!isHeld) return reply;
        if (this.#isInScript) this.script.lines[this.script.at] = `run ${limit - run.orders}`;
        throw new Held(questionOf(run, this.printed.count) ?? { kind: "stopped" });
    }

    #refused(line, reply) {
        this.notice = { kind: "refusal", ...replies.refusalOf(reply), line };
    }

    async #sourceLine(line, reply) {
        if (line !== ".") {
            this.openSource.push(line);
            return;
        }
        this.source = this.openSource.join("\n");
        this.openSource = null;
        if (replies.isRefusal(reply)) this.#refused("source", reply);
        await this.#noteSource(reply);
    }

    async #note(line, reply, isAgain) {
        const [verb, operand] = plainOf(line).trim().split(/ +/);
        if (STEPS.has(verb)) await this.#noteStep(verb, line, isAgain);
        else if (verb === "orders") this.#noteOrders(replies.ordersOf(reply).orders, isAgain);
        else if (RUNS.has(verb)) await this.#noteRun(line, reply, isAgain);
        else if (verb === "go") await this.#noteGo(reply);
        else if (verb === "back") this.#noteBack(Number(operand));
        else if (verb === "last") this.#noteBack(replies.lastOf(reply).orders);
        else if (verb === "load") this.#noteLoad(reply);
        else if (verb === "new") await this.#noteNew();
        else if (verb === "break" || verb === "watch") this.#isRuleOfScript.push(this.#isInScript);
        else if (verb === "drop") this.#isRuleOfScript.splice(Number(operand), 1);
    }

    /**
     * Notes a step. A put with names of a source is noted as the line that it stands for, since a later source may give them to other
     * places.
     */
    async #noteStep(verb, line, isAgain) {
        const hasNames = verb === "put" && this.labels.size > 0 && !isAgain && !IN_DIGITS.test(line);
        const last = this.accounts.at(-1);
        if (last !== undefined) last.register ??= null;
        const [noted] = hasNames ? await this.#transcript.last(1) : [line];
        if (verb === "type") await this.#lookAtPaper();
        this.history.mark("hand");
        this.history.line(noted, isAgain, verb === "type" ? this.printed.text.length : null);
    }

    /** Orders were performed that were not told: what was told before them are not the last orders any more. */
    #noteOrders(count, isAgain = false) {
        this.performed += count;
        this.history.orders(count, isAgain, this.#count === null ? undefined : this.#count - count);
        this.#budget.ran(count);
        if (count > 0) Object.assign(this, { accounts: [], rows: [], loading: null });
    }

    async #noteRun(line, reply, isAgain) {
        const [verb, limit, word] = plainOf(line).trim().split(/ +/);
        const isReport = commandIn(line) === "json";
        const { told, end } = isReport ? replies.reportOf(reply) : replies.toldOf(reply);
        const before = this.accounts;
        const isRefused = replies.isRefusal(end);
        const starts = verb === "operate" ? replies.startsOf(reply) : 0;
        this.#noteStarts(starts, Number(limit));
        if (isRefused) this.#forgetHistory();
        else if (starts > 0) await this.#noteWhole([line], this.#countBefore, this.history, replies.runOf(end).orders);
        else this.#noteEnd(replies.runOf(end), isAgain);
        if (isReport && verb === "profile-data") this.profile = replies.profileOf(told);
        if (isReport && verb === "trace-data") this.#noteTold(this.#accountsOf(told), before);
        if (verb === "drum") this.rows = replies.drumRowsOf(told);
        if (isReport && verb === "optimum-data" && word !== undefined) this.#costsOfLine = costsIn(reply);
        if (verb === "profile") this.profile = null;
        if (!isRefused && (["trace", "profile"].includes(verb) || (verb === "optimum" && word !== undefined))) {
            await this.#tellAgain(line, replies.runOf(end).orders, before);
        }
    }

    /** Start was pressed this number of times, each time after a run. The reply does not report how many orders these runs had. */
    #noteStarts(starts, limit) {
        this.performed += starts * limit;
        this.#budget.ran(starts * limit);
    }

    /**
     * Lines were done as one, after what is in the history: their first order has the number `first`, and their last run had `last` orders.
     * Where it is not known how many there were, no others can be gone back over.
     */
    async #noteWhole(lines, first, history, last) {
        this.history = history;
        const count = first === null ? null : await this.#counted();
        if (count === null) history.clear();
        if (count === null) history.orders(last);
        else history.whole({ lines, orders: count - first, first, last });
        Object.assign(this, { accounts: [], rows: [], loading: null });
    }

    /** The accounts that records tell, each with the word that its order used. */
    #accountsOf(records) {
        return replies.accountsOf(records).map((account) => ({ ...account, word: this.wordOf(account.order) }));
    }

    /** The last orders were told, after others. */
    #noteTold(accounts, before) {
        this.accounts = [...before, ...accounts].slice(-ACCOUNTS_KEPT);
        this.#cache.told(accounts);
        for (const [at, { stored }] of accounts.entries()) {
            const isChanged = stored !== null && stored.before.digits !== stored.after.digits;
            if (isChanged && this.rules.some((rule) => rule.startsWith(`watch ${stored.address}`))) {
                this.history.mark("watch", this.history.behind - accounts.length + at + 1);
            }
        }
        this.#isPrinted ||= accounts.some(({ printed }) => printed !== null);
    }

    /** What has been told for the reader, told for the page as well: the orders are gone back over, as far as they are kept. */
    #tellAgain(line, orders, before) {
        const [verb, , ...words] = line.trim().split(/ +/);
        const count = verb === "trace" ? Math.min(orders, ACCOUNTS_KEPT) : orders;
        return this.#transcript.aside(async () => {
            if (replies.isRefusal(await this.#ask(`back ${count}`))) return true;
            const reply = await this.#ask(["json", `${verb}-data`, count, ...words].join(" "));
            const { told, end } = replies.reportOf(reply);
            if (verb === "profile") this.profile = replies.profileOf(told);
            else if (verb === "optimum") this.#costsOfLine = costsIn(reply);
            else this.accounts = [...before, ...this.#accountsOf(told)].slice(-ACCOUNTS_KEPT);
            return !replies.isRefusal(end);
        });
    }

    /**
     * A run that a rule has stopped, or that found the machine at rest, is told, but for one that a script asks for or that is done again.
     */
    #noteEnd({ orders, end, rule }, isAgain) {
        this.#noteOrders(orders, isAgain);
        if (isAgain) return;
        if (end === "rule") this.#noteHit(rule);
        else if (!this.#isInScript && orders === 0 && end === "rest") this.notice = { kind: "atRest" };
    }

    /** A rule has stopped a run. */
    #noteHit(rule) {
        if (!this.#isInScript) this.#hit = rule;
        this.history.mark(this.rules[rule]?.startsWith("watch") ? "watch" : "stop");
    }

    /** The source that assembled last is on the drum. */
    #noteLoad(reply) {
        const { source, cells, kinds } = this.#image;
        this.history.whole({ lines: [...linesOfSource(source), "load"], orders: 0, image: this.#image });
        Object.assign(
            this, { loaded: source, kinds, loading: { words: cells, orders: replies.loadedOf(reply) }, accounts: [], rows: [] }
        );
    }

    /** A line `new` begins without a script, but where it is a script's. */
    async #noteNew() {
        await this.#anew();
        if (!this.#isInScript) Object.assign(this, { script: null, comments: new Map() });
    }

    /**
     * Going somewhere stands for lines that the operator could have done, each with a line of the reply. They are noted one by one, since
     * there are steps among them that can be gone back over.
     */
    async #noteGo(reply) {
        const done = replies.linesOf(reply);
        const lines = await this.#transcript.last(done.length);
        for (const [place, line] of lines.entries()) await this.#note(line, `${done[place]}\n`, false);
    }

    #noteBack(orders) {
        this.history.back(orders);
        if (orders > 0) this.rows = [];
    }

    /** What was done so far cannot be gone back over, or it is not known how many orders it was; and it was not told. */
    #forgetHistory() {
        this.history.clear();
        Object.assign(this, { accounts: [], rows: [], loading: null });
    }

    /**
     * Looks at the machine: its state, and then, asked at once, words around the counter and those of its track, what is printed, and the
     * rules. Where nothing was done but orders that were told, the rules are as they were, and so is what is printed unless one of them has
     * printed. In an open source there is no looking. Words that the reader has asked for remain shown until the counter changes.
     */
    async #look() {
        if (this.openSource !== null) return;
        const isWhole = !this.#cache.isTold;
        if (isWhole) this.#noteState(await this.#queries.state());
        else await this.#lookAtOnce();
        const { questionsToo } = this;
        const asked = [this.#lookAtWords(isWhole), this.#queries.others(questionsToo)];
        if (isWhole) asked.push(this.#queries.rules().then((rules) => { this.rules = rules; }));
        if (isWhole || this.#isPrinted) asked.push(this.#lookAtPaper());
        else this.#budget.printed(this.printed.count);
        const [, answers] = await Promise.all(asked);
        if (questionsToo === this.questionsToo) this.answers = answers;
        await this.#markRows();
        if (this.#hit !== null) {
            this.notice = {
                kind: "rule", number: this.#hit, rule: this.rules[this.#hit], isOfScript: this.#isRuleOfScript[this.#hit] ?? false,
            };
        }
        this.#hit = null;
    }

    /** Looks at the state and at the track where the machine should be after the order that was told last, by one line. */
    async #lookAtOnce() {
        const told = this.accounts.at(-1)?.at ?? this.panel.counter;
        const [track] = trackOf(addressOf((numberOf(told) + 1) % PLACES));
        const { panel, live, reply } = await this.#queries.stateWith(track, this.printed.count);
        this.#cache.take(reply);
        this.#noteState({ panel, live });
    }

    #noteState({ panel, live }) {
        const before = this.panel?.counter;
        Object.assign(this, { panel, costs: this.#costsOfLine });
        if (this.history.behind === 0) this.begunAt = panel.clock;
        [this.#live, this.#costsOfLine] = [live, null];
        this.accounts = this.accounts.filter(({ clock }) => clock < panel.clock);
        const last = this.accounts.at(-1);
        if (last !== undefined && last.register === undefined) {
            Object.assign(last, { register: panel.register, next: panel.counter, status: panel.status });
        }
        if (panel.counter !== before && !isAmong(panel.counter, this.#first, SHOWN - 1)) this.#place(panel.counter);
    }

    /** Shows the words around the counter, those of its track, which one line asks. */
    #place(counter) {
        const track = trackOf(counter);
        this.#first = windowAt(counter, SHOWN, [track[0], track.at(-1)]);
    }

    /** The addresses of the words that are shown: those around the counter, and the place of the last order where it lies elsewhere. */
    get #shown() {
        const [around, at] = [addressesFrom(this.#first, SHOWN), this.lastTold?.at ?? null];
        if (at === null || around.includes(at)) return around;
        return numberOf(at) < numberOf(this.#first) ? [at, ...around] : [...around, at];
    }

    async #lookAtWords(isWhole) {
        const [track, shown] = [trackOf(this.panel.counter), this.#shown];
        await this.#cache.ask([...track, ...shown, ...this.wordsToo], !isWhole);
        if (isWhole) await this.#cache.askOrigins(shown);
        this.known = this.#cache.heldAt(this.wordsToo);
        Object.assign(
            this,
            { words: this.#cache.words(shown), track: this.#cache.words(track).map(({ address, digits }) => ({ address, text: digits })) }
        );
    }

    /** Marks the rows that were printed since: each at its place where there are not too many of them, else all at once. */
    async #markRows() {
        const rows = this.printed.text.split("\n").length - 1;
        const isOfLast = this.printed.text.endsWith("\n") && this.lastTold !== null && this.lastTold.printed !== null;
        if (isOfLast && rows === this.history.lastRow.rows + 1) this.history.mark("row", this.history.behind, rows);
        for (let { lastRow: last } = this.history; last.rows < rows; last = this.history.lastRow) {
            const isDear = this.progress !== null || this.isOnShow || (rows - last.rows) * (this.#count ?? Infinity) > ROWS_ASKED;
            const place = isDear ? null : await this.#placeOf(`rows ${last.rows + 1}`, last.place);
            this.history.mark("row", place ?? this.history.behind, place === null ? rows : last.rows + 1);
            if (this.history.lastRow === last) return;
        }
    }

    async #lookAtPaper() {
        const told = this.#isPrinted ? this.accounts.findLast(({ printed }) => printed !== null)?.printed : undefined;
        const before = this.printed;
        this.printed = await this.#queries.paper();
        this.#isPrinted = false;
        if (told !== undefined) this.struck = told;
        else if (this.printed.count !== before.count || this.printed.text !== before.text) {
            this.struck = await this.#queries.struck(this.printed.count);
        }
        this.#budget.printed(this.printed.count);
    }

    /** Shows the words around an address. */
    showAt(address) {
        return this.#question(async () => {
            this.#first = windowAt(address, SHOWN);
            await this.#lookAtWords(true);
        });
    }

    /** Has the words of these addresses known from now on. */
    knowAt(addresses) {
        if (addresses.join() === this.wordsToo.join()) return;
        this.wordsToo = addresses;
        if (addresses.length > 0) this.#act(() => (this.openSource === null ? this.#lookAtWords(true) : undefined));
    }

    /** Does lines one after another, as if typed: into the source, where one is open. */
    say(...lines) {
        return this.#act(async () => {
            Object.assign(this, { notice: null, lastRun: null });
            return this.#sayAll(lines);
        });
    }

    /**
     * Does lines one after another, as a button does: none of them is meant for a source. What is pressed while a run goes on is done
     * between two of its portions.
     */
    command(...lines) {
        if (this.#between === null || !lines.every((line) => commandIn(line) === "press")) return this.#action(() => this.#sayAll(lines));
        return new Promise((resolve) => {
            this.#between.push({ lines, resolve });
            this.dispatchEvent(new Event("change"));
        });
    }

    /** The lines of what was pressed since the last portion of a run, which are done after the one that is under way. */
    get awaited() {
        return (this.#between ?? []).flatMap(({ lines }) => lines);
    }

    /** Does what was pressed since the last portion. */
    async #pressed() {
        const pressed = this.#between.splice(0);
        for (const { lines, resolve } of pressed) resolve(await this.#sayAll(lines));
        if (pressed.length > 0) this.dispatchEvent(new Event("change"));
    }

    /** Performs orders, at most this number, and shows where their word times went. */
    addUp(limit) {
        return this.#action(async () => {
            await this.#say(`json profile-data ${limit}`, false, true);
            await this.#look();
        });
    }

    async #sayAll(lines) {
        let reply = "";
        for (const line of lines) reply = await this.#say(line);
        await this.#look();
        return reply;
    }

    /** Begins with a new laboratory, whatever is open, and without a script. The lines of the one before are offered. */
    new() {
        return this.#act(async () => {
            this.notice = await this.#fresh();
            Object.assign(this, { script: null, comments: new Map() });
            this.talk = [...this.talk, { line: "new", reply: "new\n" }].slice(-TALK_KEPT);
        });
    }

    /**
     * Performs orders and tells each; fewer where the machine comes to rest. Gives how many. Rows of the drum are left out where they are
     * not wanted now. `whenDone` is given the last account before the change is shown.
     */
    step(orders = 1, withRows = true, whenDone = () => {}) {
        return this.#work(async () => {
            const { register } = this.panel;
            const performed = await this.#tell(Math.min(orders, STEPPED_AT_ONCE), false, withRows);
            await this.#look();
            if (performed === 1) this.accounts.at(-1).registerBefore = register;
            if (performed > 0) whenDone(this.accounts.at(-1));
            return performed;
        });
    }

    /** Performs orders with their accounts, and draws them where rows of the drum are wanted. */
    async #tell(limit, isAgain, withRows = true) {
        const { end } = replies.reportOf(await this.#say(`json trace-data ${limit}`, isAgain, true));
        if (replies.isRefusal(end)) return 0;
        const { orders } = replies.runOf(end);
        if (withRows && orders > 0) this.rows = rowsIn(this.accounts.slice(-orders));
        return orders;
    }

    /** Goes back by orders: beyond those that are kept by performing all again up to there. */
    back(orders) {
        return this.#action(async () => {
            const { behind } = this.history;
            const reply = await this.#say(`back ${orders}`);
            if (replies.isRefusal(reply) && replies.refusalOf(reply).kind === "TooFar") {
                this.notice = null;
                await this.#goTo(behind - Math.min(behind, orders));
            }
            await this.#look();
        });
    }

    /** Goes to the beginning of an order of the whole run, by its place; as far as it is not stopped before. */
    goTo(place) {
        return this.#action(async () => {
            await this.#goTo(place);
            if (this.wantsLast) await this.#tellLast();
            await this.#look();
        });
    }

    async #goTo(place) {
        this.#stops = false;
        const { behind } = this.history;
        const number = this.history.numberAt(place);
        if (place < behind && number > AT_ONCE) {
            const reply = await this.#ask(`back ${behind - place}`);
            if (!replies.isRefusal(reply)) {
                this.#said.push(`back ${behind - place}`);
                this.accounts = [];
                return this.#noteBack(behind - place);
            }
            this.history.back(behind);
            await this.#to(this.history.numberAt(0), 0);
        }
        if (place < this.history.behind) {
            this.history.back(behind - place);
            await this.#to(number, Math.min(LAST_TOLD, this.history.unbroken));
        }
        return this.#forwardTo(place);
    }

    /** Goes to the order that printed the first sign of a row of the paper, by how many carriage returns were printed before that. */
    goToRow(returns) {
        return this.#action(async () => {
            this.#stops = false;
            const after = returns === 0 ? 0 : await this.#placeOf(`rows ${returns}`, 0);
            const number = after === null ? null : this.history.numberAt(after);
            const before = number === null ? null : replies.paperOf(await this.#link.ask(`at ${number} paper`)).count;
            const place = before === null ? null : await this.#placeOf(`printed ${before + 1}`, after);
            if (place === null) this.notice = { kind: "noneBehind" };
            else await this.#goTo(place - 1);
            await this.#look();
        });
    }

    /** The place after the first order between two places that meets a condition; null where none does, or it is stopped before. */
    async #placeOf(condition, from, to = this.history.behind) {
        for (const { place, number, orders } of this.history.runs) {
            if (place >= from && place < to) this.#tellWay(to, place);
            const most = Math.min(orders, to - place);
            for (let [done, ran] = [Math.max(0, from - place), 1]; done < most && ran > 0 && !this.#stops; done += ran) {
                const reply = await this.#link.ask(`at ${number + done} run ${most - done} until ${condition}`);
                if (replies.isRefusal(reply)) return null;
                ran = replies.runOf(reply).orders;
                if (replies.metIn(reply)) return place + done + ran;
            }
        }
        return null;
    }

    /**
     * Brings the session to the beginning of an order, by the monitor's number of it, with the rules that there are. The last ones before
     * it are told.
     */
    async #to(number, told) {
        const rules = this.rules.map((rule) => rule.split(" ").slice(0, 2).join(" "));
        await this.#bring(told === 0 ? number : this.history.numberAt(this.history.behind - told));
        await this.#withoutRules();
        Object.assign(this, { accounts: [], rows: [], assembled: null, loading: null });
        if (told > 0) this.accounts = this.#accountsOf(replies.reportOf(await this.#ask(`json trace-data ${told}`)).told);
        await this.#askAll(rules);
        const script = await this.#transcript.script();
        this.#budget.holds(script.length);
        Object.assign(this, { performed: this.#count });
        this.#said = replies.linesOf(script);
        await this.#noteImage();
    }

    /** Has the session at the beginning of the order of this number, by the lines that lead there. */
    async #bring(number) {
        const line = `to ${number}`;
        const reply = await this.#link.ask(line);
        if (replies.isRefusal(reply)) throw new Held({ kind: "refusal", ...replies.refusalOf(reply), line });
        await this.#transcript.cut();
        this.#cache.forget();
        this.#count = number;
    }

    /** What was loaded, and the labels, at a moment that was gone to. */
    async #noteImage() {
        const { source = null, kinds = new Map() } = this.history.image ?? {};
        this.#image = this.history.image ?? this.#image;
        Object.assign(this, { loaded: source, kinds, labels: await this.#queries.labels() });
    }

    /**
     * Performs again what was undone: a number of its orders, and what the operator did then before the next one. Gives how many.
     * `whenDone` is given the account of a single one before the change is shown.
     */
    forward(orders, whenDone = () => {}) {
        return this.#work(async () => {
            const registerBefore = this.history.next(1)?.line === undefined ? this.panel.register : null;
            const { behind } = this.history;
            this.#stops = false;
            await this.#forwardTo(behind + orders);
            await this.#look();
            const performed = this.history.behind - behind;
            if (orders === 1 && performed === 1 && this.accounts.length > 0) {
                whenDone(Object.assign(this.accounts.at(-1), { registerBefore }));
            }
            return performed;
        });
    }

    /** Performs again what was undone up to a place, and what the operator did there; or as far as it is not stopped before. */
    async #forwardTo(place) {
        const isTold = place - this.history.behind <= TOLD_AT_ONCE;
        const missing = () => Math.max(0, place - this.history.behind);
        const next = () => this.history.next(Math.min(isTold ? Infinity : ON_THE_WAY, missing()));
        for (let action = next(); action !== null && !this.#stops && this.notice === null; action = next()) {
            const performed = await this.#again(action, isTold);
            if (performed === 0 && action.line === undefined && action.lines === undefined) break;
            if (!isTold) this.#tellWay(place);
        }
        if (this.history.behind > place) await this.#goTo(place);
    }

    /** Tells how far a long way is gone. */
    #tellWay(of, at = this.history.behind) {
        if (of - at < ON_THE_WAY && this.progress === null) return;
        this.progress = { at, of };
        this.dispatchEvent(new Event("change"));
    }

    /** Performs an action again. A rule may end it early. */
    async #again(action, isTold) {
        const { line, lines, orders } = action;
        if (lines !== undefined) return this.#wholeAgain(action);
        if (line !== undefined) await this.#say(line, true);
        if (orders === 0) return 0;
        return isTold ? this.#tell(orders, true) : replies.ordersOf(await this.#say(`orders ${orders}`, true)).orders;
    }

    /** Lines that were done as one are done so again, from their beginning. */
    async #wholeAgain({ lines, past = 0, first, last, image }) {
        if (past > 0) {
            this.history.back(past);
            await this.#to(first, 0);
        }
        const before = this.#count;
        this.#said.push(...lines);
        await this.#askAll(lines);
        this.history.whole({ lines, orders: await this.#counted() - before, first: before, last, image }, true);
        Object.assign(this, { accounts: [], rows: [] });
        if (image !== null) await this.#noteImage();
    }

    /**
     * Runs in portions until the machine rests, a rule stops it, much is printed, memory becomes scarce, or the reader stops it. Ends with
     * what it did.
     */
    run(limit = Infinity) {
        return this.#runOn("run", limit);
    }

    /**
     * Runs as `run` does, and where the machine comes to rest it goes on by `operate`: that presses Start where a program waits for its
     * typewriter.
     */
    operate() {
        return this.#runOn("operate", Infinity);
    }

    /** Runs until something more was printed, and a little further, but for no more than this number of orders. Whether something was. */
    runToPrint(limit) {
        return this.#work(async () => {
            const before = this.printed.count;
            for (let [orders, isOn] = [0, true]; isOn && orders < limit && this.printed.count === before; orders += TO_PRINT) {
                isOn = replies.ordersOf(await this.#say(`orders ${TO_PRINT}`)).orders === TO_PRINT;
                await this.#lookAtPaper();
            }
            await this.#look();
            return this.printed.count > before;
        });
    }

    /**
     * Runs in portions of `size` orders until something is there, the machine rests, or the reader stops it, and for no more than `limit`
     * orders. What is asked for is asked of the paper as it is then.
     */
    runUntil(isThere, size, limit) {
        this.#stops = false;
        return this.#work(async () => {
            for (let [left, isOn] = [limit, true]; isOn && !this.#stops && left > 0 && !isThere(); left -= size) {
                const orders = Math.min(size, left);
                isOn = replies.ordersOf(await this.#say(`orders ${orders}`)).orders === orders;
                await this.#lookAtPaper();
            }
            await this.#look();
        });
    }

    #runOn(name, limit) {
        this.#stops = false;
        return this.#work(async () => {
            return this.#ended(name, await this.#portions(limit, name === "operate"));
        });
    }

    /** Runs in portions. */
    async #portions(limit, isOperated = false) {
        const run = new Run(limit, this.printed.count, isOperated);
        const [first, history, said] = [this.#count, this.history.copy, this.#said.length];
        this.#between = [];
        try {
            while (run.goesOn && !this.#stops) {
                const start = performance.now();
                await this.#portion(run, run.next(this.#budget));
                run.took(performance.now() - start);
                await this.#pressed();
                await this.#tellProgress(run);
            }
        } finally {
            const left = this.#between;
            this.#between = null;
            if (run.starts > 0) await this.#noteWhole(this.#said.slice(said), first, history, run.orders);
            for (const { lines, resolve } of left) this.command(...lines).then(resolve);
        }
        return run;
    }

    async #portion(run, { verb, size }) {
        const line = `${verb} ${size}`;
        this.#said.push(line);
        this.#isTouched = true;
        const reply = await this.#ask(line);
        const starts = replies.startsOf(reply);
        this.#noteStarts(starts, size);
        if (replies.isRefusal(reply)) {
            this.#refused(line, reply);
            this.#forgetHistory();
            return run.refused(reply);
        }
        const told = replies.runOf(reply);
        this.#noteOrders(told.orders);
        if (told.rule !== null) this.#noteHit(told.rule);
        run.noted(told, starts);
        if (this.#budget.isUsedUp || this.#budget.codesAtMost >= run.asksAt) await this.#lookAtPaper();
        return run.watched(this.#budget, this.printed.count);
    }

    async #tellProgress(run) {
        if (!run.isToTell) return;
        this.progress = run.told();
        await this.#look();
        this.dispatchEvent(new Event("change"));
    }

    async #ended(line, run) {
        const { orders, starts, end } = run;
        if (this.wantsLast) await this.#tellLast();
        const { milliseconds } = run.told();
        const reply = `ran ${orders} ${this.#stops ? "until stopped" : end}\n${startsText(starts)}`;
        this.talk = [...this.talk, { line, reply }].slice(-TALK_KEPT);
        await this.#look();
        this.notice ??= questionOf(run, this.printed.count);
        if (orders + starts === 0) this.notice ??= { kind: "atRest" };
        this.lastRun = { orders, starts, end, milliseconds };
        return this.lastRun;
    }

    /**
     * Tells the last orders, where they were not told: those since the operator's last action, as far as they are kept. They are gone back
     * over and performed again, with the rules taken out meanwhile, so that none of these stops them earlier.
     */
    async #tellLast() {
        const wanted = Math.min(LAST_TOLD, this.history.unbroken);
        if (wanted <= this.accounts.length) return;
        await this.#transcript.aside(async () => {
            const rules = await this.#withoutRules();
            const orders = await this.#backOver(wanted);
            const { told, end } = orders === 0 ? { told: [], end: "" } : replies.reportOf(await this.#ask(`json trace-data ${orders}`));
            await this.#askAll(rules);
            if (replies.isRefusal(end)) return false;
            this.accounts = this.#accountsOf(told);
            return true;
        });
    }

    /** Ends when all that was asked for so far is done. */
    settled() {
        return this.#act(async () => {});
    }

    /** Stops a run after its portion. */
    stop() {
        this.#stops = true;
    }

    /** Assembles a source; its faults are told at their lines. */
    assemble(source) {
        return this.#work(async () => {
            await this.#assemble(source);
            await this.#look();
            return this.assembled;
        });
    }

    /** Loads a source, which is assembled before where it is not the one that was assembled last. With faults nothing is loaded. */
    load(source) {
        return this.#work(async () => {
            if (source !== this.source || this.assembled === null) await this.#assemble(source);
            if (this.assembled?.faults.length === 0) await this.#say("load");
            else this.notice ??= { kind: "notLoaded" };
            await this.#look();
        });
    }

    async #assemble(source) {
        if (source.length > LIMITS.source) throw new Held({ kind: "sourceTooLong" });
        this.source = source;
        const lines = linesOfSource(source);
        this.#said.push(...lines);
        this.#isTouched = true;
        for (const line of lines) this.#budget.sent(line);
        this.#cache.forget();
        const reply = await this.#link.askAll(lines);
        this.talk = [...this.talk, { line: "source ..", reply }].slice(-TALK_KEPT);
        await this.#noteSource(reply);
    }

    async #noteSource(reply) {
        this.assembled = null;
        if (replies.isRefusal(reply) && replies.refusalOf(reply).kind !== "Faults") {
            this.#refused("source", reply);
            return;
        }
        this.assembled = replies.sourceOf(reply);
        if (this.assembled.faults.length > 0) return;
        this.#image = { source: this.source, cells: this.assembled.cells, kinds: await this.#queries.kinds(this.source) };
        this.labels = await this.#queries.labels();
    }

    /**
     * A new laboratory, with the lines of a script that set a machine up. The others are kept, to be done. The lines of the one before are
     * offered, as by `new`.
     */
    openScript(name, text) {
        return this.#act(() => this.#openScript(name, text, false));
    }

    /** The same with all lines of the script, so that the machine is where it was when they were saved. */
    openSaved(name, text) {
        return this.#act(async () => {
            await this.#openScript(name, text, false);
            await this.#scriptTo(Infinity);
            await this.#look();
        });
    }

    /**
     * Is where another laboratory was, after all its lines: its script is open as far as it was done. What was gone back over there is
     * ahead.
     */
    restore({ lines, script, later = [] }) {
        return this.#act(async () => {
            await this.#openScript("", [lines, ...later].join("\n"), false);
            await this.#scriptTo(linesIn(lines).length);
            const { behind } = this.history;
            await this.#scriptTo(Infinity);
            if (later.length > 0) await this.#goTo(behind);
            Object.assign(this, { script, comments: commentsIn(script?.lines ?? []) });
            await this.#look();
            this.notice = null;
        });
    }

    /**
     * The same before the machine's start and without the script's rules, so that Start sets it going and nothing but itself ends a run.
     */
    openForShow(name, text) {
        return this.#act(async () => {
            await this.#openScript(name, text, true);
            this.notice = null;
            const { panel: { status, mode }, rules } = this;
            const halts = status === "going" && mode === "normal" ? ["press manual", "press normal"] : [];
            await this.#sayAll([...rules.map(() => "drop 0"), ...halts]);
            this.#isTouched = false;
        });
    }

    async #openScript(name, text, isBeforeStart) {
        this.notice = await this.#fresh();
        Object.assign(this, { talk: [], source: "" });
        this.script = { name, lines: linesIn(text), at: 0 };
        this.comments = commentsIn(this.script.lines);
        await this.#scriptTo(setUp(this.script.lines, isBeforeStart));
        await this.#look();
    }

    /**
     * Has the comments of the open script in another language: the text has the same lines but for these, else nothing is done. A run that
     * was stopped has in its line the orders that are left.
     */
    retold(text) {
        const lines = linesIn(text);
        const { at } = this.script;
        if (lines.length !== this.script.lines.length) return;
        if (at < lines.length && !isIdle(lines[at])) lines[at] = this.script.lines[at];
        this.script = { ...this.script, lines };
        this.comments = commentsIn(lines);
    }

    async #scriptTo(end) {
        const { lines } = this.script;
        this.#isInScript = true;
        try {
            for (; this.script.at < Math.min(end, lines.length); this.script.at += 1) {
                const line = lines[this.script.at];
                if (!isIdle(line) || this.openSource !== null) await this.#say(line);
            }
        } finally {
            this.#isInScript = false;
        }
    }

    /** Does the next line of the script that asks for something, or all that are left. A source is done as one. */
    scriptLines(count) {
        return this.#action(async () => {
            const { lines } = this.script;
            for (let done = 0; done < count && this.script.at < lines.length;) {
                const line = lines[this.script.at];
                await this.#scriptTo(this.script.at + 1);
                if (!isIdle(line) && this.openSource === null) done += 1;
            }
            await this.#look();
        });
    }

    /**
     * What the monitor says of the word at an address; where no step that is kept has put it there, what it said after the one that has,
     * and the place of that in the run, as far as the search is not stopped before.
     */
    why(address) {
        return this.#question(async () => {
            this.#stops = false;
            const place = await this.#originOf(address) === null ? await this.#placeOfChange(address) : null;
            const number = place === null ? null : this.history.numberAt(place) ?? await this.#counted();
            const asked = number === null ? "" : `at ${number} `;
            return { lines: replies.linesOf(await this.#link.ask(`${asked}why ${address}`)), place };
        });
    }

    /** What has put a word there, as far as steps are kept, now or as at a moment; null where that is not known. */
    async #originOf(address, moment = "") {
        return replies.originsOf(await this.#link.ask(`${moment}json why-data ${address}`)).get(address) ?? null;
    }

    /** The place after the last order, or the beginning of the run of orders after a hand, that put a word there; null where none has. */
    async #placeOfChange(address) {
        const { text } = replies.placesOf(await this.#link.ask(`words ${address} 1`))[0];
        let hand = null;
        for (const run of this.history.runs.reverse()) {
            const place = hand === null ? await this.#lastIn(run, `${address} ${text}`) : null;
            if (place !== null || this.#stops) return place;
            const origin = await this.#originOf(address, `at ${run.number} `);
            if (hand !== null && origin?.clock !== hand.clock) break;
            if (origin !== null && origin.order === null) hand = { clock: origin.clock, place: run.place };
        }
        return hand?.place ?? null;
    }

    /** The last place in a run of orders after one that meets a condition: at first in ever longer parts, then in ever shorter ones. */
    async #lastIn({ place, orders }, condition) {
        const { behind } = this.history;
        let [end, found] = [place + orders, null];
        for (let size = KEPT; found === null && end > place && !this.#stops; size *= 4) {
            const from = Math.max(place, end - size);
            found = await this.#placeOf(condition, from, end);
            if (found === null) end = from;
            this.#tellWay(behind, behind - end);
        }
        while (found !== null && found < end && !this.#stops) {
            const middle = found + Math.floor((end - found) / 2);
            const next = await this.#placeOf(condition, middle, end);
            if (next === null) end = middle;
            else found = next;
        }
        return this.#stops ? null : found;
    }

    /** Asks what the last orders would have taken with a word at each sector. */
    askCosts(address) {
        return this.#question(async () => {
            if (!this.knows("optimum-data")) return;
            const [told] = await this.#overLast([(orders) => `json optimum-data ${orders} ${address}`]);
            this.costs = costsIn(told);
        });
    }

    /**
     * The accounts of the same orders, none where they are too many, and what they would have taken with each of these words at each
     * sector; null where that cannot be asked now.
     */
    askPlacing(addresses) {
        return this.#question(async () => {
            const isTold = this.history.unbroken <= PLACED_AT_MOST;
            const told = await this.#overLast([
                ...(isTold ? [(orders) => `json trace-data ${orders}`] : []),
                ...addresses.map((address) => (orders) => `json optimum-data ${orders} ${address}`),
            ]);
            const accounts = isTold ? this.#accountsOf(replies.reportOf(told.shift()).told) : [];
            return { accounts, words: told.map(costsIn) };
        }).then((told) => told ?? null);
    }

    /**
     * Goes back over the last orders, those since the operator's last action, as far as they are kept, and performs them again by each of
     * these lines. The rules are taken out meanwhile, so that none of them stops the orders earlier.
     */
    async #overLast(lines) {
        if (this.#budget.isUsedUp) throw new Held({ kind: "usedUp" });
        const [told, cache] = [[], this.#cache];
        this.#cache = new WordCache(this.#link);
        await this.#transcript.aside(async () => {
            const rules = await this.#withoutRules();
            for (const line of lines) told.push(await this.#ask(line(await this.#backOver(this.history.unbroken))));
            await this.#askAll(rules);
            const isAsBefore = told.every((reply) => !replies.isRefusal(replies.reportOf(reply).end));
            if (isAsBefore) this.#cache = cache;
            return isAsBefore;
        });
        return told;
    }

    /** Takes the rules out. Gives the lines that put them in again. */
    async #withoutRules() {
        const rules = (await this.#queries.rules()).map((rule) => rule.split(" ").slice(0, 2).join(" "));
        await this.#askAll(rules.map(() => "drop 0"));
        return rules;
    }

    async #askAll(lines) {
        for (const line of lines) await this.#ask(line);
    }

    /** Goes back over a number of orders, or over as many of them as are kept. Gives how many. */
    async #backOver(orders) {
        const reply = await this.#ask(`back ${orders}`);
        if (!replies.isRefusal(reply)) return orders;
        const { number } = replies.refusalOf(reply);
        await this.#ask(`back ${number}`);
        return number;
    }

    /**
     * The digits of all words of the drum as it is now, in the order of their addresses; null where a source is open. They are asked once,
     * and after something was done that was not told.
     */
    drum() {
        this.#cache.drum ??= this.#act(async () => (this.openSource === null ? this.#queries.drum() : null)).then((digits) => digits
            ?? null);
        return this.#cache.drum;
    }

    /** The order that changed a shown word last, or null where no order that is kept has, or a hand did later. */
    writerOf(address) {
        const origin = this.words.find((word) => word.address === address)?.origin ?? null;
        return origin?.order == null ? null : origin;
    }

    /** The last order, where that was told and nothing but its word times has passed since; else null. */
    get lastTold() {
        return this.accounts.findLast(({ clock, sum }) => clock + BigInt(sum) === this.panel.clock) ?? null;
    }

    /**
     * The order that stands in the instruction register, or null where it is not known which: the last one, where that was told and left
     * the word that is there.
     */
    get orderInRegister() {
        const last = this.lastTold;
        return last !== null && last.register === this.panel.register ? last.order : null;
    }

    /** The script that leads here. */
    transcript() {
        return this.#question(() => this.#transcript.script());
    }

    /** The address of the word that the next order uses, or null where it uses none, or is not shown. */
    get operand() {
        const next = this.words.find(({ address }) => address === this.panel?.counter);
        return next === undefined ? null : this.wordOf(next.order);
    }
}
