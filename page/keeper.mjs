// The keeper of all that people write at the page: texts, lines for the machine, the step of a lesson, answers, sources of tasks, the
// language. It is kept within a second.

/** How long after a change it is written at most. */
const KEPT_AFTER = 400;

/** How many sources of a task are kept that were there before it was begun anew. */
const BEFORE = 10;

/** How many works are kept, with the one at hand. */
export const WORKS = 10;

const NEVER = { setTimeout: () => null, clearTimeout: () => {} };

/** Values by their names, over a store. */
export class Keeper {
    #store;
    #changed = new Map();
    /** What is being written; null where nothing is. */
    #writing = null;
    #timer = null;
    #clocks;
    #isLeft = false;

    /** Is told what was written, as values by their names. */
    onWritten = () => {};

    /** A keeper over a store; one without a store has what it is given as long as the page is open. */
    constructor(store = null, clocks = globalThis) {
        this.#store = store ?? { values: new Map(), unwritten: new Map(), isKept: false, write: async () => {}, writeAtLast: () => {} };
        this.#clocks = store === null ? NEVER : clocks;
        for (const [name, value] of this.#store.unwritten) this.keep(name, value);
    }

    /** Whether what it keeps is still there when the page is opened again. */
    get isKept() {
        return this.#store.isKept;
    }

    /** A value, or null. */
    of(name) {
        return this.#store.values.get(name) ?? null;
    }

    /** The names that begin so. */
    names(beginning) {
        return [...this.#store.values.keys()].filter((name) => name.startsWith(beginning));
    }

    /** Takes over a value that another tab has written. */
    take(name, value) {
        if (value === null) this.#store.values.delete(name);
        else this.#store.values.set(name, value);
    }

    /** Keeps a value; null is none. */
    keep(name, value) {
        this.take(name, value);
        this.#changed.set(name, value);
        this.#isLeft = false;
        this.#timer ??= this.#clocks.setTimeout(() => this.flush(), KEPT_AFTER);
    }

    /** Writes what has changed. What comes meanwhile is written next; where the page was left meanwhile, that is still written at last. */
    async flush() {
        if (this.#writing !== null) return;
        const changes = this.#changed;
        [this.#changed, this.#timer, this.#writing] = [new Map(), null, changes];
        try {
            await this.#store.write(changes);
            this.onWritten(changes);
            this.#store.writeAtLast(this.#isLeft ? this.#changed : new Map());
        } catch {
            this.#changed = new Map([...changes, ...this.#changed]);
            this.#store.writeAtLast(this.#changed);
        } finally {
            this.#writing = null;
            if (this.#changed.size > 0) this.#timer ??= this.#clocks.setTimeout(() => this.flush(), KEPT_AFTER);
        }
    }

    /** The page is left: what has changed is written at once, and so is what is being written, since that may not come to its end. */
    leave() {
        const unwritten = new Map([...this.#writing ?? [], ...this.#changed]);
        if (unwritten.size === 0) return;
        this.#isLeft = true;
        this.#store.writeAtLast(unwritten);
        this.flush();
    }
}

/** The works: what was written at the machine, each with what stood beside it. One is at hand. */
export class Works {
    #keeper;
    #now;
    /** The name of the one at hand. */
    id;

    constructor(keeper, id, now = Date.now) {
        this.#keeper = keeper;
        this.#now = now;
        this.id = id ?? this.#newId();
    }

    #newId() {
        return `${this.#now().toString(36)}-${Math.random().toString(36).slice(2, 8)}`;
    }

    /** A work, or null. */
    of(id) {
        return this.#keeper.of(`work/${id}`);
    }

    /**
     * Keeps the work at hand as it is now, and no more than ten. One in which nothing was done or written is kept only until another one
     * begins.
     */
    keep(work, isWorth = true) {
        this.#keeper.keep(`work/${this.id}`, { ...work, isWorth, id: this.id, when: this.#now() });
        for (const { id } of this.all().slice(WORKS)) this.forget(id);
    }

    /** Keeps a work that is not at hand. */
    keepBeside(work) {
        const here = this.id;
        this.id = this.#newId();
        this.keep(work);
        this.id = here;
    }

    /** All works in which something was done or written, the newest first. */
    all() {
        return this.#keeper
            .names("work/")
            .map((name) => this.#keeper.of(name))
            .filter(({ isWorth }) => isWorth)
            .sort((one, other) => other.when - one.when);
    }

    forget(id) {
        this.#keeper.keep(`work/${id}`, null);
    }

    /** Begins another work. Gives the one before, or null where nothing of it is kept. */
    begin() {
        const before = this.of(this.id);
        if (before !== null && !before.isWorth) this.forget(this.id);
        this.id = this.#newId();
        return before?.isWorth ? before : null;
    }
}

/** The sources of tasks by the tasks' names, and those that were there before one was begun anew. */
export class Sources {
    /** The name of the task that is open, or null. */
    open = null;

    #keeper;

    constructor(keeper) {
        this.#keeper = keeper;
    }

    /** A task's source, or null where there is none. */
    of(name) {
        return this.#keeper.of(`task/${name}`);
    }

    /** Keeps a task's source. */
    keep(name, source) {
        this.#keeper.keep(`task/${name}`, source);
    }

    /** The source that a task had before it was begun anew, or null. */
    before(name) {
        return this.#allBefore(name).at(-1) ?? null;
    }

    /** The sources that a task had whenever it was begun anew, the newest last. Once a single one was kept, as a text. */
    #allBefore(name) {
        return [this.#keeper.of(`before/${name}`) ?? []].flat();
    }

    #keepBefore(name, sources) {
        this.#keeper.keep(`before/${name}`, sources.length === 0 ? null : sources.slice(-BEFORE));
    }

    /** The source of a task as one that can be taken back; none where nothing was written. */
    #written(name) {
        return [this.of(name) ?? ""].filter((source) => source.trim() !== "");
    }

    /** Begins a task anew: what was written can be taken back. */
    begin(name) {
        this.#keepBefore(name, [...this.#allBefore(name), ...this.#written(name)]);
        this.#keeper.keep(`task/${name}`, null);
    }

    /** Another tab has written a source for a task in place of the one here, which can then be taken back. */
    writtenElsewhere(name, source) {
        const [before, here] = [this.#allBefore(name), this.#written(name)];
        if (here.every((it) => it === source || before.includes(it))) return;
        this.#keepBefore(name, [...before, ...here]);
    }

    /**
     * A tab that was closed in the same moment as another one had written this under a name: the source of a task can then be taken back.
     */
    replaced(name, value) {
        const [kind, ...words] = name.split("/");
        const task = words.join("/");
        if (kind !== "task" || value === null || value.trim() === "" || this.#allBefore(task).includes(value)) return;
        this.#keepBefore(task, [...this.#allBefore(task), value]);
    }

    /** Takes back what was there before. What was written since comes after all others, so that each can be had by taking back again. */
    takeBack(name) {
        const before = this.#allBefore(name);
        const source = before.pop() ?? null;
        this.#keepBefore(name, [...this.#written(name), ...before]);
        this.#keeper.keep(`task/${name}`, source);
    }
}

/** Tells the other tabs that have the page open what this one writes, by a channel between them, and hears what they write of tasks. */
export function shareTasks(channel, keeper, sources) {
    keeper.onWritten = (changes) => channel.postMessage([...changes]);
    channel.onmessage = ({ data }) => {
        for (const [name, value] of data) {
            const [kind, ...task] = name.split("/");
            if (kind === "task") sources.writtenElsewhere(task.join("/"), value);
            if (kind === "before") keeper.take(name, value);
        }
    };
}

/** What was kept by the page as it was before it had a keeper: the last session, and sources of tasks. */
export function takeOver(storage, keeper, works) {
    const [SESSION, TASK] = ["condugwa-last-session", "condugwa-task-"];
    try {
        const shelf = storage();
        const names = Array.from({ length: shelf.length }, (unused, place) => shelf.key(place));
        for (const name of names.filter((it) => it.startsWith(TASK))) keeper.keep(`task/${name.slice(TASK.length)}`, shelf.getItem(name));
        const session = shelf.getItem(SESSION);
        if (session !== null) {
            works.keep({ door: "work", lines: session.replace(/\n$/, ""), script: null, drafts: {}, pupil: null, title: "" });
        }
        if (session !== null) works.begin();
        for (const name of names.filter((it) => it === SESSION || it.startsWith(TASK))) shelf.removeItem(name);
    } catch {
        // a browser without a storage has kept nothing
    }
}
