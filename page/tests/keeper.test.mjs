// What the keeper keeps, over a storage, a database that fails, and nothing, without a browser.
import assert from "node:assert/strict";
import { test } from "node:test";
import { Drafts } from "../drafts.mjs";
import { Keeper, Sources, WORKS, Works, shareTasks, takeOver } from "../keeper.mjs";
import { openStore } from "../store.mjs";

/** A storage as browsers have it. */
function storage() {
    const items = new Map();
    return {
        get length() { return items.size; }, key: (place) => [...items.keys()][place], getItem: (name) => items.get(name) ?? null,
        setItem: (name, value) => items.set(name, value), removeItem: (name) => items.delete(name),
    };
}

const none = () => { throw new Error("forbidden"); };
const over = async (shelf, clocks) => new Keeper(await openStore({ database: none, storage: () => shelf }), clocks);

/** Clocks whose time passes when that is wanted. */
function clocks() {
    const timers = [];
    return {
        setTimeout: (action, milliseconds) => timers.push({ action, milliseconds }),
        clearTimeout: () => {},
        timers,
        async pass() { for (const { action } of timers.splice(0)) await action(); },
    };
}

test("what is kept is written within a second, and is there again", async () => {
    const [shelf, time] = [storage(), clocks()];
    const first = await over(shelf, time);
    first.keep("task/sum", " end start\n");
    first.keep("language", "de");
    first.keep("gone", 1);
    first.keep("gone", null);
    assert.ok(time.timers.length === 1 && time.timers[0].milliseconds < 1000);
    assert.equal((await over(shelf, time)).of("language"), null);
    await time.pass();
    const second = await over(shelf, clocks());
    assert.deepEqual([second.isKept, second.of("task/sum"), second.of("language"), second.of("gone")], [true, " end start\n", "de", null]);
});

test("what was written in the last moment is kept, though no time was left for the database", async () => {
    const shelf = storage();
    const first = await over(shelf, { setTimeout: () => 1, clearTimeout: () => {} });
    first.keep("language", "de");
    first.leave();
    await new Promise((resolve) => { setTimeout(resolve); });
    const time = clocks();
    shelf.removeItem("condugwa/language");
    shelf.setItem("condugwa/last-moment", JSON.stringify([["language", "de"]]));
    assert.equal((await over(shelf, time)).of("language"), "de");
    await time.pass();
    assert.deepEqual([shelf.getItem("condugwa/last-moment"), (await over(shelf, clocks())).of("language")], [null, "de"]);
    const values = new Map();
    const slow = new Keeper(
        {
            values,
            unwritten: new Map(),
            isKept: true,
            write: () => new Promise(() => {}),
            writeAtLast: (changes) => { for (const [name, value] of changes) shelf.setItem(name, value); },
        },
        clocks()
    );
    slow.keep("one", "1");
    slow.flush();
    slow.keep("two", "2");
    slow.leave();
    assert.equal(shelf.getItem("two"), "2");
});

test("what two tabs wrote in the same last moment is kept, and their records go when it is written", async () => {
    const shelf = storage();
    const tab = async () => (
        new Keeper({ ...await openStore({ database: none, storage: () => shelf }), write: () => new Promise(() => {}) }, clocks())
    );
    const [first, second] = [await tab(), await tab()];
    first.keep("work/a", "one");
    second.keep("work/b", "two");
    first.leave();
    second.leave();
    const time = clocks();
    const third = await over(shelf, time);
    assert.deepEqual([third.of("work/a"), third.of("work/b"), shelf.length], ["one", "two", 2]);
    await time.pass();
    const fourth = await over(shelf, clocks());
    assert.deepEqual([fourth.of("work/a"), fourth.of("work/b"), shelf.length], ["one", "two", 2]);
    assert.ok([0, 1].every((place) => !shelf.key(place).startsWith("condugwa/last-moment")));
});

test("of the sources that two tabs wrote for one task in the same last moment, one is there and the other can be taken back", async () => {
    const shelf = storage();
    const tab = async () => (
        new Keeper({ ...await openStore({ database: none, storage: () => shelf }), write: () => new Promise(() => {}) }, clocks())
    );
    const tabs = [await tab(), await tab()];
    tabs.forEach((keeper, place) => { keeper.keep("task/sum", ` z ${place}`); keeper.keep("language", "de"); });
    tabs.forEach((keeper) => keeper.leave());
    const store = await openStore({ database: none, storage: () => shelf });
    const sources = new Sources(new Keeper(store, clocks()));
    for (const [name, value] of store.replaced) sources.replaced(name, value);
    assert.deepEqual([sources.of("sum"), sources.before("sum")].sort(), [" z 0", " z 1"]);
    sources.replaced("task/sum", " ");
    sources.replaced("language", "en");
    assert.deepEqual([sources.of("sum"), sources.before("sum")].sort(), [" z 0", " z 1"]);
});

test("what could not be written is tried again, and nothing fails; without a store it is there as long as the page", async () => {
    const time = clocks();
    const written = [];
    let isFull = true;
    const keeper = new Keeper(
        {
            values: new Map(),
            unwritten: new Map(),
            isKept: true,
            write: async (changes) => { if (isFull) throw new Error("full"); written.push(...changes); },
            writeAtLast: () => {},
        },
        time
    );
    keeper.keep("one", 1);
    await time.pass();
    assert.deepEqual([written, time.timers.length], [[], 1]);
    isFull = false;
    keeper.keep("two", 2);
    await time.pass();
    assert.deepEqual(written, [["one", 1], ["two", 2]]);
    const alone = new Keeper();
    alone.keep("one", 1);
    assert.deepEqual([alone.of("one"), alone.isKept, (await openStore({ database: none, storage: none })).isKept], [1, false, false]);
});

test("ten works are kept, the newest first; another one begins, and the one before can be had back", () => {
    let now = 0;
    const works = new Works(new Keeper(), null, () => { now += 1; return now; });
    assert.equal(works.begin(), null);
    for (let made = 0; made < WORKS + 3; made += 1) {
        works.keep({ title: `${made}` });
        assert.equal(works.begin().title, `${made}`);
    }
    assert.deepEqual(works.all().map(({ title }) => title), Array.from({ length: WORKS }, (unused, place) => `${WORKS + 2 - place}`));
    const [{ id }] = works.all();
    works.id = id;
    works.keep({ title: "again" });
    assert.deepEqual([works.all().length, works.all()[0].title, works.of(id).title], [WORKS, "again", "again"]);
    works.forget(id);
    assert.equal(works.of(id), null);
    works.begin();
    works.keep({ title: "only looked at" }, false);
    assert.deepEqual(
        [works.of(works.id).title, works.all().some(({ title }) => title === "only looked at"), works.begin()],
        ["only looked at", false, null]
    );
});

test("what is being written when the page is left is kept, and so is what came after it", async () => {
    let [last, end] = [null, null];
    const keeper = new Keeper(
        {
            values: new Map(),
            unwritten: new Map(),
            isKept: true,
            write: () => new Promise((resolve) => { end = resolve; }),
            writeAtLast: (changes) => { last = Object.fromEntries(changes); },
        },
        clocks()
    );
    keeper.keep("one", "1");
    const written = keeper.flush();
    keeper.leave();
    assert.deepEqual(last, { one: "1" });
    keeper.keep("two", "2");
    keeper.leave();
    assert.deepEqual(last, { one: "1", two: "2" });
    end();
    await written;
    assert.deepEqual(last, { two: "2" });
});

test("the source of a task that is begun anew is taken back, and the other way", () => {
    const sources = new Sources(new Keeper());
    assert.deepEqual([sources.open, sources.of("sum"), sources.before("sum")], [null, null, null]);
    sources.keep("sum", " z");
    sources.begin("sum");
    assert.deepEqual([sources.of("sum"), sources.before("sum")], [null, " z"]);
    sources.begin("sum");
    assert.equal(sources.before("sum"), " z");
    sources.keep("sum", " y");
    sources.takeBack("sum");
    assert.deepEqual([sources.of("sum"), sources.before("sum")], [" z", " y"]);
    sources.takeBack("sum");
    assert.deepEqual([sources.of("sum"), sources.before("sum")], [" y", " z"]);
});

test("of a task that is begun anew several times each source can be had again, ten at most; one that was kept alone is taken over", () => {
    const keeper = new Keeper();
    keeper.keep("before/sum", " a");
    const sources = new Sources(keeper);
    assert.equal(sources.before("sum"), " a");
    for (const source of [" b", " c"]) {
        sources.keep("sum", source);
        sources.begin("sum");
    }
    sources.keep("sum", " d");
    const taken = Array.from({ length: 5 }, () => { sources.takeBack("sum"); return sources.of("sum"); });
    assert.deepEqual(taken, [" c", " b", " a", " d", " c"]);
    for (let made = 0; made < 12; made += 1) {
        sources.keep("sum", ` ${made}`);
        sources.begin("sum");
    }
    assert.deepEqual([keeper.of("before/sum").length, sources.before("sum")], [10, " 11"]);
});

/** Tabs that have the page open: of each its sources and its clocks. What one writes the others hear. */
async function tabs(count) {
    const [shelf, channels] = [storage(), []];
    return Promise.all(Array.from({ length: count }, async () => {
        const time = clocks();
        const keeper = await over(shelf, time);
        const sources = new Sources(keeper);
        const channel = {
            postMessage: (data) => {
                for (const other of channels) if (other !== channel) other.onmessage({ data: structuredClone(data) });
            },
        };
        channels.push(channel);
        shareTasks(channel, keeper, sources);
        return { sources, pass: () => time.pass(), again: async () => new Sources(await over(shelf, clocks())) };
    }));
}

test("of a task that is open in two tabs neither source is lost", async () => {
    const [one, other] = await tabs(2);
    one.sources.keep("sum", " z ; the first");
    await one.pass();
    for (const text of [" z", " z ; the", " z ; the second"]) {
        other.sources.keep("sum", text);
        await other.pass();
        await one.pass();
    }
    assert.equal(one.sources.of("sum"), " z ; the first");
    const found = await one.again();
    assert.deepEqual([found.of("sum"), found.before("sum")], [" z ; the second", " z ; the first"]);
    one.sources.keep("sum", " z ; the first, longer");
    await one.pass();
    await other.pass();
    assert.deepEqual(
        [(await one.again()).of("sum"), other.sources.before("sum"), other.sources.of("sum")],
        [" z ; the first, longer", " z ; the second", " z ; the second"]
    );
    one.sources.begin("sum");
    await one.pass();
    assert.equal(other.sources.of("sum"), " z ; the second");
});

test("what an earlier page has kept is taken over once", () => {
    const shelf = storage();
    for (const [name, value] of [["condugwa-last-session", "put 0000 z\nrun 1\n"], ["condugwa-task-sum", " z"], ["other", "x"]]) {
        shelf.setItem(name, value);
    }
    const keeper = new Keeper();
    const works = new Works(keeper);
    takeOver(() => shelf, keeper, works);
    assert.deepEqual([works.all().map(({ lines }) => lines), keeper.of("task/sum"), shelf.length], [["put 0000 z\nrun 1"], " z", 1]);
    takeOver(() => shelf, keeper, works);
    takeOver(none, keeper, works);
    assert.equal(works.all().length, 1);
});

test("fields have their texts again when the page is laid anew, and each change is told", () => {
    const drafts = new Drafts();
    let changes = 0;
    drafts.addEventListener("change", () => { changes += 1; });
    const field = () => Object.assign(new EventTarget(), { value: "0000" });
    const first = drafts.held(field(), "address");
    assert.equal(first.value, "0000");
    first.value = "0100";
    first.dispatchEvent(new Event("input"));
    first.dispatchEvent(new Event("input"));
    assert.deepEqual([drafts.held(field(), "address").value, changes, drafts.all], ["0100", 1, { address: "0100" }]);
    drafts.keep("address", null);
    drafts.restore({ source: " z" });
    assert.deepEqual([drafts.of("address"), drafts.of("source"), changes], [null, " z", 3]);
});
