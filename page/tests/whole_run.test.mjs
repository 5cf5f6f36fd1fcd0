// The whole run can be gone over: each of its moments is the one of a session that never went further, and what is left is told.
import assert from "node:assert/strict";
import { test } from "node:test";
import { fileURLToPath } from "node:url";
import { Controller } from "../controller.mjs";
import { ModuleLink } from "../module_link.mjs";
import { Chance } from "../../editors/tests/random/chance.mjs";

const module = fileURLToPath(new URL("../../libraries/javascript/lgp_c_region.wasm", import.meta.url));
const ASKED = ["panel", "dump", "printed", "paper", "json tape-data", "live"];
const SOURCE = "first b count\n a one\n h count\n p =a\n z\n i 0000\n u first\ncount int 3 30\none int 1 30\n end first";
const COUNTS = [
    "put 0000 b 0010", "put 0001 a 0011", "put 0002 h 0010", "put 0003 p =k", "put 0004 u 0000", "put 0011 = 1", "press start",
];
const LOOP = ["put 0000 b 0010", "put 0001 a 0011", "put 0002 h 0010", "put 0003 u 0000", "put 0011 = 1", "press start"];

async function opened(...lines) {
    const link = new ModuleLink(module);
    const laboratory = new Controller(link);
    await laboratory.open();
    await laboratory.say(...lines);
    return { laboratory, link };
}

const stateOf = (link) => Promise.all(ASKED.map((line) => link.ask(line)));
const momentOf = (link, number) => Promise.all(ASKED.map((line) => link.ask(`at ${number} ${line}`)));

/** Something that a reader does. */
function deed(laboratory, chance) {
    const place = () => `00${String(chance.below(12)).padStart(2, "0")}`;
    return chance.of([
        () => laboratory.run(chance.below(300)), () => laboratory.run(chance.below(30)), () => laboratory.step(1 + chance.below(4)),
        () => laboratory.say(`run ${chance.below(6000)}`), () => laboratory.operate(), () => laboratory.back(1 + chance.below(9)),
        () => laboratory.forward(1 + chance.below(9)), () => laboratory.say(`break ${place()}`), () => laboratory.say("watch 0010"),
        () => laboratory.say("drop 0"), () => laboratory.say(`go ${place()}`), () => laboratory.load(SOURCE),
        () => laboratory.say("press manual", "mount 12'ab'", `put ${place()} i 0000`, "press normal", "press start"),
        () => laboratory.say(`type ${chance.of(["1", "f", "'"])}`, "press start"), () => laboratory.say("run 900 until printed 3"),
        () => laboratory.say("press manual", `put ${place()} p =q`, "put 0005 z", "press normal", "press start"),
        () => laboratory.say(`operate ${chance.below(40)}`), () => laboratory.say("press bp4 down"),
    ])();
}

test("each moment that is gone to is that of a session that never went further", async () => {
    const chance = new Chance(1956);
    let [compared, far] = [0, 0];
    for (let round = 0; round < 12; round += 1) {
        const { laboratory, link } = await opened(...COUNTS);
        laboratory.wantsLast = round % 2 === 0;
        for (let deeds = 0; deeds < 30; deeds += 1) await deed(laboratory, chance);
        const { history: { behind, ahead }, rules } = laboratory;
        const places = Array.from({ length: 20 }, () => chance.below(behind));
        const moments = new Map();
        for (const place of places) moments.set(place, await momentOf(link, laboratory.history.numberAt(place)));
        const whole = await link.ask("transcript");
        for (const place of behind === 0 ? [] : places) {
            await laboratory.goTo(place);
            const told = `round ${round}: ${place} of ${behind}\n${whole}`;
            assert.deepEqual(await stateOf(link), moments.get(place), told);
            assert.deepEqual([laboratory.history.behind, laboratory.history.ahead], [place, behind + ahead - place], told);
            assert.deepEqual([laboratory.notice, laboratory.rules.map((rule) => rule.slice(0, 10))], [
                null, rules.map((rule) => rule.slice(0, 10)),
            ], told);
            compared += 1;
            far = Math.max(far, behind - place);
        }
    }
    assert.ok(compared > 150 && far > 8000, `${compared} were compared, at most ${far} orders back`);
});

test("a long way is told and can be stopped, and what comes after it stays ahead", async () => {
    const { laboratory } = await opened(...LOOP);
    for (let times = 0; times < 3; times += 1) await laboratory.say("run 1000000", "press bp4 down");
    await laboratory.say("run 1000000");
    const told = [];
    laboratory.addEventListener("change", () => { if (laboratory.progress !== null) told.push(laboratory.progress); });
    await laboratory.goTo(2_900_000);
    const { at, of } = told[0];
    assert.deepEqual([at, of, laboratory.history.behind, laboratory.history.ahead], [500_000, 2_900_000, 2_900_000, 1_100_000]);
    laboratory.addEventListener("change", () => { if (laboratory.progress !== null) laboratory.stop(); });
    await laboratory.goTo(2_800_000);
    assert.deepEqual([laboratory.history.behind, laboratory.history.ahead], [500_000, 3_500_000]);
});

test("what is left is told by the lines that lead there, and a work that has gone back is restored so", async () => {
    const { laboratory } = await opened(...COUNTS);
    await laboratory.load(SOURCE.replace("z\n", "p =b\n").replace(" i 0000\n", ""));
    await laboratory.say("press start", "run 9000", "press bp8 down", "run 100");
    const left = [];
    laboratory.addEventListener("left", ({ lines }) => left.push(lines));
    const end = laboratory.panel;
    await laboratory.goTo(100);
    const { panel, lines, later, script, loaded } = laboratory;
    assert.deepEqual([laboratory.accounts.length, loaded !== null, left], [12, true, []]);
    const { laboratory: other } = await opened();
    await other.restore({ lines: lines.join("\n"), later, script });
    assert.deepEqual([other.panel, other.history.behind, other.history.ahead], [panel, 100, 9000]);
    await other.goTo(9100);
    assert.deepEqual([other.panel, other.history.ahead], [end, 0]);
    await laboratory.say("press bp16 down");
    assert.deepEqual([laboratory.history.ahead, left.length], [0, 1]);
    const { laboratory: again } = await opened(...left[0]);
    assert.deepEqual(again.panel, end);
});

test("before a source was loaded it is not on the drum, and after it is again", async () => {
    const { laboratory } = await opened(...COUNTS, "run 50");
    await laboratory.load(SOURCE);
    await laboratory.say("press start", "run 9");
    await laboratory.goTo(20);
    assert.deepEqual([laboratory.loaded, laboratory.labels.size, laboratory.kinds.size], [null, 0, 0]);
    await laboratory.goTo(55);
    assert.deepEqual([laboratory.loaded, laboratory.labels.get("0000")], [SOURCE, ["first"]]);
});

test("a script with more orders in a line than may be done at once is done in parts", async () => {
    const { laboratory } = await opened(...LOOP, "orders 1700000");
    assert.deepEqual([laboratory.notice, laboratory.history.behind], [null, 1_700_000]);
});

test("a row of the paper leads to the order that printed its first sign", async () => {
    const rows = [
        "put 0000 p =a", "put 0001 z", "put 0002 p 1600", "put 0003 z", "put 0004 b 0010", "put 0005 p =b", "put 0006 p 1600",
        "put 0007 u 0005", "press start",
    ];
    const { laboratory } = await opened(...rows, "break 0005");
    await laboratory.operate();
    await laboratory.say("run 4", "press bp4 down", "orders 200");
    for (const [returns, counter, text] of [[3, "0005", "a\nb\nb\n"], [2, "0005", "a\nb\n"], [1, "0005", "a\n"], [0, "0000", ""]]) {
        await laboratory.goToRow(returns);
        assert.deepEqual([laboratory.notice, laboratory.panel.counter, laboratory.printed.text], [null, counter, text], `${returns}`);
    }
    await laboratory.goToRow(7);
    assert.equal(laboratory.notice.kind, "noneBehind");
});

test("what put a word there is found in the whole run: the last order, a hand, or none", async () => {
    const { laboratory } = await opened(
        "put 0000 b 0040", "put 0001 h 0041", "put 0002 b 0042", "put 0003 h 0041", "put 0004 b 0043", "put 0005 h 0041", "put 0006 h 0044",
        "put 0007 b 0045", "put 0008 a 0046", "put 0009 h 0045", "put 0010 t 0007", "put 0011 u 0007", "put 0040 = 7", "put 0042 = 8",
        "put 0043 = 7", "put 0045 = -900", "put 0046 = 1", "press start"
    );
    await laboratory.say("run 3000", "press bp4 down", "run 9000");
    await laboratory.say("press manual", "put 0050 = 77", "press normal", "press start", "run 6000");
    const asked = async (address) => {
        const { lines, place } = await laboratory.why(address);
        return [lines[0].replace(/, clock.*/, ""), place];
    };
    assert.deepEqual(await asked("0041"), ["0041: 0000000q = 7, put there by h 0041 at 0005", 6]);
    assert.deepEqual(await asked("0050"), ["0050: 0000009f = 77, put there by hand", 12_000]);
    assert.deepEqual(await asked("0051"), ["0051: 00000000 z 0000 = 0, changed by no kept step", null]);
    assert.equal((await laboratory.why("0045")).place, null);
    assert.deepEqual([laboratory.history.behind, laboratory.notice], [18_000, null]);
});

test("rows, changes of a watched word, stops and what a hand does are marked where they were", async () => {
    const { laboratory } = await opened(
        "put 0000 p =a", "put 0001 p 1600", "put 0002 h 0020", "put 0003 b 0010", "put 0004 u 0000", "put 0010 = 5", "watch 0020",
        "break 0004", "press start"
    );
    await laboratory.run();
    await laboratory.run();
    await laboratory.run();
    await laboratory.say("press bp4 down", "drop 1");
    await laboratory.run(60);
    const marksOf = (name) => laboratory.history.marks.filter(({ kind }) => kind === name).map(({ place }) => place);
    assert.deepEqual([marksOf("watch"), marksOf("stop"), marksOf("hand")], [[8], [4, 9], [0, 9]]);
    assert.deepEqual(marksOf("row"), Array.from({ length: marksOf("row").length }, (unused, row) => 2 + 5 * row));
    assert.ok(marksOf("row").length > 10);
    await laboratory.goTo(6);
    assert.deepEqual(marksOf("stop"), [4, 9]);
    await laboratory.goTo(9);
    await laboratory.goTo(6);
    await laboratory.say("press bp8 down");
    assert.deepEqual([marksOf("row"), marksOf("stop"), marksOf("hand")], [[2], [4], [0, 6]]);
});
