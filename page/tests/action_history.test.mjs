import assert from "node:assert/strict";
import { test } from "node:test";
import { ActionHistory } from "../action_history.mjs";
import { addressIn, addressOf, isAmong, numberOf, windowAt } from "../addresses.mjs";
import { headOf, linesIn, setUp } from "../lines.mjs";
import { positionOf } from "../machine.mjs";
import { addressOf as placeOf, askedIn, inLanguage, projected } from "../opening.mjs";
import { nextPortion, ordersUntilAsked } from "../portions.mjs";

test("orders gone back over are ahead, with the presses between them", () => {
    const history = new ActionHistory();
    history.line("press start");
    history.orders(3);
    history.line("press bp4 down");
    history.orders(2);
    history.back(4);
    assert.deepEqual([history.behind, history.ahead], [1, 4]);
    const again = [];
    for (let action = history.next(1); action !== null; action = history.next(9)) {
        again.push(action);
        if (action.line === undefined) history.orders(action.orders, true);
        else history.line(action.line, true);
    }
    assert.deepEqual(again, [{ orders: 1 }, { orders: 1 }, { line: "press bp4 down", orders: 0 }, { orders: 2 }]);
    assert.deepEqual([history.behind, history.ahead], [5, 0]);
});

test("what is done again in part stays ahead in part", () => {
    const history = new ActionHistory();
    history.orders(5);
    history.back(5);
    history.orders(2, true);
    assert.deepEqual([history.behind, history.ahead, history.next(0), history.next(9)], [2, 3, { orders: 0 }, { orders: 3 }]);
});

test("an action that is new leaves nothing ahead", () => {
    const history = new ActionHistory();
    history.orders(5);
    history.back(2);
    history.line("put 0000 00000000");
    assert.deepEqual([history.behind, history.ahead], [3, 0]);
});

test("each place has the monitor's number of its order, which counts those that were performed again as well", () => {
    const history = new ActionHistory();
    history.orders(5000, false, 0);
    history.line("press bp4 down");
    history.orders(10, false, 5012);
    assert.deepEqual([0, 4999, 5000, 5009, 5010].map((place) => history.numberAt(place)), [0, 4999, 5012, 5021, null]);
    assert.deepEqual([history.behind, history.unbroken], [5010, 10]);
    assert.deepEqual(history.runs, [{ place: 0, number: 0, orders: 5000 }, { place: 5000, number: 5012, orders: 10 }]);
    history.back(12);
    assert.deepEqual(history.later, ["orders 2", "press bp4 down", "orders 10"]);
});

test("lines that were done as one are so again, but for the orders of their last run", () => {
    const history = new ActionHistory();
    history.whole({ lines: ["operate 9"], orders: 8, first: 3, last: 2 });
    history.back(1);
    assert.deepEqual([history.unbroken, history.next(9)], [1, { orders: 1 }]);
    history.back(4);
    const next = history.next(9);
    assert.deepEqual([next.lines, next.past, history.behind, history.numberAt(2)], [["operate 9"], 3, 3, 5]);
    history.back(3);
    history.whole({ ...history.next(9), orders: 8, first: 20 }, true);
    assert.deepEqual([history.behind, history.ahead, history.numberAt(0)], [8, 0, 20]);
});

test("marks are thinned, go with what is left, and know the last row", () => {
    const history = new ActionHistory();
    history.orders(1000);
    for (let place = 1; place <= 800; place += 1) history.mark("row", place, place);
    history.mark("stop", 900);
    history.mark("stop", 900);
    assert.ok(history.marks.length <= 300 && history.marks.length > 100, `${history.marks.length}`);
    assert.deepEqual([history.lastRow.rows, history.marks.filter(({ kind }) => kind === "stop").length], [800, 1]);
    history.back(500);
    assert.equal(history.lastRow.rows, 800);
    history.line("press start");
    assert.ok(history.lastRow.rows > 490 && history.lastRow.rows <= 500);
});

test("what is ahead is left where something else is done", () => {
    const history = new ActionHistory();
    history.orders(5);
    history.back(3);
    history.orders(1, true);
    assert.equal(history.left, 0);
    history.line("press bp4 down");
    assert.deepEqual([history.left, history.ahead], [1, 0]);
});

test("the tape is that of the last mounting that counts", () => {
    const history = new ActionHistory();
    history.line("mount 1'");
    history.orders(1);
    history.line("mount 2'");
    assert.equal(history.tape, "2'");
    history.back(1);
    assert.equal(history.tape, "1'");
});

test("addresses", () => {
    assert.deepEqual(
        [numberOf("0100"), addressOf(63), addressOf(4095), addressIn("b 0050 table+1"), addressIn("word 00000001")],
        [64, "0063", "6363", "0050", null]
    );
    assert.deepEqual([windowAt("0000", 16), windowAt("6363", 16), windowAt("0100", 16)], ["0000", "6348", "0059"]);
    assert.deepEqual([isAmong("0100", "0059", 16), isAmong("0058", "0059", 16)], [true, false]);
});

test("sectors lie as docs/MACHINE.md draws them", () => {
    const order = Array.from({ length: 64 }, (unused, sector) => sector).sort((one, other) => positionOf(one) - positionOf(other));
    assert.deepEqual(order.slice(0, 8), [0, 57, 50, 43, 36, 29, 22, 15]);
});

test("portions come near to their time", () => {
    assert.deepEqual(
        [nextPortion(100_000, 50), nextPortion(100_000, 100), nextPortion(100_000, 1), nextPortion(100_000, 5000)],
        [100_000, 50_000, 400_000, 25_000]
    );
    // beside other work a portion takes long, and has 20,000 orders all the same; runs that each wait for a typewriter are fewer
    assert.deepEqual(
        [nextPortion(20_000, 60_000), nextPortion(100, 60_000, "operate"), nextPortion(1000, 50, "operate")], [20_000, 100, 1000]
    );
});

test("the head of a script, and how far it sets up", () => {
    const script = "; The first run: one. More.\n; still\n;\n; Second.\nput 0000 00000000\npress start\norders 10\npanel\n";
    assert.equal(headOf(script).title, "The first run: one");
    assert.equal(headOf(script).paragraphs.length, 2);
    assert.deepEqual([setUp(linesIn(script)), setUp(linesIn(script), true)], [6, 5]);
    assert.equal(setUp(["source", "run z", ".", "run 1"]), 3);
});

test("what an address asks for", () => {
    assert.deepEqual(askedIn({ search: "?kiosk=games/matches&idle=60&lang=de", hash: "" }),
        {
            isKiosk: true, script: null, work: null, exhibit: null, example: "games/matches", language: "de", door: "hall", idleSeconds: 60,
            offers: null, isProjected: false, lesson: null, step: null, task: null, story: null, caption: null, game: null, seconds: null,
        });
    assert.equal(askedIn({ search: "", hash: "#script=put%200000%2000000000%0Apanel" }).script, "put 0000 00000000\npanel");
    assert.deepEqual(
        [askedIn({ search: "", hash: "#kiosk" }).isKiosk, askedIn({ search: "", hash: "#first-run" }).example], [true, "first-run"]
    );
    assert.equal(askedIn({ search: "", hash: "#%E0%A4%A" }).example, "%E0%A4%A");
    const doors = [
        ["", ""], ["?door=look", ""], ["?door=learn&lang=de", "#first-run"], ["?door=cellar", ""], ["", "#first-run"],
        ["", "#script=panel"],
    ];
    assert.deepEqual(doors.map(([search, hash]) => askedIn({ search, hash }).door), ["hall", "look", "learn", "hall", "work", "work"]);
});

test("an address asks for the projector's view, and for no more than that", () => {
    for (const [search, shown] of [
        ["?lang=de&lesson=rewriting&step=9", "?lang=de&lesson=rewriting&step=9&projector"], ["", "?projector"],
    ]) {
        assert.deepEqual(
            [
                projected(true, { search, hash: "#x" }),
                projected(false, { search: shown, hash: "" }),
                askedIn({ search: shown, hash: "" }).isProjected,
            ],
            [`${shown}#x`, search === "" ? "?" : search, true]
        );
    }
    assert.equal(
        askedIn({
            search: placeOf({ lesson: "rewriting", step: 2 }, { search: "?lesson=rewriting&step=1&projector" }), hash: "",
        }).isProjected,
        true
    );
});

test("an address says where one is, and asks for the same", () => {
    const places = [
        [{ door: "learn", lesson: "rewriting", step: 9 }, "?lang=de&lesson=rewriting&step=9"],
        [{ door: "learn", task: "sum" }, "?lang=de&task=sum"],
        [{ door: "look", story: 2, caption: 3 }, "?lang=de&story=2&caption=3"],
        [{ door: "look", game: "faster" }, "?lang=de&game=faster"],
        [{ door: "work", example: "tables/primes" }, "?lang=de&door=work#tables/primes"],
        [{ kiosk: "games/matches" }, "?lang=de&kiosk=games/matches"],
    ];
    for (const [place, address] of places) {
        assert.equal(placeOf(place, { search: "?lang=de&door=work&lesson=other&step=3" }), address);
        const { search, hash } = new URL(address, "file:///laboratory.html");
        const asked = askedIn({ search, hash });
        for (const [name, value] of Object.entries(place)) if (name !== "kiosk") assert.equal(asked[name], value, `${name} of ${address}`);
    }
    assert.deepEqual(
        [askedIn({ search: "?kiosk=games/matches", hash: "" }).example, inLanguage("en", { search: "?lang=de&task=sum", hash: "" })],
        ["games/matches", "?lang=en&task=sum"]
    );
    assert.deepEqual(
        ["0", "-1", "x", "9999"].map((step) => askedIn({ search: `?lesson=rewriting&step=${step}`, hash: "" }).step),
        [null, null, null, null]
    );
});

test("a run that prints has as many orders as still print what it may", () => {
    assert.deepEqual(
        [ordersUntilAsked(1000, 0), ordersUntilAsked(20_000, 10_000), ordersUntilAsked(30_000, 20_000)], [Infinity, 20_000, 1]
    );
});
