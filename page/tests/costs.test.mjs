// The sentences of the ring of costs, over replies as the monitor has them.
import assert from "node:assert/strict";
import { test } from "node:test";
import { replyOf } from "../../libraries/javascript/tests/told_as_json.mjs";
import { costsIn } from "../queries.mjs";
import { costsText } from "../views/costs.mjs";
import { LANGUAGES, textsIn } from "../words.mjs";

/** The reply of `optimum-data` about a word in sector 28, for which sector 25 would have cost least. */
const replyWith = ({ best = 25, least = 125541, freedom = "free", sentence = "it may be moved", end = "ran 2355 limit" } = {}) => replyOf([
    "orders 2355", "times 150629", "word 0128", "label wage", "sector 28", `best ${best}`, `saved ${150629 - least}`, `freedom ${freedom}`,
    `freedom-sentence ${sentence}`,
    `numbers ${Array.from({ length: 64 }, (unused, sector) => (sector === best ? least : 150629)).join(" ")}`,
], [end]);
const told = (reply) => costsText(costsIn(reply), textsIn("en"));

test("where a word lies, what the orders took, where it would have cost least and what it would save", () => {
    assert.deepEqual(told(replyWith()),
        ["0128 wage is in sector 28. With it there, the last orders, 2,355 in all, took 150,629 word times; in sector 25 they would have taken 125,541, which is 25,088 fewer, and the word may be moved."]);
    assert.match(told(replyWith({ best: 28, least: 150629 }))[0], /is in sector 28\. .* no sector is better\. The word may be moved\.$/);
});

test("the sectors come in the order in which they pass the head, each with its word times, none where all times are the same", () => {
    const { sectors } = costsIn(replyWith());
    assert.deepEqual(sectors.slice(0, 3).map(({ sector }) => sector), [0, 57, 50]);
    assert.deepEqual(
        sectors.filter(({ isOwn, isBest }) => isOwn || isBest),
        [{ sector: 25, times: 125541, isOwn: false, isBest: true }, { sector: 28, times: 150629, isOwn: true, isBest: false }]
    );
    assert.deepEqual(
        costsIn(
            replyWith({
                least: 150629, freedom: "unnamed", sentence: "no order waited for it or stood there, so its sector makes no difference",
            })
        ).sectors,
        []
    );
    const alone = replyWith({
        best: 28, least: 150629, freedom: "performed", sentence: "it should not be moved, because it was performed as an order",
    });
    assert.deepEqual(costsIn(alone).sectors, []);
    assert.equal(
        told(alone)[0],
        "0128 wage is an order of the program and must stay. None of the last orders, 2,355 in all, waited for it as a word."
    );
});

test("a reason is told as the monitor gives it, and so is why a run was refused", () => {
    const reason = "it should not be moved, because it was performed as an order";
    const [sentence, said] = told(replyWith({ freedom: "performed", sentence: reason }));
    assert.match(sentence, /in sector 25 they would have taken 125,541, but the word is an order of the program/);
    assert.equal(said, `The monitor says: ${reason}`);
    const refusal = "? 4 ClockEnd: the clock would pass its end";
    const unnamed = "no order waited for it or stood there, so its sector makes no difference";
    const none = replyOf([
        "orders 0", "times 0", "word 0128", "sector 28", "best 28", "saved 0", "freedom unnamed", `freedom-sentence ${unnamed}`,
        `numbers ${Array(64).fill(0).join(" ")}`,
    ])
        + `${refusal}\n`;
    assert.deepEqual([told(none).slice(1), costsIn(none).sectors], [[`The monitor says: ${unnamed}`, `The monitor says: ${refusal}`], []]);
});

test("each kind of sentence is there in each language", () => {
    for (const { costsOf: sentences } of Object.values(LANGUAGES)) {
        assert.deepEqual(Object.keys(sentences).sort(), ["best", "changed", "free", "none", "order", "performed", "unnamed"]);
    }
});
