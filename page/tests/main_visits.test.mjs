// Which visits are made in which engine.
import assert from "node:assert/strict";
import { test } from "node:test";
import { MAIN_VISITS, mainVisits, wantedVisits } from "./main_visits.mjs";

const main = MAIN_VISITS.flatMap(([, names]) => names);
const all = [...main, "everyone", "costs", "profile"];

test("each group says why its visits are made in every engine", () => {
    assert.deepEqual(MAIN_VISITS.filter(([why, names]) => why === "" || names.length === 0), []);
});

test("a visit that there is not, or that is named twice, is an error", () => {
    assert.throws(() => mainVisits(all, [["opening", ["doors", "dores"]]]), /visits that there are not: dores$/);
    assert.throws(() => mainVisits(all, [["opening", ["doors"]], ["keys", ["doors"]]]), /twice: doors$/);
    assert.throws(() => wantedVisits(all, { named: "doors dores", isMain: true, left: [] }), /visits that there are not: dores$/);
    assert.throws(
        () => wantedVisits(["doors"], { named: "doors", isMain: false, left: [] }), /main_visits\.mjs names visits that there are not/
    );
});

test("Chromium makes all visits, the other engines the main ones, and all where that is said", () => {
    assert.deepEqual(wantedVisits(all, { named: undefined, isMain: false, left: [] }), all);
    assert.deepEqual(wantedVisits(all, { named: undefined, isMain: true, left: [] }), main);
    assert.deepEqual(wantedVisits(all, { named: "all", isMain: true, left: ["everyone"] }), all.filter((name) => name !== "everyone"));
    assert.deepEqual(wantedVisits(all, { named: "everyone costs", isMain: true, left: ["everyone"] }), ["everyone", "costs"]);
});
