// A day of the kiosk by itself, played fast.
import assert from "node:assert/strict";
import { test } from "node:test";
import { checkOf, exhibited, skip, tick } from "./exhibited.mjs";

test("after a day by itself it is still right, and has kept no more than after an hour", { skip }, async () => {
    const { laboratory, exhibit, time } = await exhibited("message");
    const isRight = await checkOf("message");
    let [wrong, most, rounds] = [0, { hour: 0, day: 0 }, 0];
    laboratory.addEventListener("change", () => {
        wrong += isRight(laboratory.printed.text) ? 0 : 1;
        const kept = laboratory.lines.length + laboratory.talk.length + laboratory.accounts.length;
        const when = time.now < 3_600_000 ? "hour" : "day";
        most[when] = Math.max(most[when], kept);
        if (laboratory.way.kind === "start" && laboratory.printed.count > 0) rounds += 1;
    });
    await exhibit.attract();
    while (time.now < 24 * 3_600_000) await tick();
    exhibit.end();
    assert.deepEqual([wrong, most.day <= most.hour, rounds > 100], [0, true, true]);
});
