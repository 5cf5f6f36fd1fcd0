import assert from "node:assert/strict";
import { test } from "node:test";
import { fileURLToPath } from "node:url";
import { sharedSheetsBelow, sheetsBelow } from "../documents.mjs";
import { withDrawings } from "../views/sheets.mjs";

const lessons = fileURLToPath(new URL("../../teaching/lessons", import.meta.url));

test("a sheet with its drawings is the file, and each drawing is kept once", () => {
    const { drawings, sheets } = sharedSheetsBelow(lessons);
    const whole = Object.fromEntries(
        Object.entries(sheets).map(([code, named]) => (
            [code, Object.fromEntries(Object.entries(named).map(([name, sheet]) => [name, withDrawings(sheet, drawings)]))]
        ))
    );
    assert.deepEqual(whole, sheetsBelow(lessons));
    assert.equal(new Set(drawings).size, drawings.length);
    assert.ok(Object.values(sheets.en).some((sheet) => sheet.includes(">@0</svg>")));
    assert.equal(withDrawings(undefined, drawings), undefined);
});
