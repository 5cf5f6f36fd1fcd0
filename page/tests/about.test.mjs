// The addresses in About: those of the one file for them, and nothing where that is empty.
import assert from "node:assert/strict";
import { spawnSync } from "node:child_process";
import { readFileSync } from "node:fs";
import { test } from "node:test";
import { fileURLToPath } from "node:url";
import { addressesIn } from "../views/about.mjs";
import { LANGUAGES } from "../words.mjs";

const top = fileURLToPath(new URL("../..", import.meta.url));
const manifest = JSON.parse(readFileSync(`${top}libraries/javascript/package.json`, "utf8"));

test("About has the addresses of the manifest, and names none that it lacks", () => {
    assert.deepEqual(addressesIn({ version: "1" }), []);
    const filled = {
        homepage: "https://lgp.example/",
        repository: { type: "git", url: "git+https://lgp.example/lab.git" },
        bugs: { url: "https://lgp.example/issues" },
    };
    assert.deepEqual(addressesIn(filled), [
        ["homePage", "https://lgp.example/"], ["repository", "https://lgp.example/lab.git"], ["issues", "https://lgp.example/issues"],
    ]);
    for (const [code, texts] of Object.entries(LANGUAGES)) {
        for (const [name] of addressesIn(filled)) assert.ok(texts[name], `${name} in ${code}`);
    }
});

test("these are those of tools/packages/address", () => {
    const values = ["home page", "repository", "issues"].map((name) => (
        spawnSync("python3", [`${top}tools/address`, name], { encoding: "utf8" }).stdout.trim()
    ));
    assert.deepEqual(addressesIn(manifest).map(([, url]) => url), values.filter((value) => value !== ""));
});
