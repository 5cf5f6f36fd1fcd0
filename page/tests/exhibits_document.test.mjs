// docs/EXHIBITS.md: its smallest exhibit is right, its commands write what it shows, its sentence is that of the check, and it names each
// field that the reader knows; in German likewise.
import assert from "node:assert/strict";
import { spawnSync } from "node:child_process";
import { existsSync, readFileSync, readdirSync } from "node:fs";
import { dirname, join } from "node:path";
import { test } from "node:test";
import { fileURLToPath } from "node:url";
import { exhibitIn } from "../exhibits.mjs";

const top = join(dirname(fileURLToPath(import.meta.url)), "../..");
const skip = !existsSync(join(top, "libraries/javascript/lgp_c_region.wasm"));
const read = (path) => readFileSync(join(top, path), "utf8");
const isExample = (name) => existsSync(join(top, `examples/${name}.txt`));
const DOCUMENTS = ["docs/EXHIBITS.md", "docs/de/EXHIBITS.md"].filter((path) => existsSync(join(top, path)));

/** The indented blocks of a document. */
const blocksOf = (document) => document.split(/\n(?! {4}|\n)/).flatMap((piece) => (
    /(?:^|\n) {4}/.test(piece) ? [piece.split("\n").filter((line) => /^ {4}/.test(line)).map((line) => line.slice(4)).join("\n")] : []
));

/** All names of fields in an exhibit, at any depth but for those of scenes and texts. */
function fieldsIn(value) {
    if (Array.isArray(value)) return value.flatMap(fieldsIn);
    return value === null || typeof value !== "object" ? [] : Object.entries(value).flatMap(([name, item]) => [name, ...fieldsIn(item)]);
}

for (const path of DOCUMENTS) {
    const [document, greeting] = [read(path), read("docs/exhibits/greeting.json")];

    test(`${path}: its smallest exhibit is right`, () => {
        const [smallest] = blocksOf(document).filter((block) => block.startsWith("{"));
        assert.equal(exhibitIn(smallest, isExample).wrong, null);
    });

    test(`${path}: the check writes what is shown`, { skip }, () => {
        const ran = spawnSync("node", ["page/check_exhibit.mjs", "docs/exhibits/greeting.json"], { cwd: top, encoding: "utf8" });
        assert.deepEqual([ran.status, ran.stderr], [0, ""]);
        assert.ok(document.includes(`\n    ${ran.stdout}`), ran.stdout);
    });

    test(`${path}: the sentence for a mistake is that of the check`, () => {
        const { wrong } = exhibitIn(greeting.replace('"to": "switch"', '"to": "swich"'), isExample);
        assert.equal(wrong, 'scenes.attract.buttons[0].to is "swich". The scenes are attract, switch.');
        assert.ok(document.includes(`\n    ${wrong}\n`), wrong);
    });

    test(`${path}: each field and value that the exhibits of the page have is named`, () => {
        const names = new Set(
            ["weather", "loop", "twenty-one", "formula"].map((name) => JSON.parse(read(`page/exhibits/${name}.json`))).flatMap(
                ({ scenes }) => ["title", "scenes", ...Object.values(scenes).flatMap(fieldsIn)]
            )
        );
        assert.deepEqual([...names].filter((name) => !["en", "de"].includes(name) && !new RegExp(`["\`]${name}["\`]`).test(document)), []);
    });
}

test("each exhibit that was written by following the page is named there, and right", { skip }, () => {
    const files = readdirSync(join(top, "docs/exhibits"));
    for (const path of DOCUMENTS) assert.deepEqual(files.filter((file) => !read(path).includes(`exhibits/${file})`)), [], path);
    const ran = spawnSync(
        "node", ["page/check_exhibit.mjs", ...files.map((file) => `docs/exhibits/${file}`)], { cwd: top, encoding: "utf8" }
    );
    assert.deepEqual(
        [ran.status, ran.stderr, ran.stdout.replaceAll(/\d+ scenes/g, "N scenes").split("\n").slice(0, -1)],
        [0, "", files.map((file) => `docs/exhibits/${file}: right, N scenes played`)]
    );
});

test("the check refuses what is wrong, a file that is not there, and wrong words", () => {
    const run = (...words) => {
        const { status, stdout, stderr } = spawnSync("node", ["page/check_exhibit.mjs", ...words], { cwd: top, encoding: "utf8" });
        return [status, stdout, stderr];
    };
    assert.deepEqual(run("nowhere.json"), [1, "", "nowhere.json: There is no such file.\n"]);
    assert.match(run("docs/EXHIBITS.md").join(), /^1,,docs\/EXHIBITS\.md: The file is not JSON/);
    assert.deepEqual(run(), [64, "", "node page/check_exhibit.mjs [--address] FILE..\n"]);
    assert.deepEqual(run("--help"), [0, "node page/check_exhibit.mjs [--address] FILE..\n", ""]);
});

test("the address that the check gives has the exhibit in itself", { skip }, () => {
    const { stdout } = spawnSync(
        "node", ["page/check_exhibit.mjs", "--address", "docs/exhibits/greeting.json"], { cwd: top, encoding: "utf8" }
    );
    const address = stdout.trimEnd().split("\n").at(-1);
    assert.deepEqual(JSON.parse(decodeURIComponent(address.slice("#exhibit=".length))), JSON.parse(read("docs/exhibits/greeting.json")));
});
