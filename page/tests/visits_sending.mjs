// Visits of people who send their work to others, and who open what was sent: by a link, by a file, and from the kiosk by the camera of a
// phone. Nothing that comes so is anything but a work, and the one at hand is never lost.
import assert from "node:assert/strict";
import { spawnSync } from "node:child_process";
import { mkdtempSync, readFileSync, rmSync } from "node:fs";
import { createServer } from "node:http";
import { tmpdir } from "node:os";
import { join } from "node:path";
import { fileURLToPath } from "node:url";
import { deflateSync } from "node:zlib";
import { isDone, paperOf } from "./visits_exhibits.mjs";

const settled = (browser) => browser.value("laboratoryOfPage().settled()");
const textOf = (browser, selector) => browser.value(`document.querySelector(${JSON.stringify(selector)})?.innerText ?? ""`);
const isReady = "document.documentElement.dataset.ready === 'true'";
/** What is seen of a work: the machine, the source, what stands in fields, and what was printed. */
const workNow = (browser) => browser.value(`(async () => {
    await laboratoryOfPage().settled();
    const { panel: { counter, accumulator, status, clock }, printed: { text }, lines, script } = laboratoryOfPage();
    return { counter, accumulator, status, clock: String(clock), text, orders: lines.length, script: script?.name ?? null, source: document.querySelector(".source .CodeMirror").CodeMirror.getValue(), tape: document.querySelector(".tape input").value, door: document.body.dataset.door, href: location.href.replace(/^[^?#]*/, "") };
})()`);

/** Shares the work at hand. Gives its link, or null. */
async function share(browser, selector = "#share") {
    await browser.press(selector);
    await browser.waitFor("document.querySelector('#sent-length') !== null");
    const link = await browser.value("document.querySelector('#sent-link')?.value ?? null");
    return link;
}

/** Goes to an address that differs in what follows # alone: the page stays. */
async function follow(browser, hash) {
    await browser.value(`void (location.hash = ${JSON.stringify(hash)})`);
    await browser.value("new Promise((resolve) => setTimeout(resolve, 300))");
    await settled(browser);
}

const SOURCE = "start   p =h\n        b <b>bold</b>\n        z\n        end start";
const RIGHT = SOURCE.replace("<b>bold</b>", "start");
const hashOf = (sent) => `#work=a${deflateSync(typeof sent === "string" ? sent : JSON.stringify(sent)).toString("base64url")}`;
const SENT = { door: "work", script: null, same: 0, lines: [], drafts: {}, task: null, source: null, pupil: null, isPaperUp: false };

/**
 * A work is sent by a link: in another tab of the browser it is a work of its own, as it was, and loaded again it is that; the one before
 * is there by the list.
 */
async function sent(browser, address) {
    await browser.open(`${address}?lang=en&door=work`);
    await browser.write(RIGHT);
    await browser.press("#run-program");
    await browser.waitFor("laboratoryOfPage().panel.status === 'halted stop'");
    await browser.write(SOURCE);
    const before = await workNow(browser);
    const link = await share(browser);
    assert.ok(link.startsWith(`${address}#work=a`));
    assert.deepEqual(
        await browser.value(
            "[document.querySelector('#sent-length').textContent, document.querySelector('.code-to-read'), document.querySelector('#sent-file').download]"
        ),
        [`The link has ${link.length} characters.`, null, "work.json"]
    );
    await browser.closeDialog();
    await browser.open(`${address}?lang=en&door=work`);
    await browser.write("; mine");
    await browser.press("#run-program");
    await browser.waitFor("!document.querySelector('#notice').hidden");
    await follow(browser, new URL(link).hash);
    await browser.waitFor("laboratoryOfPage().printed.text === 'h'");
    assert.deepEqual(await workNow(browser), { ...before, href: "?lang=en&door=work" });
    await browser.press("#step");
    await settled(browser);
    await browser.value("(globalThis.isOld = true, location.reload())").catch(() => {});
    await browser.waitFor(`globalThis.isOld === undefined && ${isReady}`);
    assert.deepEqual(await workNow(browser), { ...before, orders: before.orders + 1, href: "?lang=en&door=work" });
    await browser.press("#works");
    await browser.waitFor("document.querySelector('[data-work]') !== null");
    await browser.value("document.querySelector('[data-work]').click()");
    await browser.waitFor("document.querySelector('.source .CodeMirror').CodeMirror.getValue() === '; mine'");
    // and it can be shared from there
    await browser.press("#works");
    assert.match(await share(browser, "li:nth-child(2) [data-share]"), /#work=a/);
    await browser.closeDialog();
}

/** What is wrong in some way is told in a sentence of the page's language, and the work at hand stays as it is. */
async function sentWrong(browser, address) {
    for (const [code, ends] of [
        ["en", "Nothing was opened, and your project is as it was."], ["de", "Nichts wurde geöffnet, deine Arbeit ist, wie sie war."],
    ]) {
        await browser.open(`${address}?lang=${code}&door=work`);
        await browser.write(RIGHT);
        await browser.press("#run-program");
        await browser.waitFor("laboratoryOfPage().panel.status === 'halted stop'");
        const before = await workNow(browser);
        const good = hashOf(SENT);
        const wrong = [
            good.slice(0, -5),
            good.replace("=a", "=b"),
            hashOf(" ".repeat(5_000_000)),
            `#work=a${"x".repeat(9000)}`,
            "#work=",
            "#work=%E0%A4",
            hashOf("{}"),
            hashOf({ ...SENT, script: { name: "self-modifying", code: "en", sum: 1, at: 0 } }),
            "#script=%3Cimg%20src%3Dx%20onerror%3Dalert(1)%3E",
            "#script=%00",
        ];
        const told = [];
        for (const hash of wrong) {
            await follow(browser, hash);
            await browser.waitFor(`document.querySelector('#notice').textContent.endsWith(${JSON.stringify(ends)})`);
            told.push(await textOf(browser, "#notice"));
            assert.deepEqual({ ...await workNow(browser), href: "" }, { ...before, href: "" }, hash.slice(0, 40));
            await browser.press("[data-door-to='work']");
            await browser.value("laboratoryOfPage().tell(null)");
        }
        assert.deepEqual([told[0] === told[4], new Set(told).size], [true, 4]);
    }
}

/**
 * All that a link holds is shown as a text: nothing of it becomes an element, or goes anywhere. Lines that would take long are not done
 * before somebody wants that.
 */
async function sentAsText(browser, address) {
    const evil = "<img src=x onerror=\"globalThis.isEvil = true\"><script>globalThis.isEvil = true</script>";
    await browser.open(
        `${address}?lang=en${hashOf({
            ...SENT,
            lines: [`; ${evil}`, evil, "panel"],
            script: { name: evil, lines: [evil, evil], at: 1 },
            drafts: { source: evil, tape: evil, "answer/x/0": evil, other: evil },
            task: evil,
            source: evil,
            pupil: { lesson: evil, at: 900, isDone: [900] },
        })}`
    );
    await settled(browser);
    assert.deepEqual(
        await browser.value(
            "[globalThis.isEvil ?? null, document.querySelectorAll('#page img, #page script').length, document.querySelector('.source .CodeMirror').CodeMirror.getValue(), document.body.dataset.door]"
        ),
        [null, 0, evil, "work"]
    );
    await browser.press("#works");
    await browser.waitFor("document.querySelector('.works') !== null");
    assert.deepEqual(await browser.value("[globalThis.isEvil ?? null, document.querySelectorAll('dialog img').length]"), [null, 0]);
    await browser.closeDialog();
    await browser.open(
        `${address}?lang=en&n=far${hashOf({ ...SENT, door: "learn", pupil: { lesson: "rewriting", at: 900, isDone: [1, 900] } })}`
    );
    await settled(browser);
    assert.deepEqual(
        await browser.value(
            "[document.body.dataset.door, document.querySelectorAll('.rail .mark').length > 5, document.querySelector('#notice').hidden]"
        ),
        ["learn", true, true]
    );
    await browser.open(
        `${address}?lang=en&n=long${hashOf({ ...SENT, lines: ["put 0000 u 0000", "press start", ...Array(100).fill("orders 900000")] })}`
    );
    await browser.waitFor("document.querySelector('#notice').textContent.startsWith('What was sent performs more than 20,000,000 orders')");
    assert.deepEqual(
        await browser.value("[laboratoryOfPage().performed, laboratoryOfPage().script.lines.length, laboratoryOfPage().script.at]"),
        [0, 102, 2]
    );
}

/**
 * A work that is too long for a link is sent in a file, which Open reads; and so are a lesson with its answers, and the source of a task,
 * whose own source here can be restored.
 */
async function sentInFile(browser, address) {
    const numbers = Array.from({ length: 4000 }, (unused, at) => (Math.imul(at + 1, 2654435761) >>> 3).toString(36)).join("\n; ");
    await browser.open(`${address}?lang=en&door=work`);
    await browser.write(`; ${numbers}`);
    await browser.value(
        "(() => { const make = URL.createObjectURL; URL.createObjectURL = (blob) => { globalThis.lastBlob = blob; return make(blob); }; })()"
    );
    assert.equal(await share(browser), null);
    assert.match(await textOf(browser, "#sent-length"), /^The link would have [\d,]+ characters\. Not every program takes more than 8,000/);
    const text = await browser.value("lastBlob.text()");
    await browser.closeDialog();
    const give = (written, name = "work.json") => browser.value(`(() => {
        const given = new DataTransfer();
        given.items.add(new File([${JSON.stringify(written)}], ${JSON.stringify(name)}));
        const input = document.querySelector("#choices input[type=file]");
        input.files = given.files;
        input.dispatchEvent(new Event("change"));
    })()`);
    await browser.press("#new");
    await browser.waitFor("!document.querySelector('#notice').hidden");
    await browser.write("; another");
    await give(text.replace("\"a\"", "\"c\""));
    await browser.waitFor("document.querySelector('#notice').textContent.startsWith('The link or file was made by a later version')");
    assert.equal(await browser.written(), "; another");
    await give(text);
    await browser.waitFor(`document.querySelector(".source .CodeMirror").CodeMirror.getValue().length === ${numbers.length + 2}`);
    await browser.open(`${address}?lang=en&task=sum`);
    await browser.write("; their source", ".task");
    const link = await share(browser);
    await browser.closeDialog();
    await browser.write("; my own source", ".task");
    await follow(browser, new URL(link).hash);
    await browser.waitFor("document.querySelector('.task .CodeMirror')?.CodeMirror.getValue() === '; their source'");
    assert.match(await browser.value("location.href"), /\?lang=en&task=sum$/);
    await browser.value(`[...document.querySelectorAll(".task-desk button")].find((it) => it.textContent === "Restore").click()`);
    await browser.waitFor("document.querySelector('.task .CodeMirror').CodeMirror.getValue() === '; my own source'");
}

/** The text that a camera reads in a picture of the page; null where there is none to read it. */
async function readByCamera(browser, folder) {
    const file = join(folder, "kiosk.png");
    await browser.picture(file);
    const { error, stdout } = spawnSync("zbarimg", ["--raw", "-q", file], { encoding: "utf8" });
    return error === undefined ? stdout.trim() : null;
}

/** Gives the page as a server does. */
async function served(address, action) {
    const server = createServer((unused, reply) => {
        reply.setHeader("content-type", "text/html; charset=utf-8");
        reply.end(readFileSync(fileURLToPath(address)));
    });
    await new Promise((resolve) => { server.listen(0, "127.0.0.1", resolve); });
    const folder = mkdtempSync(join(tmpdir(), "camera-"));
    try {
        await action(`http://127.0.0.1:${server.address().port}/laboratory.html`, folder);
    } finally {
        server.closeAllConnections();
        server.close();
        rmSync(folder, { recursive: true });
    }
}

/**
 * A visitor takes the program of the kiosk home: the code that a camera reads leads to a work with the same paper. From a page that was
 * opened from disk there is no code, and a sentence says so.
 */
async function takenHome(browser, address) {
    await browser.size(1366, 768);
    await served(address, async (page, folder) => {
        const codes = [["loop", ["1", "3", "3"], "end"], ["formula", ["1"], "tape"], ["weather", ["1"], "weather"]];
        for (const [name, keys, scene] of codes) {
            await browser.open(`${page}?lang=en&idle=900&n=${name}#kiosk=${name}`);
            await browser.waitFor("document.body.dataset.scene === 'attract'");
            assert.equal(await browser.value("document.querySelector('#take-home').checkVisibility()"), false);
            for (const key of keys) {
                await browser.value(`void document.body.dispatchEvent(new KeyboardEvent("keydown", { key: "${key}", bubbles: true }))`);
                await browser.waitFor(
                    scene === "end"
                        ? "document.body.dataset.busy === 'false' || document.querySelector('.bit.now') !== null"
                        : isDone(scene),
                    300_000
                );
            }
            await browser.waitFor(isDone(scene), 300_000);
            await settled(browser);
            const [paper, clock] = [await paperOf(browser), await browser.value("String(laboratoryOfPage().panel.clock)")];
            await browser.press("#take-home");
            await browser.waitFor("document.querySelector('.take-home[open] .code-to-read') !== null");
            const link = await readByCamera(browser, folder);
            // a key shuts it, and does nothing else
            await browser.value("void document.body.dispatchEvent(new KeyboardEvent('keydown', { key: '1', bubbles: true }))");
            assert.deepEqual(
                await browser.value("[document.querySelector('.take-home').open, document.body.dataset.scene]"), [false, scene]
            );
            if (link === null) continue;
            assert.ok(link.startsWith(`${page}#work=a`), link);
            await browser.open(link);
            await settled(browser);
            assert.deepEqual(
                [
                    await paperOf(browser),
                    await browser.value("String(laboratoryOfPage().panel.clock)"),
                    await browser.value("document.body.dataset.door"),
                ],
                [paper, clock, "work"],
                name
            );
        }
        await browser.open(
            `${page}?lang=en&n=own#exhibit=${encodeURIComponent(
                readFileSync(fileURLToPath(new URL("../../docs/exhibits/greeting.json", import.meta.url)), "utf8")
            )}`
        );
        await browser.waitFor("document.body.dataset.scene === 'attract'");
        await browser.value("void document.body.dispatchEvent(new KeyboardEvent('keydown', { key: '1', bubbles: true }))");
        await browser.waitFor(isDone("switch"));
        await browser.press("#take-home");
        await browser.waitFor("document.querySelector('.take-home[open] .code-to-read') !== null");
        assert.notEqual(await readByCamera(browser, folder), "");
    });
    await browser.open(`${address}?lang=en&n=disk#kiosk=loop`);
    await browser.value("void document.body.dispatchEvent(new KeyboardEvent('keydown', { key: '1', bubbles: true }))");
    await browser.waitFor("document.body.dataset.scene === 'rounds'");
    await browser.press("#take-home");
    await browser.waitFor("document.querySelector('.take-home[open]') !== null");
    // browsers set paragraphs apart by one line end or by two
    const told = (await textOf(browser, ".take-home div")).replace(/\n+/, "\n");
    assert.deepEqual(
        [await browser.value("document.querySelector('.code-to-read')"), told],
        [
            null,
            "This page was opened from a file and has no address that others can reach, so there is no code.\nIn the laboratory the program is the example drum/loop-without-a-test.",
        ]
    );
    // what plays at a kiosk goes on: the visit ends where nothing does
    await browser.open(`${address}?lang=en&door=work`);
}

/** The visits by their names. */
export const visitsOfSending = (address) => ({
    sent: (browser) => sent(browser, address),
    sentWrong: (browser) => sentWrong(browser, address),
    sentAsText: (browser) => sentAsText(browser, address),
    sentInFile: (browser) => sentInFile(browser, address),
    takenHome: (browser) => takenHome(browser, address),
});
