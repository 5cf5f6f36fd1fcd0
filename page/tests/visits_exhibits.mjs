// Visits of the exhibits that run a program at the kiosk: each is played to its end by its keys and by touches, upright and across, in both
// languages; its paper is what its example prints; and whatever is pressed, nothing breaks.
import assert from "node:assert/strict";
import { readFileSync } from "node:fs";
import { dirname, join } from "node:path";
import { fileURLToPath } from "node:url";
import { hiddenTexts, laidOut, unhit } from "./seen.mjs";
import { chance, smallTexts } from "./visits_kiosk.mjs";

const top = join(dirname(fileURLToPath(import.meta.url)), "../..");
const [ACROSS, UPRIGHT] = [[1920, 1080], [1080, 1920]];
/** How long a scene may take, at a busy computer. */
const LONG = 300_000;
const settled = (browser) => browser.value("laboratoryOfPage().settled()");
export const strike = (browser, key, more = {}) => browser.value(
    `void document.body.dispatchEvent(new KeyboardEvent("keydown", { key: ${JSON.stringify(key)}, bubbles: true, ...${JSON.stringify(more)} }))`
);
export const paperOf = (browser) => browser.value("laboratoryOfPage().printed.text");
const toldIn = (browser) => browser.value("document.querySelector('.kiosk-told').textContent");
export const isIn = (scene) => `document.body.dataset.scene === ${JSON.stringify(scene)}`;
export const isDone = (scene) => `${isIn(scene)} && document.body.dataset.busy === "false"`;
const textOf = (name, scene, caption, code) => JSON.parse(fileOf(name)).scenes[scene].captions[caption].text[code];

/** What an example prints, as its file of expected replies has it. */
const expectedOf = (name, which = -1) => readFileSync(join(top, `examples/${name}.expected`), "utf8")
    .split("\n")
    .filter((it) => /^printed \d/.test(it))
    .at(which)
    .replace(/^printed \d+ /, "")
    .replaceAll("[16]", "\n");

/** The exhibits of the page, and those that were written by following its document and are opened by an address that has them in itself. */
const [OF_PAGE, WRITTEN] = [["weather", "loop", "twenty-one", "formula"], ["greeting", "primes"]];
const fileOf = (name) => readFileSync(join(top, `${WRITTEN.includes(name) ? "docs" : "page"}/exhibits/${name}.json`), "utf8");
const placeOf = (name) => (
    WRITTEN.includes(name) ? `#exhibit=${encodeURIComponent(JSON.stringify(JSON.parse(fileOf(name))))}` : `#kiosk=${name}`
);

/** Opens an exhibit; another query lets the page be opened anew where only what follows # is another. */
let opened = 0;
export async function open(browser, address, name, code, [width, height], more = "") {
    opened += 1;
    await browser.size(width, height);
    await browser.open(`${address}?lang=${code}&n=${opened}${more}${placeOf(name)}`);
    await browser.waitFor(isIn("attract"));
}

/** Gives the page a file, as a visitor does who chooses it in Work. */
const give = (browser, name, text) => browser.value(`(() => {
    const given = new DataTransfer();
    given.items.add(new File([${JSON.stringify(text)}], ${JSON.stringify(name)}));
    const input = document.querySelector("#choices input[type=file]");
    input.files = given.files;
    input.dispatchEvent(new Event("change"));
})()`);

/** A picture of a moment. */
const moment = (browser, pictures, name) => (pictures === undefined ? undefined : browser.picture(join(pictures, `exhibit-${name}.png`)));

/**
 * The order in the hub of the drum, where it lies upon the phase below it. It is measured in Chromium, whose boxes of drawn texts are
 * known.
 */
const uponInHub = async (browser) => (browser.engine !== "Chromium" ? [] : browser.value(`(() => {
    const [order, phase] = [".hub-order", ".hub-phase"].map((name) => document.querySelector(name));
    if (order === null || !order.checkVisibility() || order.textContent === "") return [];
    const [above, below] = [order, phase].map((it) => it.getBoundingClientRect()).map(({ top, bottom }) => (top + bottom) / 2);
    return below - above < 0.95 * parseFloat(getComputedStyle(phase).fontSize) * phase.getScreenCTM().a ? [order.textContent + " lies upon " + phase.textContent] : [];
})()`));

/** The pins of the drum that reach beyond its cabinet. */
const pinsBeyond = (browser) => browser.value(`(() => {
    const { left, top, right, bottom } = document.querySelector(".cabinet").getBoundingClientRect();
    return [...document.querySelectorAll(".pin:not(.away) .flag")].map((it) => [it.textContent, it.getBoundingClientRect()])
        .filter(([, box]) => box.width > 0 && (box.left < left || box.top < top || box.right > right || box.bottom > bottom))
        .map(([name]) => name + " reaches beyond the cabinet");
})()`);

/** What is seen now has all its texts whole and large enough, each button is hit, and nothing is to be scrolled. */
async function assertSeen(browser, what) {
    await laidOut(browser);
    assert.deepEqual(
        [
            ...await hiddenTexts(browser), ...await unhit(browser), ...await smallTexts(browser), ...await uponInHub(browser),
            ...await pinsBeyond(browser),
        ],
        [],
        what
    );
    assert.deepEqual(
        await browser.value(
            "[document.querySelectorAll('.kiosk-bar button').length, document.documentElement.scrollHeight <= innerHeight, document.querySelectorAll('.kiosk-bar .primary').length <= 1]"
        ),
        [4, true, true],
        what
    );
}

/** A way to press: by a key, or by a finger on the button. */
const PRESSES = {
    keys: (browser, number) => strike(browser, String(number)), touches: (browser, number) => browser.tap(`#kiosk-${number}`),
};

/** The weather in three acts, each to its end. */
async function weather(browser, address, press, code, size, pictures) {
    await open(browser, address, "weather", code, size, "&idle=900");
    await browser.waitFor("laboratoryOfPage().printed.text.includes('\\n0785')", LONG);
    await assertSeen(browser, "attract");
    await press(browser, 1);
    await browser.waitFor(
        `${isIn("weather")} && document.querySelector('.paper.washed') !== null && document.querySelector('.row-told')?.textContent === "0250"`,
        LONG
    );
    await moment(browser, pictures, `weather-${code}-${size[0]}`);
    await assertSeen(browser, "weather");
    await browser.waitFor(isDone("weather"), LONG);
    assert.ok(expectedOf("weather/lorenz").startsWith((await paperOf(browser)).replace(/\n[^\n]*$/, "")));
    await press(browser, 2);
    await browser.waitFor(`${isIn("again")} && document.querySelector('.row-told')?.textContent === "1275"`, LONG);
    await moment(browser, pictures, `again-${code}-${size[0]}`);
    await assertSeen(browser, "again");
    await browser.waitFor(isDone("again"), LONG);
    assert.equal(await paperOf(browser), expectedOf("weather/lorenz"));
    assert.equal(await browser.value("document.querySelector('.typed').dataset.typed"), "1000  -0059  -0058  0240");
    await press(browser, 3);
    await browser.waitFor(isDone("drawn"), LONG);
    await moment(browser, pictures, `drawn-${code}-${size[0]}`);
    await assertSeen(browser, "drawn");
    assert.ok(expectedOf("weather/twins").startsWith((await paperOf(browser)).replace(/\n[^\n]*$/, "")));
    await press(browser, 2);
    await browser.waitFor(isDone("believed"));
    assert.equal(await toldIn(browser), textOf("weather", "believed", 1, code));
    await press(browser, 4);
    await browser.waitFor(isIn("attract"));
}

/** The loop: a bet, the carry, and its end. */
async function loop(browser, address, press, code, size, pictures) {
    await open(browser, address, "loop", code, size, "&idle=900");
    await press(browser, 1);
    await browser.waitFor(isDone("rounds"), LONG);
    await browser.waitFor(
        `document.querySelector('.kiosk-told').textContent === ${JSON.stringify(textOf("loop", "rounds", 3, code))}`, LONG
    );
    assert.equal(await browser.value("document.querySelectorAll('.kiosk-bar .primary').length"), 0);
    for (const it of [size, [1366, 768]]) { await browser.size(...it); await assertSeen(browser, `rounds at ${it}`); }
    await browser.size(...size);
    // the orders of the loop, of which one is under way
    assert.deepEqual(
        await browser.value("[...document.querySelectorAll('.orders-beside tr')].map((it) => [it.dataset.address, it.cells[1].textContent])"),
        [
            ["0038", "b common"], ["0039", "e 6353"], ["0040", "h common"], ["0041", "b loop"], ["0042", "a last"], ["0043", "h loop"],
            ["0044", "u round"],
        ]
    );
    assert.equal(await browser.value("document.querySelectorAll('.orders-beside [aria-current=step]').length"), 1);
    await press(browser, 3);
    await browser.waitFor(`${isIn("carry")} && document.querySelector('.bit.now') !== null`, LONG);
    await press(browser, 2);
    const seen = await browser.value("document.querySelector('.word-bits').getAttribute('aria-label')");
    await press(browser, 2);
    await browser.waitFor(`document.querySelector('.word-bits').getAttribute('aria-label') !== ${JSON.stringify(seen)}`);
    await moment(browser, pictures, `loop-${code}-${size[0]}`);
    // below the bits are the way of the carry, and a ring where it is; the order is as it was as long as it has not come to its end
    const [bit, ring, passed, order] = await browser.value(
        "(() => { const of = (name) => [...document.querySelectorAll('.word-bits ' + name)]; return [of('.bit').findIndex((it) => it.matches('.now')), of('.carry i').findIndex((it) => it.matches('.ring')), of('.carry i').filter((it) => it.textContent === '‹').length, document.querySelector('.orders-beside tr:nth-child(2)').cells[1].textContent]; })()"
    );
    assert.deepEqual([ring, passed, order], [bit, 17 - bit, "e 6363"]);
    await assertSeen(browser, "carry");
    await press(browser, 3);
    await browser.waitFor(`${isDone("end")} && laboratoryOfPage().panel.status === "halted stop"`, LONG);
    await browser.waitFor(`document.querySelector('.kiosk-told').textContent === ${JSON.stringify(textOf("loop", "end", 3, code))}`, LONG);
    assert.equal(await paperOf(browser), expectedOf("drum/loop-without-a-test", 0));
    await assertSeen(browser, "end");
}

/** A formula from tape, and one made with the buttons. */
async function formula(browser, address, press, code, size, pictures) {
    await open(browser, address, "formula", code, size, "&idle=900");
    await press(browser, 1);
    await browser.waitFor(isDone("tape"), LONG);
    assert.equal(await paperOf(browser), expectedOf("floating-point/formulas", 0));
    await moment(browser, pictures, `formula-${code}-${size[0]}`);
    await assertSeen(browser, "tape");
    assert.match(await browser.value("document.querySelector('.made-orders').textContent"), /^4000 b 4400.*4014 p 1600$/);
    await press(browser, 3);
    for (const [scene, number] of [["own", 2], ["operation", 2], ["number", 1], ["operation", 3]]) {
        await browser.waitFor(isDone(scene), LONG);
        await assertSeen(browser, scene);
        await press(browser, number);
    }
    await browser.waitFor(isDone("made"), LONG);
    assert.match(await paperOf(browser), /^ 3\.14285[6-8]e\+00\n$/);
    await moment(browser, pictures, `made-${code}-${size[0]}`);
    await assertSeen(browser, "made");
}

/** In the page: keeps each caption with the label at which the machine stands when it is shown, and the paper. */
const KEEP_CAPTIONS = `(() => {
    const kept = globalThis.captionsSeen = [];
    const keep = () => {
        const { labels, panel, printed: { text } } = laboratoryOfPage();
        const told = document.querySelector(".kiosk-told")?.textContent ?? "";
        if (told !== "" && told !== kept.at(-1)?.[0]) kept.push([told, labels.get(panel.counter)?.[0] ?? "", text]);
    };
    new MutationObserver(keep).observe(document.body, { subtree: true, childList: true, characterData: true });
})()`;

/** The sieve with its bet, as a museum has it: by its file or its address; each caption comes where the machine is what it says. */
async function primes(browser, address, press, code, size, pictures) {
    const told = (scene, caption) => textOf("primes", scene, caption, code);
    if (press === PRESSES.keys) {
        await browser.open(`${address}?lang=${code}&door=work`);
        await browser.size(...size);
        await give(browser, "primes.json", fileOf("primes"));
        await browser.waitFor(isIn("attract"));
        assert.equal(await browser.value("location.hash"), placeOf("primes"));
    } else await open(browser, address, "primes", code, size, "&idle=900");
    await browser.waitFor("laboratoryOfPage().printed.text.startsWith('2 3 ')", LONG);
    await assertSeen(browser, "attract");
    await browser.value(`void ${KEEP_CAPTIONS}`);
    await press(browser, 1);
    await browser.waitFor(isDone("sieve"), LONG);
    await browser.waitFor(`document.querySelector('.kiosk-told').textContent === ${JSON.stringify(told("sieve", 4))}`, LONG);
    await moment(browser, pictures, `primes-${code}-${size[0]}`);
    await assertSeen(browser, "sieve");
    const wanted = [["prime", ""], ["off", "2 "], ["prime", "2 "], ["prime", "2 "]].map((it, place) => [told("sieve", place + 1), ...it]);
    const seen = await browser.value("captionsSeen");
    assert.deepEqual(seen.filter(([text]) => wanted.some(([caption]) => caption === text)), wanted);
    await press(browser, 2);
    await browser.waitFor(`document.querySelector('.kiosk-told').textContent === ${JSON.stringify(told("rest", 2))}`, LONG);
    await browser.waitFor(isDone("rest"), LONG);
    assert.equal(await paperOf(browser), expectedOf("tables/primes", 1));
    await assertSeen(browser, "rest");
    await press(browser, 1);
    await browser.waitFor(isIn("sieve"));
    await press(browser, 4);
    await browser.waitFor(isIn("attract"));
}

/** A game of twenty-one, shuffled by a number that always gives the same cards. */
async function twentyOne(browser, address, press, code, size, pictures) {
    await open(browser, address, "twenty-one", code, size, "&idle=900");
    await press(browser, 1);
    await browser.waitFor(isDone("deal"), LONG);
    await assertSeen(browser, "deal");
    await press(browser, 2);
    for (const number of [1, 1, 2]) {
        await browser.waitFor(isDone("play"), LONG);
        await press(browser, number);
        await browser.waitFor("document.body.dataset.busy === 'true'");
    }
    await browser.waitFor(isDone("play"), LONG);
    const paper = await paperOf(browser);
    assert.ok(paper.includes("too many; i win") && paper.includes("you win") && expectedOf("games/twenty-one").startsWith(paper), paper);
    await browser.waitFor(`document.querySelector('.kiosk-told').textContent === ${JSON.stringify(textOf("twenty-one", "play", 3, code))}`);
    await moment(browser, pictures, `twenty-one-${code}-${size[0]}`);
    await assertSeen(browser, "play");
    await press(browser, 3);
    await browser.waitFor(isDone("deal"), LONG);
    await press(browser, 1);
    await browser.waitFor(`${isDone("play")} && /^\\d{4}/.test(document.querySelector('.typed').dataset.typed)`, LONG);
}

/**
 * The screen of choice offers all exhibits, page by page, with what the kiosk had before; each leads back to it; left alone, it begins anew
 * in its own language.
 */
async function exhibitsChosen(browser, address, pictures) {
    await browser.size(...ACROSS);
    await browser.open(`${address}?lang=de&idle=10#kiosk`);
    await browser.waitFor(isIn("attract"));
    const labels = () => browser.value("[...document.querySelectorAll('.kiosk-bar button')].map((it) => it.textContent)");
    const first = await labels();
    assert.deepEqual(first, [
        "Ein Wetter von 1963", "Die Schleife, die ohne Frage endet", "Siebzehn und vier gegen die Maschine", "Mehr ▸",
    ]);
    await moment(browser, pictures, "choice-de-1920");
    for (const size of [ACROSS, UPRIGHT, [1366, 768], [1024, 768]]) {
        await browser.size(...size);
        await assertSeen(browser, `choice at ${size}`);
    }
    await browser.size(...ACROSS);
    await strike(browser, "4");
    assert.deepEqual(await labels(), ["Eine Formel geht hinein", "Ein Programm, das sich umschreibt", "Schneller machen", "Mehr ▸"]);
    await strike(browser, "2");
    await browser.waitFor("document.body.dataset.state === 'story' && laboratoryOfPage().history.behind === 1");
    await strike(browser, "4");
    await browser.waitFor(isIn("attract"));
    assert.deepEqual(await labels(), first);
    await strike(browser, "3");
    await browser.waitFor(isDone("deal"));
    await browser.waitFor(isIn("attract"));
    await browser.waitFor(`document.querySelector('#kiosk-1').textContent === ${JSON.stringify(first[0])}`);
    for (const key of ["4", "4", "2"]) await strike(browser, key);
    await browser.waitFor("document.documentElement.lang === 'en'");
    await browser.waitFor("document.documentElement.lang === 'de'");
    await strike(browser, "L", { ctrlKey: true, shiftKey: true });
    await browser.waitFor("document.querySelector('.hall') !== null && document.documentElement.dataset.ready === 'true'");
    assert.deepEqual(await browser.value("[document.body.dataset.exhibit ?? null, document.body.dataset.scene ?? null]"), [null, null]);
}

/**
 * A file that is opened in Work is shown at the kiosk, with the file in the address; a wrong one is told, and nothing else happens. Back
 * leads to the work as it was.
 */
async function exhibitOfOnesOwn(browser, address) {
    const file = fileOf("greeting");
    await browser.size(1366, 768);
    await browser.open(`${address}?lang=en&door=work`);
    await browser.write("; mine");
    await give(browser, "greeting.json", file.replace('"to": "switch"', '"to": "swich"'));
    await browser.waitFor(
        "document.querySelector('#notice').textContent.includes('scenes.attract.buttons[0].to is \"swich\". The scenes are attract, switch.')"
    );
    await give(browser, "greeting.json", file);
    await browser.waitFor(`${isIn("attract")} && laboratoryOfPage().printed.text === "\\ngood day"`);
    const address2 = await browser.value("location.href");
    await strike(browser, "1");
    await browser.waitFor(isDone("switch"));
    await strike(browser, "2");
    await browser.waitFor(
        `laboratoryOfPage().printed.text === "\\ngood night" && document.querySelector('.kiosk-told').textContent === "TRANSFER CONTROL was down: good night."`
    );
    await assertSeen(browser, "own exhibit");
    await browser.value("void history.back()");
    await browser.waitFor("document.querySelector('.source .CodeMirror') !== null");
    await settled(browser);
    assert.equal(await browser.value("document.querySelector('.source .CodeMirror').CodeMirror.getValue()"), "; mine");
    await browser.open(`${address}?lang=en`);
    await browser.open(address2);
    await browser.waitFor(`${isIn("attract")} && laboratoryOfPage().printed.text === "\\ngood day"`);
    await browser.open(`${address}?lang=en&n=own#exhibit=${encodeURIComponent("{}")}`);
    await browser.waitFor(
        "document.querySelector('#notice').textContent === 'The exhibit is refused. title is missing. It has to be there: an exhibit has a title and scenes.'"
    );
    await strike(browser, "3");
    await browser.waitFor(`${isDone("deal")} && document.querySelector('#notice').hidden`);
}

/** How many keys and touches a visitor at random has in each exhibit; TOUCHES names another number, and EXHIBITS the exhibits. */
const [TOUCHES, TOUCHED] = [Number(process.env.TOUCHES ?? 300), process.env.EXHIBITS?.split(" ") ?? [...OF_PAGE, ...WRITTEN]];

/**
 * Visitors press keys and touch places at random: the exhibit is in one of its scenes, with four buttons, at its own address, and nothing
 * is refused.
 */
async function exhibitsAtRandom(browser, address) {
    const keys = ["1", "2", "2", "3", "3", "4", "x", "Enter", "Escape", "F5", "ArrowLeft"];
    for (const name of TOUCHED) {
        const { scenes } = JSON.parse(fileOf(name));
        await open(browser, address, name, "en", [1366, 768]);
        const [before, among] = [await browser.value("location.href"), chance(name.length)];
        for (let done = 0; done < TOUCHES; done += 20) {
            const touches = Array.from(
                { length: 20 }, () => (among(2) === 0 ? { key: keys[among(keys.length)] } : { x: among(1366), y: 500 + among(268) })
            );
            await browser.value(`(async () => {
                for (const { key, x, y } of ${JSON.stringify(touches)}) {
                    if (key === undefined) document.elementFromPoint(x, y)?.dispatchEvent(new MouseEvent("click", { bubbles: true, cancelable: true, clientX: x, clientY: y }));
                    else document.body.dispatchEvent(new KeyboardEvent("keydown", { key, bubbles: true, cancelable: true }));
                    await new Promise((resolve) => setTimeout(resolve, ${10 * (done % 3)}));
                }
            })()`);
            const [scene, buttons, href, notice] = await browser.value(
                "[document.body.dataset.scene, document.querySelectorAll('.kiosk-bar button').length, location.href, document.querySelector('#notice').textContent]"
            );
            assert.deepEqual([scene in scenes, buttons, href, notice], [true, 4, before, ""], `${name}: ${scene}`);
        }
        await open(browser, address, name, "en", [1366, 768]);
    }
    return `${TOUCHED.length * TOUCHES} keys and touches`;
}

/** In the first scene and where something stands beside the paper, all is seen at each size of a kiosk, on a tablet, and on a telephone. */
async function exhibitsFit(browser, address) {
    for (const code of ["en", "de"]) for (const [name, keys] of [
        ["weather", ""], ["weather", "2"], ["loop", "1"], ["formula", "1"], ["twenty-one", "1"],
    ]) {
        await open(browser, address, name, code, [1366, 768], "&idle=900");
        for (const key of keys) await strike(browser, key);
        await browser.waitFor("document.querySelector('.kiosk-told').textContent !== ''");
        for (const size of [[1366, 768], ACROSS, [1024, 768], UPRIGHT, [768, 1024], [390, 844]]) {
            await browser.size(...size);
            await laidOut(browser);
            const small = size[0] > 900 && size[1] >= 700 ? await smallTexts(browser) : [];
            assert.deepEqual(
                [...await hiddenTexts(browser), ...await unhit(browser), ...small], [], `${name} ${keys}, ${code}, at ${size}`
            );
            assert.ok(await browser.value("document.documentElement.scrollHeight <= innerHeight"), `${name} at ${size}`);
        }
    }
}

/** A way through each exhibit: which buttons are pressed, and in which scene each press ends. */
const WAYS = {
    weather: [[1, "weather"], [2, "again"], [3, "drawn"], [2, "believed"], [4, "attract"]],
    loop: [[1, "rounds"], [3, "carry"], [3, "end"], [4, "attract"]],
    "twenty-one": [[1, "deal"], [2, "play"], [4, "attract"]],
    formula: [[1, "tape"], [3, "own"], [2, "operation"], [2, "number"], [1, "operation"], [3, "made"], [4, "attract"]],
    greeting: [[1, "switch"], [4, "attract"]],
    primes: [[1, "sieve"], [2, "rest"], [4, "attract"]],
};

/** What has the focus: its name, whether it is seen whole in the window and hit, and whether a ring is around it. */
const FOCUSED = `(() => {
    const it = document.activeElement;
    const { left, top, right, bottom } = it.getBoundingClientRect();
    const { outlineStyle, outlineWidth } = getComputedStyle(it);
    const hit = document.elementFromPoint((left + right) / 2, (top + bottom) / 2);
    const isWhole = left >= -1 && top >= -1 && right <= innerWidth + 1 && bottom <= innerHeight + 1 && (it.contains(hit) || hit?.className || "nothing");
    return [it.id || it.tagName, isWhole, outlineStyle !== "none" && parseFloat(outlineWidth) >= 2];
})()`;

/** Goes by Tab to a button of the kiosk; wherever the focus is on the way, it is seen. */
async function tabTo(browser, number, what) {
    for (let left = 12; left > 0; left -= 1) {
        await browser.strike("Tab");
        await laidOut(browser);
        const [name, ...seen] = await browser.value(FOCUSED);
        // past its last control the focus leaves the page for a moment
        if (name === "BODY") continue;
        assert.deepEqual(seen, [true, true], `${what}: the focus on ${name}`);
        if (name === `kiosk-${number}`) return;
    }
    throw new Error(`${what}: Tab does not come to button ${number}`);
}

/** On a telephone and upright each exhibit is begun, played and left by Tab and Enter alone, and where the focus is can be seen. */
async function exhibitsByTab(browser, address) {
    for (const size of [[390, 844], UPRIGHT]) for (const [name, way] of Object.entries(WAYS)) {
        await open(browser, address, name, "en", size, "&idle=900");
        for (const [number, scene] of way) {
            const what = `${name} at ${size}, to ${scene}`;
            if (scene === "end") await browser.waitFor("document.querySelector('.bit.now') !== null", LONG);
            await tabTo(browser, number, what);
            await browser.strike("Enter");
            await browser.waitFor(isIn(scene), LONG);
            // the same button may be none in the next scene: then its focus goes on to another one
            const [focused, ...seen] = await browser.value(FOCUSED);
            assert.deepEqual([focused === "BODY", ...seen], [false, true, true], `${what}: then the focus is on ${focused}`);
            const small = await browser.value("[...document.querySelectorAll('#page :is(button, a[href])')].filter((it) => it.checkVisibility({ visibilityProperty: true })).filter((it) => { const { width, height } = it.getBoundingClientRect(); return it.closest('.keys') === null && Math.min(width, height) < 44; }).map((it) => it.id || it.textContent)");
            assert.deepEqual(small, [], `${what}: targets below 44 pixels`);
            if (scene === "own" || scene === "operation" || scene === "number") await browser.waitFor(isDone(scene), LONG);
        }
        await browser.strike("L", "Control", "Shift");
        await browser.waitFor("document.querySelector('.hall') !== null && document.documentElement.dataset.ready === 'true'");
    }
}

/** How many seconds the weather may take to its row 1000, at once, on a computer that has nothing else to do. */
const LONGEST_WEATHER = Number(process.env.LONGEST_WEATHER ?? 3);

/** The weather up to its row 1000, at once: its paper is that of the example up to there. Gives the seconds. */
async function weatherFast(browser, address) {
    await browser.open(`${address}?lang=en&door=work#weather/lorenz`);
    await browser.value("laboratoryOfPage().command(...laboratoryOfPage().rules.map(() => 'drop 0'))");
    const [seconds, paper] = await browser.value(`(async () => {
        const [laboratory, began] = [laboratoryOfPage(), performance.now()];
        await laboratory.runUntil(() => /\\n1000 .*\\n/.test(laboratory.printed.text), 20_000, 5_000_000);
        return [(performance.now() - began) / 1000, laboratory.printed.text];
    })()`);
    assert.ok(expectedOf("weather/lorenz").startsWith(paper.slice(0, paper.lastIndexOf("\n"))));
    assert.match(paper, /\n1000 /);
    assert.ok(seconds <= LONGEST_WEATHER, `${seconds.toFixed(1)} seconds`);
    return `${seconds.toFixed(1)} seconds to row 1000`;
}

const VISITS = {
    weatherByKeys: (browser, address, pictures) => weather(browser, address, PRESSES.keys, "en", ACROSS, pictures),
    weatherByTouches: (browser, address, pictures) => weather(browser, address, PRESSES.touches, "de", UPRIGHT, pictures),
    loopByKeys: (browser, address, pictures) => loop(browser, address, PRESSES.keys, "en", ACROSS, pictures),
    loopByTouches: (browser, address, pictures) => loop(browser, address, PRESSES.touches, "de", UPRIGHT, pictures),
    formulaByKeys: (browser, address, pictures) => formula(browser, address, PRESSES.keys, "de", ACROSS, pictures),
    formulaByTouches: (browser, address, pictures) => formula(browser, address, PRESSES.touches, "en", UPRIGHT, pictures),
    twentyOneByKeys: (browser, address, pictures) => twentyOne(browser, address, PRESSES.keys, "de", ACROSS, pictures),
    twentyOneByTouches: (browser, address, pictures) => twentyOne(browser, address, PRESSES.touches, "en", UPRIGHT, pictures),
    primesByKeys: (browser, address, pictures) => primes(browser, address, PRESSES.keys, "en", ACROSS, pictures),
    primesByTouches: (browser, address, pictures) => primes(browser, address, PRESSES.touches, "de", UPRIGHT, pictures),
    weatherFast, exhibitsByTab, exhibitsChosen, exhibitOfOnesOwn, exhibitsAtRandom, exhibitsFit,
};

/** The visits of the page at an address, by their names. */
const made = (visit, address, pictures) => async (browser) => {
    const did = await visit(browser, address, pictures);
    await browser.open(`${address}?lang=en&door=work`);
    await browser.size(1500, 1250);
    return did;
};

export const visitsOfExhibits = (address, pictures) => Object.fromEntries(
    Object.entries(VISITS).map(([name, visit]) => [name, made(visit, address, pictures)])
);
