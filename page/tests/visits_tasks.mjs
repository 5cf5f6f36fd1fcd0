// Visits of the tasks: a pupil solves each one at the page, and gets the sentences that lie beside the solutions in teaching/tasks.
import assert from "node:assert/strict";
import { readFileSync, readdirSync } from "node:fs";
import { dirname, join } from "node:path";
import { fileURLToPath } from "node:url";
import { disorder, faint, nameless, noteMouse, unreached } from "./access.mjs";

const solutions = join(dirname(fileURLToPath(import.meta.url)), "../../teaching/tasks/solutions");
const read = (name) => readFileSync(join(solutions, name), "utf8");
const names = readdirSync(solutions).filter((name) => name.endsWith(".en")).map((name) => name.slice(0, -".en".length));

const settled = (browser) => browser.value("laboratoryOfPage().settled()");
const answerOf = (browser) => browser.value("[...document.querySelectorAll('.task-answer :is(p, li)')].map((it) => it.textContent)");
const sourceOf = (browser) => browser.written(".task-desk");

async function choose(browser, name) {
    await browser.value(`document.querySelector('[data-task="${name}"]').click()`);
}

async function write(browser, source) {
    await browser.write(source, ".task-desk");
}

/** What the check says of a source. */
async function checked(browser, source) {
    await write(browser, source);
    assert.deepEqual(await answerOf(browser), []);
    await browser.press("#check-task");
    await browser.waitFor("document.querySelector('.task-answer').textContent !== ''");
    return answerOf(browser);
}

/** What lies beside the solutions of a task for one of its files, with the name that the page gives the file. */
function besides(name, kind, code) {
    const said = read(`${name}.${code}`).split(/\n(?! |$)/).find((text) => text.startsWith(`${name}${kind}.source: `));
    return said.trim().replace(`${name}${kind}.source`, `${name}.source`).split("\n").map((line) => line.trim());
}

/** What of a task does not lie in the window, or whether the page had to be scrolled. */
const outside = (browser) => browser.value(`[...(scrollY === 0 ? [] : ["scrolled"]), ...[".task-text", ".task-desk .editor", "#check-task", "#put-task", ".task-answer", ".drum-box", "#step", "#go-on", ".scope", ".listing form", ".paper"].filter((it) => {
    const { top, left, right, bottom, height } = document.querySelector(it).getBoundingClientRect();
    return top < 0 || left < 0 || right > innerWidth || bottom > innerHeight || height < 30;
})]`);

/** Each task, once with its solution and once with a usual mistake, in both languages, on a small screen. */
async function tasks(browser, address) {
    await browser.size(1366, 768);
    for (const code of ["en", "de"]) {
        await browser.open(`${address}?lang=${code}&door=learn`);
        assert.equal(await browser.value("document.querySelector('.tasks').checkVisibility()"), false);
        for (const name of names) {
            await choose(browser, name);
            assert.equal(
                await browser.value("document.querySelector('.task-text h3').textContent"),
                /^# (.*)$/m.exec(read(`../${name}/${code}.md`))[1]
            );
            assert.deepEqual(await outside(browser), [], name);
            for (const kind of ["", ".wrong-1"]) {
                assert.deepEqual(
                    await checked(browser, read(`${name}${kind}.source`)), besides(name, kind, code), `${name}${kind} in ${code}`
                );
            }
            assert.deepEqual(await outside(browser), [], name);
        }
    }
    await browser.size(1500, 1250);
    return 4 * names.length;
}

/** A lesson or a task is open, never both, and the choice has its title. */
async function lessonAndTask(browser) {
    const seen = () => browser.value(
        "[...['.tasks', '.steps'].map((it) => document.querySelector(it).checkVisibility()), document.querySelector('.lesson summary').textContent]"
    );
    const titleOf = (selector) => browser.value(`document.querySelector(${JSON.stringify(selector)}).textContent`);
    const [rewriting, sum] = ["[data-lesson='rewriting']", "[data-task='sum']"];
    for (const [open, isTask] of [[rewriting, false], [sum, true], [rewriting, false]]) {
        await browser.press(".lesson summary");
        await browser.press(open);
        await settled(browser);
        assert.deepEqual(await seen(), [isTask, !isTask, await titleOf(open)]);
    }
}

/**
 * A source stays where the page is opened again and in another language, and is begun anew; its machine is set up as the first try begins,
 * with the source or, where that has faults, without it.
 */
async function taskSources(browser, address) {
    await browser.open(`${address}?lang=en&door=learn`);
    for (const name of ["faster", "sum"]) await choose(browser, name).then(() => browser.press("#begin-task"));
    await write(browser, read("sum.source"));
    await browser.open(`${address}?lang=en&door=learn`);
    await choose(browser, "sum");
    assert.equal(await sourceOf(browser), read("sum.source"));
    await browser.value(
        "(() => { const it = document.querySelector('#language'); it.value = 'de'; it.dispatchEvent(new Event('change')); })()"
    );
    assert.deepEqual(
        [await sourceOf(browser), await browser.value("document.querySelector('.task-text h3').textContent")],
        [read("sum.source"), /^# (.*)$/m.exec(read("../sum/de.md"))[1]]
    );
    const put = async () => {
        await browser.press("#put-task");
        await browser.waitFor("document.querySelector('.task-answer').textContent !== ''");
        await settled(browser);
    };
    await put();
    assert.deepEqual(
        [await browser.value("laboratoryOfPage().panel.status"), await answerOf(browser)],
        ["going", ["Die Maschine steht, wo der erste Versuch beginnt: Schritt und Weiter gehen von hier aus weiter."]]
    );
    await browser.value("laboratoryOfPage().run()");
    assert.equal(await browser.value("laboratoryOfPage().say('words 0302 1')"), "0302 00000018\n");
    await write(browser, read("sum.wrong-2.source"));
    await put();
    assert.deepEqual(await answerOf(browser), besides("sum", ".wrong-2", "de"));
    assert.deepEqual(
        [await browser.value("laboratoryOfPage().say('words 0300 2')"), await browser.value("laboratoryOfPage().say('words 0000 1')")],
        ["0300 0000000f\n0301 0000000q\n", "0000 00000000\n"]
    );
    await browser.press("#begin-task");
    assert.equal(await sourceOf(browser), "");
    await choose(browser, "faster");
    assert.match(await sourceOf(browser), /week +a wage +; eine Woche: der Lohn kommt herein/);
    await lessonAndTask(browser);
}

/**
 * The part with a task is for everyone: names, contrast and headings in light and dark, and the way by Tab, which is gone in Chromium; and
 * at each width nothing has to be scrolled sideways.
 */
async function taskForAll(browser, address) {
    await browser.ask?.("Accessibility.enable");
    for (const code of ["en", "de"]) {
        const isByTab = browser.engine === "Chromium";
        const endNoting = isByTab ? await noteMouse(browser) : null;
        await browser.open(`${address}?lang=${code}&door=learn`);
        await endNoting?.();
        await choose(browser, "sum");
        if (isByTab) assert.deepEqual(await unreached(browser), []);
        for (const kind of ["", ".wrong-2"]) {
            await checked(browser, read(`sum${kind}.source`));
            for (const scheme of browser.media === undefined ? [null] : ["light", "dark"]) {
                await browser.media?.({ "prefers-color-scheme": scheme });
                assert.deepEqual([...await disorder(browser), ...await nameless(browser), ...await faint(browser)], [], `${scheme}`);
            }
            await browser.media?.({});
        }
        for (const width of [380, 768, 1024, 1920]) {
            await browser.size(width, 900);
            assert.deepEqual(
                await browser.value(
                    "[document.documentElement.scrollWidth <= innerWidth, ...['.task-text', '.task-answer'].map((it) => document.querySelector(it)).map((it) => it.scrollWidth <= it.clientWidth + 1)]"
                ),
                [true, true, true],
                `${width}`
            );
        }
        for (const [width, height] of [[1280, 720], [1920, 1080]]) {
            await browser.size(width, height);
            assert.deepEqual(await outside(browser), [], `${width}`);
        }
        await browser.press("#begin-task");
    }
    await browser.size(1500, 1250);
    await browser.ask?.("Accessibility.disable");
}

/**
 * The files of a class, dropped on a task, are all checked, and what is said of them can be saved; the pupil's own source stays as it is.
 */
async function taskClass(browser, address) {
    await browser.open(`${address}?lang=de&task=sum`);
    await write(browser, "start z\n end start\n");
    const texts = ["sum.source", "sum.wrong-1.source"].map(read);
    await browser.value(`void document.body.dispatchEvent(Object.assign(new Event("drop", { bubbles: true, cancelable: true }), { dataTransfer: {
        files: Array.from({ length: 30 }, (unused, pupil) => new File([${JSON.stringify(texts)}[pupil % 2]], String(pupil).padStart(2, "0") + ".source")) } }))`);
    await browser.waitFor("document.querySelector('dialog #save-class')");
    assert.equal(await browser.value("document.querySelector('dialog p').textContent"), "15 von 30 Dateien sind richtig.");
    const told = await browser.value(
        "document.querySelector('dialog pre').textContent.split('\\n').filter((line) => !line.startsWith('    '))"
    );
    assert.deepEqual(
        [told.length, told[0].startsWith("00.source: richtig"), told[1].startsWith("01.source: noch nicht")], [31, true, true]
    );
    await browser.closeDialog();
    assert.equal(await sourceOf(browser), "start z\n end start\n");
}

/** The visits of the page at an address, by their names. */
export const visitsOfTasks = (address) => Object.fromEntries(
    Object.entries({ tasks, taskSources, taskForAll, taskClass }).map(([name, visit]) => [name, (browser) => visit(browser, address)])
);
