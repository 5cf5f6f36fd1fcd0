// Visits of the time line: the whole run is on it, each moment is there while the hand drags and when it rests, and what comes after that
// can be gone to again.
import assert from "node:assert/strict";

const settled = (browser) => browser.value("laboratoryOfPage().settled()");
const placeNow = (browser) => browser.value("(({ history: { behind, ahead } }) => [behind, ahead])(laboratoryOfPage())");
/** Prints a row after each hundred rounds of a loop that counts. */
const ROWS = `start   b hundred
        h left
loop    b left
        s one
        h left
        t row
        u loop
row     p =q
        p 1600
        b count
        a one
        h count
        u start
left    int 0 30
count   int 0 30
hundred int 100 30
one     int 1 30
        end start
`;

async function opened(browser, address, orders, source = ROWS) {
    await browser.open(`${address}?lang=en&door=work`);
    await browser.write(source);
    await browser.press("#load");
    await settled(browser);
    await browser.value(`laboratoryOfPage().say("press start", ...Array(${orders / 20_000}).fill("run 20000"))`);
}

/** Where on the screen a place of the run is, as a share of it. */
const pointAt = (browser, share) => browser.value(
    `(({ left, width, top, height }) => [left + 5 + ${share} * (width - 10), top + height / 2].map(Math.round))(document.querySelector('.along input').getBoundingClientRect())`
);

/** A hand drags over the whole run: far beyond the orders that are kept, each picture comes soon, and what is ahead stays, paler. */
async function dragged(browser, address) {
    await opened(browser, address, 200_000);
    const end = await browser.value("String(laboratoryOfPage().panel.clock)");
    await browser.lead([await pointAt(browser, 0.999), "down"]);
    const times = [];
    for (const share of [0.9, 0.6, 0.3, 0.5, 0.2, 0.4]) {
        await browser.lead([await pointAt(browser, share)]);
        times.push(await browser.value(
            "(async () => { const begun = performance.now(); await laboratoryOfPage().settled(); return performance.now() - begun; })()"
        ));
        const [behind, ahead] = await placeNow(browser);
        assert.ok(Math.abs(behind / (behind + ahead) - share) < 0.01, `${behind} of ${behind + ahead} at ${share}`);
    }
    await browser.lead(["up"]);
    await settled(browser);
    const [behind, ahead] = await placeNow(browser);
    assert.equal(behind + ahead, 200_000);
    assert.deepEqual(
        await browser.value("(({ later, marks }) => [Number(later), marks.includes('r'), marks.includes('h')])(document.querySelector('.timeline').dataset)"),
        [ahead, true, true]
    );
    assert.equal(await browser.value("document.querySelectorAll('.accounts .above').length"), 12);
    assert.match(await browser.value("document.querySelector('.when output').textContent"), /^order [\d,]+ of 200,000$/);
    await browser.lead([await pointAt(browser, 0.4), "down", await pointAt(browser, 1), "up"]);
    await settled(browser);
    assert.deepEqual([await placeNow(browser), await browser.value("String(laboratoryOfPage().panel.clock)")], [[200_000, 0], end]);
    return Math.max(...times);
}

/** What is left where something else is done is among the works, and a reload loses nothing of what is ahead. */
async function leftLater(browser, address) {
    await opened(browser, address, 20_000);
    await browser.value("laboratoryOfPage().command('press bp32 down')");
    await browser.value("laboratoryOfPage().run(3000)");
    await browser.value("laboratoryOfPage().goTo(700)");
    await new Promise((resolve) => setTimeout(resolve, 900));
    await browser.value("(globalThis.isOld = true, location.reload())").catch(() => {});
    await browser.waitFor(
        "globalThis.isOld === undefined && document.documentElement.dataset.ready === 'true' && laboratoryOfPage().history.ahead > 0"
    );
    await settled(browser);
    assert.deepEqual(await placeNow(browser), [700, 22_300]);
    await browser.value("laboratoryOfPage().command('press bp4 down')");
    assert.deepEqual(await placeNow(browser), [700, 0]);
    await browser.press("#works");
    const other = "document.querySelector('dialog .works [data-work]')";
    assert.match(await browser.value(`${other}.parentElement.textContent`), /later part/);
    await browser.value(`${other}.click()`);
    await browser.waitFor("laboratoryOfPage().history.behind === 23000");
    await settled(browser);
    assert.equal(await browser.value("laboratoryOfPage().panel.down.bp32"), true);
}

/** A row of the paper leads to the order that typed it. */
async function toTheOrder(browser, address) {
    await opened(browser, address, 20_000);
    await browser.press("#pull-up");
    await browser.value("document.querySelectorAll('.piece-right [data-row]')[3].click()");
    await browser.press("#to-its-order");
    await settled(browser);
    assert.deepEqual(
        await browser.value("[laboratoryOfPage().printed.text.split('\\n').length, laboratoryOfPage().labels.get(laboratoryOfPage().panel.counter), document.querySelector('.pulled-up').hidden]"),
        [4, ["row"], true]
    );
}

/** Who has put a word there long ago is found, and a press goes to that moment. */
async function whoLongAgo(browser, address) {
    await opened(browser, address, 20_000);
    await browser.value("laboratoryOfPage().say('press manual', 'put 0100 = 5', 'press normal', 'press start', 'run 20000', 'run 20000')");
    await browser.value("laboratoryOfPage().showAt('0100')");
    await settled(browser);
    await settled(browser);
    await browser.value("document.querySelector('tr[data-address=\"0100\"] button').click()");
    await browser.waitFor("document.querySelector('.why').textContent !== ''");
    assert.match(
        await browser.value("document.querySelector('.why').textContent"),
        /^As it was after order 20,000: 0100: 0000000f = 5, put there by hand, clock \d+; before it was z 0000 Go there$/
    );
    await browser.press(".go-there");
    await settled(browser);
    assert.deepEqual(await placeNow(browser), [20_000, 40_000]);
}

/** A long way says how far it is, and Escape ends it there, on whatever engine; nothing is lost of what is ahead. */
async function longWay(browser, address) {
    await opened(browser, address, 20_000, ROWS.replace("int 100 ", "int 99999 "));
    await browser.value("laboratoryOfPage().say('run 12000000')");
    await browser.value(`(() => {
        const slider = document.querySelector(".along input");
        globalThis.saidOnTheWay = [];
        laboratoryOfPage().addEventListener("change", () => {
            if (laboratoryOfPage().progress === null) return;
            saidOnTheWay.push(document.querySelector("#progress").textContent);
            if (laboratoryOfPage().progress.at >= 2_000_000) slider.dispatchEvent(new KeyboardEvent("keydown", { key: "Escape", bubbles: true }));
        });
    })()`);
    await browser.value("laboratoryOfPage().goTo(11_000_000)");
    assert.deepEqual(await placeNow(browser), [2_000_000, 10_020_000]);
    assert.equal(await browser.value("saidOnTheWay[0]"), "performed again: order 500,000 of 11,000,000; Escape stops");
    assert.equal(await browser.value("document.querySelector('#progress').textContent"), "");
}

const VISITS = { dragged, leftLater, toTheOrder, whoLongAgo, longWay };

/** The visits, each by its name. */
export const visitsOfTimeline = (address) => (
    Object.fromEntries(Object.entries(VISITS).map(([name, visit]) => [name, (browser) => visit(browser, address)]))
);
