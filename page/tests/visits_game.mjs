// Visits of a game at the kiosk: one is won, with each move of the machine at its own pace or hurried, and one is lost.
import assert from "node:assert/strict";
import { disorder, faint, nameless } from "./access.mjs";

const toldIn = (browser) => browser.value("document.querySelector('.kiosk-told').textContent");
const heap = (browser) => (
    browser.value("[document.querySelectorAll('.heap .match').length, document.querySelectorAll('.heap .taken').length]")
);
const press = (browser, count) => browser.press(`#kiosk-${count}`);

/** Waits until the text at the top is this one, and nothing moves. */
const until = (browser, text) => browser.waitFor(`document.querySelector('.kiosk-told').textContent.startsWith(${JSON.stringify(text)})`);

/** A move of the visitor's, and of the machine's, which another press hurries. */
async function move(browser, count, [runs, then]) {
    await press(browser, count);
    await until(browser, runs);
    await press(browser, 1);
    await until(browser, then);
}

/** What of the kiosk lies outside of the window. */
const outside = (browser) => browser.value(`[...document.querySelectorAll("#page *")].filter((it) => it.checkVisibility() && it.closest(".unseen, .well, .paper, .heap svg, .carriage g, .reader > *") === null).filter((it) => {
    const { left, top, right, bottom } = it.getBoundingClientRect();
    return left < -1 || top < -1 || right > innerWidth + 1 || bottom > innerHeight + 1;
}).map((it) => it.tagName + "." + it.className)`);

const TEXTS = {
    en: {
        turn: "It is your turn", runs: "It is the machine's turn", took: "The machine has taken", won: "You have won!",
        lost: "The machine has won",
    },
    de: {
        turn: "Du bist am Zug", runs: "Die Maschine ist am Zug", took: "Die Maschine hat", won: "Du hast gewonnen!",
        lost: "Die Maschine hat gewonnen",
    },
};

/**
 * A whole game in a language: each move of the visitor's and what is left after that of the machine's, and how it ends when the visitor
 * takes three.
 */
async function whole(browser, texts, moves, ends) {
    assert.deepEqual(await heap(browser), [21, 0]);
    for (const [count, left] of moves) {
        await move(browser, count, [texts.runs, texts.took]);
        await browser.waitFor(`document.querySelectorAll('.heap .match').length === ${left}`);
    }
    await move(browser, 3, [texts.runs, ends]);
    assert.deepEqual(await heap(browser), [0, 21]);
}

/**
 * A visitor at the kiosk plays to win and to lose, and then begins another game by a press; the second press of a double one does nothing.
 */
async function game(browser, address) {
    await browser.ask?.("Accessibility.enable");
    for (const code of ["en", "de"]) {
        const texts = TEXTS[code];
        await browser.size(1024, 768);
        await browser.open(`${address}?kiosk=games/matches&lang=${code}`);
        await browser.waitFor("document.querySelector('.drum-box').dataset.moving === 'true'");
        await browser.press(".kiosk-told");
        await until(browser, texts.turn);
        assert.deepEqual(
            [await heap(browser), await browser.value("[...document.querySelectorAll('.kiosk-bar button')].length")], [[21, 0], 4]
        );
        for (const [width, height] of [[1920, 1080], [1024, 768], [768, 1024], [1080, 1920], [390, 844]]) {
            await browser.size(width, height);
            assert.deepEqual(
                [await outside(browser), await browser.value("document.documentElement.scrollHeight <= innerHeight")],
                [[], true],
                `at ${width} by ${height}`
            );
        }
        await browser.size(1024, 768);
        await browser.value("document.querySelector('#kiosk-1').dispatchEvent(new MouseEvent('click', { detail: 2 }))");
        await browser.value("laboratoryOfPage().settled()");
        assert.equal((await toldIn(browser)).slice(0, texts.turn.length), texts.turn);
        assert.deepEqual([...await disorder(browser), ...await nameless(browser), ...await faint(browser)], []);
        await whole(browser, texts, [[1, 19], [3, 15], [3, 11], [3, 7], [3, 3]], texts.won);
        await press(browser, 1);
        await until(browser, texts.turn);
        await whole(browser, texts, [[3, 16], [1, 12], [3, 8], [2, 4]], texts.lost);
        assert.match(await browser.value("document.querySelector('.paper').textContent"), /4; you take 3\n1; i take 1\ni win/);
        await press(browser, 1);
        await until(browser, texts.turn);
        assert.deepEqual(await heap(browser), [21, 0]);
    }
    await browser.ask?.("Accessibility.disable");
    await browser.size(1500, 1250);
}

/** A move of the machine at its own pace ends by itself, in the sight of the visitor. */
async function gameAtItsPace(browser, address) {
    await browser.open(`${address}?kiosk=games/matches&lang=en`);
    await press(browser, 3);
    await until(browser, "It is your turn");
    await press(browser, 1);
    await until(browser, "It is the machine's turn");
    await browser.waitFor("document.querySelectorAll('.heap .match').length === 20");
    assert.match(await toldIn(browser), /^It is the machine's turn/);
    await until(browser, "The machine has taken 1. It is your turn");
    assert.deepEqual(await heap(browser), [19, 2]);
}

/** The visits of the page at an address, by their names. */
export const visitsOfGames = (address) => (
    { game: (browser) => game(browser, address), gameAtItsPace: (browser) => gameAtItsPace(browser, address) }
);
