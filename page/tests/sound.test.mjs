// The sound, over a made-up audio context that notes what is asked of it.
import assert from "node:assert/strict";
import { test } from "node:test";
import { WORD_TIME } from "../drive.mjs";
import { Sound, follow } from "../sound.mjs";

/** A context at rest at a time that a test sets. */
function madeUp() {
    const noted = { contexts: 0, strokes: [], hum: [], state: [] };
    const param = (name) => ({ value: 0, setTargetAtTime: (value) => noted.hum.push([name, value]) });
    const node = (fields) => ({ connect: (next) => next, start: (at) => at !== undefined && noted.strokes.push(at), ...fields });
    const context = {
        currentTime: 5, sampleRate: 1000, destination: {}, resume: () => noted.state.push("on"), suspend: () => noted.state.push("off"),
        createOscillator: () => node({ frequency: param("frequency") }),
        createGain: () => node({ gain: param("gain") }),
        createBufferSource: () => node({ playbackRate: {} }),
        createBuffer: (channels, length) => ({ getChannelData: () => new Float32Array(length) }),
    };
    return { noted, sound: new Sound(() => { noted.contexts += 1; return context; }) };
}

test("nothing sounds, and nothing is opened, before the sound is switched on; switched off it is silent again", () => {
    const { noted, sound } = madeUp();
    sound.strokes(3);
    sound.work("find");
    sound.switchTo(false);
    assert.deepEqual(noted, { contexts: 0, strokes: [], hum: [], state: [] });
    sound.switchTo(true);
    sound.switchTo(false);
    sound.strokes(1);
    sound.switchTo(true);
    assert.deepEqual([noted.contexts, noted.strokes, noted.state], [1, [], ["on", "off", "on"]]);
});

test("each sign is a stroke, one after another, and of many at once the first ones", () => {
    const { noted, sound } = madeUp();
    sound.switchTo(true);
    sound.strokes(2);
    sound.strokes(1);
    assert.deepEqual(noted.strokes.map((at) => at.toFixed(2)), ["5.00", "5.09", "5.18"]);
    sound.strokes(20_000);
    assert.equal(noted.strokes.length, 9);
});

test("a return of the carriage is heard longer than a stroke, and ends with one", () => {
    const { noted, sound } = madeUp();
    sound.goBack();
    sound.switchTo(true);
    sound.strokes(1);
    sound.goBack();
    sound.strokes(1);
    assert.deepEqual(noted.strokes.map((at) => at.toFixed(2)), ["5.00", "5.09", "5.37", "5.46"]);
});

test("where a new line was printed last the carriage is heard in place of a stroke", () => {
    const heard = [];
    const laboratory = { printed: { count: 0, text: "" } };
    const view = follow(
        laboratory,
        { strokes: (count) => heard.push(count), goBack: () => heard.push("back"), work: () => {} },
        { playing: () => null, held: () => null, isFast: () => false }
    );
    for (const [count, text] of [[1, "h"], [2, "h\n"], [2, "h\n"], [5, "h\nab\n"]]) {
        laboratory.printed = { count, text };
        view.show();
    }
    assert.deepEqual(heard, [1, 0, "back", 2, "back"]);
});

test("while the page is hidden nothing sounds, and the sound goes on when it is seen again, if it is on", () => {
    const { noted, sound } = madeUp();
    sound.hide(true);
    sound.hide(false);
    sound.switchTo(true);
    for (const isHidden of [true, false, true]) sound.hide(isHidden);
    sound.switchTo(false);
    sound.hide(false);
    assert.deepEqual([noted.contexts, noted.state], [1, ["on", "off", "on", "off", "off"]]);
});

test("at its own pace the hum swings as often as the drum turns, and an octave higher where that is faster; when the machine stops it ends", () => {
    const { noted, sound } = madeUp();
    let [pace, isFast] = ["own", true];
    const view = follow(
        { printed: { count: 0, text: "" } }, sound, { playing: () => null, held: () => null, isFast: () => isFast, pace: () => pace }
    );
    sound.switchTo(true);
    view.frame();
    pace = "fast";
    view.frame();
    [pace, isFast] = [null, false];
    view.frame();
    const turns = 1000 / WORD_TIME / 64;
    assert.deepEqual(noted.hum, [["frequency", turns], ["gain", 0.05], ["frequency", 2 * turns], ["gain", 0.05], ["gain", 0]]);
});

test("the hum changes with the phase, once, and ends at rest", () => {
    const { noted, sound } = madeUp();
    sound.switchTo(true);
    for (const kind of ["find", "find", "seek", null, null]) sound.work(kind);
    assert.deepEqual(noted.hum, [["frequency", 82], ["gain", 0.05], ["frequency", 98], ["gain", 0.05], ["gain", 0]]);
});

test("the sound follows the page: what is printed when it is printed, and the phase that is played", () => {
    const heard = [];
    const laboratory = { printed: { count: 4, text: "" } };
    let at = null;
    const showing = { playing: () => at, held: () => (at === null || at.done ? null : at.account), isFast: () => false };
    const view = follow(laboratory, { strokes: (count) => heard.push(count), work: (kind) => heard.push(kind) }, showing);
    view.show();
    laboratory.printed = { count: 5, text: "h" };
    at = { account: { printed: { code: 46 } }, phase: "act", done: false };
    view.show();
    at = { ...at, done: true };
    view.show();
    laboratory.printed = { count: 0 };
    view.show();
    assert.deepEqual(heard, [null, "act", 1, null, null]);
});
