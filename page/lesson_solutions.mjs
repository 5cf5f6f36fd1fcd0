// What a pupil who makes no mistake does in each step of the lessons: so their answers are made, and so the machine is brought to a step
// that an address names.

const steps = (orders) => (it) => it.step(orders);
const types = (...lines) => (it) => it.say(...lines);
const starts = (it) => it.command("press start");
const runs = (it) => it.run();
const one = (...actions) => async (it) => { for (const action of actions) await action(it); };
const puts = (words) => types(...words.map((word) => `put ${word}`));

/** What is done in each step before it is done or asked; null where nothing is. */
export const SOLUTIONS = {
    "a-computer-on-a-drum": [
        null, null,
        types("put 0000 b 0050", "put 0050 = 6"), one(starts, steps(1)), null, null, null, null, null, steps(1),
        steps(2), steps(2), one(types("put 0000 b 0043"), starts, steps(2)), null,
        types("put 0000 p =h", "put 0001 p =i", "put 0002 z 0000"),
        one(starts, steps(1)),
        steps(2),
        one((it) => it.back(1), (it) => it.back(1)),
        one(types("put 0000 p =d", "put 0001 p =r", "put 0002 p =u", "put 0003 p =m"), starts, runs), null, steps(4),
    ],
    "rewriting": [
        types("put 0000 00010004"), null, types("put 0000 00010008"), types("put 0000 00010100"), null,
        steps(3), steps(1), steps(2), one(types("watch 0001"), runs), runs,
        steps(3), null, steps(1), (it) => it.back(1), steps(9), runs, null,
        steps(7), steps(7), null,
    ],
    "reading-a-listing": [
        puts(["0200 00010300", "0201 000w0304", "0202 000g0214", "0203 000j0300", "0204 000f0200", "0205 00000000"]),
        puts(["0300 00000014", "0301 00000002"]),
        null,
        null,
        types("go 0200", "break 0200"), runs, steps(5), null, one(types("drop 0"), runs, (it) => it.showAt("0300")),
    ],
    "where-a-word-costs-least": [
        steps(2), steps(2), null, runs, (it) => it.askCosts("0128"), null, null, (it) => it.askCosts("0129"), (it) => it.askCosts("0132"),
    ],
    "what-can-a-forecast-know": [
        one(types("break steps"), runs, runs, runs), types("numbers x 1"),
        one(types("run 188800", "press transfer down"), runs),
        one(
            ...["1000", "-0059", "-0058"].flatMap((number) => [types(`type ${number} '`), runs]), types("type 0240 '", "press transfer up")
        ),
        types("run 79500"), null,
        types("run 160000"), null,
    ],
};

/**
 * Brings the machine to a step: the part's beginning is set up by `open`, and what the steps between ask for is done. `steps` are those of
 * the lesson, with their lines.
 */
export async function bringTo(laboratory, name, steps, place, open) {
    const first = steps.findLastIndex((step, at) => at <= place && step.isSetUp);
    if (first < 0) return;
    await open(steps[first]);
    for (let at = first; at < place; at += 1) {
        if (steps[at].shows !== undefined) await laboratory.showAt(steps[at].shows);
        await SOLUTIONS[name][at]?.(laboratory);
    }
}
