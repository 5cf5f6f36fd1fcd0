// Plays an exhibit of the kiosk without a browser, by the module: each scene that its buttons lead to, on the shortest way. Its clock goes
// as fast as it is asked.
import { Controller } from "./controller.mjs";
import { Drive } from "./drive.mjs";
import { FIRST } from "./exhibits.mjs";
import { ModuleLink } from "./module_link.mjs";
import { Player } from "./player.mjs";
import { Running } from "./running.mjs";

/** A moment, in which others go on. */
const tick = () => new Promise((resolve) => { setImmediate(resolve); });

/** A clock that goes as fast as it is asked. */
export function fastClocks() {
    const time = { now: 0 };
    return { time, now: () => time.now, sleep: async (milliseconds) => { time.now += milliseconds; await tick(); } };
}

/**
 * An exhibit at a machine of its own. `settings` has `module`, the module's file, `scriptOf`, which gives an example's text, and what else
 * the exhibit takes.
 */
export async function trialOf(exhibit, { module, ...settings }) {
    const laboratory = new Controller(new ModuleLink(module));
    await laboratory.open();
    const [player, { time, ...clocks }] = [new Player(), fastClocks()];
    const drive = new Drive(laboratory, player, () => laboratory.run(), clocks);
    // an order takes as long as it is played, and is over at once
    drive.addEventListener("play", () => {
        time.now += (1000 * player.at().account.sum) / player.pace;
        setImmediate(() => drive.played());
    });
    const running = new Running(laboratory, drive, exhibit, { isStill: () => false, ...clocks, ...settings });
    return { laboratory, drive, running, clocks };
}

const buttonsOf = (exhibit, scene) => (
    exhibit.scenes[scene].buttons.map((it, place) => ({ number: place + 1, ...(typeof it === "object" ? it : {}) }))
);

/** The shortest ways to all scenes: the numbers of the buttons that lead there from the first one, and whether it follows by itself. */
export function waysTo({ scenes, ...exhibit }) {
    const ways = new Map([[FIRST, []]]);
    for (const [scene, way] of ways) {
        for (const { number, to } of buttonsOf({ ...exhibit, scenes }, scene)) {
            if (to !== undefined && !ways.has(to)) ways.set(to, [...way, number]);
        }
        const { then } = scenes[scene];
        if (then !== undefined && !ways.has(then)) ways.set(then, [...way, "then"]);
    }
    return ways;
}

/** What is wrong at a machine: a line that was refused, or a source with a fault. */
function troubleIn({ notice, assembled }) {
    const [fault] = assembled?.faults ?? [];
    if (fault !== undefined) return `the source has a fault: ${JSON.stringify(fault)}`;
    if (notice?.kind === "refusal") return `the machine refuses the line "${notice.line}": ${notice.reason ?? notice.kind}`;
    return notice === null ? null : `the machine says ${notice.kind}${notice.detail === undefined ? "" : `: ${notice.detail}`}`;
}

/** The places that a scene names and that are no labels of its program. */
function unknownPlaces(scene, { labels }) {
    const names = [...labels.values()].flat();
    const actions = [...scene.do ?? [], ...scene.buttons.flatMap((it) => it?.do ?? [])];
    const named = [
        ...actions.flatMap(({ to, carry }) => [to?.place, carry]),
        ...scene.captions.map(({ place }) => place),
        scene.beside?.bits,
        scene.beside?.orders,
        scene.beside?.words,
    ];
    return [...new Set(named)].filter((place) => place !== undefined && !/^\d{4}$/.test(place) && !names.includes(place));
}

/** Goes a way, and has the scene at its end played to its end. */
async function gone(way, { running, laboratory }) {
    for (const step of way) {
        await (step === "then" ? running.enter(running.exhibit.scenes[running.scene].then, running.bet) : running.press(step));
    }
    if (way.length === 0) await running.enter(FIRST);
    await laboratory.settled();
}

/**
 * Plays all scenes. Gives what is wrong, as sentences, and what did not come about, which may be as it should be, where chance or a visitor
 * decides.
 */
export async function played(exhibit, settings) {
    const [wrong, remarks, ways] = [[], [], waysTo(exhibit)];
    for (const scene of Object.keys(exhibit.scenes)) if (!ways.has(scene)) remarks.push(`scenes.${scene}: no button leads to it.`);
    for (const [scene, way] of ways) {
        const trial = await trialOf(exhibit, settings);
        await gone(way, trial);
        const [{ running, laboratory }, it] = [trial, exhibit.scenes[scene]];
        const trouble = troubleIn(laboratory);
        if (trouble !== null) wrong.push(`scenes.${scene}: ${trouble}.`);
        for (const place of unknownPlaces(it, laboratory)) {
            wrong.push(
                `scenes.${scene}: "${place}" is not a label of its program. The labels are ${[...laboratory.labels.values()].flat().join(", ")}.`
            );
        }
        const come = new Set(running.come);
        for (const { number, to, do: actions } of buttonsOf(exhibit, scene)) {
            if (actions === undefined || to !== undefined) continue;
            await running.press(number);
            for (const caption of running.come) come.add(caption);
        }
        it.captions.forEach((caption, place) => {
            if (!come.has(caption) && caption.bet === undefined) {
                remarks.push(`scenes.${scene}.captions[${place}] did not come about here.`);
            }
        });
        running.leave();
    }
    return { wrong, remarks, scenes: ways.size };
}
