// What each step of the lessons waits for, or asks: by what the laboratory has of the monitor's replies. The texts of the steps are in
// teaching/lessons.
import { SECTORS, inTwoDigits } from "./addresses.mjs";
import { placesTo, positionOf } from "./machine.mjs";
import { wholeOf } from "../libraries/javascript/replies.mjs";

const wordAt = ({ words }, address) => words.find((word) => word.address === address);
const isOrderAt = (address, order) => (laboratory) => wordAt(laboratory, address)?.order === order;
const orderAt = (address) => (laboratory) => wordAt(laboratory, address)?.order ?? null;
const digitsAt = (address) => (laboratory) => wordAt(laboratory, address)?.digits ?? null;

/** Whether words are as on a list of addresses and digits. */
const areWords = (...listed) => (laboratory) => listed.every((line) => digitsAt(line.slice(0, 4))(laboratory) === line.slice(5));
const all = (...conditions) => (laboratory) => conditions.every((condition) => condition(laboratory));

const placesOf = (sector) => ({ panel }) => String(placesTo(sector, panel.clock));

/** The sector that the head reads next. */
const comesNext = ({ panel }) => (
    inTwoDigits(Array.from({ length: SECTORS }, (unused, sector) => sector).find((sector) => placesTo(sector, panel.clock) === 1))
);

const isAt = (address) => ({ panel }) => panel.counter === address;
const wasAt = (address) => ({ accounts }) => accounts.at(-1)?.at === address;
const lastOf = (phase) => ({ accounts }) => (accounts.length === 0 ? null : String(accounts.at(-1)[phase]));
const hasStopped = ({ panel }) => panel.status === "halted stop";
const holds = (digits) => ({ panel }) => panel.accumulator === digits;
const accumulator = ({ panel }) => panel.accumulator;
const clock = ({ panel }) => String(panel.clock);
const paper = ({ printed }) => printed.text;
const hasRule = (rule) => ({ rules }) => rules.some((it) => it === rule || it.startsWith(`${rule} `));
const always = () => true;

/** Whether a line was sent that the monitor has answered well. */
const wasSaid = (wanted) => ({ talk }) => talk.some(({ line, reply }) => line.trim() === wanted && reply === "ok\n");

/** The word times and the turns of the last orders. */
const timesOf = (orders) => ({ accounts }) => accounts.slice(-orders).reduce((sum, account) => sum + account.sum, 0);
const sumOf = (orders) => (laboratory) => String(timesOf(orders)(laboratory));
const turnsOf = (orders) => (laboratory) => String(timesOf(orders)(laboratory) / SECTORS);
const areTold = (orders) => ({ accounts }) => accounts.length >= orders;

const isAskedOf = (address) => ({ costs }) => costs?.address === address;
const bestOf = ({ costs }) => inTwoDigits(costs.sectors.find(({ isBest }) => isBest).sector);

/** In how many sectors the word that was asked for would have cost least. */
const goodOf = ({ costs: { sectors } }) => (
    String(sectors.filter(({ times }) => times === Math.min(...sectors.map((it) => it.times))).length)
);

/** Whether the order at 0000 brings a word from a place of the pupil's own, none of those that the lesson has shown. */
const isOwnPlace = (laboratory) => (
    /^b \d{4}$/.test(orderAt("0000")(laboratory)) && !["b 0015", "b 0050"].includes(orderAt("0000")(laboratory))
);

/** The rows of weather on the paper, each with the number of its step, and ten times X, Y and Z as they are printed. */
const weatherOn = ({ printed }) => printed.text.split("\n").map((line) => line.match(/-?\d{4}/g) ?? []).filter((row) => row.length === 4);

/** The number that a line types as a row of weather has it, where all of its codes were read; else nothing. */
const typedBy = ({ line, reply }) => (/^live \d+ dead 0\n$/.test(reply) ? /^type +(-?\d{4}) '$/.exec(line.trim())?.[1] : undefined);

/** Whether an earlier row of weather was typed again, number by number, and the switch for it is up. */
function wasTypedAgain({ talk, panel, printed }) {
    const typed = talk.map(typedBy).filter((number) => number !== undefined).slice(-4);
    return !panel.down.transfer && weatherOn({ printed }).some((row) => row.join() === typed.join());
}

/** The rows of weather that were printed again, each with the row of the first run. */
function weatherTwice(laboratory) {
    const rows = weatherOn(laboratory);
    const again = rows.findIndex(([number], place) => place > 0 && Number(number) < Number(rows[place - 1][0]));
    if (again < 0) return [];
    const first = new Map(rows.slice(0, again).map((row) => [row[0], row]));
    return rows.slice(again).filter(([number]) => first.has(number)).map((row) => [first.get(row[0]), row]);
}

const inZ = ([first, again]) => Math.abs(Number(first[3]) - Number(again[3]));

/** The first row in which ten times Z differs by so much from the first run. */
const partsBy = (least) => (laboratory) => weatherTwice(laboratory).find((both) => inZ(both) >= least)?.[0][0] ?? null;
const isPrintedAgain = (laboratory) => weatherTwice(laboratory).some((both) => inZ(both) >= 100);

/** The lines in which two runs are drawn, each with its number and how many places the runs are apart. */
const drawnOn = ({ printed }) => printed.text.split("\n").map((line) => /^(\d{4}) +(?:x|[ab]( *)[ab])$/.exec(line))
    .filter((line) => line !== null).map(([, number, between]) => [number, between === undefined ? 0 : between.length + 1]);
const firstApart = (laboratory) => drawnOn(laboratory).find(([, places]) => places >= 3)?.[0] ?? null;

/** The first line after these in which both runs are in one place. */
function nextMeeting(laboratory) {
    const apart = firstApart(laboratory);
    return apart === null ? null : drawnOn(laboratory).find(([number, places]) => number > apart && places === 0)?.[0] ?? null;
}

/** What the last reply to `numbers x 1` has after the point. */
const decimalsTold = ({ talk }) => /\.(\d+)/.exec(talk.findLast(({ line }) => line.trim() === "numbers x 1")?.reply ?? "")?.[1] ?? null;

/** The sheet of the lesson about a listing: addresses, and the words there. */
const SHEET = {
    orders: ["0200 00010300", "0201 000w0304", "0202 000g0214", "0203 000j0300", "0204 000f0200", "0205 00000000"],
    numbers: ["0300 00000014", "0301 00000002"],
};

/**
 * The lessons by the names of their documents, each with its steps. An example that a step `opens` is opened when the step is reached, and
 * set going; the lines below the step in its
 * document are done then as well. The list of words is turned to what it `shows`, and scrolled to the rows at which the step `looks`. A
 * step is `done` when that holds, or asks for what `answer` gives, where `isAsked` holds. Where a step
 * `counts`, the drum does not tell what it asks for. Where the pupil `types` there is a box for lines.
 */
export const LESSONS = [
    { name: "a-computer-on-a-drum", steps: [
        { answer: comesNext, isAsked: always },
        { answer: ({ panel }) => panel.counter, isAsked: always },
        {
            types: true,
            done: all(
                isOrderAt("0000", "b 0050"), ({ track }) => track.some(({ address, text }) => address === "0050" && text === "0000000j")
            ),
        },
        { done: wasAt("0000") },
        { answer: ({ panel }) => String(wholeOf(panel.accumulator)), isAsked: wasAt("0000") },
        { answer: lastOf("sum"), isAsked: wasAt("0000") },
        { answer: lastOf("find"), isAsked: wasAt("0000") },
        { answer: lastOf("seek"), isAsked: wasAt("0000") },
        { counts: true, answer: placesOf(1), isAsked: isAt("0001") },
        { answer: lastOf("find"), isAsked: wasAt("0001") },
        { answer: lastOf("find"), isAsked: wasAt("0001") },
        { answer: lastOf("find"), isAsked: wasAt("0001") },
        { types: true, done: all(hasStopped, isOwnPlace, ({ panel }) => panel.clock === 76n) },
        { answer: () => String(positionOf(1)), isAsked: always },
        { types: true, done: all(isOrderAt("0000", "p 4900"), isOrderAt("0001", "p 1700"), wasSaid("put 0002 z 0000")) },
        { answer: lastOf("act"), isAsked: wasAt("0000") },
        { answer: clock, isAsked: all(hasStopped, wasAt("0002")) },
        { answer: paper, isAsked: ({ history }) => history.ahead === 2 },
        { types: true, done: all(hasStopped, ({ printed }) => printed.count === 4) },
        { answer: clock, isAsked: all(hasStopped, ({ printed }) => printed.count === 4) },
        { done: ({ printed }) => printed.text.startsWith("hih") },
    ] },
    { name: "where-a-word-costs-least", steps: [
        { opens: "drum/household", done: isAt("0110") },
        { answer: lastOf("sum"), isAsked: wasAt("0111") },
        { answer: lastOf("find"), isAsked: wasAt("0111") },
        { done: hasStopped },
        { looks: ["0128"], answer: goodOf, isAsked: isAskedOf("0128") },
        { looks: ["0128"], answer: bestOf, isAsked: isAskedOf("0128") },
        { looks: ["0128"], answer: ({ costs }) => String(costs.saved), isAsked: isAskedOf("0128") },
        { looks: ["0129"], answer: bestOf, isAsked: isAskedOf("0129") },
        { looks: ["0132"], answer: bestOf, isAsked: isAskedOf("0132") },
    ] },
    { name: "rewriting", steps: [
        { types: true, done: areWords("0000 00010004") },
        { answer: orderAt("0000"), isAsked: areWords("0000 00010004") },
        { types: true, answer: orderAt("0000"), isAsked: areWords("0000 00010008") },
        { types: true, done: isOrderAt("0000", "b 0100") },
        { answer: digitsAt("0000"), isAsked: isOrderAt("0000", "b 0100") },
        { done: isAt("0003") },
        { answer: accumulator, isAsked: isAt("0004") },
        { looks: ["0001"], answer: orderAt("0001"), isAsked: wasAt("0005") },
        {
            types: true,
            looks: ["0001"],
            answer: orderAt("0001"),
            isAsked: all(hasRule("watch 0001"), isAt("0006"), (laboratory) => !isOrderAt("0001", "a 0010")(laboratory)),
        },
        { looks: ["0007"], answer: digitsAt("0007"), isAsked: isOrderAt("0001", "a 0012") },
        { opens: "self-modifying", done: isAt("0005") },
        { counts: true, answer: placesOf(5), isAsked: isAt("0005") },
        { looks: ["0009"], answer: ({ accounts }) => accounts.at(-1)?.stored?.address ?? null, isAsked: wasAt("0005") },
        { looks: ["0009"], answer: orderAt("0009"), isAsked: isAt("0005") },
        { looks: ["0009"], done: isOrderAt("0009", "a 0101") },
        { looks: ["0009"], answer: orderAt("0009"), isAsked: hasStopped },
        { looks: ["0009"], answer: (laboratory) => laboratory.writerOf("0009")?.at ?? null, isAsked: hasStopped },
        { done: all(isAt("0000"), areTold(7)) },
        { answer: sumOf(7), isAsked: all(isAt("0000"), areTold(14)) },
        { answer: turnsOf(7), isAsked: all(isAt("0000"), areTold(14)) },
    ] },
    { name: "reading-a-listing", steps: [
        { shows: "0200", looks: ["0200", "0205"], types: true, done: areWords(...SHEET.orders) },
        { shows: "0300", looks: ["0300", "0301"], types: true, done: areWords(...SHEET.numbers) },
        { shows: "0200", looks: ["0202"], answer: orderAt("0202"), isAsked: areWords("0202 000g0214") },
        { shows: "0300", looks: ["0300"], answer: orderAt("0300"), isAsked: areWords("0300 00000014") },
        { shows: "0200", types: true, done: all(isAt("0200"), hasRule("break 0200"), ({ panel }) => panel.status === "going") },
        { answer: clock, isAsked: all(isAt("0200"), holds("00000012")) },
        { answer: sumOf(5), isAsked: all(isAt("0200"), holds("00000010"), areTold(5)) },
        { answer: turnsOf(5), isAsked: all(isAt("0200"), holds("00000010"), areTold(5)) },
        {
            types: true,
            looks: ["0300"],
            answer: digitsAt("0300"),
            isAsked: all(hasStopped, (laboratory) => wordAt(laboratory, "0300") !== undefined),
        },
    ] },
    { name: "what-can-a-forecast-know", steps: [
        {
            opens: "weather/lorenz",
            types: true,
            answer: (laboratory) => weatherOn(laboratory)[2][2],
            isAsked: (laboratory) => weatherOn(laboratory).length > 2,
        },
        { types: true, answer: decimalsTold, isAsked: (laboratory) => decimalsTold(laboratory) !== null },
        {
            opens: "weather/lorenz",
            types: true,
            answer: (laboratory) => weatherOn(laboratory).at(-1)[0],
            isAsked: ({ panel }) => panel.status === "waiting",
        },
        { types: true, done: wasTypedAgain },
        { types: true, answer: partsBy(20), isAsked: isPrintedAgain },
        { answer: partsBy(100), isAsked: isPrintedAgain },
        { opens: "weather/twins", types: true, answer: firstApart, isAsked: (laboratory) => nextMeeting(laboratory) !== null },
        { answer: nextMeeting, isAsked: (laboratory) => nextMeeting(laboratory) !== null },
    ] },
];

/**
 * Begins anew with what a step has: an example, whose text `textOf` gives, or lines. The machine is set going by an example, and by lines
 * that press Start.
 */
export async function setUpFor(laboratory, { opens, lines }, textOf) {
    await laboratory.openForShow(opens ?? "", opens === undefined ? lines.join("\n") : textOf(opens));
    const starts = opens === undefined ? lines.includes("press start") : laboratory.way.kind === "start";
    if (starts) await laboratory.command("press start");
}
