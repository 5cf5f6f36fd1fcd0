// A Worker without a laboratory: each line has a reply that fits its form. For trying the page's looks while there is no module.
const words =
    (first, count, text) => Array.from(
        { length: count }, (unused, place) => `${first.slice(0, 2)}${String(Number(first.slice(2)) + place).padStart(2, "0")} ${text}\n`
    ).join("");
const told = (...records) => records.map((record) => `${JSON.stringify(record)}\n`).join("");
let clock = 0;
const answers = {
    "state-data": () => told({
        counter: "0002", accumulator: "00000012", register: "00040000", status: "going", mode: "normal",
        bp32: "up", bp16: "up", bp8: "up", bp4: "down", transfer: "up", sixbit: "up", reader: "off", tape: 0, clock,
        "live-normal": true, "live-oneop": true, "live-manual": true, "live-start": false, way: "orders",
    }),
    look: (...operands) => answers["state-data"]() + answers["show-data"](...operands),
    "rules-data": () => "", "labels-data": () => "",
    numbers: (first, count) => words(first, Number(count), "000100j8   .0000306107  32868"),
    why: (place) => `${place}: 000100j8 b 0050 = 32868, changed by no kept step\n`,
    "show-data": (first, count) => told(...Array.from({ length: Number(count) }, (unused, place) => (
        {
            address: `${first.slice(0, 2)}${String(Number(first.slice(2)) + place).padStart(2, "0")}`,
            digits: "000100j8",
            order: "b 0050",
            changed: false,
        }))),
    words: (first, count) => words(first, Number(count), "000100j8"),
    show: (first, count) => words(first, Number(count), "b 0050"),
    paper: () => "paper 6\nab\nc d\n",
    commands: () => "words asks range\npaper asks alone\ntrace-data does number\n",
    "operations-data": () => told({ operation: "b", waits: "yes" }, { operation: "h", waits: "yes" }, { operation: "z", waits: "no" }),
    "trace-data": () => {
        clock += 73;
        return told({
            clock: clock - 73, at: "0001 put1", order: "h 0004 sum", find: 45, take: 1, seek: 26, act: 1, before: "00000008",
            after: "00000008",
            stored: "0004 sum", found: "00000000", "found-order": "z 0000", "found-number": 0, left: "00000008", "left-order": "z 0002",
            "left-number": 4,
        }, { ran: "1 limit" });
    },
    drum: () => "      64  i.........................Rx....................................\n     128  ........Fi.........................Wx...........................\nran 1 limit\n",
    back: () => { clock -= 73; return `clock ${clock}\n`; },
    run: (count) => `ran ${count} limit\n`,
    operate: (count) => (count === "1" ? "ran 1 limit\n" : "ran 2 rest\n        started again at a z after a p: 2\n"),
    press: () => "live\n", type: () => "live 1 dead 0\n", orders: (count) => `orders ${count} going\n`,
    "profile-data": () => told(
        { orders: 3, times: 213, turns: "3.3", find: 154, take: 3, seek: 53, act: 3, elsewhere: 0 },
        { place: "0000", times: 92 },
        { place: "0001", times: 73 },
        { ran: "3 rest" }
    ),
    at: () => "? 1 Form\n",
    ".": () => "? 9 Faults\nline 2 UnknownName\n         b none\n           ^^^^\n",
};

function replyTo(line) {
    const [verb, ...operands] = line.replace(/^ *json +/, "").trim().split(" ");
    return /^(;|$|source)/.test(line) ? "" : (answers[verb]?.(...operands) ?? "ok\n");
}

self.onmessage = ({ data }) => {
    self.postMessage({ reply: (data.lines ?? []).map(replyTo).join("") });
};
