// An exhibit of the kiosk, as its file says it: scenes, each with what is done at the machine, what is told, and four buttons. This is the
// one reader of such a file: it gives the exhibit, or a sentence that says which
// field is wrong, what stands there, and what was wanted. docs/EXHIBITS.md explains the fields. Nothing here knows of a page.

/** The scene with which an exhibit begins, and to which it comes back. */
export const FIRST = "attract";

/** The languages in which each text has to be there, and how many buttons a kiosk has. */
const [CODES, BUTTONS] = [["en", "de"], 4];
/**
 * How long texts may be, so that they can be read at the kiosk's size; how long a whole file; and how many times faster than the machine a
 * run may be.
 */
const MOST = { title: 60, caption: 240, button: 44, file: 60_000, faster: 2000, slower: 0.01, orders: 1_000_000 };

/** What is wrong in a file, as a sentence. */
class Wrong extends Error {}

const shown = (value) => {
    const text = JSON.stringify(value) ?? "nothing";
    return text.length > 60 ? `${text.slice(0, 57)}...` : text;
};
const refuse = (path, value, wanted) => {
    throw new Wrong(value === undefined ? `${path} is missing. ${wanted}` : `${path} is ${shown(value)}. ${wanted}`);
};

// A form is a function of a value and its path, which refuses what is wrong.

const matching = (pattern, wanted) => (
    (value, path) => { if (typeof value !== "string" || !pattern.test(value)) refuse(path, value, wanted); }
);
const oneOf = (...values) => (
    (value, path) => { if (!values.includes(value)) refuse(path, value, `It has to be ${values.map(shown).join(" or ")}.`); }
);
const whole = (least, most) => (value, path) => {
    if (!Number.isInteger(value) || value < least || value > most) {
        refuse(path, value, `It has to be a whole number from ${least} to ${most}.`);
    }
};
const isObject = (value) => typeof value === "object" && value !== null && !Array.isArray(value);

const list = (form, least, most, wanted) => (value, path) => {
    if (!Array.isArray(value) || value.length < least || value.length > most) refuse(path, value, wanted);
    value.forEach((item, place) => form(item, `${path}[${place}]`));
};

/** An object of these fields, of which some have to be there. */
const object = (fields, needed, wanted) => (value, path) => {
    if (!isObject(value)) refuse(path, value, wanted);
    const at = (name) => (path === "" ? name : `${path}.${name}`);
    for (const name of Object.keys(value)) {
        if (!Object.hasOwn(fields, name)) {
            throw new Wrong(`${at(name)} is not a field. The fields here are ${Object.keys(fields).join(", ")}.`);
        }
    }
    for (const name of needed) if (!Object.hasOwn(value, name)) refuse(at(name), undefined, `It has to be there: ${wanted}`);
    for (const [name, item] of Object.entries(value)) fields[name](item, at(name));
};

/** An object with exactly one of these fields, which says what it is, and with others that go with that. */
const kindOf = (kinds, wanted) => (value, path) => {
    if (!isObject(value)) refuse(path, value, wanted);
    const there = Object.keys(kinds).filter((name) => Object.hasOwn(value, name));
    if (there.length !== 1) {
        refuse(path, value, there.length === 0 ? wanted : `It has ${there.join(" and ")}, and only one of them is possible.`);
    }
    kinds[there[0]](value, path);
};

/** One form for texts, and another one for all else. */
const textOr = (forText, form) => (value, path) => (typeof value === "string" ? forText : form)(value, path);

const text = (most) => {
    const form = (value, path) => {
        if (typeof value !== "string" || value.trim() === "" || value.length > most) {
            refuse(path, value, `It has to be a text of at most ${most} characters.`);
        }
    };
    return object(
        Object.fromEntries(CODES.map((code) => [code, form])), CODES, `a text has to be there in each language, ${CODES.join(" and ")}.`
    );
};

const name = matching(/^[a-z][a-z0-9-]*$/, "It has to be a name of small letters, digits and hyphens.");
const place = matching(/^([a-z][a-z0-9]*|\d{4})$/, "It has to be a label of the source, such as \"loop\", or an address of four digits.");
const rowStart = matching(/^\S.*$/, "It has to be the text with which a printed row begins, such as \"0250\".");
const keys = matching(
    /^[a-z0-9+\-;/.,' #]+$/,
    "It has to be what is struck: small letters, digits, a space, + - ; / . , and ' for the conditional stop; # is a digit by chance."
);
const button = matching(
    /^(start|read|normal|manual|clear|onestep|(transfer|bp4|bp8|bp16|bp32|sixbit) (up|down))$/,
    "It has to be a button or a switch: start, read, manual, normal, clear, transfer down, bp8 up, sixbit down .."
);

const CONDITION = textOr(oneOf("keys", "stop"), kindOf({
    row: object({ row: rowStart }, ["row"]),
    orders: object({ orders: whole(1, MOST.orders) }, ["orders"]),
    place: object({ place, times: whole(1, 1000) }, ["place"]),
}, "It has to be \"keys\", \"stop\", or one of {\"row\": ..}, {\"place\": .., \"times\": ..} and {\"orders\": ..}."));

const pace = textOr(oneOf("fast", "slow"), (value, path) => {
    if (typeof value !== "number" || value < MOST.slower || value > MOST.faster) {
        refuse(
            path, value, `It has to be "fast", "slow", or how many times faster than the machine, from ${MOST.slower} to ${MOST.faster}.`
        );
    }
});

const ACTION = kindOf({
    press: object({ press: button }, ["press"]),
    type: object({ type: keys }, ["type"]),
    again: object(
        { again: rowStart, after: keys }, ["again", "after"], "after each number of the row these keys are struck, such as \" '\"."
    ),
    mount: object({ mount: keys }, ["mount"]),
    tear: object({ tear: oneOf(true) }, ["tear"]),
    run: object({ run: pace, to: CONDITION }, ["run"]),
    carry: object({ carry: place }, ["carry"]),
    rest: object({ rest: whole(1, 600) }, ["rest"]),
}, "It has to be one of press, type, again, mount, tear, run, carry and rest.");

const actions = list(ACTION, 0, 60, "It has to be a list of at most 60 actions.");

const CAPTION = object(
    {
        text: text(MOST.caption),
        row: rowStart,
        place,
        times: whole(1, 1000),
        order: matching(/^-?[a-z] \d{4}$/, "It has to be an order such as \"e 6363\"."),
        when: oneOf("keys", "stop", "torn", "done"),
        bet: whole(1, BUTTONS),
    },
    ["text"],
    "a caption says something."
);

const ABOUT_BUTTONS = "It has to be null, \"start\", \"language\" or \"halt\", or to have a text, and to, do or bits.";
const OWN_BUTTON = object(
    { text: text(MOST.button), to: name, do: actions, bits: oneOf(-1, 1, "all"), bet: oneOf(true), main: oneOf(true) },
    ["text"],
    "a button has a text."
);

const BUTTON = textOr(oneOf("start", "language", "halt"), (value, path) => {
    if (value === null) return;
    if (!isObject(value)) refuse(path, value, ABOUT_BUTTONS);
    OWN_BUTTON(value, path);
    if (value.to === undefined && value.do === undefined && value.bits === undefined) refuse(path, value, ABOUT_BUTTONS);
});

const BESIDE = kindOf({
    torn: object({ torn: oneOf(true) }, ["torn"]),
    bits: object({ bits: place, orders: place, count: whole(1, 12) }, ["bits"]),
    words: object(
        { words: place, count: whole(1, 24), last: matching(/^[a-z] \d{4}$/, "It has to be an order such as \"u 0000\".") },
        ["words", "count"],
        "it says how many words are shown."
    ),
}, "It has to have one of torn, bits and words.");

const program = textOr(
    matching(/^[a-z0-9/-]+$/, "It has to be the name of an example, such as \"weather/lorenz\", or a list of the lines of a source."),
    list(
        matching(/^[^\n]*$/, "It has to be a line of a source."),
        1,
        1000,
        "It has to be the name of an example, or a list of the lines of a source."
    )
);

const SCENE = object(
    {
        program,
        do: actions,
        captions: list(CAPTION, 1, 60, "It has to be a list of at least one caption."),
        beside: BESIDE,
        buttons: list(BUTTON, 1, BUTTONS, `It has to be a list of 1 to ${BUTTONS} buttons.`),
        then: name,
    },
    ["captions", "buttons"],
    "a scene has captions and buttons."
);

const scenes = (value, path) => {
    if (!isObject(value)) refuse(path, value, "It has to have the scenes by their names.");
    for (const [key, scene] of Object.entries(value)) { name(key, `the name of a scene, ${shown(key)},`); SCENE(scene, `${path}.${key}`); }
};

const EXHIBIT = object({ title: text(MOST.title), scenes }, ["title", "scenes"], "an exhibit has a title and scenes.");

/** What a scene has to fit together with: the scenes that its buttons lead to, and what its actions need. */
function checkScene(scene, path, { scenes: all }, isExample) {
    const wanted = `The scenes are ${Object.keys(all).join(", ")}.`;
    const leads = (to, at) => { if (to !== undefined && !Object.hasOwn(all, to)) refuse(at, to, wanted); };
    leads(scene.then, `${path}.then`);
    scene.buttons.forEach((it, place) => leads(it?.to, `${path}.buttons[${place}].to`));
    if (typeof scene.program === "string" && !isExample(scene.program)) {
        refuse(`${path}.program`, scene.program, "There is no example with this name in examples/.");
    }
    const actionsOf = [scene.do ?? [], ...scene.buttons.map((it) => it?.do ?? [])].flat();
    if ((actionsOf.some(({ carry }) => carry !== undefined) || scene.buttons.some((it) => it?.bits !== undefined))
        && scene.beside?.bits === undefined) {
        refuse(`${path}.beside`, scene.beside, "A carry is shown bit by bit, so {\"bits\": ..} has to be there.");
    }
    if ((scene.beside?.orders === undefined) !== (scene.beside?.bits === undefined || scene.beside.count === undefined)) {
        refuse(`${path}.beside`, scene.beside, "Orders and their count go together.");
    }
    if (!scene.buttons.some((it) => it === "start" || it?.to !== undefined)) {
        refuse(`${path}.buttons`, scene.buttons, "One of them has to lead on: \"start\", or a button with \"to\".");
    }
    for (const [place, { row, place: at, times, order, when }] of scene.captions.entries()) {
        if ([row, at, order, when].filter((it) => it !== undefined).length > 1) {
            refuse(`${path}.captions[${place}]`, scene.captions[place], "Only one of row, place, order and when is possible.");
        }
        if (times !== undefined && at === undefined) refuse(`${path}.captions[${place}].times`, times, "It goes with place.");
    }
}

function checkWhole(exhibit, isExample) {
    const { scenes: all } = exhibit;
    if (!Object.hasOwn(all, FIRST)) refuse(`scenes.${FIRST}`, undefined, "An exhibit begins with this scene, and comes back to it.");
    if (all[FIRST].program === undefined) refuse(`scenes.${FIRST}.program`, undefined, "The first scene has to open a program.");
    for (const [key, scene] of Object.entries(all)) checkScene(scene, `scenes.${key}`, exhibit, isExample);
}

function parsed(file) {
    try {
        return JSON.parse(file);
    } catch (failure) {
        if (!(failure instanceof SyntaxError)) throw failure;
        throw new Wrong(`The file is not JSON: ${failure.message}`);
    }
}

/** The exhibit in a file, and `wrong` as null; or `wrong` as a sentence. `isExample` says whether an example has a name. */
export function exhibitIn(file, isExample) {
    try {
        if (file.length > MOST.file) throw new Wrong(`The file has ${file.length} characters. At most ${MOST.file} are read.`);
        const exhibit = parsed(file);
        EXHIBIT(exhibit, "");
        checkWhole(exhibit, isExample);
        return { exhibit, wrong: null };
    } catch (failure) {
        if (!(failure instanceof Wrong)) throw failure;
        return { exhibit: null, wrong: failure.message.replace(/^ is/, "The file is") };
    }
}

/** A program of a scene as a script: an example's own, or a source, which is loaded. */
export const scriptOfProgram = (wanted, scriptOf) => (
    typeof wanted === "string" ? scriptOf(wanted) : `source\n${wanted.join("\n")}\n.\nload\n`
);
