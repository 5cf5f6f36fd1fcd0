// The page's address: what it asks for, and what it says of where one is. An example or a script, a work that somebody has sent, a lesson
// and its step, a task, a story and its caption, a game, a language, a door, the kiosk.

const DOORS = ["hall", "look", "learn", "work"];
const PLACES = ["door", "kiosk", "exhibit", "idle", "offers", "lesson", "step", "task", "story", "caption", "game"];

/** A number from 1 on that an address gives, or null. */
const numberIn = (query, name) => (/^[1-9]\d{0,2}$/.test(query.get(name) ?? "") ? Number(query.get(name)) : null);

/** The door to which something leads that an address names. */
function doorOf(query, hasScript) {
    const named = DOORS.find((door) => door === query.get("door"));
    if (named !== undefined) return named;
    if (query.has("lesson") || query.has("task")) return "learn";
    if (query.has("story") || query.has("game")) return "look";
    return hasScript ? "work" : "hall";
}

/**
 * What an address says after `?` and `#`: `?kiosk`, `?kiosk=games/matches`, `?idle=60`, `?offers=story,matches`, `?lang=de`, `?door=work`,
 * `?lesson=rewriting&step=9`, `?lesson=rewriting&projector`, `?task=sum`, `?story=2&caption=3`, `?game=faster`, `#first-run`, `#kiosk`,
 * `#kiosk=weather`, `#exhibit=..`, `#script=..`, `#work=..`.
 */
export function askedIn({ search, hash }) {
    const query = new URLSearchParams(search);
    const behind = decoded(hash.replace(/^#/, ""));
    const after = (name) => (behind.startsWith(`${name}=`) ? behind.slice(name.length + 1) : null);
    const [script, work, exhibit, named] = ["script", "work", "exhibit", "kiosk"].map(after);
    const isKiosk = query.has("kiosk") || behind === "kiosk" || named !== null || exhibit !== null;
    const example = script !== null || work !== null || exhibit !== null || behind === "kiosk" || behind === "" ? null : named ?? behind;
    return {
        isKiosk, script, work, exhibit,
        example: query.get("kiosk") || example || null,
        language: query.get("lang"),
        isProjected: query.has("projector"), lesson: query.get("lesson"), step: numberIn(query, "step"), task: query.get("task"),
        story: numberIn(query, "story"), caption: numberIn(query, "caption"), game: query.get("game"), seconds: numberIn(query, "seconds"),
        door: doorOf(query, (example !== null && named === null) || script !== null || work !== null),
        idleSeconds: Number(query.get("idle")) || null, offers: query.get("offers")?.split(",") ?? null,
    };
}

/** The address of a place, with all else that the address asks for, as its language. */
export function addressOf({ door, kiosk, lesson, step, task, story, caption, game, example }, { search }) {
    const query = new URLSearchParams(search);
    for (const name of PLACES) query.delete(name);
    const place = kiosk !== undefined ? { kiosk }
        : lesson != null ? { lesson, step }
        : task != null ? { task }
        : story != null ? { story, caption }
        : game != null ? { game }
        : { door };
    for (const [name, value] of Object.entries(place)) query.set(name, value);
    return `?${query.toString().replaceAll("%2F", "/")}${example == null ? "" : `#${example}`}`;
}

/** The address here, with the lesson seen as a projector shows it or as a pupil sees it. */
export function projected(isOn, { search, hash }) {
    const query = new URLSearchParams(search);
    query.delete("projector");
    return `?${query.toString().replaceAll("%2F", "/")}${isOn ? "&projector" : ""}${hash}`.replace("?&", "?");
}

/** The address here in a language. */
export function inLanguage(code, { search, hash }) {
    const query = new URLSearchParams(search);
    query.set("lang", code);
    return `?${query.toString().replaceAll("%2F", "/")}${hash}`;
}

function decoded(text) {
    try {
        return decodeURIComponent(text);
    } catch (failure) {
        if (failure instanceof URIError) return text;
        throw failure;
    }
}
