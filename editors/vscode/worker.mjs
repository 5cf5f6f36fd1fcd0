// @ts-check
// The worker of the extension: both servers, apart from the editor's own process, so that a long run holds nothing up. What the editor has,
// such as files, it is asked for.
import { Session, compiled } from "../../libraries/javascript/session.mjs";
import { DebugAdapter } from "../debug/adapter.mjs";
import { LanguageServer } from "../language/server.mjs";
import { portToStarter } from "./port.mjs";

const [debuggers, waiting] = [new Map(), new Map()];
let next = 0;
/** @type {any} the language server, and what opens a session: both when the module is there */
let [language, openSession] = [null, null];

/** What the editor says of something. */
const asks = (what, ...given) => new Promise((resolve, reject) => {
    waiting.set(next, { resolve, reject });
    port.postMessage({ asks: what, number: next++, given });
});

/** What was done in a debugger is kept by the editor. */
const shelfOf = (number) => Object.fromEntries(["putSessionAway", "keepSession", "keepSource", "dropSource"].map(
    (deed) => [deed, (...given) => port.postMessage({ keeps: deed, number, given })]
));

const adapter = (number) => new DebugAdapter(openSession, (message) => port.postMessage({ debugger: number, message }), {
    readFile: (path) => asks("readFile", path), resolve: (path, beside) => asks("resolve", path, beside),
    identityOf: (path) => asks("identityOf", path), shelf: shelfOf(number) });

/** What is done with each message of the editor: the module comes first. */
const HEARD = {
    module: ({ module, faults }) => {
        const code = compiled(module);
        openSession = () => new Session(code);
        language = new LanguageServer(
            openSession, (message) => port.postMessage({ language: message }), undefined, (kind) => `${faults}#${kind.toLowerCase()}`
        );
    },
    language: ({ language: message }) => { language.take(message); },
    debugger: ({ debugger: number, message }) => {
        if (!debuggers.has(number)) debuggers.set(number, adapter(number));
        debuggers.get(number).take(message);
    },
    ends: ({ ends: number }) => {
        debuggers.get(number)?.end();
        debuggers.delete(number);
    },
    told: ({ told, value, failure }) => {
        const { resolve, reject } = waiting.get(told);
        waiting.delete(told);
        if (failure === undefined) resolve(value);
        else reject(new Error(failure));
    },
};

const port = portToStarter((message) => {
    for (const [kind, work] of Object.entries(HEARD)) if (kind in message) return work(message);
});
