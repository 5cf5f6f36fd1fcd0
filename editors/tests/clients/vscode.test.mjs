// The package for VS Code: what is in it, and both of its scripts with its worker under a stand-in for the editor. The editor itself is not
// tried.
import assert from "node:assert/strict";
import { execFileSync, spawnSync } from "node:child_process";
import { mkdirSync, mkdtempSync, readFileSync, readdirSync, rmSync, symlinkSync, writeFileSync } from "node:fs";
import { createRequire } from "node:module";
import { tmpdir } from "node:os";
import { join } from "node:path";
import { after, test } from "node:test";
import { fileURLToPath } from "node:url";
import { createContext, runInContext } from "node:vm";
import { Client } from "../client.mjs";
import { StandInEditor, Uri } from "../stand_in_editor.mjs";

const editors = fileURLToPath(new URL("../..", import.meta.url));
const skip = spawnSync("esbuild", ["--version"]).status !== 0;
const folder = mkdtempSync(join(tmpdir(), "vscode-"));
after(() => rmSync(folder, { recursive: true }));
if (!skip) {
    execFileSync(join(editors, "build"), [folder]);
    execFileSync("/usr/bin/python3", ["-m", "zipfile", "-e", join(folder, "condugwa-lgp30.vsix"), folder]);
}
const extension = join(folder, "extension");
const textOf = (name) => readFileSync(join(extension, name), "utf8");

const STORAGE = Uri.parse("memfs:///kept");
const SOURCE = [
    "first   b two", "        a three", "        h sum", "        z", "two     int 2 30", "three   int 3 30", "sum int 0 30",
    "        end first", "",
].join("\n");

/** A value from a script of its own world, as one of this one. */
const plain = (value) => JSON.parse(JSON.stringify(value));

/** A browser's worker: a script in a world of its own, which has none of node. */
class BrowserWorker {
    #heard = [];
    #within = [];

    constructor(address) {
        const post = (listeners, data) => {
            const copied = structuredClone(data);
            setTimeout(() => listeners.forEach((hear) => hear({ data: copied })));
        };
        const world = {
            TextEncoder, TextDecoder, WebAssembly, setTimeout, performance, atob, btoa, console, importScripts: () => {},
            postMessage: (data) => post(this.#heard, data),
            addEventListener: (kind, hear) => { if (kind === "message") this.#within.push(hear); },
        };
        world.self = world;
        this.postMessage = (data) => post(this.#within, data);
        runInContext(textOf(address.split("/").at(-1)), createContext(world));
    }

    addEventListener(kind, hear) {
        if (kind === "message") this.#heard.push(hear);
    }

    terminate() {
        this.#heard.length = 0;
    }
}

const started = [];
after(() => started.forEach(({ dispose }) => dispose()));

/**
 * What a script of the extension is when it is activated in an editor: one for the desktop, or one for a browser, which has none of node.
 */
async function activated(script, editor) {
    const exports = { exports: {} };
    const isDesktop = script === "extension.js";
    const requires = (name) => (
        name === "vscode" ? editor.module : isDesktop ? createRequire(import.meta.url)(name) : assert.fail(`${name} is not in a browser`)
    );
    const own = { TextEncoder, TextDecoder, setTimeout, console, Worker: BrowserWorker };
    const context = isDesktop ? globalThis : createContext({ ...own });
    const code = `(function (module, exports, require) {${textOf(script)}\n})`;
    const wrapped = isDesktop ? new Function("module", "exports", "require", textOf(script)) : runInContext(code, context);
    wrapped(exports, exports.exports, requires);
    const given = { subscriptions: [], globalStorageUri: STORAGE, extensionUri: Uri.file(extension) };
    await exports.exports.activate(given);
    const all = { dispose: () => given.subscriptions.splice(0).forEach((it) => it.dispose()) };
    started.push(all);
    return all;
}

for (const script of ["extension.js", "web.js"]) {
    test(`${script}: the language`, { skip }, async () => {
        const editor = new StandInEditor(new Map());
        const { dispose } = await activated(script, editor);
        const address = "memfs:///sum.source";
        const document = editor.open(address, SOURCE.replace("b two", "b tow"));
        const [fault] = await editor.faults(address, (faults) => faults.length === 1);
        assert.deepEqual(
            plain([fault.message, fault.code.value, fault.range.start.character, fault.range.end.character]),
            ["no line has this label; perhaps two is meant", "UnknownName", 10, 13]
        );
        assert.equal(fault.code.target.toString(), `${Uri.file(extension)}/FAULTS.md#unknownname`);
        const none = { onCancellationRequested: () => {} };
        const [action] = await editor.asks(
            "CodeActions", "provideCodeActions", document, { start: { line: 0, character: 0 }, end: { line: 0, character: 1 } }, {}, none
        );
        assert.deepEqual(
            plain([action.title, action.kind.value, action.isPreferred, action.diagnostics.length]),
            ["Change it to two", "quickfix", true, 1]
        );
        assert.deepEqual(
            plain(await editor.asks(
                "CodeActions", "provideCodeActions", document, { start: { line: 0, character: 0 }, end: { line: 0, character: 1 } },
                { only: { value: "refactor" } }, none
            )),
            []
        );
        assert.deepEqual(plain(editor.providers.CodeActions.more), [{ providedCodeActionKinds: [{ value: "quickfix" }] }]);
        const at = (line, character) => ({ line, character });
        document.version = 2;
        editor.events.onDidChangeTextDocument.fire({
            document, contentChanges: [{ range: { start: at(0, 11), end: at(0, 13) }, text: "wo" }],
        });
        await editor.faults(address, (faults) => faults.length === 0);
        assert.match(
            (await editor.asks("Hover", "provideHover", document, at(0, 8))).contents.value, /brings the word into the accumulator/
        );
        assert.deepEqual(
            plain((await editor.asks("CompletionItem", "provideCompletionItems", document, at(1, 10))).map(({ label }) => label)),
            ["first", "two", "three", "sum"]
        );
        assert.equal((await editor.asks("Definition", "provideDefinition", document, at(1, 10))).range.start.line, 5);
        assert.equal((await editor.asks("Reference", "provideReferences", document, at(1, 10), { includeDeclaration: true })).length, 2);
        assert.equal((await editor.asks("DocumentHighlight", "provideDocumentHighlights", document, at(1, 10))).length, 2);
        assert.deepEqual(
            plain((await editor.asks("DocumentSymbol", "provideDocumentSymbols", document)).map(({ name }) => name)),
            ["first", "two", "three", "sum"]
        );
        assert.equal(
            (await editor.asks("InlayHints", "provideInlayHints", document, { start: at(0, 0), end: at(1, 0) }))[0].label, "0000 00010010"
        );
        const help = await editor.asks("SignatureHelp", "provideSignatureHelp", document, at(0, 10));
        assert.deepEqual(
            plain([help.signatures[0].label, help.signatures[0].parameters.length, help.activeParameter]),
            ["b 0300  takes ttss, LABEL or *", 1, 0]
        );
        assert.equal(await editor.asks("SignatureHelp", "provideSignatureHelp", document, at(0, 0)), null);
        editor.settings["lgp30.inlayHints"] = false;
        editor.events.onDidChangeConfiguration.fire({ affectsConfiguration: (section) => section === "lgp30" });
        assert.deepEqual(plain(await editor.asks("InlayHints", "provideInlayHints", document, { start: at(0, 0), end: at(1, 0) })), []);
        assert.equal((await editor.asks("DocumentSemanticTokens", "provideDocumentSemanticTokens", document)).data.length % 5, 0);
        assert.equal((await editor.asks("Rename", "provideRenameEdits", document, at(0, 10), "pair")).changes[0][1].length, 2);
        await assert.rejects(
            editor.asks("Rename", "provideRenameEdits", document, at(0, 10), "sum"), /^Error: sum: an earlier line has the same label/
        );
        await assert.rejects(editor.asks("Rename", "prepareRename", document, at(0, 8)), /there is no label here/);
        assert.deepEqual(
            plain((await editor.asks("DocumentFormattingEdit", "provideDocumentFormattingEdits", document)).map(({ newText }) => newText)),
            ["sum     int 0 30"]
        );
        assert.deepEqual(
            plain(await editor.asks(
                "DocumentRangeFormattingEdit", "provideDocumentRangeFormattingEdits", document, { start: at(0, 0), end: at(0, 1) }
            )),
            []
        );
        editor.events.onDidCloseTextDocument.fire(document);
        dispose();
    });

    test(`${script}: the debugger`, { skip }, async () => {
        const editor = new StandInEditor(new Map([["memfs:///sum.source", SOURCE], ["memfs:///numbers.txt", "12'\n"]]));
        await activated(script, editor);
        assert.equal(await editor.commands["lgp30.lastSession"](), "no session of the LGP-30 is kept");
        editor.window.activeTextEditor = { document: editor.open("memfs:///sum.source", SOURCE) };
        const launch = editor.configurations.resolveDebugConfiguration(undefined, {});
        assert.deepEqual(
            plain(launch), { type: "lgp30", request: "launch", name: "LGP-30", stopOnEntry: true, program: "memfs:///sum.source" }
        );
        const { adapter } = editor.factory.createDebugAdapterDescriptor();
        const sent = [];
        let wake = () => {};
        adapter.onDidSendMessage((message) => { sent.push(message); wake(); });
        const until = async (isWanted) => {
            while (!sent.some(isWanted)) await new Promise((resume) => { wake = resume; });
            return sent.find(isWanted);
        };
        for (const [seq, [command, given]] of [
            ["initialize", {}], ["launch", { ...launch, tape: "numbers.txt" }], ["configurationDone"],
            ["evaluate", { expression: "run 9", context: "repl" }],
        ].entries()) adapter.handleMessage({ seq, type: "request", command, arguments: given });
        assert.equal((await until(({ event }) => event === "stopped")).body.reason, "entry");
        assert.deepEqual(plain((await until(({ request_seq: seq }) => seq === 3)).body), { result: "ran 4 rest", variablesReference: 0 });
        await until(({ event, body }) => event === "stopped" && body.reason === "console");
        assert.match(await editor.commands["lgp30.lastSession"](), /^source\nfirst {3}b two\n[^]*\nload\n[^]*\nrun 9\n$/);
        adapter.handleMessage({ seq: 7, type: "request", command: "evaluate", arguments: { expression: "tape-data", context: "repl" } });
        assert.equal((await until(({ request_seq: seq }) => seq === 7)).body.result, "passed \nleft 12'");
        adapter.handleMessage({
            seq: 8, type: "request", command: "setBreakpoints",
            arguments: { source: { path: "memfs:///sum.source" }, breakpoints: [{ line: 2 }] },
        });
        assert.equal((await until(({ request_seq: seq }) => seq === 8)).body.breakpoints[0].verified, true);
        adapter.handleMessage({ seq: 9, type: "request", command: "evaluate", arguments: { expression: "source\n z", context: "repl" } });
        await until(({ request_seq: seq }) => seq === 9);
        await new Promise((resume) => { setTimeout(resume, 50); });
        await editor.commands["lgp30.lastSession"]();
        assert.equal(editor.files.get(`${STORAGE}/open-1.source`), " z\n");
        adapter.dispose();
    });
}

test("extension.js: a long run holds up neither the language nor the editor, and paths are what the system means", { skip }, async () => {
    const place = mkdtempSync(join(tmpdir(), "vscode-"));
    mkdirSync(join(place, "sub"));
    writeFileSync(join(place, "ever.lgp30"), "start u start\n end start\n");
    writeFileSync(join(place, "numbers.txt"), "12'\n");
    symlinkSync(join(place, "ever.lgp30"), join(place, "linked.lgp30"));
    const editor = new StandInEditor(new Map());
    const { dispose } = await activated("extension.js", editor);
    const { adapter } = editor.factory.createDebugAdapterDescriptor();
    const sent = [];
    let wake = () => {};
    adapter.onDidSendMessage((message) => { sent.push(message); wake(); });
    const response = async (seq) => {
        while (!sent.some((it) => it.request_seq === seq)) await new Promise((resume) => { wake = resume; });
        return sent.find((it) => it.request_seq === seq);
    };
    const say = (seq, command, given) => adapter.handleMessage({ seq, type: "request", command, arguments: given });
    say(1, "initialize", {});
    say(2, "launch", { program: join(place, "linked.lgp30"), tape: "numbers.txt" });
    assert.equal((await response(2)).message, undefined);
    say(3, "setBreakpoints", { source: { path: join(place, "sub/../ever.lgp30") }, breakpoints: [] });
    say(4, "gotoTargets", { source: { path: join(place, "ever.lgp30") }, line: 1 });
    assert.equal((await response(4)).body.targets.length, 1);
    say(5, "configurationDone");
    await response(5);
    const [begun, used] = [performance.now(), performance.eventLoopUtilization()];
    const document = editor.open("memfs:///other.lgp30", SOURCE);
    assert.match((await editor.asks("Hover", "provideHover", document, { line: 0, character: 8 })).contents.value, /brings the word/);
    await new Promise((resume) => { setTimeout(resume, 500); });
    assert.ok(performance.eventLoopUtilization(used).utilization < 0.5, `in ${performance.now() - begun} ms`);
    say(6, "pause", {});
    assert.equal((await response(6)).success, true);
    dispose();
    rmSync(place, { recursive: true });
});

test("the package is one that a marketplace takes: icon, picture, changelog, keywords, kinds and schemas", { skip }, () => {
    const manifest = JSON.parse(textOf("package.json"));
    assert.deepEqual(manifest.contributes.languages[0].extensions, [".lgp30"]);
    assert.match("; for an LGP-30", new RegExp(manifest.contributes.languages[0].firstLine));
    assert.match(textOf("README.md"), /"files.associations"/);
    assert.deepEqual([...readFileSync(join(extension, manifest.icon)).subarray(1, 4)], [...Buffer.from("PNG")]);
    const [, picture] = /!\[[^\]]+\]\(([^)]+\.png)\)/.exec(textOf("README.md"));
    assert.ok(readFileSync(join(extension, picture)).length > 0);
    assert.match(textOf("CHANGELOG.md"), new RegExp(`^## ${manifest.version}$`, "m"));
    const { how, switches } = manifest.contributes.debuggers[0].configurationAttributes.launch.properties;
    assert.deepEqual(
        [how.type, how.enum.length, how.enumDescriptions.length, Object.keys(switches.properties).length, switches.additionalProperties],
        ["string", 2, 2, 6, false]
    );
    assert.equal(manifest.contributes.commands[0].category, "LGP-30");
    assert.ok(manifest.keywords.length > 3 && manifest.extensionKind.length > 0);
    assert.match(
        readFileSync(join(folder, "extension.vsixmanifest"), "utf8"),
        /<Tags>[^<]*__ext_lgp30,__web_extension<\/Tags>[^]*ExtensionKind" Value="ui,workspace,web"[^]*<Icon>extension\/icon.png/
    );
});

test("each word and link of the package's README is so", { skip }, async () => {
    execFileSync(join(editors, "../tools/packed_documents"), ["--check", extension]);
    const readme = textOf("README.md");
    const { commands: [command], configuration, debuggers, languages: [language] } = JSON.parse(textOf("package.json")).contributes;
    const { properties } = debuggers[0].configurationAttributes.launch;
    assert.deepEqual(Array.from(readme.matchAll(/^\| `(\w+)` \|/gm), ([, field]) => field), Object.keys(properties));
    const source = /^ {4}; .*\n(?: {4}.*\n)+/m.exec(readme)[0].replace(/^ {4}/gm, "").replace(/^ +end first/m, "half frac .5\n end first");
    const [, list] = /A breakpoint may have a condition, such as (.*?)\. The console/.exec(readme);
    const conditions = list.match(/(?<=`)[^`]+(?=`(?:,| or|$))/g);
    const line = /console takes the lines of Condugwa's monitor, such as `([^`]+)`/.exec(readme)[1];
    const words = new Set([
        ...language.extensions, ...language.aliases, ...Object.keys(configuration.properties), ...Object.keys(properties),
        ...properties.how.enum, ...Object.values(properties.switches.properties).flatMap((it) => it.enum), ...conditions, line, "p",
        "z",
    ]);
    for (const [, word] of readme.matchAll(/`([^`\n]+)`/g)) assert.ok(words.has(word), word);
    assert.ok(readme.includes(`"${command.category}: ${command.title}"`));
    assert.match(source.split("\n")[0], new RegExp(language.firstLine));
    const client = new Client({ "/shown": source });
    const points = await client.launched({ program: "/shown", stopOnEntry: true }, conditions.map((condition) => ({ line: 5, condition })));
    assert.deepEqual(points.map(({ verified, message }) => [verified, message]), conditions.map(() => [true, undefined]));
    assert.equal((await client.event("stopped")).reason, "entry");
    assert.equal(typeof (await client.asks("evaluate", { expression: line, context: "repl" })).result, "string");
    await client.refused("evaluate", { expression: "save drum", context: "repl" });
});

test("editors/build tells what it makes, and makes the names that settings have", { skip }, () => {
    const told = execFileSync(join(editors, "build"), ["--help"]).toString();
    for (const name of readdirSync(folder).filter((it) => /^(lgp30-|condugwa)/.test(it))) assert.ok(told.includes(name), name);
    for (const name of ["lgp30-language-server", "lgp30-debug-adapter"]) assert.match(
        execFileSync(join(folder, name), ["--version"]).toString(), new RegExp(`^${name} `)
    );
    assert.equal(spawnSync(join(editors, "build")).status, 64);
});

test("the module is once in the package, and each fault has its paragraph", { skip }, () => {
    const module = readFileSync(join(extension, "lgp_c_region.wasm"));
    assert.deepEqual(module, readFileSync(join(editors, "../libraries/javascript/lgp_c_region.wasm")));
    const sign = module.subarray(0, 60).toString("base64");
    for (const name of readdirSync(extension).filter((it) => it.endsWith(".js"))) assert.equal(textOf(name).includes(sign), false, name);
    const kinds = Array.from(textOf("FAULTS.md").matchAll(/^## (\w+)$/gm), ([, kind]) => kind);
    assert.ok(kinds.includes("UnknownName") && kinds.includes("NoEnd") && kinds.includes("TooLong") && kinds.length > 14);
});

test("the package has what its manifest names, and needs nothing else", { skip }, () => {
    const manifest = JSON.parse(textOf("package.json"));
    const { languages: [language], grammars: [grammar] } = manifest.contributes;
    for (const name of [manifest.main, manifest.browser, language.configuration, grammar.path]) assert.ok(textOf(name).length > 0, name);
    assert.deepEqual([manifest.dependencies, manifest.devDependencies], [undefined, undefined]);
    assert.match(
        readFileSync(join(folder, "extension.vsixmanifest"), "utf8"),
        new RegExp(`Id="${manifest.name}" Version="${manifest.version}" Publisher="${manifest.publisher}"`)
    );
    const again = mkdtempSync(join(tmpdir(), "vscode-"));
    execFileSync(join(editors, "build"), [again]);
    for (const name of [
        "condugwa-lgp30.vsix", "lgp30-language-server.mjs", "lgp30-debug-adapter.mjs",
    ]) assert.deepEqual(readFileSync(join(again, name)), readFileSync(join(folder, name)), name);
    rmSync(again, { recursive: true });
});
