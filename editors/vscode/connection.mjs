// @ts-check
// The extension's side of its worker: it starts that, hands over the module, and answers what the worker asks of the editor.
import * as vscode from "vscode";

/** A path as the editor gives it: of a file, or the address of what is no file. */
export const uriOf = (path) => (/^[a-z][a-z0-9+.-]+:\/\//i.test(path) ? vscode.Uri.parse(path) : vscode.Uri.file(path));
export const pathOf = (uri) => (uri.scheme === "file" ? uri.fsPath : uri.toString());

const isWhole = (path) => /^([a-z][a-z0-9+.-]+:\/\/|[a-z]:[\\/]|[\\/])/i.test(path);

/** What the worker asks of the editor, by what the platform knows. */
const asked = ({ identityOf }) => ({
    readFile: (path) => vscode.workspace.fs.readFile(uriOf(path)),
    resolve: async (path, beside) => (
        beside === undefined || isWhole(path) ? path : pathOf(vscode.Uri.joinPath(uriOf(beside), "..", path))
    ),
    identityOf: async (path) => identityOf(uriOf(path)),
});

export class Connection {
    #worker;
    #asked;
    #shelves;
    /** @type {{ language: (message: any) => void }} */
    #heard = { language: () => {} };
    #debuggers = new Map();
    #nextDebugger = 1;

    /** A worker of the extension in a folder, which has the module; the platform starts it, and `shelves` keep what was done. */
    static async opened(folder, platform, shelves) {
        const connection = new Connection();
        connection.#asked = asked(platform);
        connection.#shelves = shelves;
        const module = await vscode.workspace.fs.readFile(vscode.Uri.joinPath(folder, "lgp_c_region.wasm"));
        connection.#worker = platform.startedWorker(
            vscode.Uri.joinPath(folder, "worker.js"), (message) => connection.#took(message),
            (why) => vscode.window.showErrorMessage(`LGP-30: ${why}`)
        );
        connection.#worker.postMessage({ module, faults: vscode.Uri.joinPath(folder, "FAULTS.md").toString() });
        return connection;
    }

    #took(message) {
        if ("language" in message) this.#heard.language(message.language);
        else if ("debugger" in message) this.#debuggers.get(message.debugger)?.(message.message);
        else if ("keeps" in message) this.#shelves.of(message.number)[message.keeps](...message.given);
        else this.#tell(message);
    }

    async #tell({ asks, number, given }) {
        try {
            this.#worker.postMessage({ told: number, value: await this.#asked[asks](...given) });
        } catch (failure) {
            this.#worker.postMessage({ told: number, failure: failure.message });
        }
    }

    /** The language server: `hear` is called with its messages, and what is given takes messages for it. */
    language(hear) {
        this.#heard.language = hear;
        return (message) => this.#worker.postMessage({ language: message });
    }

    /** A debug adapter, as the editor takes one. */
    debugger() {
        const number = this.#nextDebugger++;
        const sent = new vscode.EventEmitter();
        this.#debuggers.set(number, (message) => sent.fire(message));
        return {
            onDidSendMessage: sent.event, handleMessage: (message) => this.#worker.postMessage({ debugger: number, message }),
            dispose: () => {
                this.#worker.postMessage({ ends: number });
                this.#debuggers.delete(number);
            },
        };
    }

    dispose() {
        this.#worker.terminate();
    }
}
