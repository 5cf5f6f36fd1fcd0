// @ts-check
// The extension for VS Code and vscode.dev: both servers, in a worker beside the editor's own process.
import { Connection } from "./connection.mjs";
import { serveDebugger } from "./debugger.mjs";
import { serveLanguage } from "./language.mjs";
import { Shelves } from "./shelf.mjs";

/** What activates the extension on a platform. */
export const activateOn = (platform) => async (context) => {
    const shelves = new Shelves(context.globalStorageUri);
    const connection = await Connection.opened(context.extensionUri, platform, shelves);
    context.subscriptions.push(connection, ...serveDebugger(connection, shelves), ...await serveLanguage(connection));
};
