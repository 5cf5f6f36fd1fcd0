// @ts-check
// The editor's debugger over the adapter in the worker. Files are those of the editor's workspace, also where that is not on a disk.
import * as vscode from "vscode";
import { pathOf } from "./connection.mjs";

/** A launch of the source that is open, where none is named. */
function resolved(folder, configuration) {
    const document = vscode.window.activeTextEditor?.document;
    const isOpen = document?.languageId === "lgp30";
    const launch = configuration.type === undefined && isOpen
        ? { type: "lgp30", request: "launch", name: "LGP-30", stopOnEntry: true }
        : configuration;
    return isOpen && (launch.program === undefined || launch.program === "${file}") ? { ...launch, program: pathOf(document.uri) } : launch;
}

/** Serves the editor's debugger, which keeps what was done on shelves; what ends that. */
export const serveDebugger = (connection, shelves) => [
    vscode.commands.registerCommand("lgp30.lastSession", () => shelves.showLast()),
    vscode.debug.registerDebugConfigurationProvider("lgp30", { resolveDebugConfiguration: resolved }),
    vscode.debug.registerDebugAdapterDescriptorFactory(
        "lgp30", { createDebugAdapterDescriptor: () => new vscode.DebugAdapterInlineImplementation(connection.debugger()) }
    ),
];
