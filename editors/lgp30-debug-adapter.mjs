#!/usr/bin/env node
// @ts-check
// The debug adapter for editors: it brings LGP-30 sources into the proved machine, runs them, and goes back.
import { realpathSync } from "node:fs";
import { readFile } from "node:fs/promises";
import { dirname, join, resolve } from "node:path";
import { DebugAdapter } from "./debug/adapter.mjs";
import { serve } from "./serve.mjs";
import { ModuleEngine } from "../libraries/javascript/engines.mjs";
import { fileNames } from "../libraries/javascript/file_names.mjs";
import { Shelf, stateFolder } from "../libraries/javascript/shelf.mjs";

/** What types the lines of the console, which may name files. */
const consoleOver = (session, openSession) => new ModuleEngine(session, openSession);

/** The whole path of a file, found beside another one if that is given. */
const whole = (path, beside) => resolve(beside === undefined ? "." : dirname(beside), path);

/** The path by which the system knows a file, which links and other spellings lead to. */
function identityOf(path) {
    try {
        return realpathSync.native(path);
    } catch {
        return resolve(path);
    }
}

// what was done is kept apart from what was typed at a terminal, since a debugger is started often
serve("lgp30-debug-adapter", "answers the Debug Adapter Protocol for programs of the LGP-30", (openSession, send, exit) => (
    new DebugAdapter(
        openSession, send,
        {
            readFile, resolve: whole, identityOf, consoleOver, fileNames, shelf: new Shelf(join(stateFolder(), "debugger")),
            ended: () => exit(0),
        }
    )));
