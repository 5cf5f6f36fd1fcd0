#!/usr/bin/env node
// @ts-check
// The language server for editors: it says of LGP-30 sources what the proved assembler says.
import { existsSync } from "node:fs";
import { LanguageServer } from "./language/server.mjs";
import { serve } from "./serve.mjs";

/** What docs/FORMATS.md says of faults, beside this program in the repository and in packages. */
const formats = new URL("../docs/FORMATS.md", import.meta.url);
const link = existsSync(formats) ? `${formats}#faults` : null;

serve(
    "lgp30-language-server", "answers the Language Server Protocol for sources of the LGP-30",
    (openSession, send, exit) => new LanguageServer(openSession, send, exit, () => link)
);
