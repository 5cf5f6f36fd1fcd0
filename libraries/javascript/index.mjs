// The laboratory for the Royal McBee LGP-30, from its proved module, in node and in browsers. index.d.ts says what each part does.
export { Laboratory, Refusal, assemble, fractionOf, numberOf, runScript } from "./laboratory.mjs";
export { NoMemory, NoModule, compiled } from "./session.mjs";
