// Read by the TypeScript compiler, and never run: uses of the package that are in order, and some that are not.
import { Laboratory, Refusal, assemble, compiled, numberOf, runScript } from "condugwa";
import { Desk } from "condugwa/desk";

declare const bytes: Uint8Array;

const laboratory = new Laboratory(compiled(bytes), { region: 1 << 20 });
const digits: string | undefined = laboratory.words("0050", 2).get("0050");
const { orders, rule }: { orders: number; rule: number | null } = laboratory.run(10);
const clock: bigint = laboratory.back(orders) + laboratory.panel().clock;
const there: number = laboratory.to(orders) + laboratory.to({ last: "changed 0050" });
const sums: number[] = laboratory.trace(10).map(({ cost, stored }) => cost + (stored?.after.number ?? 0));
const { text, questions } = runScript(bytes, "panel\n");
const rows: string[] = laboratory.paper().split("\n");
const isDown: boolean = laboratory.panel().down.bp32;
const told = (failure: unknown): string | null => (failure instanceof Refusal ? failure.reason : null);

const opened: Laboratory = await Laboratory.open();
const columns: [number, number] | null = (await assemble(" z")).faults[0].columns;
const number: number = (opened.numbers("0050").get("0050") ?? 0) + numberOf("00000002");
const desk: string = (await Desk.open("json")).type("panel");
opened.put("0050", 3, 10);

// @ts-expect-error: a word is a text or a number
opened.put("0050", null);
// @ts-expect-error: the module is wanted
new Laboratory();
// @ts-expect-error: an address is a text
laboratory.words(50);
// @ts-expect-error: a clock is no number
const wrong: number = laboratory.panel().clock;

export { clock, columns, desk, digits, number, isDown, questions, rows, rule, sums, text, told, wrong };
