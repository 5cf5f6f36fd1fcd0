// Solves the lessons over the module as a pupil does who makes no mistake, and so has the answers of their steps. The sheets and the tests
// of the lessons are made from this.
import { readFileSync } from "node:fs";
import { dirname, join } from "node:path";
import { fileURLToPath } from "node:url";
import { Controller } from "./controller.mjs";
import { documentOf } from "./documents.mjs";
import { SOLUTIONS } from "./lesson_solutions.mjs";
import { LESSONS, setUpFor } from "./lesson_steps.mjs";
import { lessonIn } from "./lessons.mjs";
import { ModuleLink } from "./module_link.mjs";

const top = join(dirname(fileURLToPath(import.meta.url)), "..");

const exampleOf = (name) => readFileSync(join(top, `examples/${name}.txt`), "utf8");

/**
 * The answers of a lesson's steps, null where none is asked for, and the laboratory where they have led. Where a step is not done by its
 * action, or before it, that is an error.
 */
export async function solveLesson(name) {
    const laboratory = new Controller(new ModuleLink(join(top, "libraries/javascript/lgp_c_region.wasm")));
    await laboratory.open();
    const written = lessonIn(readFileSync(documentOf(join(top, "teaching/lessons"), name, "en"), "utf8")).steps;
    const answers = [];
    for (const [place, waited] of LESSONS.find((lesson) => lesson.name === name).steps.entries()) {
        const step = { ...waited, ...written[place] };
        if (step.opens !== undefined || step.lines.length > 0) await setUpFor(laboratory, step, exampleOf);
        if (step.shows !== undefined) await laboratory.showAt(step.shows);
        if (step.done?.(laboratory)) throw new Error(`step ${place + 1} of ${name} is done before its action`);
        await SOLUTIONS[name][place]?.(laboratory);
        if (!(step.done ?? step.isAsked)(laboratory)) throw new Error(`step ${place + 1} of ${name} is not done by its action`);
        answers.push(step.answer?.(laboratory) ?? null);
    }
    return { answers, laboratory };
}
