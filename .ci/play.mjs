// Plays sessions with the proved module, for .ci/records. Each line of standard input is an object: `folder`, where files are, `files`,
// which are typed first, `manner`, in which replies are written, and `lines`. For each, a line of standard output is the array of what is
// written: for the files, for each of the lines, and at the end.
import { createInterface } from "node:readline";
import { Desk } from "../libraries/javascript/node_desk.mjs";

for await (const asked of createInterface({ input: process.stdin })) {
    const { folder, files, manner, lines } = JSON.parse(asked);
    process.chdir(folder);
    const desk = await Desk.open(manner);
    const first = files.map((name) => desk.typeFile(name)).join("");
    const replies = lines.map((line) => (desk.hasLeft ? "" : desk.type(line)));
    console.log(JSON.stringify([first, ...replies, desk.leave()]));
}
