// The program by the binding for JavaScript:  run.mjs MODULE
//
// A line of standard input is a run as JSON, `{command, texts: [{name, text}]}`, each text in base64;
// its answer is a line `{status, written}`, or `{status: 4, why}`.
import { readFile } from "node:fs/promises";
import { createInterface } from "node:readline";
import { Library } from "../../web/judge/library.mjs";

const library = await Library.of(await readFile(process.argv[2]));
for await (const line of createInterface({ input: process.stdin })) {
  const { command, texts } = JSON.parse(line);
  const given = texts.map(({ name, text }) => ({ name, text: Buffer.from(text, "base64") }));
  try {
    const { status, written } = library.run(command, given);
    console.log(JSON.stringify({ status, written: Buffer.from(written).toString("base64") }));
  } catch (error) {
    console.log(JSON.stringify({ status: 4, why: error.name }));
  }
}
