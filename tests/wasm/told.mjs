/**
 * What the page says of texts, each after its length, where it goes beyond what the library answers: a line of JSON for each.
 *
 *     node told.mjs MODULE.wasm <TEXTS
 */
import { readFileSync, writeFileSync } from "node:fs";
import { judge } from "../../web/judge/judge.mjs";
import { Library } from "../../web/judge/library.mjs";
import { say } from "../../web/say/say.mjs";
import { tell } from "../../web/judge/told.mjs";
import { textsIn } from "./answers.mjs";

const library = await Library.of(readFileSync(process.argv[2])), written = [];
for (const text of textsIn(readFileSync(0))) {
  const told = tell(await judge(library, text, ""), text), { look, headline, lights } = say(told);
  written.push(JSON.stringify({ look, headline, list: lights[1]?.value ?? "", isMore: told.isMore }), "\n");
}
writeFileSync(1, written.join(""));
