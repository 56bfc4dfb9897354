/**
 * What the page says of logs and collections, beside the objects that it says it of: a line of JSON for each.
 *
 *     node headlines.mjs MODULE.wasm <CASES
 *
 * A case is a line of JSON, the files of one collection or a log alone: `[[NAME, TEXT], ..]`, each text in base64. Several logs without
 * a catalogue are `{"each": [[NAME, TEXT], ..]}`.
 */
import { readFileSync, writeFileSync } from "node:fs";
import { judge, judgeAll } from "../../web/judge/judge.mjs";
import { Library } from "../../web/judge/library.mjs";
import { headlineOfEach, say } from "../../web/say/say.mjs";
import { headlineOf } from "../../web/say/summary.mjs";
import { tell } from "../../web/judge/told.mjs";

const library = await Library.of(readFileSync(process.argv[2])), written = [];

const toldOf = async ({ name, text }) => tell(await judge(library, text, name), text);

async function saidOfEach(files) {
  const tolds = await Promise.all(files.map(toldOf)), looks = tolds.some(({ counts }) => counts.listed) ? tolds.map((told) => say(told).look) : [];
  return { objects: tolds.map(({ object }) => ({ ...object, text: "" })), headline: headlineOfEach(looks, tolds.length, 0) };
}

async function saidOf(files) {
  if (files.length > 1) {
    const object = await judgeAll(library, files);
    return { object, headline: headlineOf(object) };
  }
  const told = await toldOf(files[0]), { look, headline, lights } = say(told);
  return { object: { ...told.object, text: "" }, headline, look, lights: Object.fromEntries(lights.map((it) => [it.name, it.value])) };
}

for (const line of readFileSync(0, "utf-8").split("\n").filter((it) => it)) {
  const given = JSON.parse(line), files = (given.each ?? given).map(([name, text]) => ({ name, text: new Uint8Array(Buffer.from(text, "base64")) }));
  written.push(JSON.stringify(await (given.each ? saidOfEach : saidOf)(files).catch(({ message }) => ({ error: message }))), "\n");
}
writeFileSync(1, written.join(""));
