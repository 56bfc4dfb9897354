/** Judges logs and collections beside the page, which stays alive meanwhile and can end it. */
import { kindOf } from "./judge/files.mjs";
import { judge, judgeAll } from "./judge/judge.mjs";
import { Library, OutOfMemory, WRONG_TEXTS } from "./judge/library.mjs";
import { tell } from "./judge/told.mjs";
import { unpacked } from "./packed.mjs";
import { noAnswer } from "./say/refused.mjs";
import { SENTENCES } from "./say/sentences.mjs";

/** @type {Uint8Array} */
let module;
/** @type {Promise<Library | null>} */
let loading;
let isAsked = false;
/** @type {((index: import("./judge/log.mjs").Index) => void) | undefined} */
let take;

/** How often a log is judged before anything is asked, and how often it has the rounds of a small one: a browser compiles well only what ran long. */
const WARMING = 20, FIELDS = 400;

/** None where no library runs. */
const load = () => unpacked(module).then(Library.of).catch(() => null);

/**
 * Why there is no answer, in words, and what to do. What has trapped, which each browser calls otherwise, is loaded again.
 * @param {any} error
 * @param {import("./judge/files.mjs").Given[]} [files] of a collection
 */
function why(error, files = []) {
  const tables = error.message === WRONG_TEXTS && files.filter((file) => kindOf(file) === "table").map(({ name }) => name);
  if (error.cause || tables) return noAnswer(error.cause ?? { files: tables });
  if (error instanceof OutOfMemory) return { error: SENTENCES.failures.memory };
  loading = load();
  return { error: SENTENCES.failures.trap };
}

/**
 * Its sums come from another thread, so that between two judgings it can be asked.
 * @param {Uint8Array} sample
 */
async function warm(sample) {
  const library = await loading, rounds = new TextDecoder().decode(sample).replace(/^[vU].*\n/gm, "");
  const [long, text] = [`vicinity-log 3\n${`F\n${rounds}`.repeat(FIELDS)}`, "uid\nnone\n"].map((it) => new TextEncoder().encode(it)), files = [{ name: "A.csv", text }, { name: "A.log", text: sample }];
  for (let left = WARMING; library && left && !isAsked; left--) await judgeAll(library, files).then(() => judge(library, long, "")).then((it) => tell(it, long));
}

onmessage = async ({ data: { id, text, name, isKept, changed, files, isIndexed, index, ...data } }) => {
  if (index) return take?.(index);
  // it comes while the text is judged
  const made = isIndexed ? new Promise((done) => { take = done; }) : undefined;
  try {
    if (data.module) {
      module = data.module;
      loading = load();
      return await warm(data.sample).catch(() => {});
    }
    isAsked = true;
    const library = await loading;
    if (!library) return postMessage({ id, error: SENTENCES.failures.none });
    if (text) postMessage({ id, told: tell({ ...await judge(library, text, name, isKept, ""), changed }, text, await made) });
    if (files) postMessage({ id, collection: await judgeAll(library, files) });
  } catch (error) {
    postMessage({ id, ...why(error, files) });
  }
};
