/** Objects of logs and of collections: what the library writes of them, and what only who opens them knows. */
import { hasUids, isPlaces, kindOf, stemOf, sumOf, surveyedIn, utf8Of } from "./files.mjs";
import { hasUid, maskOf } from "./frames.mjs";
import { madeOnce } from "./groups.mjs";
import { LF } from "./log.mjs";

/** @typedef {import("./library.mjs").Library} Library */
/** @typedef {import("./objects.mjs").LogObject} LogObject */
/** @typedef {import("./objects.mjs").CollectionObject} CollectionObject */
/** @typedef {import("./files.mjs").Given} Given */

/** How much of a line is kept that was refused. */
const MOST_QUOTED = 160, DECODED = new TextDecoder("utf-8", { ignoreBOM: true }), REFUSED = /^refused at line (\d+) of ([^]*): (\w+)\n$/;
/** A line of a log's own list. */
const LISTED = /(?:^|\n)U (\w{16})/g;

/** @typedef {{name?: string, line?: number, fault?: string, quoted?: string, files: string[]}} Refused a line for which a collection has no
 *   answer, or tables that are none of its files; with the files that can be left out */

/**
 * @param {Library} library
 * @param {Uint8Array} text
 * @param {string} name
 * @param {boolean} [isKept] whether its text is kept with it
 * @param {string | Promise<string>} [sum] of the text, which another thread works out meanwhile
 * @returns {Promise<LogObject>}
 */
export async function judge(library, text, name, isKept = false, sum = sumOf(text)) {
  const said = JSON.parse(DECODED.decode(library.run("json", [{ text }]).written));
  const kept = !isKept ? "" : DECODED.decode(said.fault ? untilLine(text, said.line) : text);
  return { ...said, version: versionOf(library.version), file: name, sha256: await sum, text: kept };
}

/**
 * A collection; or the cause of an error says why it is none.
 * @param {Library} library
 * @param {Given[]} files
 * @returns {Promise<CollectionObject>}
 */
export async function judgeAll(library, files) {
  const texts = files.map((file) => ({ name: file.name, text: kindOf(file) === "table" ? utf8Of(file.text) : file.text }));
  const said = DECODED.decode(library.run("json-collection", texts).written), refused = said.match(REFUSED);
  if (refused) throw new Error(said, { cause: refusedIn(texts, Number(refused[1]), refused[2], refused[3]) });
  const object = JSON.parse(said), tables = files.filter((file) => kindOf(file) === "table");
  // a log may be called like a table
  const sums = new Map(await Promise.all(files.map(async (it) => /** @type {const} */ ([it, await sumOf(it.text)]))));
  const logs = new Map(files.flatMap((it) => kindOf(it) === "table" ? [] : [[it.name, sums.get(it)]]));
  shareLists([...object.items, ...object.unexpected]);
  const denied = deniedIn(object, texts), surveys = new Map(files.flatMap((it) => surveyedIn(it).map((name) => [name, sums.get(it)])));
  return { ...object, version: versionOf(library.version), file: tables.find((file) => !isPlaces(file))?.name ?? "",
    files: tables.map((it) => ({ file: it.name, sha256: sums.get(it) ?? "", text: isPlaces(it) ? new TextDecoder().decode(utf8Of(it.text)) : undefined })),
    logs: object.logs.map((/** @type {{name: string}} */ log, /** @type {number} */ at) =>
      ({ ...log, sha256: logs.get(log.name) ?? "", denied: denied[at], surveys: surveys.get(log.name) })) };
}

/**
 * For each log the UIDs that are on its own list, and that it rules out.
 * @param {CollectionObject} object
 * @param {Given[]} texts
 */
function deniedIn({ items, unexpected, logs }, texts) {
  const files = new Map(texts.map(({ name, text }) => [name, text]));
  const listed = (/** @type {string} */ name) => [...DECODED.decode(files.get(name)).matchAll(LISTED)].map(([, uid]) => uid.toUpperCase());
  const lists = logs.map(({ name, field }) => field === "possible" ? listed(name) : []);
  const known = new Map(lists.flat().length ? [...items, ...unexpected].map((it) => [it.uid, it]) : []);
  return lists.map((uids, at) => uids.filter((uid) => {
    const it = known.get(uid), { open = [], more } = logs[at], number = BigInt(`0x${uid}`);
    return it ? !it.certain_in.includes(at) && !it.possible_in.includes(at) : !more && !open.some((mask) => hasUid(maskOf(mask), number));
  }));
}

/**
 * Items with the same logs share one list of them: it is handed to the page once then.
 * @param {Pick<import("../judge/objects.mjs").Item, "certain_in" | "possible_in">[]} items
 */
function shareLists(items) {
  const lists = /** @type {Map<string, number[]>} */ (new Map()), shared = (/** @type {number[]} */ list) => madeOnce(lists, list.join(), () => list);
  for (const item of items) Object.assign(item, { certain_in: shared(item.certain_in), possible_in: shared(item.possible_in) });
}

/**
 * @param {Given[]} texts
 * @param {number} line
 * @param {string} name
 * @param {string} fault
 * @returns {Refused}
 */
function refusedIn(texts, line, name, fault) {
  const file = texts.find((it) => it.name === name), text = file?.text ?? new Uint8Array(), isBeside = fault === "Columns" && file && hasUids(file);
  const isSame = (/** @type {Given} */ it) => [it.name, ...surveyedIn(it)].some((one) => stemOf(one) === stemOf(name));
  return { name, line, fault, files: texts.flatMap((it) => it.name === name || fault === "SameName" && isSame(it) || isBeside && isPlaces(it) ? it.name : []),
    quoted: DECODED.decode(untilLine(text, line).subarray(lineAt(text, line))).trimEnd() };
}

/**
 * Where a line begins.
 * @param {Uint8Array} text
 * @param {number} line
 */
function lineAt(text, line) {
  let start = 0;
  for (let number = 1; number < line; number++) start = text.indexOf(LF, start) + 1;
  return start;
}

/**
 * A text as far as a line, of which the beginning is kept.
 * @param {Uint8Array} text
 * @param {number} line
 */
function untilLine(text, line) {
  const start = lineAt(text, line), end = text.indexOf(LF, start);
  return text.subarray(0, Math.min(end < 0 ? text.length : end + 1, start + MOST_QUOTED));
}

/** @param {number} number as the library gives it */
const versionOf = (number) => [Math.floor(number / 10000), Math.floor(number / 100) % 100, number % 100].join(".");
