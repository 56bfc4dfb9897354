/** What is opened: files as logs, each with its text, or together a collection, which has none of its own. */
import { isPlaces, isStrange, startOf, surveyedIn } from "./judge/files.mjs";
import { grouped } from "./judge/groups.mjs";
import { bareOf, isATable, isCatalogue, isNeither, NO_LOG, putAge, putAges, strangeness, UNFINISHED } from "./left.mjs";
import { foundIn } from "./say/refused.mjs";
import { firstOf, MOST_LISTED } from "./say/shelves.mjs";
import { count, listing, printable } from "./say/words.mjs";
import { STOPPED } from "./work.mjs";

/** @typedef {import("./judge/files.mjs").Given} Given */
/** @typedef {import("./judge/objects.mjs").CollectionObject} CollectionObject */
/** @typedef {{name: string, how: string, changed?: number}} Left what isn't here any more, and how it left, which is said as long as it isn't back */
/** @typedef {{tables: Entry[], logs: Entry[], both: string[], left: Left[]}} Collection with what was answered of its files */
/**
 * A log, or a collection, with what was done to it last; or one that waits for its catalogue. Of a file it has by what that is known, when it
 * was changed, and its own name, if it took another, and whether it was left out at once; of one by itself, what isn't here any more, and what was answered.
 * @typedef {Given & import("./work.mjs").Done & {id: number, given?: Collection, waits?: string, note?: string,
 *   said?: import("./say/say.mjs").Said, changed?: number, was?: string, left?: Left[], both?: string[], made?: string, isOut?: boolean}} Entry
 */

/** Larger files are no logs, and no text for each browser. */
const MOST_BYTES = 256_000_000, TOO_LARGE = "it has more than 256 MB", NO_FILE = "it can't be read; open it again, or the files in it if it is a folder";
const OPEN_IT = "Open it again under its name, or leave it out.", NOT_WHOLE = "by its name it is still being downloaded or written: wait for that, or copy it again";
/** What no name of a log has. */
const CONTROL = /[\0-\x1F\x7F]/g, NO_TEXTS = "Leave out what doesn't belong here; save a spreadsheet as CSV; unpack what is packed (ZIP, gz).";
/** Of how many logs it is said each that they count by other names. */
const MOST_SAID_EACH = 4, NO_CATALOGUE = "Now open the catalogue: a table (CSV) with a column uid.";
/** What is pasted has no name by which it could be of a place. The example leaves with the first file that is opened, and joins none. */
export const PASTED = "pasted text", EXAMPLE = "the example";
const IS_EXAMPLE = "This is an example: twelve books that belong on three shelves, A, B and C, and the log of each shelf.";

/** @param {Entry} entry */
export const isUnanswered = ({ told, collection, error, waits }) => !told && !collection && !error && !waits;

/**
 * Without its text; what was stopped while it was judged has one.
 * @param {Entry} entry
 */
const isLacking = ({ error, text }) => error && (error !== STOPPED || !text.length);

/**
 * A file that can't be read, as a folder, or not to its end, has no answer.
 * @param {File} file
 * @param {AbortSignal} signal ends the reading
 * @param {string} [made] how it came, if it is no file
 * @returns {Promise<Entry>}
 */
export async function read(file, signal, made) {
  const entry = { id: Math.random(), name: file.name.replace(CONTROL, "?"), text: new Uint8Array(), changed: made === EXAMPLE ? undefined : file.lastModified, made };
  if (UNFINISHED.test(entry.name)) return { ...entry, error: NOT_WHOLE };
  if (file.size > MOST_BYTES) return { ...entry, error: TOO_LARGE };
  try {
    const stopped = new Promise((_, no) => signal.addEventListener("abort", no)), bytes = await Promise.race([file.arrayBuffer(), stopped]);
    return { ...entry, text: new Uint8Array(bytes) };
  } catch { return { ...entry, error: signal.aborted ? STOPPED : NO_FILE }; }
}

/** @param {{name: string}[]} list */
const namesOf = (list) => listing(list.map(({ name }) => printable(name)));

/**
 * Those of some logs that are the same as others: by their names, also those that they had before they counted otherwise.
 * @template {{name: string, was?: string}} Log
 * @param {Log[]} list
 * @param {{name: string, was?: string}[]} others
 */
const sameAs = (list, others, stems = new Set(others.flatMap(stemsOf))) => list.filter((log) => stemsOf(log).some((stem) => stems.has(stem)));

/** @param {{name: string, was?: string}} log */
const stemsOf = ({ name, was = name }) => [bareOf(name), bareOf(was)];

/**
 * The files that are here.
 * @param {Entry[]} entries
 */
export const filesOf = (entries) => entries.flatMap((it) => it.given ? [...it.given.tables, ...it.given.logs] : it);

/**
 * What was opened, as it is judged. Logs join others. Tables, or logs beside a collection that is here, belong to what is here, and what
 * is neither is left out; a catalogue with its logs is a collection of its own. A log that was pasted belongs to none.
 * @param {Entry[]} taken
 * @param {Entry[]} all those that are here, of which the example leaves
 * @returns {Entry[]}
 */
export function gathered(taken, all) {
  const entries = all.filter((it) => (it.given?.tables[0] ?? it).made !== EXAMPLE), past = (all[0]?.given ?? all[0])?.left ?? [];
  const [first] = entries, earlier = first?.given, before = entries.flatMap((it) => it.given?.logs ?? it);
  const known = taken.filter((it) => !earlier || !strangeness(it)), isWhole = known.some(isCatalogue) && !known.every(isATable);
  // one of a log's name is a new count of it, which wasn't read: the old one doesn't count beside it
  const names = before.flatMap((it) => [it, ...surveyedIn(it).map((name) => ({ name }))]);
  const isKnown = (/** @type {Entry} */ it) => isWhole || known.includes(it), out = taken.filter((it) => !isKnown(it) && !sameAs([it], names).length);
  const rest = taken.filter((it) => !out.includes(it)).map((it) => isKnown(it) || !isATable(it) ? it : { ...it, text: new Uint8Array(), error: NO_LOG });
  for (const it of taken) it.isOut = !isKnown(it);
  const left = leftAs(out, outAs), said = wasEach(left).join(" ");
  if (earlier && !rest.length) return [collected({ ...earlier, left: [...past, ...left] }, `${said} The collection is still here.`)];
  const tables = rest.filter(isATable), logs = rest.filter((it) => !isATable(it));
  const isJoining = !isWhole && (earlier || !logs.length) && logs.every(({ made }) => !made), isLoose = !tables.length && !(isJoining && earlier);
  const what = earlier ? [...earlier.tables.map(({ name }) => name), count(before.length, "log")].join(", ") : firstOf(before.map(({ name }) => name), "and", MOST_LISTED);
  const isClosed = first && !isJoining && (earlier || !isLoose), closed = { name: `What was here (${what})`, how: "closed" };
  const over = isClosed ? earlier ? [] : [closed] : past, note = isClosed ? `${wasEach([closed])[0]} ` : "";
  if (isLoose) {
    const gone = isClosed ? [] : sameAs(entries, logs), words = note || replacing(gone);
    return [...isClosed ? [] : entries.filter((it) => !gone.includes(it)), ...logs.map((log) => ({ ...log, note: words.trimEnd() }))].map((it) => ({ ...it, left: over }));
  }
  const others = isJoining && !earlier ? entries : [], [unnamed, strange] = [others.filter(({ made }) => made), others.filter(isStrange)];
  const more = [...left, ...leftAs(unnamed, "left out: what is pasted has no name"), ...leftAs(strange, outAs)];
  const kept = others.filter((it) => !unnamed.includes(it) && !strange.includes(it)), both = others.flatMap((it) => it.both ?? []);
  const here = isJoining && earlier || { tables: [], both, logs: kept };
  return [joined({ ...here, left: [...over, ...more] }, tables, logs, [note, ...wasEach(more)].join(" "))];
}

/**
 * What is said of files that leave.
 * @param {Entry[]} list
 * @param {string | ((file: Entry) => string)} how
 */
const leftAs = (list, how) => list.map((file) => /** @type {Left} */ ({ name: file.was ?? file.name, how: typeof how === "string" ? how : how(file), changed: file.changed }));

/**
 * What is said of a file that belongs to no collection: what it is, if that is known.
 * @param {Entry} file
 */
const outAs = (file, reason = strangeness(file)) => `left out: ${reason === NO_LOG && /^, but (?:another text: )?(.*)/.exec(foundIn(startOf(file).split("\n", 1)[0])[1][1])?.[1] || reason}`;

/**
 * What became of files.
 * @param {{name: string}[]} list
 * @param {string} how
 */
const was = (list, how) => list.length ? `${namesOf(list)} ${list.length > 1 ? "were" : "was"} ${how}. ` : "";

/**
 * What became of files, each with how.
 * @param {Left[]} left
 */
const wasEach = (left) => [...grouped(left, ({ how }) => how)].map(([how, its]) => printable(was(its, how).trimEnd()));

/**
 * What became of logs that others replace.
 * @param {Entry[]} gone
 */
const replacing = (gone) => was(gone.map(({ name, was = name }) => ({ name: was === name ? name : `${was}, counted as ${name},` })),
  "replaced by what you opened under the same name");

/**
 * A collection with more files, of which each takes the place of one of its kind, or of its name; and what became of these. Where each
 * log belongs a new table of places says by their own names.
 * @param {Collection} here
 * @param {Entry[]} tables
 * @param {Entry[]} logs
 * @param {string} note
 */
function joined(here, tables, logs, note) {
  // among the logs is a table that couldn't be read
  const broken = here.logs.filter((log) => isLacking(log) && tables.some(({ name }) => name === log.name.replace(UNFINISHED, "")));
  const replaced = [...sameAs(here.logs, logs), ...broken], stay = here.logs.filter((log) => !replaced.includes(log));
  const kept = stay.map((log) => log.was && tables.some(isPlaces) ? { ...log, name: log.was } : log);
  const gone = here.tables.filter((table) => tables.some((other) => isPlaces(other) === isPlaces(table)));
  const more = kept.length ? [...logs, ...gone.length ? [] : tables.filter(({ made }) => made)] : [];
  const said = [isCatalogue, isPlaces].map((is) => was(gone.filter(is), `replaced by ${namesOf(tables.filter(is))}`)).join("") + (note.trim() && `${note.trim()} `) +
    (replacing(replaced) || (more.length ? `${namesOf(more)} joined the logs that were here.` : ""));
  const opened = [...logs, ...tables], isBack = (/** @type {Left} */ one) => opened.some((it) => it.name === one.name && (it.changed ?? 0) >= (one.changed ?? 0));
  return collected({ tables: [...here.tables.filter((table) => !gone.includes(table)), ...tables], logs: [...kept, ...logs], both: globalThis.crypto?.subtle ? here.both : [],
    left: here.left.filter((it) => !isBack(it)) }, said.trimEnd());
}

/**
 * A collection without some of its files, or its logs if no table is left. One that counts in place
 * of a log that is left out takes its place, if it has none.
 * @param {Collection} given
 * @param {Entry[]} gone
 * @param {string} [kept]
 * @param {CollectionObject} [object]
 * @returns {Entry[]}
 */
export function without({ tables, logs, both, left }, gone, kept, object) {
  const of = (/** @type {string | undefined} */ name) => object?.logs.find((log) => log.name === name), [{ name }] = gone, out = leftAs(gone, "left out");
  for (const it of gone) it.isOut = tables.filter(isCatalogue).length > 1 && strangeness(it) !== "";
  const others = (/** @type {Entry[]} */ list) => list.filter((it) => !gone.includes(it)), takes = of(kept)?.left_over && of(name)?.place;
  const rest = { tables: others(tables), both, left: [...left, ...out], logs: calledAs(others(logs), takes && kept ? [[kept, name]] : []) };
  return rest.tables.length ? [collected(rest, [...wasEach(out), ...asOthers(rest.logs, takes ? [name] : [])].join(" "))]
    : rest.logs.map((log) => ({ ...log, left: rest.left, both, note: wasEach(out).join(" ") }));
}

/**
 * A collection in which logs count by other names; one that has such a name, by theirs.
 * @param {Collection} given
 * @param {string[]} names
 * @param {string[]} as
 */
export const counted = (given, names, as, logs = calledAs(given.logs, names.flatMap((name, at) => [[name, as[at]], [as[at], name]]))) =>
  collected({ ...given, logs }, asOthers(logs, [...names, ...as]).join(" "));

/**
 * What is judged anew, with answers.
 * @param {Entry} entry
 * @param {string[]} keys of the questions
 * @returns {Entry}
 */
export const answered = (entry, keys) => entry.given ? collected({ ...entry.given, both: [...entry.given.both, ...keys] })
  : { ...entry, told: undefined, said: undefined, both: [...entry.both ?? [], ...keys] };

/**
 * Logs of which some have other names.
 * @param {Entry[]} logs
 * @param {[string, string][]} names
 */
const calledAs = (logs, names) => logs.map((log) => names.reduce((it, [from, to]) => log.name === from ? { ...log, name: to, was: log.was ?? from } : it, log));

/**
 * Which files count by other names than their own.
 * @param {Entry[]} logs
 * @param {string[]} names
 */
function asOthers(logs, names) {
  const all = logs.flatMap(({ name, was = name }) => was !== name && names.includes(name) ? printable(`${was} counts as ${name}.`) : []);
  return all.length > MOST_SAID_EACH ? [`${count(all.length, "log")} count by other names than their own, which stand below in brackets.`] : all;
}

/**
 * Puts to what was judged what is known of its files, beside those that aren't here any more.
 * @param {Entry} entry
 * @param {Entry[]} away
 */
export function annotate(entry, away) {
  const { given, collection, told } = entry;
  if (told) putAge(Object.assign(told.object, { both: entry.both }), entry, away);
  if (!collection || !given) return;
  const left = [...wasEach(given.left), ...asOthers(given.logs, given.logs.map(({ name }) => name))], isExample = given.tables[0]?.made === EXAMPLE;
  // what was summed up before isn't so any more
  putAges(entry.collection = { ...collection, both: given.both, left, example: isExample ? IS_EXAMPLE : undefined }, given, isExample ? [] : away);
}

/**
 * A collection that is judged, or waits for its catalogue. Without one of its files nothing is said of it, nor beside one that is no text.
 * @param {Collection} given
 * @param {string} [note]
 * @returns {Entry}
 */
export function collected(given, note) {
  const { tables, logs } = given, catalogue = tables.find(isCatalogue), lacking = [...logs, ...tables].filter(isLacking);
  const entry = { id: 0, name: (catalogue ?? tables[0]).name, text: new Uint8Array(), given, note };
  const all = [...tables, ...logs], strange = all.some(isStrange) ? all.filter((it) => isStrange(it) || isNeither(it)) : [], names = strange.map((it) => it.name), [name] = names;
  const each = strange.map((it) => `${it.name}${foundIn(startOf(it).split("\n", 1)[0])[1][1].replace(/^, but ([^:]*).*/, " ($1)").replace(/^:.*/, "")}`);
  if (name) return { ...entry, name, error: `${listing(each)} ${names[1] ? "are no tables or logs" : "is no table or log"}`, cure: [NO_TEXTS], files: names };
  if (lacking.length) return { ...entry, error: lacking.map(({ name, error }) => `${name}: ${error}`).join("; "), cure: [OPEN_IT], files: lacking.map((it) => it.name) };
  return catalogue ? entry : { ...entry, waits: NO_CATALOGUE };
}
