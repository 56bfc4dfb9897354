/** Which open files are older than what was here since the page was empty. */
import { hasUids, headsOf, isBroken, isPlaces, isSpreadsheet, isStrange, kindOf, startOf, stemOf, surveyedIn, uncopied } from "./judge/files.mjs";
import { grouped, madeOnce } from "./judge/groups.mjs";
import { lostIn, namesUids } from "./rows.mjs";
import { SENTENCES } from "./say/sentences.mjs";

/** @typedef {import("./opened.mjs").Entry} Entry */
/** @typedef {import("./judge/objects.mjs").CollectionObject} CollectionObject */
/** @typedef {{changed?: number, newer?: number, than?: string, beside?: number}} Age when a file was changed, and the newest one beside which it may
 *   not count; and the sum of what these are known by */
/** @typedef {{into: Age & {place?: string | null, name?: string}, file: Entry, name: string}} Opened an open table, or a log by its own name, which may
 *   be in a text of surveys */

/** How the name of a file ends while it is downloaded, or written; and why a text is no log. */
export const UNFINISHED = /\.(crdownload|opdownload|download|part|partial|filepart|tmp)$/i, NO_LOG = "a log begins with 'vicinity-log'";
/** How a log or surveys begin, in whatever coding; a tag in a log, and in surveys. */
const MARK = /v\0?i\0?c\0?i\0?n\0?i\0?t\0?y\0?-/i, HEARD_IN = /(?:^|\n)[RH] \w{4}(\w{16})/g, PROVED_IN = /(?:^|\n)certain (\w{16})/g;
/** The UIDs in logs; by the number of a file that was judged, all places of which its logs were, and null if one is of none; and what isn't open by its names. */
const HEARD = /** @type {WeakMap<Entry, string[]>} */ (new WeakMap()), JUDGED = /** @type {Map<number, Set<string | null>>} */ (new Map());
const AWAY = /** @type {WeakMap<Entry[], Map<string | null, Entry[]>>} */ (new WeakMap()), NO_ITEMS = { items: [], unexpected: [], logs: [], without_log: [] };

/**
 * Whether a file is a table, and whether it is one of items.
 * @param {Entry} entry
 */
export const isATable = (entry) => kindOf(entry) === "table", isCatalogue = (/** @type {Entry} */ entry) => isATable(entry) && !isPlaces(entry);

/**
 * Whether a table may have been meant for one of places.
 * @param {Entry} entry
 */
const isLikePlaces = (entry) => isATable(entry) && headsOf(entry).some((head) => head === "place" || head === "log");

/**
 * Why a file belongs to no collection; empty if it may.
 * @param {Entry} entry
 */
export const strangeness = (entry) => kindOf(entry) !== "other" && (!isCatalogue(entry) || hasUids(entry)) ? "" : isBroken(entry) ? SENTENCES.tables.utf16[0]
  : kindOf(entry) === "other" ? NO_LOG : isSpreadsheet(startOf(entry)) ? "save a spreadsheet as CSV" : isLikePlaces(entry) ? "a catalogue has a column 'uid', a table of places 'place' and 'log'" : "a catalogue has a column 'uid'";

/**
 * A name as other counts of the same have it: without folders, and without an ending that is no number; and as it will be when it is whole.
 * @param {string} name
 */
export const bareOf = (name) => stemOf(name.replace(UNFINISHED, "").replace(/\.\d+$/, "$&."));
/**
 * A name without what copies have, and as the root of others, without dates and numbers, too.
 * @param {string} name
 */
const firstName = (name) => uncopied(bareOf(name)), rootOf = (/** @type {string} */ name) => firstName(name).replace(/[^\p{L}]+/gu, "").toLowerCase();

/**
 * The UIDs that were heard in a log, or are proved in a text of surveys.
 * @param {Entry} file
 */
const heardIn = (file) => madeOnce(HEARD, file, () => {
  const text = new TextDecoder().decode(file.text), replies = Array.from(text.matchAll(HEARD_IN), ([, uid]) => (uid.match(/../g) ?? []).reverse().join(""));
  return [...Array.from(text.matchAll(PROVED_IN), ([, uid]) => uid), ...replies].map((uid) => uid.toUpperCase());
});

/**
 * When a file was changed; one without a date counts as the newest.
 * @param {Entry} file
 */
const ageOf = ({ changed = Infinity }) => changed;

/**
 * Whether two files have the same bytes.
 * @param {Entry} one
 * @param {Entry} other
 */
const isEqual = ({ text: one }, { text: other }) => one.length > 0 && one.length === other.length && one.every((byte, at) => byte === other[at]);

/**
 * What isn't open any more, also by no other name if a tag was heard in it; but what by its bytes was no log and no table, and what was typed. One that
 * couldn't be read is open again if one of its name and date is.
 * @param {Entry[]} seen
 * @param {Entry[]} open
 */
export const awayOf = (seen, open, byDate = grouped(open, ageOf)) => seen.filter((it) => (!it.made || isATable(it)) && !(isStrange(it) && isNeither(it)) && !byDate.get(ageOf(it))
  ?.some((other) => (other.id === it.id || isEqual(other, it) || it.error && !it.text.length && other.name === it.name) && (it.name === (other.was ?? other.name) || heardIn(it).length > 0)));

/**
 * Whether a file is no log and no table, whatever is wrong with it.
 * @param {Entry} it
 */
export const isNeither = (it) => kindOf(it) === "other" && !isBroken(it) && !MARK.test(startOf(it));

/**
 * Puts it to what is known of the files of a collection which newer ones aren't here, and which items have no row any more.
 * @param {CollectionObject} object
 * @param {import("./opened.mjs").Collection} given
 * @param {Entry[]} away
 */
export function putAges(object, { tables, logs }, away) {
  const byName = new Map(logs.flatMap((file) => (kindOf(file) === "surveys" ? surveyedIn(file) : [file.name]).map((name) => [name, file])));
  const ofLogs = object.logs.flatMap((into, _, __, file = byName.get(into.name)) => file ? { into: Object.assign(into, { was: file.was }), file, name: file.was ?? into.name } : []);
  for (const [file, its] of grouped(ofLogs, (it) => it.file)) {
    const read = its.filter(({ into }) => kindOf(file) === "surveys" || !into.field.startsWith("refused")), places = read.filter(({ into }) => into.place !== null || into.left_over);
    if (read.length) JUDGED.set(file.id, new Set([...[...JUDGED.get(file.id) ?? []].filter((place) => place !== null), ...places.map(({ into }) => into.place)]));
  }
  put([...tables.map((file, at) => ({ into: object.files[at], file, name: file.name })), ...ofLogs], away, object);
  object.lost = lostIn(object, tables.filter(isCatalogue)[0], away.filter((it) => isCatalogue(it) || isNeither(it) || isPlaces(it) && namesUids(it)));
}

/**
 * The same of a log by itself: only of its name, or in texts of surveys.
 * @param {Age} into
 * @param {Entry} file
 * @param {Entry[]} away
 */
export function putAge(into, file, away, one = { into, file, name: file.was ?? file.name }) {
  const named = madeOnce(AWAY, away, () => grouped(away, (it) => kindOf(it) === "surveys" ? null : firstName(it.was ?? it.name)));
  put([one], [null, firstName(one.name)].flatMap((name) => named.get(name) ?? []));
}

/**
 * Each file that isn't here any more is asked about beside open ones that are older.
 * @param {Opened[]} open
 * @param {Entry[]} away
 * @param {Pick<CollectionObject, "items" | "unexpected" | "logs" | "without_log">} [object]
 */
function put(open, away, object = NO_ITEMS) {
  const oldest = open.map(({ file }) => ageOf(file)).reduce((one, other) => Math.min(one, other), Infinity);
  const newer = away.filter(({ changed = 0 }) => changed > oldest), besideOf = newer.length ? comparing(open, object) : () => [];
  for (const { into, file: { changed } } of open) Object.assign(into, { changed, newer: undefined, than: undefined, beside: undefined });
  for (const gone of newer) for (const { into, file } of new Set(besideOf(gone))) {
    if (ageOf(file) >= ageOf(gone) || isEqual(file, gone)) continue;
    into.beside = (into.beside ?? 0) + gone.id;
    if (ageOf(gone) > (into.newer ?? 0)) Object.assign(into, { newer: gone.changed, than: gone.name });
  }
}

/**
 * How it is found beside which open files one that left may be asked about. A table is compared with those of its kind, if one is here, and
 * otherwise with all; an unfinished file with that which it will be; what has no mark of a log with what has its name, and so what belongs to
 * no collection. A log is compared with those of its name, those of each place of which it was, and those that alone prove a tag which was
 * heard in it: with all if it couldn't be judged, or a place of which it was isn't one any more, or it was of none and that of its name isn't.
 * Where no log has a place, those of its name are enough if they prove all that was heard in it.
 * @param {Opened[]} open
 * @param {Pick<CollectionObject, "items" | "unexpected" | "logs" | "without_log">} object
 * @returns {(gone: Entry) => Opened[]}
 */
function comparing(open, { items, unexpected, logs: all, without_log }) {
  const [tables, logs] = [true, false].map((is) => open.filter(({ file }) => isATable(file) === is)), byInto = new Map(logs.map((it) => [/** @type {object} */ (it.into), it]));
  const named = grouped(logs.flatMap((it) => [...new Set([it.name, it.file.name, it.into.name ?? it.name].map(bareOf))].map((name) => ({ name, it }))), ({ name }) => name);
  const at = grouped(logs.filter(({ into }) => typeof into.place === "string"), ({ into }) => into.place ?? null), isPlaced = all.some(({ place, left_over }) => place !== null || left_over), places = new Set([...at.keys(), ...without_log]);
  const proved = new Map([...items, ...unexpected].map(({ uid, certain_in }) => [uid, certain_in.flatMap((it) => byInto.get(all[it]) ?? [])]));
  return (gone) => {
    const called = strangeness(gone) ? open.filter(({ name, file }) => [name, file.name].map(rootOf).includes(rootOf(gone.name)) || isPlaces(file) && isLikePlaces(gone)) : [];
    const whole = gone.name.replace(UNFINISHED, ""), isTable = isATable(gone) && (!strangeness(gone) || namesUids(gone));
    const its = isTable ? tables.filter(({ file }) => isPlaces(file) === isPlaces(gone)) : whole === gone.name ? [] : open.filter(({ file }) => !file.was && file.name === whole);
    if (its.length || isTable) return its.length ? [...its, ...called] : open;
    const judged = JUDGED.get(gone.id), own = (named.get(bareOf(gone.name)) ?? []).map(({ it }) => it), heard = heardIn(gone);
    if (!judged) return strangeness(gone) && !MARK.test(startOf(gone)) ? called : /^vicinity-log /.test(startOf(gone)) ? logs : open;
    const alone = heard.map((uid) => proved.get(uid) ?? []).filter((its) => its.every(({ file }) => ageOf(file) < ageOf(gone))).flat();
    const isKnown = [...judged].every((place) => place === null ? isPlaced && own.some(({ into }) => into.place === null) : places.has(place));
    if (judged.size && isKnown) return [...own, ...[...judged].flatMap((place) => at.get(place) ?? []), ...alone];
    const isOwn = heard.length > 0 && heard.every((uid) => proved.get(uid)?.some((it) => own.includes(it)));
    return isPlaced || kindOf(gone) === "surveys" || !isOwn ? logs : own;
  };
}
