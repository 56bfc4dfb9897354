/** What is to be known of the logs of a collection before its items are: what wasn't counted, and what isn't sure. */
import { stemOf, unreadOf } from "../judge/files.mjs";
import { KIND } from "../judge/objects.mjs";
import { askedOf, copies, interchanged, leaving, ofAPlace, ofOtherDays, older, olderOne, same, shared, withoutRow } from "./copies.mjs";
import { SENTENCES } from "./sentences.mjs";
import { firstOf, MOST_LISTED, nameOf } from "./shelves.mjs";
import { count, dated, listing, printable } from "./words.mjs";

/** @typedef {import("../judge/objects.mjs").CollectionObject} CollectionObject */
/** @typedef {import("./copies.mjs").Doubt} Doubt */
/** @typedef {import("./shelves.mjs").Shelves} Shelves */

const OTHERS = "An old one, or one of another collection, leave out.", NAME_IT = "Call a log as its place. ";
/** How the name of a log goes on behind that of its place. */
const AS_OF = /^[^\p{L}\d]/u, ANY = "If what is there has no fixed place ('any'), write a table of places, with the columns place and log: it says of which place each log is. ";
const NO_PLACE = "The catalogue names no place: delete its column place, or fill it.";
const NONE_NAMED = "names none of these logs: correct its column log. Without it, each log is of the place after which it is named.";
const NO_PLACES = "If items can stand on wrong shelves, add a column 'place', and name each log after its place.";
export const IS_EMPTY = "If something should be there, check the antenna, and count again. If not, lay an item with a tag there and count again, to see that the antenna works.";
const IS_CUT = "If it was cut off behind a row, what stood there is never missed: compare the number of rows with what you know, or save it again.";
const DENIED = "Its reply may have been lost, or the list is that of another count: count this field again, in a new log.";

/**
 * What isn't sure; and what was, with what somebody answered here, which the answer rests on.
 * @param {CollectionObject} object
 * @param {Shelves} shelves
 */
export function doubtsOf(object, shelves) {
  const namesIn = (/** @type {Doubt[]} */ doubts) => doubts.flatMap(({ logs = [] }) => logs), { both, files, logs } = object;
  const first = [...copies(object, shelves), ...ofAPlace(object)], { doubts } = askedOf(first, both), those = namesIn(doubts);
  const alike = same(object, those), aged = logs.map((log, at) => ({ ...log, at, of: shelves.name(at) }));
  return askedOf([...first, ...alike, ...interchanged(object, shelves), ...ofPlaces(object, those, doubts.flatMap(({ places = [] }) => places)),
    ...notHere(object), ...cutOff(object), ...withoutRow(object), ...older([...files.map((it) => ({ ...it, name: it.file })), ...aged], both),
    ...ofOtherDays(aged, both), ...ruledOut(object, shelves), ...withoutAnswer(object, shelves),
    ...shared(object, shelves, [...those, ...namesIn(alike)]), ...notAsked(object, shelves)], both);
}

/** @param {CollectionObject["files"]} files */
const placesIn = (files) => files.find(({ text }) => text !== undefined);

/**
 * Logs that a table of places names, and that aren't here: their places have others.
 * @param {CollectionObject} object
 * @returns {Doubt[]}
 */
function notHere({ logs, files }) {
  const table = placesIn(files), unread = unreadOf(table?.text ?? "", logs), name = printable(table?.file ?? ""), isOne = unread.length === 1;
  const those = (/** @type {string} */ of) => unread.map(({ place, log }) => printable(`${log} ${of} ${place}`)), lacking = new Set(unread.map(({ place }) => place));
  const key = [table?.sha256, table?.changed, those("of"), logs.filter(({ place }) => lacking.has(place ?? "")).map(olderOne)].join(), [they, them, is] = isOne ? ["It isn't", "its row", "isn't"] : ["They aren't", "their rows", "aren't"];
  return !unread.length ? [] : [{ isFirst: true, mayNotCount: true, late: logs.flatMap((log, at) => lacking.has(log.place ?? "") ? at : []), short: `no log ${firstOf(those("of"))}, as ${name} names`,
    words: `${name} names ${firstOf(those("for"), "and", MOST_LISTED)}, which ${is} here: what may be there isn't counted.`,
    cure: `Open ${isOne ? "it" : "them"} too, or delete ${them} in ${name}.`, buttons: [[`${they} of this count`, { "data-both": key }]] }];
}

/**
 * Places without a log, and logs of no place, but those of which it is asked.
 * @param {CollectionObject} object
 * @param {string[]} asked the logs of which it is asked whether they count
 * @param {string[]} known the places of which it is asked whether a log is theirs
 * @returns {Doubt[]}
 */
function ofPlaces({ without_log, items, logs, files }, asked, known) {
  const lost = logs.filter((log) => log.left_over && !asked.includes(log.name)), names = lost.map(({ name }) => nameOf(name));
  const places = without_log.filter((place) => !known.includes(place)).map(printable), isOne = places.length === 1;
  const its = placesIn(files), table = lost.length === logs.length && its, named = table ? printable(table.file) : "", those = new Set(without_log);
  const number = items.filter(({ state, place }) => state === "not counted" || state === "not provable" && those.has(place ?? "")).length;
  const left = number ? `${count(number, "item")} that ${number === 1 ? "belongs there isn't" : "belong there aren't"} counted` : "what belongs there is in other logs, or nothing does";
  const noLog = { short: `no log of ${firstOf(places)}${named && `, as ${named} names none of these logs`}`, isFirst: true,
    words: `No log of ${firstOf(places, "and", MOST_LISTED)}: ${left}.`,
    cure: named ? "" : `Count ${isOne ? "it, or open its log" : "them, or open their logs"} together with these.` };
  const isNone = !without_log.length && items.every(({ place }) => place === null), [they, called] = lost.length > 1 ? ["them", "these names"] : ["it", "that name"];
  const unnamed = without_log.filter((place) => stemOf(`${place}.log`) !== place), name = unnamed.length ? `No file can be called ` +
    `${firstOf(unnamed.map(printable))}: write a table of places, with the columns place and log. ` : NAME_IT + (items.some(({ place, uid }) => uid && place === null) ? ANY : "");
  const how = its ? `${printable(its.file)} doesn't name ${they}: correct its column log. ` : `The catalogue has no place of ${called}. ${name}`;
  const newest = Math.max(...logs.map((log) => log.left_over ? 0 : log.changed ?? 0));
  const late = lost.filter(({ changed = 0 }) => newest && changed > newest && dated(changed) !== dated(newest)), last = firstOf(late.map((it) => nameOf(it.name)));
  const stem = stemOf(lost[0]?.name ?? ""), near = items.find(({ place }) => place && stem.startsWith(place) && AS_OF.test(stem.slice(place.length)))?.place;
  const isOf = near ? `If ${names[0]} is of ${printable(near)}, call it ${printable(near)}.log; if that is here too, write a table of places, with a row for each. ` : "";
  const isNew = late.length ? `${last}, of ${dated(late[0].changed)}, is newer than the others: if it is a new count, call it as its place. ` : "";
  const [cure, more] = isNone ? [NO_PLACE, {}] : table ? [`${named} ${NONE_NAMED}`, { logs: [table.file], buttons: [[`Leave out ${named}`, { "data-out": String(files.indexOf(table)) }]] }] : [how + isOf + isNew + OTHERS, leaving(lost)];
  const noPlace = { short: `${firstOf(names)} ${lost.length === 1 ? "is" : "are"} of no place`, isFirst: true, mayNotCount: true, cure, ...more,
    words: `${count(lost.length, "log")} of no place: ${firstOf(names, "and", MOST_LISTED)}.` };
  return [...places.length && logs.length ? [noLog] : [], ...lost.length ? [noPlace] : []];
}

/**
 * @param {CollectionObject} object
 * @returns {Doubt[]}
 */
const cutOff = ({ ended, items }) => ended ? [] : [{ cure: IS_CUT, short: "the catalogue may have been cut off",
  words: `The last of the ${count(items.length, "row")} of the catalogue has no line end.` }];

/**
 * Tags that a log has on its own list, and rules out.
 * @param {CollectionObject} object
 * @param {Shelves} shelves
 * @returns {Doubt[]}
 */
function ruledOut({ logs, items }, shelves) {
  const denied = logs.map((log) => log.denied ?? (log.object?.findings ?? []).flatMap(({ kind, uid = "" }) => kind === KIND.ABSENT ? uid : []));
  const titles = new Map(denied.flat().length ? items.map((item) => [item.uid, shelves.said(item, 1)]) : []);
  return denied.flatMap((uids, at) => {
    const name = shelves.name(at), which = uids.map((uid) => printable(titles.get(uid) || uid));
    return uids.length ? [{ short: `the list in ${name} has what its log rules out`, cure: DENIED, late: [at], words: `The reader's own list in ${name} has ` +
      `${count(uids.length, "tag")} that its log rules out: ${firstOf(which, "and", MOST_LISTED)}.` }] : [];
  });
}

/**
 * Logs in which no tag answered: a headline says it, unless they are to be counted again anyway.
 * @param {CollectionObject} object
 * @param {Shelves} shelves
 * @returns {Doubt[]}
 */
function withoutAnswer({ logs, items }, shelves) {
  const empty = [...logs.keys()].filter((at) => logs[at].answers === 0), names = empty.map((at) => shelves.name(at)), places = new Set(empty.map((at) => logs[at].place));
  const lost = items.filter(({ state, place }) => state === "missing" && place !== null && places.has(place)).length, cure = lost ? `${count(lost, "item")} should be there: check the antenna, and count again before you look for ${lost > 1 ? "them" : "it"}.` : IS_EMPTY;
  return names.length ? [{ short: `nothing answered in ${firstOf(names)}`, cure, isFirst: empty.some((at) => !logs[at].open?.length),
    words: `Nothing answered in ${count(names.length, "log")}: ${firstOf(names, "and", MOST_LISTED)}.` }] : [];
}

/**
 * Where items belong is asked of several fields; and which columns may say it: those that are called so, or have the names of all logs.
 * @param {CollectionObject} object
 * @param {Shelves} shelves
 * @returns {Doubt[]}
 */
function notAsked({ logs, columns, items, status }, { isAsked }) {
  const { like, meant, noPlaces } = SENTENCES.catalogues, isLike = new RegExp(like, "i"), names = logs.map(({ name }) => stemOf(name));
  const found = isAsked ? [] : columns.map((head, at) => ({ head, like: isLike.exec(head.normalize("NFKC").replace(/[^\p{L}\p{N}]+/gu, "")), cells: new Set(items.map((it) => it.cells?.[at])) }));
  const meaning = found.filter(({ like, cells }) => like || names.length && names.every((it) => cells.has(it)));
  const isNear = meaning.some(({ like, cells }) => like?.[1] || cells.size > 1), heads = meaning.map(({ head }) => `'${printable(head)}'`);
  // one field needs no places, if all is there, and no column is called almost so, or has several places
  return isAsked || logs.length < 2 && !(heads.length && (isNear || status)) ? []
    : [{ short: "where each belongs wasn't asked", words: noPlaces, cure: heads.length ? meant.replace("{}", () => listing(heads, "or")) : NO_PLACES }];
}
