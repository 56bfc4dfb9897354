/** What is left to ask, as lines that send it. */
import { hasUid, inventoryOf, linkOf, maskOf, requestOf, sixteen, stayQuietOf, UID_BITS } from "./frames.mjs";

/** @typedef {import("./frames.mjs").Mask} Mask */
/** @typedef {import("./causes.mjs").Cause} Cause */
/** @typedef {import("./log.mjs").Log} Log */
/** @typedef {import("./objects.mjs").LogObject} LogObject */
/**
 * @typedef {Object} Requests
 * @property {string[]} open what asks the open masks, at once
 * @property {string[]} silenced after a field cycle, of tags that were silenced before they were heard
 * @property {string[]} hidden where a reply may have hidden others
 * @property {string[]} all where any reply may have hidden others: all in one slot but those that were heard
 * @property {string[]} heard after a field cycle, of a tag that was found: it has to answer
 */

/** How many tags are silenced by requests that are told. */
const MOST_REQUESTS = 1000, NO_MASK = { len: 0, value: 0n };
/** @type {Requests} */
export const NO_REQUESTS = { open: [], silenced: [], hidden: [], all: [], heard: [] };

/**
 * @param {Log} log
 * @param {LogObject} object
 * @param {{open: Mask[], quiet: Set<Mask>, hidden: Set<Mask>, causes: Cause[]}} known the first open masks; those that have nothing
 *    but tags that were silenced, and those that only a reply may have hidden
 * @returns {Requests}
 */
export function requestsOf(log, object, { open, quiet, hidden, causes }) {
  const { captured: ifHidden, status, certain, open: { masks, count } } = object, link = log.link, own = masks.filter((_, at) => !quiet.has(open[at]) && !hidden.has(open[at]));
  const first = openRequests(causes, own, link, open.length === count), again = askedAgain(log, causes, first), isHiding = status < 2 && (ifHidden?.holds === false || ifHidden?.settled === false);
  const all = isHiding || again.length ? allButHeard(log, link) : [];
  return { open: first, silenced: masks.flatMap((mask, at) => quiet.has(open[at]) ? mask.ask : []),
    hidden: all.length > 1 && all.length < again.length ? all : again, all: isHiding ? all : [],
    heard: certain.uids.slice(0, 1).map((uid) => `T ${requestOf(1, { len: UID_BITS, value: BigInt.asUintN(UID_BITS, BigInt(`0x${uid}`)) }, link)}`) };
}

/**
 * What asks the masks that are open: as the object has it, or less that has all of them, which is rounds that were cut short, or
 * slots, which leave many masks around tags that are certain.
 * @param {Cause[]} causes
 * @param {LogObject["open"]["masks"]} masks
 * @param {number} link
 * @param {boolean} isAll whether no open mask lacks
 */
function openRequests(causes, masks, link, isAll) {
  const plain = masks.flatMap((mask) => mask.ask), cut = new Map(causes.filter((it) => it.reading === "unreached" && it.masks.length > 1).map((it) => [it.round, it.asked]));
  const asked = [...cut.values(), ...causes.flatMap(({ reading, round, masks: all }) => reading !== "captured" && !cut.has(round) ? all : [])];
  const isIn = (/** @type {Mask} */ { len, value }) => asked.some((mask) => mask.len <= len && hasUid(mask, value));
  return isAll && asked.length < plain.length && masks.map(maskOf).every(isIn) ? [...new Set(asked.map((mask) => sixteen(mask, link)))] : plain;
}

/**
 * The lines that silence the tags that may have hidden others, and ask these again; not where those are silent, and other lines ask these.
 * @param {Log} log
 * @param {Cause[]} causes
 * @param {string[]} others
 */
function askedAgain(log, causes, others) {
  const hiding = causes.filter(({ reading }) => reading === "captured"), asked = others.map((it) => inventoryOf(it.slice(2)).mask), ready = hiding.length && asked.length ? log.ready() : new Set();
  const isAsked = (/** @type {Mask} */ { len, value }) => asked.some((mask) => mask.len <= len && hasUid(mask, value));
  return hiding.filter(({ masks, uids }) => !masks.every(isAsked) || uids.some((uid) => ready.has(uid))).flatMap(({ round, uids }) => {
    const request = log.frame(round).toUpperCase(), link = linkOf(request);
    return [...uids.map((uid) => `T ${stayQuietOf(uid, link)}`), `T ${request}`];
  });
}

/**
 * The lines that silence the tags that were heard, unless they are too many, and ask all in one slot.
 * @param {Log} log
 * @param {number} link
 */
function allButHeard(log, link) {
  const ready = log.ready(), quiets = ready.size > MOST_REQUESTS ? [] : [...ready];
  return [...quiets.map((uid) => `T ${stayQuietOf(uid, link)}`), `T ${requestOf(1, NO_MASK, link)}`];
}
