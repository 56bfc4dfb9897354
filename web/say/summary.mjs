/** What is said of a collection: its headline, its lights, and what the answer rests on. */
import { grouped, madeOnce } from "../judge/groups.mjs";
import { KIND } from "../judge/objects.mjs";
import { doubtsOf, IS_EMPTY } from "./doubts.mjs";
import { noOthers } from "./say.mjs";
import { MOST_NAMES, Shelves } from "./shelves.mjs";
import { DEAF, deafIn, HOLDS, howSure, mayBeWrong, notSure, stillHolds } from "./sure.mjs";
import { count, listing } from "./words.mjs";

/** @typedef {import("../judge/objects.mjs").CollectionObject} CollectionObject */
/** @typedef {import("../judge/objects.mjs").Item} Item */
/** @typedef {import("../judge/objects.mjs").OneLog} OneLog */
/** @typedef {import("../judge/objects.mjs").State} State */
/** @typedef {import("./say.mjs").Light} Light */
/** @typedef {{known: Item[], maybe: Item[], deaf: number[], hiding: number[]}} Lost what is missing, if the readers of some logs heard to the end; and what may
 *   be, where each log of its place may not count, has nothing that answered, or replies in some logs that may have hidden others */
/**
 * What is worked out of an object once: how many items are here, the items by their states, those that are missing by what they may be in
 * spite of their logs, and of those that aren't known which the logs of their own places rule out; by their numbers the logs of which
 * something is asked, those to count again, and of the others those in whose fields tags could be if replies were hidden, and if the reader
 * went deaf; whether anything rests on it, some log may not count, and that is asked.
 * @typedef {{here: number, isComplete: boolean, shelves: Shelves, doubts: import("./copies.mjs").Doubt[], answered: string[], open: number[],
 *   of: (...states: State[]) => Item[], unsure: Set<number>, lost: Lost, elsewhere: Item[], others: Item[], strays: Item[],
 *   hiding: number[], deaf: number[], isResting: boolean, isUnsettled: boolean, isAsked: boolean}} Summary
 */

/** By how many doubts a headline is explained. */
const MOST_DOUBTS = 2, NOTHING = "Nothing is expected here, and no tag answered: that doesn't show that the reader worked.";

/** @param {OneLog} log */
const isOpen = (log) => log.field !== "possible" || log.open?.length;

/** @type {WeakMap<CollectionObject, Summary>} */
const SUMMARIES = new WeakMap();

/** @param {CollectionObject} object */
export const summaryOf = (object) => madeOnce(SUMMARIES, object, () => {
  const { logs, counts, margin, items, unexpected, status, answer } = object, shelves = new Shelves(object);
  const found = unexpected.map((it) => ({ ...it, state: /** @type {State} */ ("unexpected"), place: null }));
  const groups = grouped(/** @type {Item[]} */ ([...items, ...found]), ({ state }) => state);
  const of = (/** @type {State[]} */ ...states) => states.flatMap((state) => groups.get(state) ?? []), unknown = of("not provable");
  const elsewhere = unknown.filter((item) => shelves.isElsewhere(item)), not = new Set(elsewhere);
  const those = (/** @type {(log: OneLog) => unknown} */ is) => [...logs.keys()].filter((at) => is(logs[at]));
  const { doubts, answered } = doubtsOf(object, shelves), unsettled = doubts.filter(({ mayNotCount }) => mayNotCount);
  const unsure = new Set(doubts.flatMap(({ numbers = [], late = [] }) => [...numbers, ...late])), lost = lostOf(object, shelves, of("missing"), unsure);
  return { here: counts["in place"] + counts.there, isComplete: status === 0 && answer.startsWith(KIND.COMPLETE), shelves, doubts, answered,
    of, unsure, lost, elsewhere, others: unknown.filter((item) => !not.has(item)), strays: of("misplaced").filter((item) => shelves.isStray(item)),
    open: those(isOpen), hiding: those((log) => log.hidden && !isOpen(log)), deaf: those((log) => log.deaf && !isOpen(log)),
    isResting: margin !== undefined || counts.missing > 0 || elsewhere.length > 0,
    isUnsettled: unsettled.length > 0, isAsked: unsettled.some(({ isFirst }) => isFirst) };
});

/**
 * @param {CollectionObject} object
 * @param {Shelves} shelves
 * @param {Item[]} missing
 * @param {Set<number>} unsure the logs of which something is asked
 * @returns {Lost}
 */
function lostOf({ logs }, shelves, missing, unsure) {
  const isWeak = (/** @type {number} */ at) => unsure.has(at) || !logs[at].answers || logs[at].hidden, isDeaf = (/** @type {number} */ at) => isWeak(at) || logs[at].deaf;
  const all = [...logs.keys()], ofPlace = (/** @type {string | null} */ place) => place === null ? all : shelves.counted.get(place) ?? [];
  const places = grouped(new Set(missing.map(({ place }) => place)), (place) => ofPlace(place).some(isWeak) ? "maybe" : ofPlace(place).some(isDeaf) ? "ifHeard" : "sure");
  const weak = new Set(places.get("maybe")), [known, maybe] = [false, true].map((is) => missing.filter(({ place }) => weak.has(place) === is));
  const of = (/** @type {"ifHeard" | "maybe"} */ kind) => shelves.sorted([...new Set(places.get(kind)?.flatMap(ofPlace))]);
  return { known, maybe, deaf: of("ifHeard").filter((at) => logs[at].deaf), hiding: of("maybe").filter((at) => logs[at].hidden) };
}

/**
 * As of one log, what is complete isn't green without a tag that was expected, nor where others may
 * be hidden, or a reader may have gone deaf, nor where anything isn't sure of its logs.
 * @param {CollectionObject} object
 * @returns {Pick<import("./say.mjs").Said, "look" | "sign" | "headline" | "lights">}
 */
export function sayAll(object) {
  const { here, isComplete, doubts, hiding, deaf } = summaryOf(object), said = { headline: headlineOf(object), lights: lights(object) };
  if (!object.logs.length) return { look: "read", sign: "…", ...said, lights: [] };
  if (!isComplete) return { look: "no", sign: "!", ...said };
  const isSure = here && !object.counts["no tag"] && !hiding.length && !deaf.length && !doubts.length;
  return isSure ? { look: "yes", sign: "✓", ...said } : { look: "read", sign: "i", ...said };
}

/** @param {CollectionObject} object */
export function headlineOf(object) {
  const { here, isComplete, hiding, deaf, doubts, isAsked, isUnsettled, shelves } = summaryOf(object), { items, without_log: places } = object;
  const where = places.length ? ` in ${count(places.length, "place")}` : "";
  if (!object.logs.length) return `The catalogue has ${count(items.length, "item")}${where}. Now open the logs.`;
  if (object.wanted) return notSure(object.margin?.margin, object.wanted);
  if (!isComplete || isAsked) return lacking(object);
  const said = doubts.flatMap(({ short, cure }) => cure === IS_EMPTY && !here ? [] : short), more = said.length - MOST_DOUBTS;
  const without = object.counts["no tag"], untagged = without ? [`${count(without, "item has", "items have")} no tag`] : [];
  const but = [...untagged, ...said.slice(0, MOST_DOUBTS), ...more > 0 ? [`${more} more`] : []];
  const kind = without ? "tagged item" : "expected item", all = here === 1 ? `The one ${kind} is` : `All ${count(here, kind)} are`;
  if (isUnsettled) return `${all} in some log; but ${listing(but)}.`;
  const others = noOthers(here, hiding.length > 0, deaf.length > 0).replace("may be,", () => `may be ${shelves.fields(shelves.sorted(hiding))},`)
    .replace("the reader", () => shelves.readers(shelves.sorted(deaf)));
  return `${here ? `${all} here${others}` : NOTHING}${but.length ? ` But ${listing(but)}.` : ""}`;
}

/**
 * What isn't as it should be, the most important first, and what to count.
 * @param {CollectionObject} object
 */
function lacking(object) {
  const { here, shelves, doubts, of, unsure, lost, elsewhere, others, strays, open, isAsked, isUnsettled } = summaryOf(object), { logs } = object;
  const again = shelves.sorted(open), heard = lost.deaf.length ? ` if ${shelves.readers(lost.deaf)} heard to the end` : "";
  const strayed = `heard in ${new Set(strays.flatMap((item) => item.certain_in)).size > 1 ? "logs" : "a log"} of no place`;
  const moved = grouped(of("misplaced").filter((it) => !shelves.isStray(it)), (it) => it.certain_in.every((at) => unsure.has(at) || logs[at].left_over));
  const parts = /** @type {[Item[] | undefined, string, boolean?][]} */ ([[lost.known, `missing${heard}`, true], [lost.maybe, "may be missing", true],
    [elsewhere, `not heard on ${elsewhere.length === 1 ? "its shelf" : "their shelves"}`, true], [moved.get(false), "in the wrong place", true],
    [moved.get(true), "may be in the wrong place", true], [strays, strayed], [of("unexpected"), "not in the catalogue"],
    [of("returned"), "back that should be away"], [of("not counted"), "not counted"], [others, "not known yet"], [of("no tag"), "without a tag"]]);
  const said = parts.flatMap(([its, ...words]) => its?.length ? [{ its, words }] : []).map(({ its, words: [what, isNamed] }, at) =>
    `${at ? its.length.toLocaleString("en") : count(its.length, "item")} ${what}${isNamed ? shelves.only(its) : ""}`);
  const isNamed = again.length <= MOST_NAMES && again.every((at) => shelves.isPlaced(at)), isAll = again.length === logs.length && again.length > 1;
  const number = isNamed ? shelves.names(again) : isAll ? "all logs" : count(again.length, "log"), those = isNamed ? `the log${again.length > 1 ? "s" : ""} of ${number}` : number;
  const isBroken = again.every((at) => logs[at].field !== "possible"), call = !isBroken ? `count ${number} again` : `${isAll && !isNamed ? "no log can" : `${those} can't`} be used: count again`;
  const isMore = said.length === [of("unexpected"), of("returned")].filter((its) => its.length).length;
  const all = !isMore || !here ? "" : here === 1 ? "the one expected item" : `all ${count(here, "expected item")}`;
  const allHere = !all || isAsked ? [] : [`${all} ${here === 1 ? "is" : "are"} ${isUnsettled ? "in some log" : "here"}`];
  const first = [...allHere, ...said.length ? [listing(said)] : []].join("; "), hidden = lost.hiding.length ? [`stronger replies may have hidden ${lost.maybe.length > 1 ? "them" : "it"} ${shelves.fields(lost.hiding)}`] : [];
  const text = [first, ...hidden, ...again.length ? [`${call}${all && first ? ", as others may be there" : ""}`] : [], ...doubts.flatMap(({ short, isFirst, late }) => isFirst || late ? [short] : [])].filter((it) => it).join("; ");
  return `${text[0].toUpperCase()}${text.slice(1)}.${all && isAsked ? ` Together the logs have ${all}.` : ""}`;
}

/**
 * @param {CollectionObject} object
 * @returns {Light[]}
 */
function lights(object) {
  const { counts, items, logs, without_log: { length: places }, margin } = object;
  const { here, open, hiding, deaf, isResting, isUnsettled, shelves: { isAsked: isPlaced } } = summaryOf(object);
  const other = margin ? "others may be here" : "the answer may be wrong", lost = places ? `; ${count(places, "place has", "places have")} none` : "";
  const sure = howSure(isUnsettled ? undefined : margin?.margin, "still complete", other, hiding.length > 0, deaf.length > 0);
  const done = logs.length - open.length - hiding.length, heard = items.filter(({ certain_in: its }) => its.length).length;
  const more = (/** @type {number} */ number, /** @type {string} */ words) => number ? `, ${number.toLocaleString("en")} ${words}` : "";
  const differs = counts.missing || counts.misplaced || counts.unexpected || counts.returned;
  const of = (/** @type {number} */ number, /** @type {{length: number}} */ all, /** @type {string} */ one) => `${number.toLocaleString("en")} of ${count(all.length, one)}`;
  const value = of(isUnsettled ? heard : here, items, "item") + more(counts.away, "away") + more(counts["no tag"], "without a tag") +
    more(isPlaced ? counts.there : 0, "without a place");
  return /** @type {Light[]} */ ([{ name: "Counted to the end", value: of(done, logs, "log") + lost, look: done === logs.length && !lost ? "yes" : "no" },
    { name: isUnsettled ? "Found, if all logs count" : isPlaced ? "In place" : "Here", value,
      look: here && here + counts.away === items.length ? "yes" : differs ? "no" : "plain" }, ...isResting ? sure : []]).map((it) => isUnsettled && it.look === "yes" ? { ...it, look: "plain" } : it);
}

/**
 * What is said of what is here and missing: what a complete answer is said of, and whether it also
 * holds if strong replies hid weaker ones, or the reader went deaf.
 * @param {CollectionObject} object
 */
export function conditionsOf(object) {
  const { shelves, hiding, deaf, isResting, isUnsettled } = summaryOf(object), { counts, margin, logs } = object;
  if (!isResting && !counts.unexpected) return [];
  // of what is to be counted again, or where all are asked once more, nothing else is asked, nor said
  const those = shelves.sorted(deaf).filter((at) => !logs[at].hidden), answered = those.filter((at) => logs[at].answers), isSaid = !isUnsettled && !logs.some(({ hidden }) => hidden);
  const also = hiding.length ? `${mayBeWrong(` ${shelves.fields(shelves.sorted(hiding))},`)}.` : isSaid ? stillHolds(margin?.margin) : "";
  const sure = margin && !isUnsettled ? [HOLDS] : [], ifDeaf = answered.length ? deafIn(` ${shelves.fields(answered)}`) : those.length ? DEAF : "";
  return [...sure, also, ...isResting ? [ifDeaf] : []].filter((it) => it);
}
