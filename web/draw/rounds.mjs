/** Draws the rounds of a log: a row for each, a cell for each slot. */
import { hex, SLOTS } from "../judge/frames.mjs";
import { count, ending, listing, printable } from "../say/words.mjs";
import { el, oneStop, toLine } from "./elements.mjs";

/** @typedef {import("../judge/told.mjs").Told} Told */
/** @typedef {import("../judge/drawn.mjs").Gap} Gap */
/** @typedef {import("../judge/log.mjs").Row} Row */
/** @typedef {import("../judge/log.mjs").Round} Round */
/** @typedef {import("../judge/log.mjs").Slot} Slot */

/** What a slot held: the sign of its cell, and words. A tag that was heard is its own sign, as A1. */
const LOOKS = { heard: ["", "one tag"], captured: ["", "one tag, perhaps over others"], collision: ["×", "two or more tags"],
  garbled: ["?", "unreadable"], silent: ["·", "no tag"], unknown: ["~", "nothing known"], unreached: ["", "not reached"] };
const MOST_DIGITS = 4, NO_SIGN = "\u00A0";

/**
 * @param {Told} told
 * @param {import("./view.mjs").Names} names
 */
export function rounds(told, names) {
  if (!told.rows.length) return [];
  const has = told.rows.some((row) => row.kind === "round" && row.slots.length === SLOTS);
  const numbers = has ? Array.from({ length: SLOTS }, (_, slot) => el("th", { scope: "col" }, hex(slot, 1)))
    : [el("th", { scope: "col", colspan: String(SLOTS) }, "the one slot")];
  const head = el("tr", {}, el("th", { scope: "col" }, "line", el("span", { class: "till" }, "s")), el("th", { scope: "col" }, "asked"), ...numbers);
  const ringed = new Set(told.ringed), named = new Set(told.named), body = told.rows.map((row) => rowOf(row, ringed, named, names));
  const table = el("table", { class: "rounds" }, el("caption", {}, "The rounds of the session"), el("thead", {}, head), el("tbody", {}, body));
  return [el("section", {}, el("h2", {}, "The rounds"), legend(told), el("div", { class: "wide" }, oneStop(table)))];
}

/**
 * @param {Row | Gap} row
 * @param {Set<string>} ringed
 * @param {Set<number>} named
 * @param {import("./view.mjs").Names} names
 */
function rowOf(row, ringed, named, names) {
  if (row.kind === "gap") {
    const parts = /** @type {[number, string][]} */ ([[row.rounds, "round"], [row.quiets, "Stay Quiet"], [row.cycles, "field cycle"]]);
    return wide(`not shown: ${listing(parts.filter(([number]) => number).map((part) => count(...part)))}`, 0, false);
  }
  if (row.kind !== "round") return wide(row.kind === "cycle" ? "field off and on" : `Stay Quiet ${hex(row.uid)}`, row.line, named.has(row.line));
  const isNamed = (/** @type {Slot} */ slot) => ringed.has(`${row.line}:${slot.number}`) || named.has(slot.line);
  const cells = row.slots.map((slot) => cell(row, slot, isNamed(slot), slot.uid === null ? "" : names.get(hex(slot.uid)) ?? ""));
  const [word, till] = row.end > row.line ? ["lines ", [el("span", { class: "till" }, `–${row.end}`)]] : ["line ", []];
  const head = el("th", { scope: "row" }, toLine(row.line, unseen(word), String(row.line), ...till));
  return el("tr", {}, head, el("td", { class: "mask" }, row.asked.len ? tail(row.asked) : "all"), ...cells);
}

/**
 * Whom a round asked, in the fewest words: ..61; ..61 or E1. Of many digits a phone shows the last.
 * @param {import("../judge/frames.mjs").Mask} mask
 */
function tail(mask) {
  const all = ending(mask).replace(/^UIDs ending in (?=[0-9A-F])/, "..").replace("UIDs ending in ", ""), cut = mask.len % 4 ? 0 : -MOST_DIGITS;
  return [el("span", { class: "before" }, cut ? all.slice(0, cut) : ""), all.slice(cut)];
}

/**
 * @param {string} words
 * @param {number} line 0 of what isn't shown
 * @param {boolean} named
 */
function wide(words, line, named) {
  const attributes = { colspan: String(SLOTS + 1), class: named ? "say named" : "say", ...line ? { "data-line": String(line) } : {} };
  const head = line ? toLine(line, unseen("line "), String(line)) : [el("span", { "aria-hidden": "true" }, "⋮"), unseen("in between")];
  return el("tr", {}, el("th", { scope: "row" }, head), el("td", attributes, words, ...marked(named)));
}

/**
 * @param {Round} round
 * @param {Slot} slot
 * @param {boolean} named
 * @param {string} name
 */
function cell(round, slot, named, name) {
  const { uid, silenced, reading } = slot, [sign, words] = LOOKS[reading], isOne = round.slots.length === 1;
  const line = String(slot.line || round.line), look = `${reading}${silenced ? " quiet" : ""}${named ? " named" : ""}`;
  const open = BigInt(Math.min(Math.floor(round.asked.len / 4) * 4, 56));
  const said = uid === null ? [el("span", { "aria-hidden": "true" }, sign || NO_SIGN), unseen(words)] : [isOne ? hex(uid) : hex(BigInt.asUintN(8, uid >> open), 2)];
  const title = [slot.line ? `line ${line}` : "", `slot ${hex(slot.number, 1)}`, ending(slot.mask), words, uid === null ? "" : hex(uid),
    printable(name), silenced ? `silenced in line ${silenced}` : ""].filter((it) => it).join(", ");
  return el("td", { title, class: look, "data-line": line, ...isOne ? { colspan: String(SLOTS) } : {} },
    toLine(Number(line), ...said, ...silenced ? [unseen(" (silenced afterwards)")] : [], ...marked(named)));
}

/**
 * What a ring says, for who doesn't see it.
 * @param {boolean} named
 */
const marked = (named) => named ? [unseen(" (the answer rests on it)")] : [];

/**
 * Words for who doesn't see the signs.
 * @param {string} words
 */
const unseen = (words) => el("span", { class: "unseen" }, words);

/**
 * What the signs mean that are drawn.
 * @param {Told} told
 */
function legend({ rows, ringed, named }) {
  const drawn = rows.flatMap((row) => row.kind === "round" ? row : []), slots = drawn.flatMap((row) => row.slots);
  const lines = new Set([...slots.map((slot) => slot.line), ...rows.flatMap((row) => row.kind === "gap" ? [] : row.line)]);
  const isDrawn = (/** @type {string} */ reading) => slots.some((slot) => slot.reading === reading);
  const signs = /** @type {[string, string, string][]} */ (Object.entries(LOOKS).filter(([reading]) => isDrawn(reading))
    .map(([reading, [sign, words]]) => [reading, sign || (reading === "unreached" ? NO_SIGN : "A1"), words]));
  const quiet = slots.find((slot) => slot.silenced), others = named.every((line) => lines.has(line)) ? "" : ", and on slots not shown";
  if (quiet) signs.push([`${quiet.reading} quiet`, "A1", "underlined: silenced afterwards"]);
  if (ringed.length || named.length) signs.push(["silent named", "·", `frame: the answer rests on it${others}`]);
  const digits = drawn.flatMap(({ asked: { len }, slots }) => slots.length === 1 || len % 4 ? []
    : slots.flatMap(({ uid }) => uid === null ? [] : hex(uid).slice(14 - len / 4))).slice(-1).map((end) =>
    `${end.slice(0, 2)} in the row ${end.length > 2 ? `..${end.slice(2)}` : "all"}: a UID that ends in ${end}`);
  return el("ul", { class: "legend", "aria-label": "What the signs mean" }, signs.map(([look, sign, words]) =>
    el("li", {}, el("span", { class: `cell ${look}` }, sign), ` ${words}`)), digits.map((it) => el("li", {}, it)));
}
