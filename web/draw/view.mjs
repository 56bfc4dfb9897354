/** Draws what is told of a log. */
import { isSpreadsheet } from "../judge/files.mjs";
import { hex } from "../judge/frames.mjs";
import { KIND } from "../judge/objects.mjs";
import { say } from "../say/say.mjs";
import { alsoHolds, granted, HOLDS, ifDeaf, isApart, missed } from "../say/sure.mjs";
import { MOST_LISTED } from "../say/shelves.mjs";
import { count, dated, printable } from "../say/words.mjs";
import { bullets, button, drawnLater, el, folded, holds, linked, oneStop, rest, toLine } from "./elements.mjs";
import { maintainer } from "./maintainer.mjs";
import { rounds } from "./rounds.mjs";

/** @typedef {import("../judge/told.mjs").Told} Told */
/** @typedef {Map<string, string>} Names what a catalogue says of UIDs */

/** How many UIDs are shown without being asked for beside other things; of how many lines a conflict has a list, and how many are named there. */
const FEW = 24, FEW_LINES = 8, MOST_LINES_NAMED = 1000, NO_RESULT = "This is no result yet: answer what is asked below, in vicinity.html, with the files.";

/**
 * The whole of what is drawn of a log.
 * @param {Told} told
 * @param {Names} [names]
 * @param {boolean} [isAlone] whether it is no log of a collection
 * @param {boolean} [canPress] whether a question can be answered
 * @returns {Node[]}
 */
export function view(told, names = new Map(), isAlone = true, canPress = false) {
  const said = say(told, isAlone), file = printable(told.object.file), { answer, kind } = told.object;
  // without a list, its first tag isn't more than the others
  const what = kind === KIND.UNLISTED && !told.counts.listed ? [file] : [file, el("span", { class: "paper" }, " · ", el("code", {}, answer))];
  return [...noResult(said.doubts.length > 0, canPress), ...notes(said.answered), banner(said, what), ...doubted("The file", said.doubts, () => canPress), ...shelf(said),
    ...conditions(told), ...findings(told, names), ...tags(told, names), ...maintainer(told, said, () => [...rounds(told, names), ...conflict(told)]),
    ...told.object.kind === KIND.REFUSED ? [] : [takenForGranted([told])], record(told, isAlone, said)];
}

/** @param {string[]} all what was done, or answered */
export const notes = (all) => all.map((it) => el("p", { class: "note" }, it));

/**
 * Where something is asked: on paper, and where it can't be answered.
 * @param {boolean} isAsked
 * @param {boolean} canPress whether it can be answered
 */
export const noResult = (isAsked, canPress) => isAsked ? [el("p", { class: canPress ? "asked paper" : "asked" }, el("b", {}, NO_RESULT))] : [];

/**
 * What isn't sure, with buttons that answer, and where none of them would leave out what can't be, with these, too.
 * @param {string} title
 * @param {import("../say/copies.mjs").Doubt[]} doubts
 * @param {(name?: string) => boolean} [canLeave] whether a log can be left out
 */
export function doubted(title, doubts, canLeave = () => false) {
  const items = doubts.slice(0, MOST_LISTED).map(({ words, cure, buttons = [], logs = [] }) => {
    const pressed = buttons.filter(([, data]) => "data-both" in data ? canLeave() : logs.every(canLeave)).map((it) => button(...it));
    return el("li", {}, el("b", {}, words), ` ${cure}`, ...pressed.length ? [el("p", { class: "take" }, pressed)] : []);
  });
  return items.length ? [el("section", { class: "doubts" }, el("h2", {}, title), el("ul", { class: "steps" }, items),...rest(doubts.length - MOST_LISTED))] : [];
}

/**
 * The answer: a sentence, what was judged, and lights.
 * @param {Pick<import("../say/say.mjs").Said, "look" | "sign" | "headline" | "lights">} said
 * @param {import("./elements.mjs").Content} what
 */
export function banner(said, what) {
  const lights = said.lights.map(({ name, value, look }) => el("div", { class: `light ${look}` }, el("dt", {}, name), el("dd", {}, value)));
  return el("header", { class: `banner ${said.look}` }, el("p", { class: "sign", "aria-hidden": "true" }, said.sign),
    el("div", {}, el("h1", { class: said.look === "refused" ? "answer error" : "answer", tabindex: "-1" }, said.headline), el("p", {}, what)),
    ...lights.length ? [el("dl", { class: "lights" }, lights)] : []);
}

/**
 * What the answer rests on, in a line each.
 * @param {Told} told
 */
function conditions(told) {
  const { object: { kind, open, status }, counts } = told, also = alsoHolds(told)?.words, deaf = ifDeaf(told)?.words;
  const isOfAll = kind === KIND.COMPLETE || status === 1 && !open.count && !counts.listed;
  const sure = missed(told.object).map((it) => `${it} Asking all of them once more, when none answers, makes it ${(told.object.margin ?? 0) + 1}.`);
  return holds([...isOfAll ? [HOLDS, ...sure] : [], ...also ? [also] : [], ...deaf ? [deaf] : []]);
}

/** @param {import("../say/say.mjs").Said} said */
function shelf({ shelf: all, why, look }) {
  const steps = all.map((it) => typeof it === "string" ? el("li", {}, it) : el("li", {}, it.when, bullets(it.steps)));
  return steps.length ? [el("section", {}, el("h2", {}, look === "refused" ? "What to do" : "At the shelf"), el("ul", { class: "steps" }, steps),
    ...why ? [el("p", { class: "why" }, linked(why))] : [])] : [];
}

/**
 * @param {Told} told
 * @param {Names} names
 */
function findings({ object: { findings, found, open }, counts, silenced }, names) {
  const listed = counts.listed > 0, known = new Set(findings.map(({ uid }) => uid));
  /** @type {(kind: string, all: number, one: string, many: string, items: Node[]) => Element[]} */
  const part = (kind, all, one, many, items) => all
    ? [folded(count(all, one, many), all <= FEW || !listed && !open.count, oneStop(el("ul", { class: `uids ${kind}` }, items)),
      ...rest(all - items.length))] : [];
  const of = (/** @type {string} */ kind, /** @type {string} */ by) => findings.filter((it) => it.kind === kind)
    .map(({ uid = "", line, overlooked }) => el("li", {}, ...tagWith(uid, names),
      ...line ? [" ", el("span", { class: "by" }, overlooked ? `would have been missed in ${count(overlooked, "slot")}; ` : "", by), toLine(line)] : []));
  const maybe = silenced.filter(({ uid }) => !known.has(hex(uid))).map(({ uid, line }) => el("li", {}, ...tagWith(hex(uid), names), " silenced in ", toLine(line)));
  const [one, many] = listed ? ["tag here that isn't listed", "tags here that aren't listed"] : ["tag that is here", "tags that are here"];
  return [...part(KIND.ABSENT, found.absent, "listed tag that didn't answer", "listed tags that didn't answer", of(KIND.ABSENT, "ruled out by ")),
    ...part(KIND.UNLISTED, found.unlisted, one, many, of(KIND.UNLISTED, "shown by ")),
    ...part(KIND.DOUBTFUL, found.doubtful, "listed tag that isn't proved", "listed tags that aren't proved", of(KIND.DOUBTFUL, "")),
    ...part("", maybe.length, "tag that may be here", "tags that may be here", maybe)];
}

/**
 * A UID, after what a catalogue says of it.
 * @param {string} uid
 * @param {Names} names
 */
const tagWith = (uid, names) => [...names.get(uid) ? [el("b", {}, printable(names.get(uid) ?? "")), " "] : [], el("code", {}, uid)];

/**
 * The lines of a contradiction that are too many to be named in a sentence.
 * @param {Told} told
 */
function conflict({ conflict: it, object }) {
  if (!it || it.count <= FEW_LINES) return [];
  const shown = object.findings.flatMap(({ kind, line }) => kind === "conflict" && line ? line : []).slice(0, MOST_LINES_NAMED);
  const items = () => oneStop(el("p", {}, shown.flatMap((line) => [toLine(line, String(line)), " "])));
  return [drawnLater(`The ${count(it.count, "line")} that can't all be true`, false, () => [items(), ...rest(it.count - shown.length)])];
}

/**
 * The tags of a log without a list, or of a complete one, which stands on paper in full.
 * @param {Told} told
 * @param {Names} names
 */
function tags({ object: { certain, found } }, names) {
  const title = certain.count === 1 ? "The tag that is here" : `The ${count(certain.count, "tag")} that are here`;
  const items = () => el("ul", { class: "uids" }, certain.uids.map((uid) => el("li", {}, ...tagWith(uid, names))));
  return !certain.count || found.unlisted === certain.count ? [] : [drawnLater(title, false, () => [items(), ...rest(certain.count - certain.uids.length)])];
}

/**
 * What answers about tags take for granted; open where there is nothing else to do. Of a contradiction it is what didn't hold.
 * @param {Told[]} tolds
 */
export function takenForGranted(tolds) {
  const all = granted(tolds.every((told) => told.conflict ? !told.counts.alone : isApart(told)));
  const title = tolds.length < 2 && tolds[0].conflict ? "At least one of these didn't hold" : "What this takes for granted";
  return folded(`${title} (${all.length})`, tolds.every(({ object }) => !object.status), bullets(all));
}

/**
 * @param {Told} told
 * @param {boolean} isAlone
 * @param {import("../say/say.mjs").Said} said
 */
function record({ object: { file, kind, version, sha256, answer, changed }, counts, faulty, conflict: isBroken }, isAlone, { headline, answered, doubts }) {
  const isRefused = kind === KIND.REFUSED, parts = /** @type {[number, string, string?][]} */ ([[counts.rounds, "round"], [counts.slots, "slot"], [counts.heard, "reply", "replies"],
    [counts.quiets, "Stay Quiet"], [counts.cycles, "field cycle"], [counts.listed, "UID listed", "UIDs listed"]]);
  // of a text that isn't a log nothing but its lines is known
  const words = [...isSpreadsheet(faulty) ? [] : [count(counts.lines, "line")],
    ...isRefused ? [] : parts.filter(([number]) => number).map((part) => count(...part))].join("\u00A0· ");
  const sum = sha256 ? [`${changed ? ` · of ${dated(changed)}` : ""} · SHA-256 of the ${isRefused ? "file" : "log"} `, el("code", {}, sha256)] : [];
  return el("footer", { class: "record" }, ...words ? [el("p", {}, words)] : [], el("p", {}, `vicinity ${version}: `, el("code", {}, answer), ...sum),
    ...isRefused || !isAlone || doubts.length ? [] : signed([headline, ...answered], printable(file)).slice(isBroken ? 2 : 0));
}

/**
 * What was judged, and who counted, where and when: on paper, whose last sheet has it, unless something is asked.
 * @param {string[]} said
 * @param {string} what
 */
export const signed = (said, what) => [`${said.join(" ")} (${what})`, "Counted on ____________________ at ____________________ by ____________________", ""]
  .map((words) => el("p", { class: words ? "signed" : "signed printed" }, words));
