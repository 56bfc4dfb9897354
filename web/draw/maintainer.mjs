/** Draws what whoever maintains the reader needs: the causes, what tells them apart, and what is left to ask. */
import { SENTENCES } from "../say/sentences.mjs";
import { alsoHolds, ifDeaf } from "../say/sure.mjs";
import { count, visible } from "../say/words.mjs";
import { el, forReader, linked, oneStop, toLine } from "./elements.mjs";

/** @typedef {import("../judge/told.mjs").Told} Told */

const MOST_SHOWN = 160, MOST_ON_PAPER = 400, ASKED = SENTENCES.requests;
const SPLIT = "If a slot has a collision, ask its mask in sixteen slots too.", INSERT = `${SPLIT} In the log, the new lines go `;
/** Tags stay silent only while they have power. */
const IF_OFF = "If the field has been off since, write F first, and judge the log again then.", IF_ON = "Do so only if the field has been on since; otherwise begin a new log.";
const ASK_UNDER = "left, to ask again where a reply may have hidden others, when the tags that were read there are silent.";

/**
 * @param {Told} told
 * @param {import("../say/say.mjs").Said} said
 * @param {() => Node[]} more what is drawn of the log
 */
export function maintainer(told, said, more) {
  const ask = alsoHolds(told)?.ask ?? [], heard = ask.length ? [] : ifDeaf(told)?.ask ?? [], isLacking = !said.causes.length && !ask.length && !heard.length && !told.rows.length;
  return isLacking ? [] : [forReader("For whoever maintains the reader", () => [...why(told, said),
    ...toSend(ask, ASKED.hidden), ...toSend(heard.length ? ["F", ...heard] : [], told.cycles ? ASKED.heard : `${ASKED.heard} ${ASKED.noCycles}`),
    ...left(told), ...more()])];
}

/**
 * @param {Told} told
 * @param {import("../say/say.mjs").Said} said
 */
function why({ faulty, object: { line = 1, unnoticed } }, { lead, causes, test, ask }) {
  const paragraph = (/** @type {unknown} */ is, /** @type {import("./elements.mjs").Content[]} */ ...words) => is ? [el("p", {}, ...words)] : [];
  return [...paragraph(faulty, toLine(line), ": ", el("code", {}, visible(faulty).slice(0, MOST_SHOWN))), ...paragraph(lead, lead),
    ...causes.length ? [oneStop(el("ul", {}, causes.map((cause) => el("li", {}, linked(cause)))))] : [],
    ...paragraph(test, linked(test)), ...copied(ask),
    ...paragraph(unnoticed, "A tag ", el("code", {}, unnoticed ?? ""), " could be here: the log would be the same.")];
}

/**
 * What is left to ask.
 * @param {Told} told
 */
function left({ cycles, counts, open: { length: known }, object, requests: { open, silenced, hidden } }) {
  const end = `${counts.listed ? "before the U lines." : "at the end."} ${cycles ? IF_OFF : IF_ON}`, then = open.length ? "Then " : "";
  const how = known === object.open.count ? `${requests(open.length)} left.` : "What is left to ask first: send these, and judge the log again.";
  return [...toSend(open, `${how} ${INSERT}${end}`),...toSend(hidden, `${then}${requests(hidden.length)} ${ASK_UNDER} ${then ? SPLIT : INSERT + end}`),
    ...silenced.length && !cycles ? [el("p", {}, ASKED.newVersion)]
      : toSend(silenced.length ? ["F", ...silenced] : [], ASKED.silenced.replace("{}", count(silenced.length, "request")))];
}

/** @param {number} number */
const requests = (number) => count(number, "request is", "requests are");

/**
 * Lines that ask something, below words.
 * @param {string[]} lines
 * @param {string} words
 */
const toSend = (lines, words) => lines.length ? [el("p", {}, words), ...copied(lines)] : [];

/**
 * Lines to be copied. Many are cut off on paper.
 * @param {string[]} lines
 */
function copied(lines) {
  const isLong = lines.length > MOST_ON_PAPER, number = count(lines.length, "line");
  const attributes = { class: isLong ? "copy long" : "copy", tabindex: "0", role: "group", "aria-label": `Requests, ${number}` };
  return lines.length ? [el("pre", attributes, lines.join("\n")),...isLong ? [el("p", { class: "cut" }, `On paper only the first of these ${number} are seen.`)] : []] : [];
}
