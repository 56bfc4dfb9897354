/** How sure an answer is, in sentences: what it speaks of, what it takes for granted, and whether it also holds if replies were hidden. */
import { maskOf } from "../judge/frames.mjs";
import { KIND } from "../judge/objects.mjs";
import { SENTENCES } from "./sentences.mjs";
import { count, ending, numbered } from "./words.mjs";

/** @typedef {import("../judge/told.mjs").Told} Told */
/** @typedef {import("../judge/objects.mjs").Margin} Margin */
/** @typedef {import("./say.mjs").Light} Light */

/** What a complete answer speaks of. */
export const HOLDS = SENTENCES.answers.holds;
/** How it is said whether an answer about tags would also be that of a log whose replies may have hidden others. */
const IF_HIDDEN = "If a strong reply hid a weaker one, the answer ", IF_DEAF = "If the reader had gone deaf after the last answer of a tag, the answer ";
/** @param {string} [where] */
export const deafIn = (where = "") => `${IF_DEAF}may be wrong${where}. To know, switch the field off and on, and let the reader ask once more ` + "for a tag that was found.";
export const DEAF = "A reader that is deaf writes the same log: only a tag at its antenna shows that it hears.";
export const TO_KNOW = "silence each tag that was heard, and ask all in one slot, until none answers";

/**
 * What no program can check. If one of these fails, an answer may be wrong.
 * @param {boolean} holds whether all of it holds also if strong replies hid weaker ones, so that this isn't taken for granted
 */
export const granted = (holds) => ["Each tag has power, hears the reader, and is heard: none is covered, on metal, or at the edge. A tag that never answers is in no log.",
  "The log is true: it says what was sent and what each logged slot held, in the order in which it happened.",
  "Nothing else was sent that changes which tags answer: no Select, no Reset to Ready, no quiet command of a manufacturer.",
  `${holds ? "E" : "No strong reply hid a weaker one, and e"}very reply came from a tag.`,
  "The tags conform to ISO/IEC 15693-3, and no two have the same UID.",
  "No tag came or went, all were ready when it began, and the field stayed on, except where the log says that it went off and on.",
  "Only one reader powered the tags.", ];

/**
 * Whether the answer also holds if a strong reply hid a weaker one, and how sure it is then, or else what to ask; of an answer
 * that counts on it. It is no part of the answer.
 * @param {Told} told
 */
export function alsoHolds({ object: { kind, captured: ifHidden, margin }, counts, requests: { all } }) {
  const isCertain = /** @type {string[]} */ ([KIND.COMPLETE, KIND.ABSENT, KIND.UNLISTED]).includes(kind);
  if (!ifHidden || !counts.heard || !isCertain) return null;
  if (!counts.alone) return { words: "The answer allows for strong replies that hid weaker ones.", ask: [] };
  if (!ifHidden.holds) return { words: `${IF_HIDDEN}may be wrong.`, ask: all };
  if (kind === KIND.COMPLETE || ifHidden.settled) return { words: stillHolds(margin, ifHidden.margin), ask: [] };
  // without a list the headline says it
  const words = !counts.listed && ifHidden.settled === false ? "" : `${IF_HIDDEN}still holds, but more UIDs may be open.`;
  return { words, ask: all };
}

/**
 * Whether an answer that leaves nothing to ask, or says that a tag didn't answer, may be another
 * one if a log is read more cautiously; without a list, whether others may be there.
 * @param {Told} told
 * @param {import("../judge/objects.mjs").Reading} [reading] without one nothing is shaken
 */
export const isShaken = ({ object: { status, open, found }, counts }, reading) =>
  reading !== undefined && status < 2 && (!open.count || found.absent > 0) && (counts.listed || !status ? !reading.holds : reading.settled === false);

/**
 * How sure an answer is, as lights: of a complete one how often each other tag was asked, and that
 * it still holds; of any that it may not.
 * @param {number | undefined} margin of a complete one
 * @param {string} still
 * @param {string} other
 * @param {boolean} isHiding
 * @param {boolean} isDeaf
 * @returns {Light[]}
 */
export function howSure(margin, still, other, isHiding, isDeaf) {
  const both = /** @type {[string, boolean][]} */ ([["If replies were hidden", isHiding], ["If the reader went deaf", isDeaf]]);
  const lights = both.map(([name, isWrong]) => /** @type {Light} */ ({ name, value: isWrong ? other : still, look: isWrong ? "no" : "yes" }));
  return margin ? [{ name: still === "still empty" ? "Each tag was asked" : "Each other tag was asked",
    value: numbered(SENTENCES.answers.asked, margin), look: "plain" }, ...lights] : lights.filter(({ look }) => look === "no");
}

/**
 * Whether an answer also holds if the reader went deaf before its last, silent rounds, and if not, what shows whether it did.
 * @param {Told} told
 */
export function ifDeaf(told) {
  const { object: { kind, certain, deaf, captured }, requests } = told, isComplete = kind === KIND.COMPLETE;
  // what is asked where replies may have been hidden comes first
  if (!deaf || !isComplete && !isShaken(told, deaf) || isShaken(told, captured) && alsoHolds(told)?.ask.length) return null;
  if (!certain.count) return { words: DEAF, ask: [] };
  return isComplete && deaf.holds ? { words: `${IF_DEAF}still holds: it heard a tag after the last silence.`, ask: [] }
    : { words: deafIn(), ask: requests.heard };
}

/**
 * Whether nothing that is said rests on it that no strong reply hid a weaker one.
 * @param {Told} told
 */
export const isApart = ({ object: { kind, captured: ifHidden }, counts }) =>
  ifHidden !== undefined && ifHidden.holds && (!counts.alone || kind === KIND.COMPLETE || ifHidden.settled === true);

/**
 * An answer that also holds then: beside the margin that it has, the one that it has then, if that is known.
 * @param {number | undefined} margin
 * @param {number} [then]
 */
export function stillHolds(margin = 0, then) {
  const slots = count(then ?? 0, "slot"), missed = then === undefined ? margin > 1 ? ", but fewer slots may be enough" : ""
    : then === margin ? `, and a tag would still have had to be missed in ${slots}` : `, but ${count(then, "missed slot")} would be enough`;
  return `${IF_HIDDEN}still holds${margin ? missed : ""}.`;
}

/**
 * An answer that may not hold then, and what to do in which fields.
 * @param {string} where
 */
export const mayBeWrong = (where) => `${IF_HIDDEN}may be wrong. To know,${where} ${TO_KNOW}`;

/**
 * How sure it is that no other tag is here; of no answer but a complete one.
 * @param {Partial<Margin>} of
 * @param {string} [where]
 */
export const missed = ({ margin, weakest }, where = "") => !margin || !weakest ? [] : [`To go unnoticed, a tag would have had to be missed in ${count(margin, "slot")}${where}` +
    `${weakest.mask_len ? `; that is enough for ${ending(maskOf(weakest))}, for example` : ", whatever its UID"}.`];

/**
 * What is said of a complete answer of which a greater margin was asked for.
 * @param {number | undefined} margin
 * @param {number} wanted
 */
export const notSure = (margin, wanted) => (margin ? `Not sure enough: a tag would have had to be missed in ${count(margin, "slot")}`
  : "Not sure enough: how often a tag would have had to be missed isn't known") + `, and ${wanted.toLocaleString("en")} or more were asked for.`;
