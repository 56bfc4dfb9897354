/** What a contradiction says, by the form of its lines: a sentence, what may have happened, and what tells these apart. */
import { hex, sixteen, stayQuietOf, UID_LEN } from "../judge/frames.mjs";
import { count, short } from "./words.mjs";

/** @typedef {import("../judge/told.mjs").Conflict} Conflict */
/** @typedef {import("../judge/told.mjs").Told} Told */
/** @typedef {import("../judge/log.mjs").Slot} Slot */
/** @typedef {{sentence: string, causes: string[], test?: string, ask?: string[], shelf?: string}} Contradiction with lines that send
 *    what the test asks, and what to do at the shelf, if it is nothing usual */

const NOISE = "Noise was logged: a slot that may have been noise gets the line N; in version 1 or 2 no line, nor does the rest of its round.";
const ONE_DAMAGED = "One damaged reply was logged as a collision: if the chip can't tell these apart, write D, in a log of version 2 or 3.";
export const HIDDEN = "A strong reply hid a weaker one: if the chip can't rule that out, write H for R, in a log of version 3.";
const SECOND_READER = "A second reader kept tags powered and silent, or silenced some.";
const WRONG_PLACE = "The line was logged under the wrong request: a late reply, or lines in the wrong order.";
/** Where tags were silenced, and where none was: then it makes no difference that the field was off. */
const LEFT_OUT = "A Stay Quiet or another request was sent that isn't in the log, or the field was off and the log has no line F.";
const NOT_SENT = "A Stay Quiet or another request was sent that isn't in the log.";

/**
 * @param {Conflict} conflict
 * @param {Told} told
 * @returns {Contradiction}
 */
export function contradiction(conflict, { counts, cycles }) {
  const { heard: [one, other], unread, silent, silencer, link, count: number, first, last } = conflict, it = unread ?? one, sent = counts.quiets ? LEFT_OUT : NOT_SENT;
  if (silencer && one) return woke(other ?? one, conflict, cycles);
  if (number === 1 && it) return alone(it, sent);
  if (unread) return { ...unmet(conflict, unread, sent), ask: [sixteen(unread.mask, link)] };
  const wider = one && other && (one.mask.len < other.mask.len ? one.mask : other.mask);
  if (number === 2 && wider) return { ...hidden(one, other, sent), ask: [sixteen(wider, link)] };
  if (number === 2 && one && silent) return { ...lost(one, silent, sent), ask: [sixteen({ len: UID_LEN, value: one.uid ?? 0n }, link)] };
  return { sentence: `${count(number, "line")} from ${first} to ${last} can't all be true.`, causes: [sent, WRONG_PLACE] };
}

/** @param {Slot} unread */
const noise = ({ reading }) => reading === "collision" ? [NOISE, ONE_DAMAGED] : [NOISE];

/**
 * @param {Slot} slot
 * @param {Conflict} conflict
 * @param {boolean} cycles whether its version has lines for field cycles
 * @returns {Contradiction}
 */
function woke({ uid: known, line }, { silencer, link }, cycles) {
  const uid = known ?? 0n;
  return { sentence: `tag ${short(uid)} was silenced in line ${silencer}, but answered in line ${line}.`,
    causes: ["The tag lost power for a moment, at the edge of the field or behind another tag, and woke up.",
      `The tag didn't receive the Stay Quiet of line ${silencer}.`, "A second reader woke it.",
      `The field was switched off and on in between: then the log needs a line F there${cycles ? "" : ", and the header 'vicinity-log 3'"}.`],
    test: `In a new log, silence ${hex(uid)}, and ask only for it, a few times. If it answers at once, it didn't receive this Stay Quiet; if ` +
      "later, it loses power, or another reader wakes it.", ask: [`T ${stayQuietOf(uid, link)}`, sixteen({ len: UID_LEN, value: uid }, link)],
    shelf: `Move the item with tag ${hex(uid)} nearer to the antenna and away from others, and count again, in a new log. If you can't find it, spread all of them out.` };
}

/**
 * @param {Slot} slot
 * @param {string} sent
 * @returns {Contradiction}
 */
function alone(slot, sent) {
  const { line, uid, reading } = slot;
  const sentence = uid !== null ? `line ${line} is a reply of ${short(uid)}, a tag that wasn't asked there.` : reading === "collision"
    ? `two or more tags answered in line ${line}, but the mask that was asked there has at most one UID that wasn't silenced.`
    : `something answered in line ${line}, but no tag of the mask that was asked there could.`;
  return { sentence, causes: [WRONG_PLACE, ...uid === null ? noise(slot) : [], sent] };
}

/**
 * A collision or garbled slot, for which the other lines leave too few tags.
 * @param {Conflict} conflict
 * @param {Slot} unread
 * @param {string} sent
 * @returns {Contradiction}
 */
function unmet({ count: number, first, last, heard }, unread, sent) {
  const { line } = unread, two = unread.reading === "collision", others = number === 2 ? `line ${first === line ? last : first} leaves` : `${count(number - 1, "other line")} leave`;
  return { sentence: `in line ${line} ${two ? "two or more tags" : "a tag"} answered, but ${others} ${two ? "at most one" : "none"}.`,
    causes: [...last > line ? ["Later replies of these tags were lost.", `Tags left the field after line ${line}.`] : [],
      ...first < line ? [`Tags came into the field before line ${line}.`, "A silenced tag lost power for a moment and woke up.",
        "Earlier replies of these tags were lost."] : [],...noise(unread), ...heard.length ? [HIDDEN] : [], sent, SECOND_READER],
    test: `Switch the field off and on, and ask for the tags of line ${line} in sixteen slots, in a new log. If as many answer, a reply was lost ` +
      `in the other lines, or tags were kept silent there. If not, line ${line} was noise, or tags have left.` };
}

/**
 * @param {Slot} first
 * @param {Slot} last
 * @param {string} sent
 * @returns {Contradiction}
 */
function hidden(first, last, sent) {
  const one = short(first.uid ?? 0n, [last.uid ?? 0n]), other = short(last.uid ?? 0n, [first.uid ?? 0n]), isOver = first.reading === "captured";
  const both = `tags ${one} (line ${first.line}) and ${other} (line ${last.line}) were each read alone, but both should have answered in one of these two slots.`;
  const over = isOver ? `${one} answered in line ${first.line}, but not in line ${last.line}, where ${other} was read alone`
    : `${other} answered in line ${last.line}, but not in line ${first.line}, where ${one} was read alone`;
  return { sentence: isOver || last.reading === "captured" ? `tag ${over}, and it was asked there too.` : both,
    causes: [HIDDEN, `A tag came into the field between lines ${first.line} and ${last.line}, or left it.`, sent, SECOND_READER],
    test: "Move the two apart or lower the gain, and ask in sixteen slots, in a new log, so that fewer tags answer at once." };
}

/**
 * @param {Slot} heard
 * @param {number} silent
 * @param {string} sent
 * @returns {Contradiction}
 */
function lost({ uid: known, line }, silent, sent) {
  const came = silent < line, always = came ? "it came later, or its reply was lost before" : "its reply was lost, or a Stay Quiet isn't in the log", uid = known ?? 0n;
  return { sentence: `tag ${short(uid)} answered in line ${line}, but not in line ${silent}, where it was also asked.`,
    causes: [`Its reply in line ${silent} was lost: the tag is at the edge of the field, or something interfered.`,
      came ? `The tag came into the field after line ${silent}.` : `The tag left the field after line ${line}.`, sent, SECOND_READER],
    test: `Switch the field off and on, and ask only for ${hex(uid)} in a new log, a few times. If it answers sometimes, replies are being ` +
      `lost; if always, ${always}; if never, it has left or has no power.` };
}
