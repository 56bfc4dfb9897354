/** Why UIDs are open: the slots in which they would answer that weren't read, and the tags that were silenced before. */
import { UID_BITS } from "./frames.mjs";
import { grouped } from "./groups.mjs";

/** @typedef {import("./frames.mjs").Mask} Mask */
/** @typedef {import("./log.mjs").Log} Log */
/** @typedef {import("./log.mjs").Reading} Reading */
/** @typedef {{reading: Reading, round: number, slots: number[], asked: Mask, masks: Mask[], uids: bigint[]}} Cause with the
 *    slots, their masks, and the tags that were read */
/** @typedef {{line: number, uid: bigint}} Silenced a Stay Quiet to a tag that was never heard */
/** @typedef {import("./log.mjs").Slot & {round: number, asked: Mask}} Unread */

/** Of one round first what wasn't reached, as that is where the reader stopped. */
export const ORDER = ["unreached", "unknown", "collision", "garbled", "captured"];
/** After so many slots only those are looked for that explain one more mask; so many bits the masks have at least of which each UID may
 *  have been silenced. */
const MOST_CAUSING = 1000, LEAST_SILENCED = UID_BITS - 6;

/** @param {number} len @param {bigint} value */
const key = (len, value) => `${len}:${BigInt.asUintN(len, value)}`;

/**
 * The Stay Quiets to tags that are open since then, and the masks in which there is no other UID. None of these tags was heard,
 * since a reply makes a tag certain.
 * @param {Log} log
 * @param {Mask[]} open
 */
export function silencedUnheard(log, open) {
  const narrow = open.filter((mask) => mask.len >= LEAST_SILENCED), lengths = [...new Set(narrow.map((mask) => mask.len))];
  /** @type {Map<string, Map<bigint, Silenced>>} */
  const within = new Map(narrow.map((mask) => [key(mask.len, mask.value), new Map()]));
  for (const { line, uid } of narrow.length ? log.quiets() : []) {
    const tags = lengths.map((len) => within.get(key(len, uid))).find((it) => it);
    if (tags && !tags.has(uid)) tags.set(uid, { line, uid });
  }
  const masks = narrow.filter(({ len, value }) => within.get(key(len, value))?.size === 2 ** (UID_BITS - len));
  const tags = masks.flatMap(({ len, value }) => [...within.get(key(len, value))?.values() ?? []]);
  return { masks, tags: tags.sort((one, other) => one.line - other.line) };
}

/**
 * The slots that weren't reached or weren't read, or in which others than the one that was read may have answered: those within
 * an open mask, and for a mask without such slots the narrowest around it; whether a mask has neither, and the masks that only a
 * reply may have hidden.
 * @param {Log} log
 * @param {Mask[]} masks
 */
export function causesOf(log, masks) {
  const open = new Set(masks.map((mask) => key(mask.len, mask.value))), lengths = [...new Set(masks.map((mask) => mask.len))];
  const wider = new Set(masks.flatMap(({ len, value }) => Array.from({ length: len }, (_, less) => key(less, value))));
  const within = (/** @type {Mask} */ { len, value }) => lengths.filter((it) => it <= len).map((it) => key(it, value)).find((it) => open.has(it));
  const mayAsk = (/** @type {Mask} */ mask) => wider.has(key(mask.len, mask.value)) || within(mask) !== undefined;
  /** @type {Map<string, Unread>} */
  const unread = new Map(), explained = new Set(), causing = /** @type {Unread[]} */ ([]);
  for (const slot of masks.length ? unreadSlots(log, mayAsk) : []) {
    const name = key(slot.mask.len, slot.mask.value), around = within(slot.mask);
    if (!unread.has(name)) unread.set(name, slot);
    if (!around || explained.has(around) && causing.length >= MOST_CAUSING) continue;
    causing.push(slot);
    explained.add(around);
  }
  const arounds = masks.flatMap((mask) => explained.has(key(mask.len, mask.value)) ? [] : { mask,
    around: [...Array(mask.len).keys()].reverse().map((less) => unread.get(key(less, mask.value))).find((it) => it) });
  return { causes: byRound([...causing, ...arounds.flatMap(({ around }) => around ?? [])]), neverAsked: arounds.some(({ around }) => !around),
    hidden: new Set(arounds.filter(({ around }) => around?.reading === "captured").map(({ mask }) => mask)) };
}

/**
 * Every slot that wasn't reached or wasn't read, or was read perhaps over others, of the rounds that may ask what is open, those of
 * the last round first.
 * @param {Log} log
 * @param {(mask: Mask) => boolean} mayAsk
 * @returns {Generator<Unread>}
 */
function* unreadSlots(log, mayAsk) {
  for (let at = log.rowCount - 1; at >= 0; at--) {
    const round = log.hasUnread(at) && mayAsk(log.asked(at).mask) ? log.row(at) : null;
    if (round?.kind !== "round") continue;
    for (const slot of round.slots) if (ORDER.includes(slot.reading)) yield { ...slot, round: round.line, asked: round.asked };
  }
}

/**
 * The causes of each round, the last round first, as it is the one that the reader didn't end; behind these the replies that may have
 * hidden others.
 * @param {Unread[]} causing
 * @returns {Cause[]}
 */
function byRound(causing) {
  const causes = [...grouped(causing, ({ round, reading }) => `${round} ${reading}`).values()].map((its) => {
    const slots = [...new Map(its.map((slot) => [slot.number, slot])).values()].sort((one, other) => one.number - other.number), [{ reading, round, asked }] = its;
    return { reading, round, asked, slots: slots.map(({ number }) => number), masks: slots.map(({ mask }) => mask),
      uids: slots.flatMap(({ uid }) => uid ?? []) };
  });
  const isRead = (/** @type {Cause} */ { reading }) => Number(reading === "captured");
  return causes.sort((one, other) => isRead(one) - isRead(other) || other.round - one.round || ORDER.indexOf(one.reading) - ORDER.indexOf(other.reading));
}
