/** Why UIDs are open, in sentences: a cause each, or one for all slots that held the same. */
import { ORDER } from "../judge/causes.mjs";
import { hex } from "../judge/frames.mjs";
import { count, lines, listing, short, whom } from "./words.mjs";

/** @typedef {import("../judge/told.mjs").Told} Told */
/** @typedef {import("../judge/causes.mjs").Cause} Cause */

/** How many rounds that hold the same are told one by one, and how many of more are named. */
const MOST_CAUSES = 6, MOST_NAMED_ROUNDS = 4, NOT_SETTLED = "no later request settled all of these UIDs";
/**
 * What a slot held that wasn't read.
 * @type {Record<string, string>}
 */
const HELD = { collision: "two or more tags answered", garbled: "something answered that couldn't be read",
  unknown: "nothing is known of who answered", captured: "one tag was read, perhaps over others" };

/**
 * Why UIDs are open, first where the reader stopped.
 * @param {Told} told
 */
export function whyOpen({ causes, silenced, neverAsked, counts, last }) {
  const [first] = silenced, one = silenced.length === 1, which = one ? `Line ${first.line} silenced ${short(first.uid)} before it was`
    : `L${lines(silenced.map(({ line }) => line)).slice(1)} silenced ${count(silenced.length, "tag")} before they were`;
  const silent = `${which} heard: replies before aren't in the log, or the reader had ${one ? "the UID" : "the UIDs"} from an earlier count.`;
  return [...causes.length > MOST_CAUSES ? [`The search stopped with the round of line ${last}.`] : [],...ORDER.flatMap((reading) => {
      const its = causes.filter((cause) => cause.reading === reading);
      return its.length > MOST_CAUSES ? [together(its)] : its.map(because);
    }),
    ...neverAsked ? [counts.rounds ? "Some UIDs were asked by no request, or only after they were silenced." : "No request asked for any tag."] : [],
    ...first ? [silent] : []];
}

/**
 * Why slots of many rounds left UIDs open.
 * @param {Cause[]} causes those of the last round first
 */
function together(causes) {
  const [{ reading }] = causes, rounds = count(causes.length, "round"), slots = count(causes.flatMap((cause) => cause.slots).length, "slot");
  const at = `, at last in those of ${lines(causes.slice(0, MOST_NAMED_ROUNDS).map((cause) => cause.round).reverse())}.`;
  return reading === "unreached" ? `In ${rounds} ${slots} weren't reached${at}` : `In ${slots} of ${rounds} ${HELD[reading]}, and ${NOT_SETTLED}${at}`;
}

/**
 * Why slots of a round left UIDs open.
 * @param {Cause} cause
 */
function because({ round: line, asked, slots: all, reading, uids }) {
  const round = `round of line ${line}, which asked ${whom(asked)},`, names = all.map((slot) => hex(slot, 1)), many = all.length > 1;
  if (reading === "unreached") return all[0] ? `The ${round} ended before slot ${names[0]}.` : `Of the ${round} no slot was logged.`;
  const held = reading === "captured" && uids.length === 1 ? HELD.captured.replace("one tag", short(uids[0])) : HELD[reading];
  return `In ${many ? "each of slots" : "slot"} ${listing(names)} of the ${round} ${held}, and ${NOT_SETTLED}.`;
}
