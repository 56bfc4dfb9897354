/**
 * What is told of a log: what the library says of it, and the rows that show why.
 *
 * The answer, findings and open masks are those of the library; of the rows only those are picked out that a finding names, or
 * whose slots overlap what is open. What follows from them here is `hasMore`; tests/test_oracle.py compares it with what brute force
 * finds.
 */
import { causesOf, silencedUnheard } from "./causes.mjs";
import { drawn } from "./drawn.mjs";
import { hasUid, linkOf, maskOf } from "./frames.mjs";
import { Log } from "./log.mjs";
import { KIND } from "./objects.mjs";
import { NO_REQUESTS, requestsOf } from "./requests.mjs";

/** @typedef {import("./frames.mjs").Mask} Mask */
/** @typedef {import("./causes.mjs").Cause} Cause */
/** @typedef {import("./causes.mjs").Silenced} Silenced */
/** @typedef {import("./drawn.mjs").Gap} Gap */
/** @typedef {import("./log.mjs").Row} Row */
/** @typedef {import("./log.mjs").Slot} Slot */
/** @typedef {import("./objects.mjs").LogObject} LogObject */
/**
 * @typedef {Object} Conflict
 * @property {number} count how many lines it has
 * @property {number} first
 * @property {number} last
 * @property {Slot | null} unread its collision or garbled slot, of which it has one at most
 * @property {Slot[]} heard its first and last reply
 * @property {number} silent its first silent slot's line, 0 if it has none
 * @property {number} silencer the line of the Stay Quiet that had silenced the tag of its reply, 0 if there is none
 * @property {number} link of the request of its first line
 */

/**
 * @typedef {Object} Told
 * @property {LogObject} object
 * @property {string} faulty the refused line
 * @property {boolean} cycles whether its version has lines for field cycles
 * @property {Conflict | null} conflict of an impossible log
 * @property {Mask[]} open the first open masks
 * @property {Silenced[]} silenced the tags that are open since they were silenced before they were heard
 * @property {number} quiet how many open masks have no other tags
 * @property {boolean} isMore whether in some slot two or more tags answered of which not all are certain
 * @property {import("./requests.mjs").Requests} requests
 * @property {Cause[]} causes slots in which the other open UIDs would answer, by their rounds
 * @property {boolean} neverAsked whether some open mask has no such slot
 * @property {number} last the line of the last round
 * @property {Log["counts"]} counts
 * @property {(Row | Gap)[]} rows those drawn
 * @property {string[]} ringed the slots that are marked, as ROUND:NUMBER
 * @property {number[]} named the lines that are marked
 */

/** How many lines of findings are marked. */
const MOST_NAMED = 24;

/**
 * @param {LogObject} object
 * @param {Uint8Array} text
 * @param {import("./log.mjs").Index} [index] unless it is refused
 * @returns {Told}
 */
export function tell(object, text = new TextEncoder().encode(object.text), index) {
  const isRefused = object.kind === KIND.REFUSED, log = new Log(text, isRefused, isRefused ? undefined : index), { line = 0 } = object;
  log.counts.lines = object.lines;
  /** @type {Told} */
  const told = { object, faulty: isRefused && line <= log.lineCount ? log.line(line) : "", cycles: log.version > 1, conflict: null,
    open: object.open.masks.map(maskOf), silenced: [], quiet: 0, isMore: false, requests: NO_REQUESTS, causes: [], neverAsked: false,
    last: 0, counts: log.counts, rows: [], ringed: [], named: [] };
  if (!isRefused) explain(log, told);
  return told;
}

/**
 * Adds what shows why.
 * @param {Log} log
 * @param {Told} told
 */
function explain(log, told) {
  const { object, open } = told, lines = linesOf(object, "conflict");
  if (object.kind === KIND.IMPOSSIBLE) told.conflict = conflictOf(log, lines, linesOf(object, "silenced by")[0] ?? 0);
  const { masks, tags } = silencedUnheard(log, open), quiet = new Set(masks), { causes, neverAsked, hidden } = causesOf(log, open.filter((mask) => !quiet.has(mask)));
  Object.assign(told, { silenced: tags, quiet: masks.length, causes, neverAsked, isMore: hasMore(causes, object), last: log.lastRound,
    requests: requestsOf(log, object, { open, quiet, hidden, causes }) });
  told.named = named(told);
  // what may have been hidden is marked where nothing else is left
  const marking = causes.filter(({ reading }) => reading !== "captured" || causes[0].reading === reading);
  told.ringed = marking.flatMap((cause) => cause.slots.map((number) => `${cause.round}:${number}`));
  told.rows = drawn(log, told.named, marking.map((cause) => log.rowAt(cause.round)));
}

/**
 * What a conflict is told by: over all of its lines, however many they are, and whether they are drawn or not.
 * @param {Log} log
 * @param {number[]} lines
 * @param {number} silencer
 * @returns {Conflict}
 */
function conflictOf(log, lines, silencer) {
  const heard = lines.filter((line) => log.isReply(line)), isSilent = (/** @type {number} */ line) => log.reading(line) === "silent";
  const unread = lines.find((line) => !log.isReply(line) && !isSilent(line));
  return { count: lines.length, first: lines[0], last: lines[lines.length - 1], unread: unread ? log.slot(unread) : null,
    heard: [...new Set([...heard.slice(0, 1), ...heard.slice(-1)])].flatMap((line) => log.slot(line) ?? []),
    silent: lines.find(isSilent) ?? 0, silencer, link: linkOf(log.frame(log.lineOf(log.rowAt(lines[0])))) };
}

/**
 * Whether in some slot two or more tags answered of which at most one is certain.
 * @param {Cause[]} causes
 * @param {LogObject} object
 */
function hasMore(causes, { certain: { count, uids } }) {
  const certain = uids.map((uid) => BigInt(`0x${uid}`)), lacks = (/** @type {Mask} */ mask) => certain.filter((uid) => hasUid(mask, uid)).length < 2;
  return count <= uids.length && causes.some(({ reading, masks }) => reading === "collision" && masks.some(lacks));
}

/**
 * The lines that findings of a kind have.
 * @param {LogObject} object
 * @param {string} kind
 */
const linesOf = (object, kind) => object.findings.filter((it) => it.kind === kind).map((it) => it.line ?? 0);

/**
 * The lines that are marked: those of a conflict, first those that it is told by; those that findings name, the first few and the
 * last; and Stay Quiets to tags that weren't heard. Without a list the findings are all tags that are there, and none is marked.
 * @param {Told} told
 */
function named({ object, conflict, silenced, counts }) {
  const lines = [...linesOf(object, KIND.ABSENT), ...counts.listed ? linesOf(object, KIND.UNLISTED) : [], ...silenced.map((it) => it.line)];
  const first = conflict ? [conflict.unread?.line ?? 0, ...conflict.heard.map((slot) => slot.line), conflict.last, conflict.silencer] : [];
  return [...new Set([...first.filter((line) => line), ...linesOf(object, "conflict"), ...lines.slice(0, MOST_NAMED), ...lines.slice(-1)])];
}
