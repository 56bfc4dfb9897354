/** Which rows of a log are drawn. */

/** @typedef {import("./log.mjs").Log} Log */
/** @typedef {import("./log.mjs").Row} Row */
/** @typedef {import("./log.mjs").Round} Round */
/** @typedef {{kind: "gap", rounds: number, quiets: number, cycles: number}} Gap */

/** How many rows are drawn, and how many at each end at least. */
const MOST_DRAWN = 60, EDGE = 3;

/**
 * The rows that are drawn, with gaps between them: all of a short log; else those of the lines that are marked, the first and the
 * last, and those of causes.
 * @param {Log} log
 * @param {number[]} named
 * @param {number[]} causing
 */
export function drawn(log, named, causing) {
  const total = log.rowCount, edges = [...Array(EDGE).keys()].flatMap((at) => [at, asking(log, total - 1 - at), total - 1 - at]);
  const wanted = total > MOST_DRAWN ? [...named.map((line) => log.rowAt(line)), ...edges, ...causing] : Array(total).keys();
  const rows = [...new Set(wanted)].filter((row) => row >= 0 && row < total).slice(0, MOST_DRAWN).sort((one, other) => one - other);
  const marked = new Set(named), result = /** @type {(Row | Gap)[]} */ ([]);
  let next = 0;
  for (const at of [...rows, total]) {
    if (at < next) continue;
    if (at > next) result.push(gap(log, next, at));
    const row = at < total ? log.row(at) : null;
    next = at + 1;
    if (row) result.push(row);
    if (row?.kind === "round") next = withQuiets(log, row, next, marked);
  }
  return result;
}

/**
 * What isn't drawn from a row to another.
 * @param {Log} log
 * @param {number} from
 * @param {number} to
 * @returns {Gap}
 */
function gap(log, from, to) {
  let rounds = 0, quiets = 0;
  for (let at = from; at < to; at++) if (log.isRound(at)) rounds++; else if (log.isQuiet(at)) quiets++;
  return { kind: "gap", rounds, quiets, cycles: to - from - rounds - quiets };
}

/**
 * The row of the round after which a Stay Quiet was sent, and of another row this one.
 * @param {Log} log
 * @param {number} row
 */
function asking(log, row) {
  while (row > 0 && log.isQuiet(row)) row--;
  return row;
}

/**
 * Notes with a round the Stay Quiets that follow it, to tags that were heard in it. Returns the row behind those before one that
 * is marked, as that one has a row of its own.
 * @param {Log} log
 * @param {Round} round
 * @param {number} next
 * @param {Set<number>} marked lines
 */
function withQuiets(log, round, next, marked) {
  let isApart = false;
  for (let at = next; at < log.rowCount; at++) {
    const quiet = log.row(at), slot = quiet.kind === "quiet" ? round.slots.find((it) => it.uid === quiet.uid) : undefined;
    if (quiet.kind !== "quiet") break;
    if (slot) slot.silenced = quiet.line;
    // those behind one that has a row of its own have rows too
    isApart ||= !slot || marked.has(quiet.line);
    if (isApart) continue;
    round.end = quiet.line;
    next = at + 1;
  }
  return next;
}
