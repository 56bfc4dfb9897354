/** A log's text as rows to draw: rounds, Stay Quiets and field cycles. */
import { ANY_LINK, inventoryOf, linkOf, slotMask, SLOTS, uidIn } from "./frames.mjs";

/** @typedef {import("./frames.mjs").Mask} Mask */
/** @typedef {"silent" | "heard" | "captured" | "collision" | "garbled" | "unknown" | "unreached"} Reading what a slot held */
/** @typedef {{line: number, number: number, mask: Mask, reading: Reading, uid: bigint | null, silenced: number}} Slot */
/** @typedef {{kind: "round", line: number, end: number, asked: Mask, slots: Slot[]}} Round */
/** @typedef {{kind: "quiet", line: number, end: number, uid: bigint}} Quiet */
/** @typedef {{kind: "cycle", line: number, end: number}} Cycle */
/** @typedef {Round | Quiet | Cycle} Row */

export const LF = 10, CR = 13;
/** @param {string} letter */
const codeOf = (letter) => letter.charCodeAt(0), ASKING = codeOf("T"), CYCLED = codeOf("F");
/** What a slot held, by the letter with which its line begins. */
const LETTERS = /** @type {[string, Reading][]} */ ([["S", "silent"], ["R", "heard"], ["H", "captured"], ["C", "collision"], ["D", "garbled"], ["N", "unknown"]]);
const READINGS = Array.from({ length: 256 }, (_, code) => LETTERS.find(([letter]) => codeOf(letter) === code)?.[1]);
/** How many characters a line has at least, by its letter, if the log isn't refused: a request, a reply, a UID. */
const SURE = Uint8Array.from(READINGS, (_, code) => ({ T: 12, R: 26, H: 26, U: 18 })[String.fromCharCode(code)] ?? 0);
/** Those that name a tag, and those in which others may have answered. */
const REPLIES = new Set(["heard", "captured"]), UNREAD = new Set(["captured", "collision", "garbled", "unknown"]);
/** Where a frame begins in its line; the digits in it that say that a round has one slot, and that a request is a Stay Quiet. */
const FRAME_AT = 2, OF_ONE_SLOT = [0, codeOf("2")], SILENCING = [3, codeOf("2")];
/** A log has no more lines, and none that is longer: of what is refused the rest isn't looked at. A byte order mark stays, since it is why
 *  a text is refused. */
const MOST_LINES = 1_000_000, LONGEST = 4096, LINES = new TextDecoder("utf-8", { ignoreBOM: true });

/** @typedef {{starts: Uint32Array, rows: Uint32Array, counts: Record<"lines" | "rounds" | "quiets" | "cycles" | "slots" | "heard" | "alone" | "listed", number>}} Index
 *   where each line begins, and where one behind the last would; the lines that begin a row; and how many there are of which */

/**
 * Where the lines of a text are, and what they are.
 * @param {Uint8Array} text
 * @param {boolean} isRefused
 * @returns {Index}
 */
export function indexed(text, isRefused) {
  const { length } = text, starts = new Uint32Array(Math.min(length, MOST_LINES) + 2), seen = new Uint32Array(256);
  let last = 0;
  for (let at = 0; at < length && last < MOST_LINES; at++) if (text[at] === LF) {
    starts[++last] = at + 1;
    if (!isRefused) at += SURE[text[at + 1]] ?? 0;
  }
  if (starts[last] !== length) starts[++last] = length + 1;
  const rows = new Uint32Array(last);
  let number = 0, quiets = 0;
  for (let line = 2; line <= last; line++) {
    const start = starts[line - 1], code = text[start];
    seen[code]++;
    if (code === ASKING && text[start + FRAME_AT + SILENCING[0]] === SILENCING[1]) quiets++;
    if (code === ASKING || code === CYCLED) rows[number++] = line;
  }
  const alone = seen[codeOf("R")], cycles = seen[CYCLED];
  return { starts: starts.subarray(0, last + 1), rows: rows.subarray(0, number), counts: { lines: last, rounds: number - cycles - quiets, quiets, cycles, alone,
    heard: alone + seen[codeOf("H")], slots: LETTERS.reduce((sum, [letter]) => sum + seen[codeOf(letter)], 0), listed: seen[codeOf("U")] } };
}

/** The lines of a text, by their numbers from 1, and where its rows are. */
export class Log {
  #starts;
  #rows;

  /**
   * @param {Uint8Array} text
   * @param {boolean} [isRefused]
   * @param {Index} [index]
   */
  constructor(text, isRefused = false, index = indexed(text, isRefused)) {
    this.text = text;
    this.counts = index.counts;
    this.#starts = index.starts;
    this.#rows = index.rows;
  }

  /**
   * The text of a line, without its end.
   * @param {number} line
   */
  line(line) {
    const from = this.#starts[line - 1], end = this.#starts[line] - 1, to = this.text[end] === LF && this.text[end - 1] === CR ? end - 1 : end;
    return LINES.decode(this.text.subarray(from, Math.min(to, from + LONGEST)));
  }

  /**
   * The byte with which a line begins.
   * @param {number} line
   */
  #code(line) { return this.text[this.#starts[line - 1]]; }

  /**
   * Whether the frame of a line has a digit.
   * @param {number} line
   * @param {number[]} digit where, and which
   */
  #has(line, [at, code]) { return this.text[this.#starts[line - 1] + FRAME_AT + at] === code; }

  /**
   * The digits of the frame that a line has.
   * @param {number} line
   */
  frame(line) { return this.line(line).slice(FRAME_AT).trimEnd(); }

  /**
   * What a line says that a slot held.
   * @param {number} line
   */
  reading(line) { return READINGS[this.#code(line)]; }

  /**
   * Whether a line is a reply, alone or not.
   * @param {number} line
   */
  isReply(line) { return REPLIES.has(this.reading(line) ?? ""); }

  /** The version that the header names. */
  get version() { return Number(this.line(1).slice(-1)); }

  /** That of the first request. */
  get link() {
    const first = this.#rows.find((line) => this.#code(line) === ASKING);
    return first ? linkOf(this.frame(first)) : ANY_LINK;
  }

  /** @param {number} line */
  #silences(line) { return this.#has(line, SILENCING); }

  get lineCount() { return this.#starts.length - 1; }

  get rowCount() { return this.#rows.length; }

  /**
   * The line that begins a row.
   * @param {number} index
   */
  lineOf(index) { return this.#rows[index]; }

  /** @param {number} index */
  isQuiet(index) { return this.#code(this.#rows[index]) === ASKING && this.#silences(this.#rows[index]); }

  /** @param {number} index */
  isRound(index) { return this.#code(this.#rows[index]) === ASKING && !this.#silences(this.#rows[index]); }

  /** The Stay Quiets. */
  *quiets() {
    for (const line of this.#rows) if (this.#code(line) === ASKING && this.#silences(line)) yield { line, uid: uidIn(this.frame(line)) };
  }

  /** The tags that were heard and aren't silenced at the end. */
  ready() {
    const heard = /** @type {Set<bigint>} */ (new Set()), ready = /** @type {Set<bigint>} */ (new Set());
    for (let at = 0; at < this.rowCount; at++) {
      if (this.isQuiet(at)) ready.delete(uidIn(this.frame(this.lineOf(at))));
      else if (!this.isRound(at)) for (const uid of heard) ready.add(uid);
      for (const uid of this.outcomes(at).filter((line) => this.isReply(line)).map((line) => uidIn(this.frame(line)))) ready.add(uid) && heard.add(uid);
    }
    return ready;
  }

  /**
   * How many slots a round has.
   * @param {number} index
   */
  #slotCount(index) { return this.#has(this.#rows[index], OF_ONE_SLOT) ? 1 : SLOTS; }

  /** The line of the last round, 0 if there is none. */
  get lastRound() { return this.#rows.slice().reverse().find((line) => this.#code(line) === ASKING && !this.#silences(line)) ?? 0; }

  /**
   * Which row has a line: the last that begins there or before.
   * @param {number} line
   */
  rowAt(line) {
    let low = 0, high = this.#rows.length;
    while (low < high) {
      const middle = low + high >> 1;
      if (this.#rows[middle] <= line) low = middle + 1; else high = middle;
    }
    return low - 1;
  }

  /**
   * What the round of a row asked.
   * @param {number} index
   */
  asked(index) { return inventoryOf(this.frame(this.#rows[index])); }

  /**
   * @param {number} index
   * @returns {Row}
   */
  row(index) {
    const line = this.#rows[index];
    if (this.#code(line) === CYCLED) return { kind: "cycle", line, end: line };
    if (this.#silences(line)) return { kind: "quiet", line, end: line, uid: uidIn(this.frame(line)) };
    const asked = this.asked(index), slots = this.#slots(asked, this.outcomes(index));
    return { kind: "round", line, end: slots.reduce((most, slot) => Math.max(most, slot.line), line), asked: asked.mask, slots };
  }

  /**
   * The slot that a line tells of; null if it tells of none.
   * @param {number} line
   */
  slot(line) {
    const row = this.row(this.rowAt(line));
    return row.kind === "round" ? row.slots.find((slot) => slot.line === line) ?? null : null;
  }

  /**
   * Whether a row is a round in which a slot wasn't reached, wasn't read, or may have had others than the one that was read.
   * @param {number} index
   */
  hasUnread(index) {
    const outcomes = this.isRound(index) ? this.outcomes(index) : null;
    return outcomes !== null && (outcomes.length < this.#slotCount(index) || outcomes.some((line) => UNREAD.has(this.reading(line) ?? "")));
  }

  /**
   * The lines of a row that tell of slots.
   * @param {number} index
   */
  outcomes(index) {
    const lines = [], end = index + 1 < this.#rows.length ? this.#rows[index + 1] : this.lineCount + 1;
    for (let line = this.#rows[index] + 1; line < end; line++) if (this.reading(line)) lines.push(line);
    return lines;
  }

  /**
   * The slots of a round: those that were logged, and those that weren't reached, which have line 0.
   * @param {import("./frames.mjs").Inventory} asked
   * @param {number[]} outcomes
   */
  #slots(asked, outcomes) {
    return Array.from({ length: asked.slots }, (_, number) => {
      const line = outcomes[number] ?? 0, reading = line ? this.reading(line) : "unreached", uid = line && this.isReply(line) ? uidIn(this.frame(line)) : null;
      return /** @type {Slot} */ ({ line, number, mask: slotMask(asked, number), reading, uid, silenced: 0 });
    });
  }
}
