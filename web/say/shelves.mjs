/** Items by their shelves, and what logs are called: by the places of which they are, where these are known. */
import { grouped, madeOnce } from "../judge/groups.mjs";
import { listing, printable } from "./words.mjs";

/** @typedef {import("../judge/objects.mjs").Item} Item */
/** @typedef {import("../judge/objects.mjs").CollectionObject} CollectionObject */

/** How many names are said in few words, and in a sentence; how much of one that is long; and how many are named of logs on which an answer rests. */
export const MOST_NAMES = 3, MOST_LISTED = 12, MOST_SHORT = 60, MOST_READERS = 8;
/** Columns that say what the page says otherwise, and that of places, as the library reads its name. */
const KNOWN = new Set(["uid", "away"]), PLACE = /^[ \t]*place[ \t]*$/i;
/** Shelf 2 before Shelf 10. */
export const inOrder = new Intl.Collator("en", { numeric: true }).compare;

/**
 * A file without its folders.
 * @param {string} file
 */
export const nameOf = (file) => printable(file.split(/[/\\]/).pop() || file);

export class Shelves {
  /** @param {CollectionObject} object */
  constructor({ logs, columns }) {
    this.logs = logs;
    /** Whether the catalogue asks for places: then each log is of one, or left over. */
    this.isAsked = columns.some((head) => PLACE.test(head));
    this.counted = grouped(logs.keys(), (at) => logs[at].place);
    /** What is said of lists of logs, which many items share. */
    this.called = /** @type {WeakMap<number[], string>} */ (new WeakMap());
    /** The columns that name an item, with where they stand. */
    this.columns = columns.map((head, at) => ({ head: head.trim(), at })).filter(({ head }) => !KNOWN.has(head.toLowerCase()));
  }

  /** @param {number} at */
  isPlaced(at) { return this.logs[at].place !== null; }

  /** @param {number} at */
  name(at) {
    const { place, name } = this.logs[at];
    return place === null ? nameOf(name) : printable(place);
  }

  /** @param {number[]} logs */
  sorted(logs) { return [...logs].sort((one, other) => inOrder(this.name(one), this.name(other))); }

  /**
   * @param {number[]} logs
   * @param {string} [last]
   * @param {number} [most]
   */
  names(logs, last, most) { return firstOf(logs.map((at) => this.name(at)), last, most); }

  /** @param {number[]} logs named so that they differ: those of one place by their files */
  apart(logs) {
    const names = logs.map((at) => this.name(at)), isMany = (/** @type {number} */ at) => this.isPlaced(at) && (this.counted.get(this.logs[at].place)?.length ?? 0) > 1;
    return names.map((name, at) => names.indexOf(name) !== names.lastIndexOf(name) || isMany(logs[at]) ? printable(this.logs[logs[at]].name) : name);
  }

  /** @param {number[]} logs */
  readers(logs) { return `the reader${logs.length > 1 ? "s" : ""} of ${this.names(logs, "and", MOST_READERS)}`; }

  /** @param {number[]} logs */
  fields(logs) { return `in the field${logs.length > 1 ? "s" : ""} of ${this.names(logs, "and", MOST_READERS)}`; }

  /**
   * Whether an item that no log proves is not on its own shelf: the logs of that rule it out.
   * @param {Item} item
   */
  isElsewhere({ place, possible_in: logs }) { return place !== null && this.counted.get(place)?.some((at) => logs.includes(at)) === false; }

  /**
   * Where an item may be.
   * @param {Item} item
   */
  mayBe({ possible_in: logs }) { return madeOnce(this.called, logs, () => this.names(logs, "or")); }

  /**
   * Whether an item was heard only in logs of which nobody knows where their fields are.
   * @param {Item} item
   */
  isStray({ state, certain_in: logs }) { return state === "misplaced" && logs.every((at) => this.logs[at].left_over); }

  /**
   * The logs that prove an item, those of a place first.
   * @param {Item} item
   */
  #provedIn({ certain_in: logs }) { return [...logs].sort((one, other) => +this.logs[one].left_over - +this.logs[other].left_over); }

  /**
   * On which shelf there is something to do with an item.
   * @param {Item} item
   */
  at(item) { return item.state === "missing" ? printable(item.place ?? "") : this.name(this.#provedIn(item)[0]); }

  /** @param {Item} item */
  toDo(item) {
    const { state, place } = item, home = printable(place ?? ""), others = this.#provedIn(item).slice(1);
    if (state === "missing") return "missing: look for it";
    const what = state === "returned" ? "is back: record it" : state === "unexpected" ? "not in the catalogue: find it by its tag"
      : this.isStray(item) ? `heard in a log of no place; belongs to ${home}` : `take to ${home}`;
    return what + (others.length ? `; also in ${this.names(others)}` : "");
  }

  /**
   * What the catalogue says of an item, in a few of its cells.
   * @param {Item} item
   * @param {number} most
   */
  said({ cells = [], place }, most) { return this.columns.map(({ head, at }) => PLACE.test(head) ? "" : cells[at]?.trim() ?? "").filter((cell) => cell && cell !== place).slice(0, most).join(" · "); }

  /**
   * One item in brackets, as the catalogue has it, or by its UID, and where it was heard, or belongs; nothing of several.
   * @param {Item[]} items
   */
  only([item, ...more]) {
    const { state, place, uid } = item, name = printable(this.said(item, 2) || uid || ""), home = printable(place ?? "");
    const where = state === "misplaced" ? `, on ${this.at(item)}, belongs to ${home}` : home && `, of ${home}`;
    return more.length ? "" : ` (${name.length > MOST_SHORT ? `${name.slice(0, MOST_SHORT)}…` : name}${where})`;
  }
}

/**
 * Names, each once, the first few of many.
 * @param {string[]} names
 * @param {string} [last]
 * @param {number} [most]
 */
export function firstOf(names, last, most = MOST_NAMES) {
  const all = [...new Set(names)], more = all.length - most;
  return listing([...all.slice(0, more === 1 ? most + 1 : most), ...more > 1 ? [`${more.toLocaleString("en")} more`] : []], last);
}
