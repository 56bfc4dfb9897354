/** A table of items, by their shelves. */
import { grouped } from "../judge/groups.mjs";
import { inOrder } from "../say/shelves.mjs";
import { printable } from "../say/words.mjs";
import { el, rest } from "./elements.mjs";

/** @typedef {import("../judge/objects.mjs").Item} Item */
/** @typedef {import("../say/shelves.mjs").Shelves} Shelves */
/** @typedef {(item: Item) => string} Cell */

/** How many rows are drawn, how many stand on one sheet of paper, of how many columns at most each has one, and how many characters a name has at most that says no more than
 *  which shelf it is. */
const MOST_ROWS = 2000, MOST_ON_SHEET = 40, MOST_COLUMNS = 8, MOST_BARE = 4, SHELF = "shelf", UID = "UID";

/**
 * A table of items with a caption, those of a shelf below its name: what to do, what the catalogue says of each, where it may be, and last its UID.
 * An item of which the catalogue says nothing else is named by its UID, in the column of these.
 * @param {string} title
 * @param {Item[]} list
 * @param {Shelves} shelves
 * @param {Cell} shelf
 * @param {Record<string, Cell>} where
 * @param {Cell} [toDo]
 */
export function shelved(title, list, shelves, shelf, where = {}, toDo) {
  const groups = grouped(list, shelf), isOne = groups.size === 1 && groups.has(""), isMany = groups.size > 1, isLong = isMany && list.length > MOST_ON_SHEET;
  const titled = (/** @type {string} */ name, /** @type {string} */ scope) =>
    el("tr", {}, el("th", { scope, colspan: String(heads.length) }, name.length > MOST_BARE ? name : name ? `Shelf ${name}` : "Place not known"));
  const columns = shelves.columns.filter(({ at }) => list.some(({ cells, place }) => cells?.[at] && (isOne || cells[at].trim() !== place)));
  const asked = Object.keys(where), last = columns.length && list.some((item) => item.uid) ? [UID] : [];
  const heads = [...toDo ? ["to do"] : [], ...columns.length ? columns.map(({ head }) => head) : [UID], ...asked, ...last];
  const rowOf = (/** @type {Item} */ item) => {
    const uid = item.uid ? el("code", {}, item.uid) : "", said = columns.map(({ head, at }) => [head, printable(item.cells?.[at] ?? "")]);
    const named = /** @type {[string, Node | string][]} */ ([...columns.length ? said : [[UID, uid]], ...last.map((head) => [head, uid])]);
    const first = Math.max(named.findIndex(([, cell]) => cell), 0), own = named.map(([head, cell], at) =>
      at === first ? el("th", { scope: "row", ...head === UID ? { "data-head": head } : {} }, cell || "no UID") : cellOf(head, cell));
    own.splice(named.length - last.length, 0, ...asked.map((head) => cellOf(head, where[head](item))));
    const onPaper = isLong ? [el("td", { class: "paper", "data-head": SHELF }, shelf(item))] : [];
    return el("tr", {}, ...toDo ? [el("td", {}, toDo(item))] : [], ...own, ...onPaper);
  };
  let room = MOST_ROWS;
  const bodies = [...groups].sort(([one], [other]) => inOrder(one, other)).map(([name, group]) => {
    const rows = group.slice(0, Math.max(0, room)).map(rowOf);
    room -= rows.length;
    return el("tbody", {}, ...rows.length && isMany ? [titled(name, "rowgroup")] : [], ...rows);
  });
  // what is at the head stands on each sheet of paper again, and in a long table of several shelves each row names its own
  const head = el("thead", {}, el("tr", {}, heads.map((it) => el("th", { scope: "col" }, printable(it))), isLong ? [el("th", { scope: "col", class: "paper" }, SHELF)] : []),
    ...groups.size === 1 && !isOne ? [titled([...groups.keys()][0], "colgroup")] : []);
  const table = el("table", { class: heads.length > MOST_COLUMNS ? "items many" : "items" }, el("caption", {}, title), head, ...bodies);
  return list.length ? [table, ...rest(list.length - MOST_ROWS)] : [];
}

/**
 * A cell that knows its head, for screens on which each row is a card.
 * @param {string} head
 * @param {Node | string} cell
 */
const cellOf = (head, cell) => el("td", { "data-head": head }, ...cell ? [cell] : []);
