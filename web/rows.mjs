/** Items of catalogues that aren't open any more, of which no open one has a row. */
import { cellsOf, columnsIn, isSpreadsheet, kindOf, startOf, textOf } from "./judge/files.mjs";
import { grouped, madeOnce } from "./judge/groups.mjs";

/** @typedef {import("./opened.mjs").Entry} Entry */
/** @typedef {import("./judge/objects.mjs").CollectionObject} CollectionObject */
/** @typedef {Pick<CollectionObject, "items" | "columns">} Catalogue */
/**
 * A row, or a line that may be one: its UIDs, and whether it is known by them alone; whether there is an item in it for sure, no cell is blank, and it
 * may be a title; its other cells, how many of these are shown, all of it, and once they are asked for, the words in these cells.
 * @typedef {{uids: string[], isSure: boolean, isItem: boolean, isFull: boolean, isTitle: boolean, cells: string[], most: number, line: string,
 *   words?: string}} Row
 */

/** Within how many lines the headings are; how many cells show which row one is, and one of which it isn't known where its cells end; how long a line of
 *  a table is at most. */
const MOST_BEFORE = 9, MOST_TOLD = 2, MOST_OF_LINE = 12, LONGEST_LINE = 16_384;
/** A UID in a text, what isn't read between its digits, and what may be meant for one; what says that there is a row; a word. */
const UIDS = /E[ :-]*0(?:[ :-]*[0-9A-F]){14}(?![0-9A-F])/gi, A_UID = /^E0[0-9A-F]{14}$/i, FILLERS = /[ \t:-]/g, MEANT = /^[0-9A-FO\s:.,+-]{0,24}$/i, ITEM = RegExp(`${UIDS.source}|none`, "gi"), A_WORD = /[\p{L}\p{M}\p{N}]+/gu;
/** Catalogues as the library has read them, with their rows, and the lines of others. */
const READ = /** @type {WeakMap<Entry, Catalogue>} */ (new WeakMap()), ROWS = /** @type {WeakMap<Entry, Row[]>} */ (new WeakMap()), UNREAD_LINES = /** @type {WeakMap<Entry, Row[]>} */ (new WeakMap());

/**
 * The UIDs in a text, each once.
 * @param {string} text
 */
const uidsIn = (text) => [...new Set(text.match(UIDS)?.map((uid) => uid.replace(FILLERS, "").toUpperCase()))];

/**
 * Whether there is a UID in a file.
 * @param {Entry} file
 */
export const namesUids = (file) => textOf(file).search(UIDS) >= 0;

/**
 * All that a row says but its UIDs.
 * @param {Row} row
 */
const wordsOf = (row) => row.words ??= (row.cells.join("\n").normalize("NFC").replace(ITEM, " ").match(A_WORD) ?? []).join(" ");

/**
 * The rows of a catalogue as the library has read it.
 * @param {Entry} file
 * @param {Catalogue} read
 */
const rowsOf = (file, { items, columns }) => madeOnce(ROWS, file, (own = columns.findIndex((head) => /^[ \t]*uid[ \t]*$/i.test(head))) => items.map(({ uid, cells = [] }) =>
  ({ uids: uid ? [uid] : [], isSure: uid !== null, isItem: true, isFull: true, isTitle: false, most: MOST_TOLD, line: uid ?? "none", cells: cells.filter((cell, at) => cell && at !== own) })));

/**
 * The items that are lost with files that were here before, and by what that is known.
 * @param {CollectionObject} object
 * @param {Entry} catalogue
 * @param {Entry[]} before
 */
export function lostIn({ items, unexpected, columns }, catalogue, before) {
  READ.set(catalogue, { items, columns });
  if (!before.length) return { rows: [], key: "", names: [] };
  const here = rowsOf(catalogue, { items, columns }), heads = new Set(columns.map((head) => head.trim().toLowerCase())), known = new Set([...items, ...unexpected].map(({ uid }) => uid ?? ""));
  const files = before.map((file, _, __, read = READ.get(file)) => ({ file, lost: goneOf(read ? rowsOf(file, read) : linesOf(file, here, heads), here, known) })).filter(({ lost }) => lost.length);
  const rows = new Map(files.flatMap(({ lost }) => [...grouped(lost, (row) => `${row.uids} ${wordsOf(row)}`)].flatMap(([key, its]) =>
    its.map(({ cells, most, line }, nth) => /** @type {[string, string]} */ ([`${key} ${nth}`, cells.slice(0, most).join(" \u00B7 ") || line])))));
  return { rows: [...rows.values()], key: `${files.map(({ file }) => file.id)}: ${[...rows.keys()]}`, names: [...new Set(files.map(({ file }) => file.name))] };
}

/**
 * Rows of which none is here, and no log tells. All their UIDs have to be known. If one isn't known by these alone, a row that says the same has
 * to be here for it: with one of its UIDs, which may say more, with a new one, or with none.
 * @param {Row[]} rows
 * @param {Row[]} here
 * @param {Set<string>} known
 */
function goneOf(rows, here, known) {
  if (rows.every(({ isSure }) => isSure)) return rows.filter(({ uids }) => !uids.every((uid) => known.has(uid)));
  const named = new Set(rows.flatMap(({ uids }) => uids)), left = grouped(here, (row) => `${row.uids.find((uid) => named.has(uid)) ?? ""} ${wordsOf(row)}`);
  const said = new Map(here.flatMap((row) => row.uids.map((uid) => [uid, wordsOf(row)])));
  const isHere = (/** @type {Row} */ row, words = wordsOf(row)) => [...row.uids, ""].some((uid) => left.get(`${uid} ${words}`)?.pop()) ||
    row.uids.some((uid) => `${said.get(uid)} `.startsWith(words && `${words} `) && left.get(`${uid} ${said.get(uid)}`)?.pop());
  return rows.filter((row) => !row.uids.every((uid) => known.has(uid)) || !row.isSure && !isHere(row));
}

/**
 * The lines of a table that the library hasn't read, but headings that are here, and titles right above these. One of the headings may have
 * another name, that of the UIDs only above all rows; and several if there are rows of as many cells. Of a table that wasn't the catalogue, and has no row that is here, only its UIDs count; of
 * another file nothing.
 * @param {Entry} file
 * @param {Row[]} here
 * @param {Set<string>} heads
 */
function linesOf(file, here, heads) {
  const all = madeOnce(UNREAD_LINES, file, () => linesIn(textOf(file), kindOf(file) === "table")), said = new Set(here.map(wordsOf));
  const isShared = all.some((row) => wordsOf(row) && said.has(wordsOf(row))), isPacked = isSpreadsheet(startOf(file)) || startOf(file).startsWith("%PDF");
  if (kindOf(file) !== "table" && !isShared) return [];
  if (isPacked || file.isOut && !isShared) return all.flatMap(({ uids }) => uids.map((uid) => lineOf(uid, columnsIn("uid"))));
  const isRead = all.some(({ isSure }) => isSure), first = all.findIndex(({ isTitle }) => !isTitle), at = all.slice(0, MOST_BEFORE).findIndex(({ cells, isItem, isFull }, number) => {
    const names = cells.map((cell) => cell.toLowerCase()), others = names.filter((name) => !heads.has(name)).length;
    return !isItem && names.length > others && (!others || (names.includes("uid") ? others < 2 || isRead : others < 2 && isFull && number === first));
  });
  return first === at ? all.slice(at + 1) : all.filter((_, number) => number !== at);
}

/**
 * The lines of a text in which there are words, if it is a table or has UIDs. Of those with a UID that others have none is known by that alone, and
 * of equal ones with a UID one counts.
 * @param {string} text
 * @param {boolean} isTable
 */
function linesIn(text, isTable) {
  const lines = isTable || text.search(UIDS) >= 0 ? text.split(/\r\n?|\n/) : [], columns = columnsIn(lines.slice(0, MOST_BEFORE).find((line) => columnsIn(line).separator) ?? "");
  const rows = [...grouped(lines.filter((line) => line.search(A_WORD) >= 0), (line) => line)].flatMap(([line, its], _, __, row = lineOf(line, columns)) => row.isSure ? row : its.map(() => row));
  const times = grouped(rows.flatMap(({ uids }) => uids), (uid) => uid);
  return rows.map((row) => ({ ...row, isSure: row.isSure && times.get(row.uids[0])?.length === 1 }));
}

/**
 * A line of a table. It is known by its UID if it has as many cells as there are headings, and nothing else that may be an item.
 * @param {string} line
 * @param {ReturnType<typeof columnsIn>} columns
 * @returns {Row}
 */
function lineOf(line, { separator, heads }) {
  const isLong = line.length > LONGEST_LINE, read = separator && !isLong ? cellsOf(line, separator) : [], isRead = read.length > 0 && read.length === heads.length, at = isRead ? heads.indexOf("uid") : -1;
  const all = isRead ? read : isLong ? [line] : line.split(/[,;\t|]/).map((cell) => cell.trim().replace(/^"|"$/g, "").trim()), found = line.match(ITEM) ?? [], uids = uidsIn(line);
  const its = all[at] ?? "", filled = all.filter((cell) => cell), isClear = isRead && found.length < 2 && (/^none$/i.test(its) || MEANT.test(its));
  const cells = all.filter((cell, place) => cell && !/^none$/i.test(cell) && !(place === at && MEANT.test(cell)));
  return { uids, isSure: isClear && A_UID.test(its.replace(FILLERS, "")), isItem: found.length > 0, isFull: filled.length === all.length, isTitle: !found.length && filled.length < 2 && all[0] !== "",
    cells, most: isClear ? MOST_TOLD : MOST_OF_LINE, line };
}
