/** What a file is, by its first bytes, and its text as the library takes it. */

/** @typedef {{name: string, text: Uint8Array}} Given a file */
/** @typedef {"log" | "surveys" | "table" | "other"} Kind */

const SURVEYS = "vicinity-survey ", A_SURVEY = /^vicinity-survey \d+ ([^\r\n]*)/gm, A_LOG = /^\uFEFF?vicinity-/, MOST_SEEN = 4096, MOST_OF_HEADS = 32_770;
/** How a file of a spreadsheet program begins, read as UTF-8: packed as ZIP (.xlsx, .ods, .numbers), or as OLE has it (.xls). */
const SPREADSHEET = /^(?:PK\x03\x04|\uFFFD\uFFFD\x11[\u0871\uFFFD])/;
/** The cells of a line of a table, by what stands between them. @type {Record<string, RegExp>} */
const CELLS = Object.fromEntries([",", ";", "\t"].map((separator) => [separator, new RegExp(`("(?:[^"]|"")*"|[^${separator}"]*)(?:${separator}|$)`, "gy")]));
/** A cell without what stands around it. */
const ENDS = /^[ \t]*((?:[ \t]*[^ \t]+)*)[ \t]*$/;
/** A PDF, or another file that is no text in any coding. */
const NO_TEXT_AT_ALL = /^%PDF|^(?=[^]*\0)[^]*\uFFFD/;
/** How the name of a table ends. */
export const TABLE = /\.(csv|tsv|xlsx?|ods|numbers)$/i;
/** How a second copy of a file is called by browsers and systems, of which each has a language. */
const A_COPY = "(?:copy|kopie|copie|copia|c\u00F3pia|kopia|kopi)";
const COPIED = RegExp(`^(?:${A_COPY} (?:of|von|van|de|di|av) )?(.+?)(?: ?[([](?:\\d+|(?:(?:another|\\d+\\w\\w) )?${A_COPY}(?: \\d+)?)[)\\]]| ?- ?${A_COPY}(?: \\(\\d+\\))?` +
  `| ${A_COPY}(?: \\d+)?)?$`, "i");

/**
 * Whether a text was that of a spreadsheet.
 * @param {string} text
 */
export const isSpreadsheet = (text) => SPREADSHEET.test(text);

/**
 * How a text is coded by its mark; empty if that isn't UTF-16.
 * @param {Uint8Array} text
 */
const codingOf = ([one, other]) => one === 0xFF && other === 0xFE ? "utf-16le" : one === 0xFE && other === 0xFF ? "utf-16be" : "";

/**
 * A text in UTF-16 with its mark as UTF-8, or the start of one, which may end within a sign; any other one as it is.
 * @param {Uint8Array} text
 */
export function utf8Of(text, isStart = false) {
  const coding = codingOf(text);
  try {
    return coding ? new TextEncoder().encode(new TextDecoder(coding, { fatal: true }).decode(text, { stream: isStart })) : text;
  } catch { return text; }
}

/**
 * Whether a text has the mark of UTF-16, and isn't.
 * @param {Given} file
 */
export const isBroken = ({ text }) => codingOf(text) !== "" && utf8Of(text) === text;

/**
 * The text of a file in whatever coding, also of one that isn't read.
 * @param {Given} file
 */
export function textOf({ text }) {
  const coding = codingOf(text);
  try {
    return new TextDecoder(coding || "utf-8", { fatal: !coding }).decode(text).replace(/\0/g, "");
  } catch { return new TextDecoder("windows-1252").decode(text).replace(/\0/g, ""); }
}

/**
 * The SHA-256 of a file; empty where it can't be had.
 * @param {Uint8Array} text
 */
export const sumOf = async (text) => !globalThis.crypto?.subtle ? ""
  : Array.from(new Uint8Array(await crypto.subtle.digest("SHA-256", text)), (byte) => byte.toString(16).padStart(2, "0")).join("");

/** @param {Given} file */
export const startOf = ({ text }) => new TextDecoder("utf-8", { ignoreBOM: true }).decode(utf8Of(text.subarray(0, MOST_SEEN), true));

/**
 * The columns of a table, folded, if its first line has them.
 * @param {Given} file
 */
export const headsOf = ({ text }) => columnsIn(new TextDecoder().decode(utf8Of(text.subarray(0, MOST_OF_HEADS), true)).split(/\r?\n/, 1)[0]).heads;

/**
 * Whether a table says which UIDs items have, and whether it says which logs are of which place.
 * @param {Given} file
 */
export const hasUids = (file) => headsOf(file).includes("uid"), isPlaces = (/** @type {Given} */ file) => ["place", "log"].every((head) => headsOf(file).includes(head)) && !hasUids(file);

/**
 * The cells of a line of a table.
 * @param {string} line
 * @param {string} separator
 */
export function cellsOf(line, separator) {
  const found = Array.from(line.matchAll(CELLS[separator])), cells = line === "" || line.endsWith(separator) ? found : found.slice(0, -1);
  return cells.map(([all]) => all).join("") !== line ? [] : cells.map(([, cell]) => (cell[0] === '"' ? cell.slice(1, -1).replace(/""/g, '"') : cell).replace(ENDS, "$1"));
}

/**
 * The columns of a table, folded: under the first of comma, semicolon and tab that gives those that a table has, as the library has it; where
 * none does, no separator, and all columns that there are under any.
 * @param {string} line
 */
export function columnsIn(line) {
  const all = [",", ";", "\t"].map((separator) => ({ separator, heads: cellsOf(line, separator).map((head) => head.toLowerCase()) }));
  return all.find(({ heads }) => {
    const [uid, place, log, away] = ["uid", "place", "log", "away"].map((name) => heads.filter((head) => head === name).length);
    return uid === 1 && place < 2 && away < 2 || !uid && place === 1 && log === 1;
  }) ?? { separator: "", heads: all.flatMap(({ heads }) => heads) };
}

/**
 * Which logs a table of places names, that the library has accepted.
 * @param {string} text
 */
export function logsNamed(text) {
  const [first, ...lines] = text.split(/\r?\n/), { separator, heads } = columnsIn(first), [place, log] = ["place", "log"].map((name) => heads.indexOf(name));
  return lines.map((line) => cellsOf(line, separator)).flatMap((cells) => cells[place] && cells[log] ? { place: cells[place], log: cells[log] } : []);
}

/**
 * Which logs a table of places names that aren't here, of places of which others are. A log is found by its name, by that without folders, or
 * without ending too.
 * @param {string} text
 * @param {{name: string, place: string | null}[]} logs
 */
export function unreadOf(text, logs) {
  const named = logsNamed(text), known = new Set(named.map(({ log }) => log)), places = new Set(logs.map(({ place }) => place));
  const here = new Set(logs.map(({ name }) => [name, name.split(/[/\\]/).pop() ?? "", stemOf(name)].find((it) => known.has(it))));
  return named.filter(({ place, log }) => places.has(place) && !here.has(log));
}

/**
 * Of what isn't a log or surveys, a table has a name or a column that says so.
 * @param {Given} file
 * @returns {Kind}
 */
export function kindOf(file) {
  const start = startOf(file);
  if (start.startsWith(SURVEYS)) return "surveys";
  if (!file.text.length || A_LOG.test(start)) return "log";
  return TABLE.test(file.name) || hasUids(file) || isPlaces(file) ? "table" : "other";
}

/**
 * The names of the logs in a text of surveys.
 * @param {Given} file
 */
export const surveyedIn = (file) => kindOf(file) !== "surveys" ? [] : Array.from(new TextDecoder().decode(file.text).matchAll(A_SURVEY), ([, name]) => name);

/**
 * Whether a file among others is neither a table nor a log in whatever coding.
 * @param {Given} file
 */
export const isStrange = (file) => kindOf(file) === "other" && (isSpreadsheet(startOf(file)) || NO_TEXT_AT_ALL.test(startOf(file)));

/**
 * A name without folders and ending; and one as it was before it was copied.
 * @param {string} name
 */
export const stemOf = (name) => (name.split(/[/\\]/).pop() ?? "").replace(/(?!^)\.[^.]*$/, ""), uncopied = (/** @type {string} */ name) => COPIED.exec(name)?.[1] ?? name;

/**
 * Which names are those of copies, or of later counts, of others: pairs of such a name and the other one.
 * @param {string[]} names
 * @returns {[string, string][]}
 */
export function copiesAmong(names) {
  const found = /** @type {Map<string, string>} */ (new Map());
  return [...names].sort((one, other) => one.length - other.length).flatMap((name) => {
    const stem = stemOf(name), key = uncopied(stem), other = found.get(key);
    if (other === undefined) found.set(key, name);
    return other !== undefined && stemOf(other) !== stem ? [/** @type {[string, string]} */ ([name, other])] : [];
  });
}
