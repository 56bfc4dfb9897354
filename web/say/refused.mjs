/** What a person is told of a text that isn't a log, and of a file for which a collection has no answer. */
import { isSpreadsheet, TABLE } from "../judge/files.mjs";
import { crcOf } from "../judge/frames.mjs";
import { SENTENCES } from "./sentences.mjs";
import { printable } from "./words.mjs";

/** @typedef {import("../judge/told.mjs").Told} Told */
/** @typedef {import("./say.mjs").Step} Step */

const COUNT = "Count again, in a new log. If that is refused too, send the log and this page (as PDF) to whoever maintains what writes it.";
const COPY = "The file may have been cut off, by a full disk or because it was copied while it was written: copy it again.";
const NO_PART = "If it doesn't belong here, leave it out. A log begins with 'vicinity-log', and a catalogue has a column 'uid'.";
const ONE_OF_EACH = "Open one catalogue (a table with a column uid), at most one table of places (with the columns place and log), and logs.";
/** A cell with a UID, low byte first, and a UID; files of which lines may stand in a table; and what has no name of a file. */
const UNNAMED = /^(?:pasted text|standard input)$/, TURNED = /(?:^|[,;\t"])(?:[0-9A-F]{2}[ :.-]?){7}E0(?:$|[,;\t"])/i, A_TAG = /E0(?:[ :.-]?[0-9A-F]{2}){7}/i, IN_TABLES = ["surveys", "turned", "list", "binary", "table", "text"];
/** How a text begins that somebody meant as a log, but for what an editor adds to it, or a coding makes of it. */
const [BEGINS, LOG_IS] = SENTENCES.aLog, CODED = /[\0\uFEFF\uFFFD]/g, isOfALog = (/** @type {string} */ text) => new RegExp(BEGINS, "i").test(text.replace(CODED, ""));

/**
 * What a file is that is no log, with its name.
 * @param {string} text the first line
 */
export const foundIn = (text) => Object.entries(SENTENCES.files).find(([, [begins]]) => new RegExp(begins, "i").test(text)) ?? ["", ["", ""]];

/**
 * What is wrong with a whole text, by what its first line has.
 * @param {string} text
 * @param {number} line
 */
const ofFirst = (text, line) => line === 1 ? Object.entries(SENTENCES.first).find(([sign]) => text.includes(sign))?.[1] : undefined;

/**
 * What is wrong with a line, and how to fix it.
 * @param {string} fault
 * @param {...Record<string, string[]>} parts of the sentences, of which the first that has it says it
 */
function advice(fault, ...parts) {
  const [wrong, ...fix] = parts.map((part) => part[fault]).find((it) => it) ?? SENTENCES.faults[""];
  return { wrong, fix: fix.join(" ").replace(/\{(\w+)\}/g, (_, name) => /** @type {Record<string, string>} */ (SENTENCES.parts)[name]) };
}

/**
 * @param {Told} told
 * @returns {{headline: string, shelf: Step[], causes: string[]}}
 */
export function refused(told) {
  const { object: { line = 0, fault = "", ended, file }, faulty, counts } = told, isCut = line === counts.lines && line > 1 && !ended;
  if (!counts.lines) return { headline: `The ${UNNAMED.test(file) ? "" : "file "}${printable(file)} is empty.`, shelf: SENTENCES.files.empty.slice(2), causes: [] };
  if (isForeign(told)) {
    const [, [, what, ...fix]] = foundIn(faulty);
    return { headline: SENTENCES.answers.foreign.replace("{}", () => what), shelf: [...fix, LOG_IS], causes: [] };
  }
  const { wrong, fix } = advice(fault, /^[RH] /.test(faulty) ? SENTENCES.replies : {}, SENTENCES.faults), first = ofFirst(faulty, line);
  const [, frame, crc] = fault === "Crc" && faulty.match(/^. (.*)(....) *$/) || [];
  return { headline: `${line > 1 ? SENTENCES.answers.cannotBeUsed : SENTENCES.answers.noLog}. Line ${line}: ${first?.[0] ?? wrong}.`,
    shelf: first ? [first[1]] : isCut ? [COPY, COUNT] : [COUNT],
    causes: [...isCut ? ["The file may end in the middle of this line: it was cut off, or the software was still writing."] : [],
      ...crc ? [`The bytes before the CRC give ${crcOf(frame)}; the line has ${crc.toUpperCase()}.`] : [], fix] };
}

/**
 * Why there is no answer to a collection, what to do, and which files can be left out.
 * @param {import("../judge/judge.mjs").Refused} what
 */
export function noAnswer({ name = "", line = 0, fault = "", quoted = "", files }) {
  const tables = files.length ? `: the tables are ${files.join(", ")}` : "", both = `${files.join(" and ")} are both catalogues: leave one out`;
  if (!name) return { error: files.length === 2 ? both : `these aren't the files of a collection${tables}`, cure: [ONE_OF_EACH], files };
  const { wrong, fix } = fault === "SameName" ? advice(fault, SENTENCES.tables) : fault === "Columns" && !TABLE.test(name) ? wrongFile(quoted) : wrongTable(quoted, line, fault);
  if (fault === "SameName") return { error: `${name}: ${wrong}`, cure: [fix], files };
  if (isSpreadsheet(quoted)) return { error: `${name} is a spreadsheet: save it as CSV`, cure: [SENTENCES.files.sheet[3], "If it isn't the catalogue, leave it out."], files };
  return { error: `${name}, line ${line}: ${wrong}`, cure: [fix, ...quoted && !quoted.includes("\0") ? [`Line ${line} is: ${printable(quoted)}`] : []], files };
}

/**
 * What a file is that is no log and isn't called like a table.
 * @param {string} text the first line
 */
const wrongFile = (text) => ({ wrong: `this is no log and no table${foundIn(text)[1][1]}`, fix: NO_PART });

/**
 * What is wrong with a line of a table or of surveys, and how to fix it.
 * @param {string} text the line
 * @param {number} line
 * @param {string} fault
 */
function wrongTable(text, line, fault) {
  const [name, [, what]] = foundIn(text), first = fault === "Utf8" ? ofFirst(text, line) : undefined;
  if (fault === "Columns" && name === "list") return { wrong: "it is a list of tag numbers without a name of its column", fix: SENTENCES.files.list.slice(2).join(" ") };
  if (line === 1 && !IN_TABLES.includes(name)) return { wrong: `this is no table${what}`, fix: "Open the table itself, saved as CSV." };
  if (text.includes("\0") && !isOfALog(text) && foundIn(text.replace(CODED, ""))[0] !== "surveys") return advice("utf16", SENTENCES.tables);
  if (first) return { wrong: first[0], fix: first[1] };
  if (fault === "Utf8" && text.includes("\uFFFD")) return { wrong: "the line isn't UTF-8", fix: "Save the sheet as 'CSV UTF-8'." };
  return advice(fault === "Uid" && TURNED.test(text) ? "turned" : fault === "Columns" && A_TAG.test(text) ? "unnamed" : fault, SENTENCES.tables);
}

/**
 * Whether nobody meant a text as a log.
 * @param {Told} told
 */
export const isForeign = ({ object: { line }, faulty }) => line === 1 && !isOfALog(faulty);
