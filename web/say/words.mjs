/** Numbers, UIDs, masks and lines in words. */
import { hex, UID_BITS } from "../judge/frames.mjs";

/** @typedef {import("../judge/frames.mjs").Mask} Mask */

/** The bits that each UID has; and a name that is too long for a title. What writes numbers, and dates to the minute and to the second, takes long to make. */
const E0 = 0xE0n << BigInt(UID_BITS), LONG = /^(.{36}).{4,}$/su, NUMBERS = new Intl.NumberFormat("en"), DATES = /** @type {const} */ (["short", "medium"]).map((timeStyle) => new Intl.DateTimeFormat("en-GB", { dateStyle: "medium", timeStyle }));

/**
 * 1 tag, 2,000 tags.
 * @param {number} number
 * @param {string} one
 * @param {string} [many]
 */
export const count = (number, one, many = `${one}s`) => `${NUMBERS.format(number)} ${number === 1 ? one : many}`;

/**
 * A sentence with a number in it.
 * @param {string | string[]} sentence or two, of which the first is that for one
 * @param {number} number
 */
export const numbered = (sentence, number) => (typeof sentence === "string" ? sentence : sentence[number === 1 ? 0 : 1]).replace("{}", number.toLocaleString("en"));

/**
 * When a file was changed.
 * @param {number} [changed]
 * @param {boolean} [isExact]
 */
export const dated = (changed, isExact) => changed ? DATES[isExact ? 1 : 0].format(changed) : "";

/**
 * a, b and c.
 * @param {string[]} all
 * @param {string} [last]
 */
export const listing = (all, last = "and") => all.length < 2 ? all.join("") : `${all.slice(0, -1).join(", ")} ${last} ${all[all.length - 1]}`;

/**
 * The last digits of a UID: four, or as many as tell it from others.
 * @param {bigint} uid
 * @param {bigint[]} [others]
 */
export function short(uid, others = []) {
  const digits = [4, 6, 8, 12].find((it) => others.every((other) => other === uid || BigInt.asUintN(4 * it, other ^ uid)));
  return digits ? `..${hex(uid).slice(-digits)}` : hex(uid);
}

/**
 * Which UIDs are in a mask: any UID; UIDs ending in 61 or E1, or in 01, 21 .. E1; E0040100000000A1.
 * @param {Mask} mask
 */
export function ending(mask) {
  const digits = Math.floor(mask.len / 4), bits = mask.len % 4, low = digits ? hex(BigInt.asUintN(4 * digits, mask.value), digits) : "";
  if (mask.len === 0) return "any UID";
  if (mask.len >= UID_BITS) return hex(mask.value | E0);
  if (bits === 0) return `UIDs ending in ${low}`;
  const top = Number(mask.value >> BigInt(4 * digits));
  if (bits === 1 && !low) return `UIDs ending in an ${top ? "odd" : "even"} digit`;
  const heads = [...Array(16).keys()].filter((head) => head % (1 << bits) === top).map((head) => hex(head, 1) + low);
  return `UIDs ending in ${bits === 1 ? `${heads[0]}, ${heads[1]} .. ${heads[heads.length - 1]}` : listing(heads, "or")}`;
}

/**
 * Whom a request asked, by its mask.
 * @param {Mask} mask
 */
export const whom = (mask) => mask.len ? ending(mask) : "all UIDs";

/**
 * What isn't seen of a line, and makes it no line of a log.
 * @type {Record<string, string>}
 */
const UNSEEN = { "\0": "NUL", "\t": "TAB", "\r": "CR", "\uFEFF": "BOM", " ": "space" };

/**
 * A line with a sign for what isn't seen of it.
 * @param {string} line
 */
export const visible = (line) => line.replace(/[\0\t\r\uFEFF]| +$/g, (it) => [...it].map((one) => `‹${UNSEEN[one]}›`).join(""));

/**
 * A name or a cell without what isn't shown, or changes how the rest is shown.
 * @param {string} text
 */
export const printable = (text) => text.replace(/[\p{C}\u2028\u2029]/gu, (it) => `‹${hex(it.codePointAt(0) ?? 0, 4)}›`);

/**
 * What a page, a tab and each sheet of paper are called.
 * @param {string} file
 * @param {string} headline
 */
export const titled = (file, headline) => headline.startsWith(printable(file)) ? headline : `${printable(file).replace(LONG, "$1…")}: ${headline}`;

/**
 * line 4; lines 3, 6 and 8; 600 lines from 5 to 900.
 * @param {number[]} numbers
 */
export const lines = (numbers) => numbers.length > 4 ? `${count(numbers.length, "line")} from ${numbers[0]} to ${numbers[numbers.length - 1]}`
  : `line${numbers.length > 1 ? "s" : ""} ${listing(numbers.map(String))}`;
