/** Which logs of a collection may not count: copies, older ones, those of another day, and those that prove the same tags. */
import { copiesAmong, stemOf, uncopied } from "../judge/files.mjs";
import { grouped } from "../judge/groups.mjs";
import { firstOf, MOST_LISTED, nameOf } from "./shelves.mjs";
import { count, dated, listing, printable } from "./words.mjs";

/** @typedef {import("../judge/objects.mjs").CollectionObject} CollectionObject */
/** @typedef {import("./shelves.mjs").Shelves} Shelves */
/** @typedef {[string, Record<string, string>]} Button what it says and carries */
/** @typedef {{name: string, of?: string, changed?: number, newer?: number, than?: string, beside?: number, sha256?: string, surveys?: string, at?: number}} Aged a file, of a log with its number */
/**
 * In a few words, in a sentence, and what to do; whether a headline says it that isn't complete, and
 * whether one of the logs may not count; buttons, of which each leaves out one of some logs, or says that it counts, or of which place; and
 * the numbers of logs that may be of another place, and of those that may be too old; the places of which it is asked whether a log is theirs.
 * @typedef {{short: string, words: string, cure: string, isFirst?: boolean, mayNotCount?: boolean, buttons?: Button[], logs?: string[],
 *   places?: string[], numbers?: number[], late?: number[]}} Doubt
 */

/** Of how many logs each has a button, by how much files of one count may differ, in ms, and how many tags are named that two logs prove. */
const MOST_LEFT = 4, HALF_A_DAY = 43_200_000, MOST_TAGS = 5, MOVED = "What moved in between isn't seen: count there again, unless the dates are only those of copies.";
const COUNTS = "If the newer one counts, open it once more.", ALL_COUNT = "If the newer ones count, open them once more.", IF_THEIRS = "If these aren't their logs, write a table of places, with the columns place and log.";
const ONE_FILE = "One is a copy: leave out that of the shelf that wasn't counted, and count there.", OLDER = "may be an older log of the same shelf: leave out the older.";
const OVERLAP = "The fields of two readers may overlap. If not, a log is an older one, or items were carried in between: count these fields again.";
/** Rows that are gone; and a page that came by http is given no sums. */
const NO_ROW = "What is missing stays missing without its row: open the catalogue with that again, unless nobody expects it here, or another row has it.";
const WHICH = "Of one field only one log counts: which?", NO_SUMS = "One may be a copy of another: by http the browser can't compare them. Open this page as a file, or by https, and there all files.";

/**
 * Doubts of which some are answered: those that aren't, and what was answered of the others.
 * @param {Doubt[]} all
 * @param {string[]} [both]
 */
export function askedOf(all, both = []) {
  const answers = all.map(({ buttons = [] }) => buttons.find(([, { "data-both": keys }]) => keys?.split("\n").every((key) => both.includes(key))));
  return { doubts: all.filter((_, at) => !answers[at]),
    answered: all.flatMap(({ words }, at) => (answers[at] ?? []).slice(0, 1).map((said) => `${words} It was answered here: '${said}'.`)) };
}

/**
 * Logs with tags that are the same, byte for byte: of so many shelves but one wasn't counted.
 * @param {CollectionObject} object
 * @param {string[]} asked the logs of which it is asked already
 * @returns {Doubt[]}
 */
export const same = ({ logs }, asked) => [...grouped(logs.filter((log) => log.sha256 && log.certain), (log) => log.sha256).values()]
  .filter((its) => its.length > 1 && !its.every(({ name }) => asked.includes(name))).map((its) => {
    const numbers = its.map((it) => logs.indexOf(it)), names = firstOf(its.map(({ name }) => nameOf(name)), "and", MOST_LISTED);
    return { short: `${names} are one file`, isFirst: true, mayNotCount: true, numbers, cure: ONE_FILE,
      words: `${names} are the same, byte for byte.`, ...leaving(its.length > MOST_LEFT ? [] : its) };
  });

/**
 * Logs that are called like copies of others, unless each has a place of its own.
 * @param {CollectionObject} object
 * @param {Shelves} shelves
 * @returns {Doubt[]}
 */
export function copies({ logs }, { isAsked }) {
  const named = new Map(logs.map((log) => [log.name, log])), isPlaced = (/** @type {string} */ name) => named.get(name)?.place !== null;
  const asked = copiesAmong([...named.keys()]).filter((pair) => !pair.every(isPlaced));
  return asked.map(([later, first]) => {
    const [of, ofOther] = [later, first].map((name) => dated(named.get(name)?.changed)), one = nameOf(later), other = nameOf(first);
    const when = (/** @type {string} */ date) => date && of !== ofOther ? ` of ${date}` : "";
    const heard = (/** @type {string} */ name) => `${nameOf(name)} (${count(named.get(name)?.certain ?? 0, "tag")})`;
    const buttons = /** @type {Button[]} */ ([[`Only ${other}${when(ofOther)}`, { "data-leave": later, "data-kept": first }],
      [`Only ${one}${when(of)}`, { "data-leave": first, "data-kept": later }], ["Both: they are of different fields", { "data-both": `both: ${[later, first].map((name) => olderOne(/** @type {Aged} */ (named.get(name))))}` }]]);
    // where places are asked for, one of no place counts nowhere
    return { short: `say whether ${other} or ${one} counts`, isFirst: true, mayNotCount: true, cure: WHICH, logs: [later, first],
      words: `By its name, ${heard(later)} may be a later count than ${heard(first)}, or a copy.`, buttons: buttons.slice(0, isAsked ? 2 : 3) };
  });
}

/**
 * Logs of no place that may be those of a place that has none, by their names, or as all that was heard in them belongs there. With a
 * table of places a log is of none but by that, nor is it without if no file can be called like the place.
 * @param {CollectionObject} object
 * @returns {Doubt[]}
 */
export function ofAPlace({ logs, items, unexpected, files, without_log }) {
  const places = without_log.filter((place) => files.length < 2 && stemOf(`${place}.log`) === place), homes = logs.map(() => /** @type {Set<string | null>} */ (new Set()));
  for (const it of [...items, ...unexpected]) for (const at of it.certain_in) homes[at].add("place" in it ? it.place : null);
  const found = logs.flatMap(({ name, left_over }, at) => {
    const called = uncopied(stemOf(name)), isCopy = called !== stemOf(name) && places.includes(called);
    const [place] = isCopy ? [called] : homes[at].size === 1 ? places.filter((it) => homes[at].has(it)) : [];
    return left_over && place ? [{ name, place, isCopy }] : [];
  });
  const sure = [...grouped(found.filter((it) => !it.isCopy), ({ place }) => place).values()].flatMap((its) => its.length > 1 ? [] : its), of = count(sure.length, "place");
  if (found.length > MOST_LEFT) return sure.length < 2 ? [] : [{ short: `no log of ${of}, unless ${sure.length} of other names are theirs`,
    isFirst: true, mayNotCount: true, logs: sure.map(({ name }) => name), places: sure.map(({ place }) => place), cure: IF_THEIRS,
    words: `No log of ${of}: but all that was heard in each of as many logs belongs to one of these, as in ` +
      `${firstOf(sure.map(({ name, place }) => `${nameOf(name)} to ${printable(place)}`), "and", MOST_LISTED)}.`,
    buttons: [[`Count these ${sure.length} logs as those of their tags' places`, { "data-as": sure.map(({ place }) => `${place}.log`).join("\n"),
      "data-kept": sure.map(({ name }) => name).join("\n") }]] }];
  return found.map(({ name, place, isCopy }) => {
    const one = nameOf(name), where = printable(place);
    return { short: `no log of ${where}, unless ${one} is it`, isFirst: true, mayNotCount: true, logs: [name], places: [place],
      cure: `Is it the log of ${where}? If not, it doesn't belong here.`,
      words: isCopy ? `By its name, ${one} is a copy of the log of ${where}, which isn't here.` : `No log of ${where}: but all that was heard in ${one} belongs there.`,
      buttons: [[`Count it as ${where}`, { "data-as": `${place}.log`, "data-kept": name }], [`Leave out ${one}`, { "data-leave": name }]] };
  });
}

/**
 * Logs of which all that was heard belongs to one other place and isn't there; where of a log of that place the same is so,
 * both in one.
 * @param {CollectionObject} object
 * @param {Shelves} shelves
 * @returns {Doubt[]}
 */
export function interchanged({ logs, items }, shelves) {
  const misplaced = items.filter(({ state }) => state === "misplaced").flatMap(({ certain_in: its, place }) => its.map((at) => ({ at, place })));
  const heard = grouped(misplaced, ({ at }) => at), homes = logs.map(({ place, certain = 0 }, at) => {
    const all = heard.get(at) ?? [], home = all[0]?.place ?? null;
    return place !== null && all.length && all.length === certain && all.every((it) => it.place === home) ? home : null;
  });
  return logs.flatMap(({ place, name, certain = 0 }, at) => {
    const home = homes[at], other = home === null ? -1 : logs.findIndex((log, it) => log.place === home && homes[it] === place);
    const one = shelves.apart([at])[0], where = printable(home ?? ""), isBoth = other >= 0, numbers = isBoth ? [at, other] : [at];
    // a single tag may as well be one item on a wrong shelf
    if (home === null || (isBoth ? other < at : certain === 1)) return [];
    const key = `${numbers.map((it) => olderOne(logs[it])).join()} is of ${place}`;
    const swap = /** @type {Button[]} */ (isBoth ? [["Count each as the other", { "data-as": logs[other].name, "data-kept": name }]] : []);
    return [{ isFirst: true, mayNotCount: true, logs: numbers.map((it) => logs[it].name), numbers,
      short: isBoth ? `say whether the logs of ${one} and ${where} were interchanged` : `say whether the log of ${one} is that of ${where}`,
      words: `${certain === 1 ? "The one tag" : `All ${count(certain, "tag")}`} in the log of ${one} ${certain === 1 ? "belongs" : "belong"} to ${where}${isBoth ? `, and all in its log to ${one}` : ""}.`,
      cure: isBoth ? "Were the two interchanged?" : `If it is the log of ${where}, call it so, and open all anew.`,
      buttons: [...swap, [`No: ${isBoth ? "each" : "it"} is of its place`, { "data-both": key }]] }];
  });
}

/**
 * By what a file is known of which something is said: one with other bytes, or beside a newer one, is asked about anew.
 * @param {Aged} file
 */
export const olderOne = ({ name, changed, beside, sha256, surveys }) => `${name} of ${changed} beside ${beside}: ${sha256 || surveys}`;

/**
 * Files than which newer ones were here, each by the shelf of its log: those of which it was said that they count, and the others.
 * @param {Aged[]} files
 * @param {string[]} [both]
 * @returns {Doubt[]}
 */
export function older(files, both = []) {
  return [...grouped(files.filter(({ beside }) => beside), (it) => both.includes(olderOne(it))).values()].map((all) => {
    const [{ name, changed, newer, than = name }] = all, isOne = all.length === 1, of = all.flatMap((it) => it.of ?? []);
    const [when, before] = [changed, newer].map((time) => dated(time, dated(changed) === dated(newer)));
    const files = firstOf(all.map((it) => nameOf(it.name)), "and", MOST_LISTED), logs = `the log${of.length > 1 ? "s" : ""} of ${firstOf(of)}`;
    const those = listing([...all.flatMap((it) => it.of ? [] : nameOf(it.name)), ...of.length ? [logs] : []]);
    return { mayNotCount: true, late: all.flatMap(({ at = [] }) => at), cure: isOne ? COUNTS : ALL_COUNT,
      short: isOne ? `${those} is older than one that was here` : `${those} are older than those that were here`,
      words: isOne ? `${files} of ${when} is older than ${nameOf(than)} of ${before}, which isn't here any more.`
        : `${files} are older than files that aren't here any more: ${nameOf(name)} is of ${when}, ${nameOf(than)} was of ${before}.`,
      buttons: [[`The older one${isOne ? " counts" : "s count"}`, { "data-both": all.map(olderOne).join("\n") }]] };
  });
}

/**
 * Items of tables that aren't here any more, of which the catalogue has no row.
 * @param {CollectionObject} object
 * @returns {Doubt[]}
 */
export function withoutRow({ lost: { rows, key, names } = { rows: [], key: "", names: [] } }) {
  const gone = rows.map(printable), [have, answer] = gone.length > 1 ? ["have", "They aren't expected any more, or are in other rows"] : ["has", "It isn't expected any more, or is in another row"], [as, more] = names[1] ? ["they were", "have"] : ["it was", "has"];
  return !gone.length ? [] : [{ mayNotCount: true, late: [], short: `${count(gone.length, "item")} of a table that was here ${have} no row now: ${firstOf(gone)}`, cure: NO_ROW,
    words: `${firstOf(names.map(nameOf), "and", MOST_LISTED)} as ${as} here before ${more} ${count(gone.length, "more item")}, of which no log tells: ${firstOf(gone, "and", MOST_LISTED)}.`,
    buttons: [[answer, { "data-both": `no row of ${key}` }]] }];
}

/**
 * Logs whose files are more than half a day older than the newest one, but those of which it is asked already whether they count.
 * @param {Aged[]} logs
 * @param {string[]} [both]
 * @returns {Doubt[]}
 */
export function ofOtherDays(logs, both = []) {
  const newest = Math.max(0, ...logs.map(({ changed = 0 }) => changed)), isAsked = (/** @type {Aged} */ it) => it.newer && !both.includes(olderOne(it));
  const late = logs.filter((it) => (it.changed ?? newest) < newest - HALF_A_DAY && !isAsked(it)), names = late.map(({ name, of = name }) => of);
  const key = `${late.map((it) => `${olderOne(it)} within ${Math.floor((newest - (it.changed ?? 0)) / HALF_A_DAY)}`)}`, isOne = late.length === 1, [log, is, they] = isOne ? ["log", "is", "It is"] : ["logs", "are", "They are"];
  const other = `${isOne ? "its file" : `the file of ${names[0]}`} is of ${dated(late[0]?.changed)}, the newest of ${dated(newest)}`;
  return !late.length ? [] : [{ short: `the ${log} of ${firstOf(names)} ${is} more than 12 hours older`, mayNotCount: true, late: late.flatMap(({ at = [] }) => at),
    words: `The ${log} of ${firstOf(names, "and", MOST_LISTED)} ${is} older than the others: ${other}.`,
    cure: MOVED, ...leaving(late, [[`${they} of this count`, { "data-both": key }]]) }];
}

/**
 * Logs that prove tags which another proves too, those first of which most are so; of two one is said, and nothing of copies of which it is asked.
 * @param {CollectionObject} object
 * @param {Shelves} shelves
 * @param {string[]} asked
 * @returns {Doubt[]}
 */
export function shared({ logs, items, unexpected }, shelves, asked) {
  const others = logs.map(() => /** @type {Set<number>} */ (new Set())), said = new Set(), atHome = new Set();
  const many = [...items, ...unexpected].filter(({ certain_in: its }) => its.length > 1);
  for (const { certain_in: [first, ...rest] } of many) for (const at of rest) others[at].add(first) && others[first].add(at);
  for (const it of many) for (const at of it.certain_in) if ("place" in it && it.place === logs[at].place) atHome.add(at);
  // where nothing else was heard, and nothing that belongs there, perhaps that field wasn't counted
  const isAlien = (/** @type {number} */ at) => share(at) === 1 && logs[at].place !== null && !atHome.has(at);
  const share = (/** @type {number} */ at) => (logs[at].shared ?? 0) / (logs[at].certain || 1);
  const isAsked = (/** @type {number} */ at) => asked.includes(logs[at].name), ordered = [...logs.keys()].filter((at) => logs[at].shared)
    .sort((one, other) => Number(isAlien(other)) - Number(isAlien(one)) || share(other) - share(one) || other - one);
  return ordered.flatMap((at) => {
    const { shared: number = 0, certain = 0 } = logs[at], all = number === certain, is = number === 1 ? "is" : "are";
    if ([...others[at]].every((other) => said.has(other) || isAsked(other) && isAsked(at))) return [];
    said.add(at);
    const proved = count(certain, "tag"), some = all ? `All ${proved}` : `${number.toLocaleString("en")} of the ${proved}`;
    const those = [at, ...others[at]].sort((one, other) => one - other), names = shelves.apart(those), name = names[those.indexOf(at)];
    const tags = many.filter(({ certain_in: its }) => its.includes(at)).map((it) => printable("cells" in it && shelves.said(it, 1) || it.uid || ""));
    // of one shelf that which proves fewer may be the newer one, after a loss; one of another place is no older one
    const ofOne = those.map((it) => logs[it]).filter((one, _, all) => all.some((it) => it !== one && (it.place === one.place || it.left_over || one.left_over)));
    const isOlder = all && certain > 1 && ofOne.length > 1, key = `${logs[at].name} overlaps: ${those.map((it) => olderOne(logs[it]))}`;
    const isBlind = those.some((it) => logs[it].sha256 === "" && !logs[it].surveys);
    const overlap = isBlind || those.some((it) => logs[it].left_over) ? {} : { buttons: [/** @type {Button} */ (["The fields overlap", { "data-both": key }])] };
    const buttons = !isOlder ? overlap : ofOne.length <= MOST_LEFT ? leaving(ofOne) : {};
    return [{ short: `${count(number, "tag")} ${is} in ${those.length === 2 ? "both" : "several of"} ${firstOf(names)}`, mayNotCount: true,
      cure: isBlind ? NO_SUMS : isOlder ? `One of ${those.length === 2 ? "the two" : "these"} ${OLDER}` : OVERLAP, ...buttons,
      ...isAlien(at) ? { isFirst: true, numbers: [at] } : {},
      words: `${certain > 1 ? some : "The tag"} that ${name} proves ${is} proved by ${firstOf(names.filter((it) => it !== name))} too: ` +
        `${firstOf(tags, "and", MOST_TAGS)}.` }];
  });
}

/**
 * What buttons say that leave files out, the oldest first; of several, with when each was changed, where these differ.
 * @template {{name: string, changed?: number}} Left
 * @param {Left[]} files
 * @returns {[string, Left][]}
 */
export function leaveOut(files) {
  const sorted = [...files].sort((one, other) => (one.changed ?? 0) - (other.changed ?? 0)), dates = sorted.map(({ changed }) => dated(changed));
  const isDated = new Set(dates).size > 1 && !dates.includes(""), old = files.length > 2 ? "oldest" : "older";
  const when = (/** @type {number} */ at) => at ? ` of ${dates[at]}` : `, the ${old} file, of ${dates[at]}`;
  return sorted.map((file, at) => [`Leave out ${nameOf(file.name)}${isDated ? when(at) : ""}`, file]);
}

/**
 * @param {{name: string, changed?: number}[]} logs
 * @param {Button[]} more
 * @returns {Pick<Doubt, "buttons" | "logs">}
 */
export function leaving(logs, more = []) {
  const names = logs.map(({ name }) => name), all = names.length > MOST_LEFT ? [`Leave out these ${names.length} logs`, names.join("\n")] : [];
  const each = all.length ? [all] : leaveOut(logs).map(([words, { name }]) => [words, name]);
  return { logs: names, buttons: [...each.map(([words, leave]) => /** @type {Button} */ ([words, { "data-leave": leave }])), ...more] };
}
