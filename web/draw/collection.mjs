/** Draws a collection: what isn't sure of its logs, what to count again, what to do at each shelf, what isn't known yet, and each log. */
import { grouped } from "../judge/groups.mjs";
import { KIND } from "../judge/objects.mjs";
import { SENTENCES } from "../say/sentences.mjs";
import { firstOf, MOST_LISTED, nameOf } from "../say/shelves.mjs";
import { conditionsOf, sayAll, summaryOf } from "../say/summary.mjs";
import { granted, missed, TO_KNOW } from "../say/sure.mjs";
import { count, dated, printable } from "../say/words.mjs";
import { bullets, drawnLater, el, folded, holds, lowered, oneStop, rest } from "./elements.mjs";
import { shelved } from "./items.mjs";
import { Pane } from "./pane.mjs";
import { banner, doubted, noResult, notes, signed, view } from "./view.mjs";

/** @typedef {import("../judge/told.mjs").Told} Told */
/** @typedef {import("../judge/objects.mjs").CollectionObject} CollectionObject */
/** @typedef {import("../judge/objects.mjs").Item} Item */
/** @typedef {import("../judge/objects.mjs").OneLog} OneLog */
/** @typedef {import("../say/shelves.mjs").Shelves} Shelves */
/** @typedef {import("./items.mjs").Cell} Cell */
/** @typedef {(at: number) => null | (() => Promise<Told | undefined>)} Opener what is told of a log, by its number, if it can be had */

/** How many logs are drawn, how many items are seen unfolded, how many stand on paper that are here, and how many cells of the
 *  catalogue are the name of an item. */
const MOST_LOGS = 2000, FEW_ITEMS = 200, MOST_PRINTED = 100, MOST_CELLS = 2;
const LOOK_FOR = "If you find one, its tag is covered, broken or not the one in the catalogue, or its reply was lost: move it, and count " +
  "again. If you don't, leave its row in the catalogue. ";
const NOT_EXPECTED = "What isn't in the catalogue: find it by reading the items one by one, and bring it to where it belongs, or add it. ";
const IS_BACK = "What is back was away, as the catalogue says: record that it is here.";
const ELSEWHERE = "The logs of their shelves rule these out. Count again first, as said above; then look there: a tag may be covered.";
const NO_TAG = "These rows of the catalogue have no UID, so nothing is known of them: look for them by eye.";
const MAY_BE = "may be missing: count again, or look for it", UNKNOWN_YET = "Whether these are here isn't known until the logs above are counted again.";
const NOT_COUNTED = "Nothing is known of these, as their places have no log.", IN_FULL = "The whole list is in the page, not on paper.";
const WAITS = "Open or drop the logs, in any order; each is of the place after which it is named, as A.log of A. A catalogue says what should be here: a list of what was read would always agree.";
const AGAIN_BROKEN = " If a log contradicts itself again, send it and this page to whoever maintains the reader.";
const STRAYS = "Of these it isn't known where they were heard: their logs are of no place. Where to find them is known once the places are.";
const ASK_MORE = "Count again, with readers that ask all once more at the end.", CARRIED = "Nothing was carried between fields while the logs were written.";
const ONCE_AGAIN = `Of these a strong reply may have hidden others: ${TO_KNOW}.`;
const PROVED = "What is said of each item and log is what the library writes of these files, which is proved; how the page draws it is tested.";

/**
 * @param {CollectionObject} object
 * @param {Opener} [opener]
 * @param {(name?: string) => boolean} [canLeave] whether a log can be left out
 * @returns {Node[]}
 */
export function collectionView(object, opener = () => null, canLeave = () => false) {
  const { shelves, doubts, answered, of, lost, elsewhere, others, strays, open, hiding, deaf, isComplete, isUnsettled } = summaryOf(object), said = sayAll(object);
  const { counts, logs, without_log: places } = object, here = of("in place", "there"), home = (/** @type {Item} */ { place }) => printable(place ?? ""), file = printable(object.file);
  const above = [...object.example ? [el("p", { class: "note asked" }, object.example)] : [], ...noResult(isUnsettled, canLeave()), ...notes([...object.left ?? [], ...answered])], asked = doubted("Logs and shelves", doubts, canLeave);
  if (!logs.length) return [...above, banner(said, file), ...asked, el("p", {}, WAITS)];
  const mayBe = { "may be in": (/** @type {Item} */ item) => shelves.mayBe(item) }, at = (/** @type {Item} */ item) => shelves.at(item);
  const todo = of("missing", "misplaced", "unexpected", "returned").filter((item) => !shelves.isStray(item));
  const isKnown = !todo.length && !strays.length && !counts["not provable"] && !counts["not counted"], conditions = holds(conditionsOf(object));
  const done = [...logs.keys()].filter((it) => !open.includes(it)), isBroken = open.some((it) => logs[it].field.startsWith(KIND.IMPOSSIBLE));
  const again = `Count ${open.length === 1 ? "it" : "each"} again, to the end, in a new log.`, heard = shelves.fields(shelves.sorted(deaf));
  const byEye = counts["no tag"] ? [`Look for ${count(counts["no tag"], "item")} by eye, as said below.`] : [];
  const apart = shelves.sorted(hiding), [spread, send] = SENTENCES.steps.oneMore, oneMore = hiding.length ? [spread.replace(",", () => ` ${shelves.fields(apart)},`),
    send.replace("the log", () => `the log${apart.length > 1 ? "s" : ""} of ${shelves.names(apart)}`)] : byEye.length ? [] : deaf.length ? [`Nothing to do at the shelves. Whoever maintains the reader can let it show that it heard to the end ${heard}, as said below.`] : SENTENCES.steps.nothing;
  const maybe = new Set(lost.maybe), steps = [...byEye, ...object.wanted ? [ASK_MORE] : oneMore].map((it) => el("li", {}, it));
  const first = places.length ? ` that was counted. First count ${firstOf(places.map(printable))}: they may be there` : "";
  const look = (counts.missing ? `Missing items ${logs.length > 1 || first ? `answered on no shelf${first}` : "didn't answer"}. ${LOOK_FOR}` : "") + (counts.unexpected ? NOT_EXPECTED : "") + (counts.returned ? IS_BACK : "");
  const drawn = logsOf.bind(null, object, opener), dates = [object.files.filter((it) => it.file === object.file), logs].map((it) => spanOf(it));
  return [...above, banner(said, `${file}${dates[0]} · ${count(logs.length, "log")}${dates[1]}`), ...asked,
    ...(isComplete || object.wanted) && !doubts.length ? [el("h2", {}, "At the shelves"), el("ul", { class: "steps" }, steps)] : [],
    ...isKnown ? conditions : [], ...drawn("Count again", again + (isBroken ? AGAIN_BROKEN : ""), open, true),
    ...part("At the shelves", todo, doubts.every((it) => !it.numbers), look, [shelves, at, {}, (item) => maybe.has(item) ? MAY_BE : shelves.toDo(item)]),
    ...part("Heard in logs of no place", strays, false, STRAYS, [shelves, at, { "belongs to": home }], false),
    ...part("Not heard on their shelves", elsewhere, true, ELSEWHERE, [shelves, home, mayBe]),
    ...part("Without a tag", of("no tag"), true, NO_TAG, [shelves, home, {}, () => "look for"]),
    ...part("Not counted", of("not counted"), counts["not counted"] <= MOST_LISTED, NOT_COUNTED, [shelves, home], false),
    ...part("Not known yet", others, others.length <= MOST_LISTED, UNKNOWN_YET, [shelves, home, others.every(home) ? {} : mayBe], false),
    ...isKnown ? [] : conditions,...drawn("Ask all once more", ONCE_AGAIN, hiding),
    ...part("Here", here, false, "", [shelves, home], false, `${isUnsettled ? "Found, if all logs count" : "Here"} (${count(here.length, "item")})`),
    ...drawn("Searched to the end", "", done.filter((it) => !hiding.includes(it))), ...grantedOfAll(object), recordOfAll(object)];
}

/**
 * When the first and the last file were changed.
 * @param {{changed?: number}[]} files
 */
const spanOf = (files) => files.some(({ changed }) => changed)
  ? ` of ${[...new Set([Math.min, Math.max].map((most) => dated(most(...files.flatMap(({ changed }) => changed ?? [])))))].join(" to ")}` : "";

/**
 * A part about items, with their number. Of many with which there is nothing to do, paper has only how many belong where.
 * @param {string} title
 * @param {Item[]} list
 * @param {boolean} open
 * @param {string} words
 * @param {[Shelves, Cell, Record<string, Cell>?, Cell?]} how its table is drawn
 * @param {boolean} [isTodo]
 * @param {string} [head]
 */
function part(title, list, open, words, how, isTodo = true, head = `${title} (${list.length.toLocaleString("en")})`) {
  const isCut = !isTodo && list.length > MOST_PRINTED;
  const it = drawnLater(head, open && list.length <= FEW_ITEMS, () => [...words ? [el("p", {}, words)] : [], ...shelved(title, list, ...how)]);
  it.classList.toggle("aside", isCut);
  const its = isCut ? [...grouped(list, ({ place }) => printable(place ?? "any place"))] : [];
  const onPaper = `${head}: ${firstOf(its.map(([place, { length }]) => `${place}\u00A0(${length.toLocaleString("en")})`), "and", MOST_PRINTED)}. ${IN_FULL}`;
  return !list.length ? [] : [it, ...isCut ? [el("p", { class: "paper" }, onPaper)] : []];
}

/**
 * Logs, each drawn when it is opened; those first that say nothing.
 * @param {CollectionObject} object
 * @param {Opener} opener
 * @param {string} title
 * @param {string} words
 * @param {number[]} list
 */
function logsOf(object, opener, title, words, list, open = false) {
  const { shelves } = summaryOf(object), isAside = (/** @type {number} */ at) => Number(object.logs[at].field !== "possible");
  const items = shelves.sorted(list).sort((one, other) => isAside(other) - isAside(one)).slice(0, MOST_LOGS).map((at) => el("li", {}, oneLog(object, at, opener(at))));
  return list.length ? [folded(`${title} (${count(list.length, "log")})`, open, ...words ? [el("p", {}, words)] : [],
    oneStop(el("ul", { class: "logs" }, items), ".log > summary"), ...rest(list.length - MOST_LOGS))] : [];
}

/**
 * @param {CollectionObject} object
 * @param {number} at
 * @param {ReturnType<Opener>} opens
 */
function oneLog(object, at, opens) {
  const { shelves } = summaryOf(object), log = object.logs[at], name = shelves.name(at), file = nameOf(log.was ?? log.name);
  const sha256 = log.sha256 || log.surveys || log.object?.sha256, isSame = [file, file.replace(/\.[^. ]*$/, "")].includes(name);
  const sum = sha256 ? [el("span", { class: "sum" }, `· ${log.changed ? `of ${dated(log.changed)}\u00A0· ` : ""}`, el("code", {}, `SHA-256${log.surveys ? " of its survey's text" : ""} ${sha256}`))] : [];
  const words = [el("b", { title: printable(log.was ?? log.name) }, name), `${isSame ? "" : ` (${file})`}: ${saidOf(log)} `, ...sum];
  if (!opens) return el("p", { class: "log" }, words);
  const it = /** @type {HTMLDetailsElement} */ (el("details", { class: "log aside" }, el("summary", {}, words)));
  it.addEventListener("toggle", async () => {
    if (!it.open || it.childElementCount > 1) return;
    const place = it.appendChild(el("p", {}, "..")), told = await opens();
    const names = new Map(object.items.flatMap((item) => item.uid ? [[item.uid, shelves.said(item, MOST_CELLS)]] : []));
    place.replaceWith(told ? drawnLog(told, names) : el("p", {}, "There is no answer to this log."));
  });
  return it;
}

/**
 * A log and its text.
 * @param {Told} told
 * @param {import("./view.mjs").Names} names
 */
function drawnLog(told, names) {
  const label = `The text of ${printable(told.object.file)}`, shown = lowered(view(told, names, false));
  const field = /** @type {HTMLTextAreaElement} */ (el("textarea", { class: "text", readonly: "", "aria-label": label }));
  new Pane(field, shown).put(new TextEncoder().encode(told.object.text));
  return el("div", { class: "both" }, shown, el("div", { class: "beside" }, field));
}

/**
 * What a log says. What is left to ask in its field stands where it is opened.
 * @param {OneLog} log
 */
function saidOf({ field, certain = 0, open = [], deaf }) {
  const [kind, , , line] = field.split(" "), where = `line ${parseInt(line)}`;
  if (kind === KIND.IMPOSSIBLE) return `nothing is known of its field, since its log contradicts itself (${where})`;
  if (kind === KIND.REFUSED) return `this log can't be read (${where}), so nothing is known of its field: copy it again, or count again`;
  return `${count(certain, "tag")}${open.length ? "; not finished" : deaf ? "; it isn't shown that the reader heard to the end" : ""}`;
}

/** @param {CollectionObject} object */
function grantedOfAll(object) {
  const { margin } = object, { shelves, isUnsettled } = summaryOf(object), all = [...margin && !isUnsettled ? missed(margin, ` ${shelves.fields([margin.log])}`) : [], ...granted(!object.logs.some(({ hidden }) => hidden)), CARRIED,
    `The catalogue is complete. It has ${count(object.items.length, "row")}: what isn't in it is never missed.`, PROVED];
  return [folded(`What this takes for granted (${all.length})`, !object.status || !!object.wanted, bullets(all))];
}

/** @param {CollectionObject} object */
function recordOfAll(object) {
  const { counts, items, logs, files, version, answer, file, left = [] } = object, { isUnsettled, answered } = summaryOf(object);
  const states = Object.entries(counts).flatMap(([state, number]) => number ? `${number.toLocaleString("en")} ${state}` : []);
  const said = [count(items.length, "item"), ...states, count(logs.length, "log")].join("\u00A0· "), ifAll = isUnsettled ? ", if all logs count" : "";
  const sums = files.map((it) => el("p", {}, `${printable(it.file)}${it.changed ? ` of ${dated(it.changed)}` : ""}${it.sha256 ? " · SHA-256 " : ""}`, el("code", {}, it.sha256)));
  return el("footer", { class: "record" }, el("p", {}, said, ifAll), el("p", {}, `vicinity ${version}${ifAll}: `, el("code", {}, printable(answer))), ...sums,
    ...isUnsettled || object.example ? [] : signed([sayAll(object).headline, ...left, ...answered], printable(file)));
}
