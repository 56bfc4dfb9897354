/** Shows what is here: several logs, each with what it says, and what is told of one. */
import { collectionView } from "./draw/collection.mjs";
import { at, button, el } from "./draw/elements.mjs";
import { banner, notes, signed, takenForGranted, view } from "./draw/view.mjs";
import { kindOf } from "./judge/files.mjs";
import { isUnanswered } from "./opened.mjs";
import { leaveOut } from "./say/copies.mjs";
import { isForeign } from "./say/refused.mjs";
import { headlineOfEach, say } from "./say/say.mjs";
import { count, dated, printable, titled } from "./say/words.mjs";

/** @typedef {import("./opened.mjs").Entry} Entry */

const PRESS = "Press one to see it. For one answer about all of them, open them together with one catalogue (CSV).";
/** How much is said of what is wrong. */
const MOST_SAID = 2000, THE_REST = "All other files are still here.";

const several = at("several"), each = at("each"), list = at("logs");
export const shown = at("told");
/** What stands there before anything is opened. */
const START = document.body.classList.contains("empty") ? [...shown.childNodes] : [], TITLE = document.title;

/** What was noted of that which was shown last. */
let noted = /** @type {string[]} */ ([]);

/** What heads that which is shown. */
const heading = () => /** @type {HTMLElement | null} */ (document.querySelector("#each h1, #told h1"));

/**
 * Shows what is told of a log or a collection; until it is judged, nothing.
 * @param {Entry | undefined} entry
 * @param {import("./draw/collection.mjs").Opener} opener
 * @param {(name?: string) => boolean} canLeave
 */
export function show(entry, opener, canLeave) {
  shown.setAttribute("aria-busy", String(entry !== undefined && isUnanswered(entry)));
  if (!entry) return;
  const { collection, name } = entry;
  shown.replaceChildren(...nodesOf(entry, opener, canLeave));
  const words = heading()?.textContent;
  headed(words ? titled(collection?.file ?? name, words) : printable(`${name} ..`), !isUnanswered(entry));
}

/** Shows what stands there before anything is opened. */
export function begin() {
  each.replaceChildren();
  shown.replaceChildren(...START);
  headed(TITLE, true);
}

/** Leads the keyboard to what has changed, and whoever doesn't see it. */
export function focusOnHeading() {
  heading()?.setAttribute("tabindex", "-1");
  heading()?.focus();
}

/**
 * @param {Entry} entry
 * @param {import("./draw/collection.mjs").Opener} opener
 * @param {(name?: string) => boolean} canLeave
 * @returns {Node[]}
 */
function nodesOf(entry, opener, canLeave) {
  const { told, collection, error, cure = [], waits, given, name, files, note = "" } = entry, logs = given && (waits || error) ? given.logs.filter((it) => kindOf(it) !== "other") : [];
  // beside what is no table, or a table too many, the next catalogue wouldn't help
  const words = [...cure, ...files && (files.length > 1 || !given?.tables.some((it) => files.includes(it.name))) ? [THE_REST]
    : logs.length ? [`${count(logs.length, "log is", "logs are")} still here, to be compared with the next catalogue that you open.`] : []];
  const said = [...words.length ? [el("h2", {}, "What to do"), el("ul", { class: "steps" }, words.map((it) => el("li", {}, it)))] : [],
    ...given && files ? leavingOut(given, files) : []];
  // what stands below isn't said twice
  const more = (collection?.left ?? []).reduce((words, it) => words.replace(it, ""), note).trim(), above = notes(more ? [printable(more)] : []);
  if (error) return [...above, banner({ look: "refused", sign: "?", headline: unanswered(name, error), lights: [] }, files?.[1] ? count(files.length, "file") : printable(name)), ...said];
  if (waits) return [...above, el("h1", {}, waits), ...said];
  return collection ? [...above, ...collectionView(collection, opener, canLeave)] : told ? [...above, ...view(told, undefined, true, true)] : [];
}

/**
 * Buttons that leave files out, one for all that are no texts; of two that are called alike, with when each was changed.
 * @param {import("./opened.mjs").Collection} given
 * @param {string[]} files
 */
function leavingOut({ tables, logs }, files) {
  const all = [...tables, ...logs], alike = all.filter(({ name }) => files.includes(name));
  const out = (/** @type {Entry[]} */ list) => ({ "data-out": list.map((it) => all.indexOf(it)).join() });
  const buttons = alike.length > 1 && alike.every((it) => kindOf(it) === "other") ? [button(`Leave out these ${count(alike.length, "file")}`, out(alike))]
    : leaveOut(alike).map(([words, file]) => button(words, out([file])));
  return buttons.length ? [el("p", { class: "take" }, buttons)] : [];
}

/**
 * Shows several logs with what each says. Of all together nothing is said but how many are green, once all are judged, if any has a list.
 * @param {Entry[]} entries
 * @param {number} current which is shown, less than 0 if none is
 */
export function overview(entries, current) {
  const many = entries.length, isOne = many < 2;
  several.hidden = isOne;
  if (isOne || list.childElementCount !== many) list.replaceChildren(...isOne ? [] : entries.map(() => el("li", {}, button("", {}))));
  each.replaceChildren();
  if (isOne) return;
  list.querySelectorAll("button").forEach((button, index) => label(button, entries[index], index === current));
  const tolds = entries.flatMap(({ name, told, changed }) => told ? { name, told, changed } : []), foreign = tolds.filter(({ told }) => isForeign(told)).length;
  const left = entries.filter(isUnanswered).length, isCounted = tolds.some(({ told }) => told.counts.listed);
  const words = left ? `Judging ${count(many, "log")} ..` : headlineOfEach(isCounted ? entries.map(({ said }) => said?.look) : [], many - foreign, foreign);
  const above = current < 0 ? notes([...new Set(entries.flatMap(({ note }) => note ? printable(note) : []))]) : [];
  each.append(...above, el(current < 0 ? "h1" : "p", {}, words), el("p", { class: "hint" }, PRESS));
  if (current >= 0) return;
  const sums = tolds.map(({ name, changed, told: { object: { answer, sha256 } } }) =>
    el("p", {}, `${printable(name)}: ${answer}${changed ? ` · of ${dated(changed)}` : ""} · SHA-256 `, el("code", {}, sha256)));
  const version = tolds.length ? `, by vicinity ${tolds[0].told.object.version}` : "", all = [words, ...entries.flatMap(({ said }) => said?.answered ?? [])];
  const under = left ? [el("p", { class: "asked paper" }, `This is no result yet: ${count(left, "log is", "logs are")} still being judged.`)] : entries.some(({ said }) => !said || said.doubts.length || said.look === "broken" || said.look === "refused") ? [] : signed(all, `${count(many, "file")}${version}`);
  shown.replaceChildren(...tolds.length ? [takenForGranted(tolds.map(({ told }) => told))] : [], el("footer", { class: "record" }, ...sums, ...under));
  headed(words, !left);
}

/**
 * Says on its button what a log says. The button stays, with the focus that it may have.
 * @param {HTMLElement} button
 * @param {Entry} entry
 * @param {boolean} isPressed
 */
function label(button, entry, isPressed) {
  const { told, error = ".." } = entry, said = told && (entry.said ??= say(told)), name = printable(entry.name), words = ` ${said?.headline ?? error}`;
  button.setAttribute("aria-pressed", String(isPressed));
  if (button.textContent === `${said?.sign ?? ""}${name}${words}`) return;
  button.replaceChildren(...said ? [el("span", { class: `sign ${said.look}`, "aria-hidden": "true" }, said.sign)] : [], el("b", {}, name), words);
}

/**
 * Why there is no answer. What is wrong with a catalogue begins with its name.
 * @param {string} name
 * @param {string} error
 */
const unanswered = (name, error) => printable((error.startsWith(name) ? `${error}.` : `${name}: no answer (${error}).`).slice(0, MOST_SAID));

/**
 * Says what is shown, in the title and to whoever doesn't see it: nothing of what is pale, and what is noted once.
 * @param {string} title
 * @param {boolean} isAnswered
 */
function headed(title, isAnswered) {
  const said = at("said"), notes = [...document.querySelectorAll(".note")].map((it) => it.textContent ?? "");
  const words = [...notes.filter((it) => !noted.includes(it)), heading()?.textContent ?? ""].join(" ");
  if (isAnswered) noted = notes;
  document.title = title;
  if (said.textContent !== words) said.textContent = words;
}
