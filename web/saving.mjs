/** Saves what is shown as a page of its own, which judges nothing. */
import { madeOnce } from "./judge/groups.mjs";

/** What would end the element in which an object stands. */
const MARKUP = /</g, TEXT_MARKUP = /[&<]/g;
/** How long a file is there to be saved, in ms: Safari reads it after the click. */
const KEPT = 40_000;

/** How much text of logs stands in a page that is saved, and how long a list of logs is that stands in it once. */
const MOST_TEXT = 4_000_000, MOST_REPEATED = 8;
/** The lists of logs that an item has. */
const LISTS = new Set(["certain_in", "possible_in"]);

/**
 * A collection as it is saved: with the objects of as many of its logs as there is room for, those first that have to be counted again;
 * none if one of them can't be had.
 * @param {import("./judge/objects.mjs").CollectionObject} object
 * @param {import("./draw/collection.mjs").Opener} opener
 */
export async function withObjects(object, opener) {
  const logs = [...object.logs], isDone = (/** @type {number} */ at) => logs[at].field === "possible" && !logs[at].open?.length;
  let room = MOST_TEXT;
  for (const at of [...logs.keys()].sort((one, other) => Number(isDone(one)) - Number(isDone(other)))) {
    const opens = room > 0 ? opener(at) : null, told = await opens?.();
    if (opens && !told) return undefined;
    room -= told?.object.text.length ?? 0;
    if (told && room >= 0) logs[at] = { ...logs[at], object: told.object };
  }
  return { ...object, logs };
}

/**
 * An object as JSON: an item names a long list of logs by its number among `lists`.
 * @param {object} object
 */
function jsonOf(object) {
  const lists = /** @type {number[][]} */ ([]), numbers = /** @type {Map<number[], number>} */ (new Map());
  return JSON.stringify("items" in object ? { ...object, lists } : object, (key, value) =>
    !LISTS.has(key) || value.length <= MOST_REPEATED ? value : madeOnce(numbers, value, () => lists.push(value) - 1));
}

/**
 * A page's template with an object in it, a title, and the text for whom no script draws it.
 * @param {string} template
 * @param {object} object
 * @param {string} title
 * @param {string} plain
 */
export function pageOf(template, object, title, plain) {
  const escaped = (/** @type {string} */ text) => text.replace(TEXT_MARKUP, (it) => `&#${it.charCodeAt(0)};`);
  /** @type {Record<string, string>} */
  const parts = { "{{title}}": escaped(title), "{{plain}}": escaped(plain), "{{object}}": jsonOf(object).replace(MARKUP, "\\u003c") };
  return template.replace(/\{\{(title|plain|object)\}\}/g, (it) => parts[it]);
}

/**
 * Gives a page to whoever reads this one, as a file.
 * @param {string} page
 * @param {string} name
 */
export function save(page, name) {
  const href = URL.createObjectURL(new Blob([page], { type: "text/html" }));
  Object.assign(document.createElement("a"), { href, download: name }).click();
  setTimeout(() => URL.revokeObjectURL(href), KEPT);
}
