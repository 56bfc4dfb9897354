/** Elements of the page. */

/** How an address ends that is opened by whoever maintains a reader; and the class of a page on which what is for them is unfolded. */
const FOR_READERS = "#reader", READING = "reading";
document.body.classList.toggle(READING, location.hash === FOR_READERS);

/** @typedef {Node | string | (Node | string)[]} Content */

/**
 * The element with an id.
 * @param {string} id
 */
export const at = (id) => /** @type {HTMLElement} */ (document.getElementById(id));

/**
 * An element with attributes and children, whose texts need no escaping.
 * @param {string} tag
 * @param {Record<string, string>} attributes
 * @param {...Content} content
 */
export function el(tag, attributes = {}, ...content) {
  const made = document.createElement(tag);
  for (const [name, value] of Object.entries(attributes)) made.setAttribute(name, value);
  made.append(...content.flat());
  return made;
}

/**
 * A button, by what it says and what it carries.
 * @param {string} words
 * @param {Record<string, string>} data
 */
export const button = (words, data) => el("button", { type: "button", ...data }, words);

/** @param {string[]} items */
export const bullets = (items) => el("ul", {}, items.map((it) => el("li", {}, it)));

/**
 * What an answer rests on, in a line each.
 * @param {string[]} words
 */
export const holds = (words) => words.length ? [el("section", { class: "holds" }, words.map((it) => el("p", {}, it)))] : [];

/**
 * How many more there are than are shown.
 * @param {number} number
 */
export const rest = (number) => number > 0 ? [el("p", {}, `and ${number.toLocaleString("en")} more`)] : [];

/**
 * A button that leads to a line.
 * @param {number} line
 * @param {...Content} words
 */
export function toLine(line, ...words) {
  const name = /** @type {Record<string, string>} */ (words.length === 1 && words[0] === String(line) ? { "aria-label": `line ${line}` } : {});
  return el("button", { type: "button", class: "to-line", "data-line": String(line), ...name }, ...words.length ? words : [`line ${line}`]);
}

/** The arrows that lead to the next button, and to the one before; in a table the first two stay in a column. */
const [DOWN, ACROSS] = /** @type {Record<string, number>[]} */ ([{ ArrowDown: 1, ArrowUp: -1 }, { ArrowRight: 1, ArrowLeft: -1 }]);

/**
 * A part of whose buttons one is a stop for the keyboard: arrows lead to the others.
 * @param {HTMLElement} part
 * @param {string} [which]
 */
export function oneStop(part, which = "button") {
  const buttons = () => /** @type {HTMLElement[]} */ ([...part.querySelectorAll(which)]);
  const stop = (/** @type {Element} */ one) => buttons().forEach((it) => { it.tabIndex = it === one ? 0 : -1; });
  stop(buttons()[0]);
  part.addEventListener("keydown", (event) => {
    const all = buttons(), step = DOWN[event.key] ?? ACROSS[event.key], from = all.findIndex((it) => it === document.activeElement);
    const column = (/** @type {Element} */ it) => /** @type {HTMLTableCellElement | null} */ (it.closest("td, th"))?.cellIndex;
    const ahead = step > 0 ? all.slice(from + 1) : all.slice(0, Math.max(from, 0)).reverse();
    const next = step && from >= 0 && ahead.find((it) => event.key in ACROSS || column(it) === column(all[from]));
    if (!next) return;
    event.preventDefault();
    stop(next);
    next.focus();
  });
  return part;
}

/** Lines in a sentence: one with its word, or several. Safari knows no lookbehind before 2023. */
const LINE = /\bline \d+|\blines \d+(?:(?:, | and )\d+)*/gi;

/**
 * A sentence in which each line that it names is a button.
 * @param {string} sentence
 */
export function linked(sentence) {
  const parts = sentence.replace(LINE, (it) => /^lines/i.test(it) ? it.replace(/\d+/g, "\0$&\0") : `\0${it}\0`).split("\0");
  const mark = (/** @type {string} */ part) => part.match(/^[,.:;]/)?.[0] ?? "";
  // what follows a line stays with it
  return parts.map((part, at) => at % 2 ? el("span", { class: "kept" }, toLine(Number(part.match(/\d+/)), part), mark(parts[at + 1])) : at ? part.slice(mark(part).length) : part);
}

/**
 * A part for whoever maintains the reader, with the rounds and the text of the log beside it: folded, until somebody came for it.
 * @param {string} heading
 * @param {() => Content[]} draw
 */
export function forReader(heading, draw) {
  const part = drawnLater(heading, document.body.classList.contains(READING), draw);
  part.classList.add("reader");
  part.querySelector("summary")?.addEventListener("click", () => document.body.classList.toggle(READING, !part.hasAttribute("open")));
  return part;
}

/**
 * What stands below a heading of the second level: its own headings are two levels lower.
 * @param {Node[]} nodes
 */
export function lowered(nodes) {
  const made = el("div", {}, nodes);
  for (const it of made.querySelectorAll("h1, h2")) it.replaceWith(el(`h${Number(it.tagName[1]) + 2}`, { class: it.className }, ...it.childNodes));
  return made;
}

/**
 * A part with a heading, folded or not.
 * @param {string} heading
 * @param {boolean} open
 * @param {...Content} content
 */
export const folded = (heading, open, ...content) => el("details", open ? { open: "" } : {}, el("summary", {}, el("h2", {}, heading)), ...content);

/**
 * The same, drawn once it is unfolded.
 * @param {string} heading
 * @param {boolean} open
 * @param {() => Content[]} draw
 */
export function drawnLater(heading, open, draw) {
  const part = folded(heading, open, ...open ? draw() : []), drawn = () => { if (part.childElementCount < 2) part.append(...draw().flat()); };
  part.addEventListener("toggle", drawn);
  part.querySelector("summary")?.addEventListener("click", drawn);
  return part;
}
