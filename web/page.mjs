/** The page that judges: what is opened or typed is judged, and one of it is shown. */
import { at } from "./draw/elements.mjs";
import { Pane } from "./draw/pane.mjs";
import { unfold, unfoldOnPaper } from "./draw/printing.mjs";
import { isSpreadsheet, kindOf, startOf, stemOf } from "./judge/files.mjs";
import { awayOf } from "./left.mjs";
import { annotate, answered, counted, EXAMPLE, filesOf, gathered, isUnanswered, PASTED, read, without } from "./opened.mjs";
import { bytesOf, unpacked } from "./packed.mjs";
import { pageOf, save, withObjects } from "./saving.mjs";
import { isForeign } from "./say/refused.mjs";
import { count, printable } from "./say/words.mjs";
import { begin, focusOnHeading, overview, show, shown } from "./shown.mjs";
import { STOPPED, Work } from "./work.mjs";

/** @typedef {import("./opened.mjs").Entry} Entry */

/** How long a judging goes on before it can be stopped, in ms. */
const PATIENCE = 400, PASTE = "Or paste a log here", NO_DROP = "No file was dropped, so nothing has changed. Save the text as a file, and open that.";
const NOT_SAVED = "Nothing was saved: there isn't enough memory for it. Close other tabs and programs.";
const SAVED_COPY = "This is what a browser has saved of the page: its answers, without the logs. To go on, open these again.";

const field = /** @type {HTMLTextAreaElement} */ (at("text")), files = /** @type {HTMLInputElement} */ (at("files"));
const stop = at("stop"), status = at("status"), saves = at("save"), back = at("back"), close = at("close"), beside = at("beside"), pane = new Pane(field, shown, PASTE);

/**
 * All that changes: what is here, and which of it is shown, none of several until one is pressed; all files that were here since the page
 * was empty, and which of them aren't any more; what was here before each drop, paste or leave; what is opened after all that was opened
 * before it, and until it is read, the last of these, of which nothing is known yet; what ends the reading; when it is said what is waited
 * for, and the answers to several logs are drawn next; and whether a button was pressed that is gone when it is done: then the heading
 * gets the focus.
 */
const now = { entries: /** @type {Entry[]} */ ([]), current: 0, seen: /** @type {Entry[]} */ ([]), away: /** @type {Entry[]} */ ([]),
  past: /** @type {{entries: Entry[], current: number, seen: Entry[]}[]} */ ([]), opening: Promise.resolve(),
  pending: /** @type {Entry | undefined} */ (undefined), stopping: new AbortController(), patience: 0, drawing: 0, isPressed: false };

/**
 * The worker's script, and compressed and in base64 the library as WebAssembly and the page that is saved. They stand within this script,
 * which the browser runs only if its hash is right: a page of which a bit was turned over judges nothing.
 */
const WORKER = "{{worker}}", MODULE = "{{module}}", RECORD = "{{record}}", SAMPLE = JSON.parse(at("sample").textContent ?? "");
const work = new Work(WORKER, bytesOf(MODULE), new TextEncoder().encode(SAMPLE["shelf-a.log"]));

// What is judged

/** @param {Entry} entry */
async function ask(entry) {
  wait();
  const { given, name, text, changed } = entry;
  const done = await work.ask(given ? { files: filesOf([entry]).map((file) => ({ name: file.name, text: file.text })) } : { name, text, changed });
  Object.assign(entry, done);
  annotate(entry, now.away);
  if (!now.pending && !now.entries.some(isUnanswered)) quiet();
  // the more there are, the less often their list is drawn
  if (entry === now.entries[now.current]) draw();
  else if (now.entries.includes(entry)) now.drawing ||= window.setTimeout(drawList, now.entries.length);
}

/** What takes long can be stopped. */
function wait() {
  clearTimeout(now.patience);
  now.patience = window.setTimeout(() => {
    const left = now.entries.filter(isUnanswered), { pending } = now;
    if (!pending && !left.length) return;
    stop.hidden = false;
    status.textContent = printable(`${pending ? `Reading ${pending.name}` : `Judging ${left[1] ? count(left.length, "log") : left[0].name}`} ..`);
  }, PATIENCE);
}

/** Nothing is being read or judged. */
function quiet() {
  clearTimeout(now.patience);
  stop.hidden = true;
  status.textContent = "";
}

for (const it of [stop, back, close, at("example")]) it.addEventListener("click", () => { now.isPressed = true; });
stop.addEventListener("click", () => { now.stopping.abort(); now.stopping = new AbortController(); work.stop(); });

// What is shown

/** Shows what is here: of several the list, and one of them. */
function draw() {
  const { entries, pending, current } = now, entry = pending ?? entries[current];
  document.body.classList.toggle("empty", !entries.length);
  back.hidden = !now.past.length;
  close.hidden = !entries.length;
  drawList();
  saves.hidden = !(entry?.told && !isForeign(entry.told)) && !entry?.collection;
  beside.hidden = !!pending || entry?.given !== undefined || current < 0;
  now.isPressed ||= beside.hidden && document.activeElement === field;
  show(entry, openerOf(entry), (name) => name === undefined || filesOf([entry]).some((file) => file.name === name));
  if (!now.isPressed || pending || entries.some(isUnanswered)) return;
  now.isPressed = false;
  focusOnHeading();
}

function drawList() {
  clearTimeout(now.drawing);
  now.drawing = 0;
  overview(now.pending ? [] : now.entries, now.current);
}

at("logs").addEventListener("click", ({ target }) => {
  const button = /** @type {HTMLElement} */ (target).closest("button");
  if (!button || !now.entries.length) return;
  now.current = [...at("logs").querySelectorAll("button")].indexOf(button);
  edit();
  draw();
  button.focus();
  button.scrollIntoView({ block: "nearest" });
});

// What is opened

/**
 * What is still judged of others isn't needed any more.
 * @param {Entry[]} taken
 * @param {number} [which]
 * @param {Entry[]} [seen] files that weren't here before
 */
function take(taken, which = taken.length > 1 ? -1 : 0, seen = []) {
  if (work.isBusy) work.stop();
  if (!taken.length) begin();
  // what was asked before may still have another answer: that it was stopped
  now.entries = taken.map((entry) => ({ ...entry, said: undefined }));
  now.current = which;
  now.seen = [...new Set([...now.seen, ...seen])];
  now.away = awayOf(now.seen, filesOf(now.entries));
  now.entries.forEach((it) => annotate(it, now.away));
  now.entries.filter(isUnanswered).forEach(ask);
  edit();
  draw();
}

/** Keeps what is here, so that one can go back to it. */
const keep = () => now.past.push({ entries: [...now.entries], current: now.current, seen: now.seen });

back.addEventListener("click", () => now.past.splice(-1).forEach(({ entries, current, seen }) =>
  take(entries.map((entry) => entry.error === STOPPED ? { ...entry, error: undefined } : entry), current, seen)));
close.addEventListener("click", () => { keep(); now.seen = []; take([]); });

/**
 * What is told of a log, with its text, also if something else is opened meanwhile, which stops what is judged.
 * @param {Entry} log
 * @returns {Promise<import("./judge/told.mjs").Told | undefined>}
 */
const whole = (log) => work.ask({ name: log.name, text: log.text, changed: log.changed, isKept: true }).then(({ told, error }) => error === STOPPED ? whole(log) : told);

/**
 * What is told of a log of a collection, by its number: it is judged when it is asked for.
 * @param {Entry} [entry]
 * @returns {import("./draw/collection.mjs").Opener}
 */
const openerOf = (entry) => (number) => {
  const name = entry?.collection?.logs[number].name, log = entry?.given?.logs.find((it) => it.name === name && kindOf(it) === "log");
  return log ? () => whole(log) : null;
};

shown.addEventListener("click", ({ target }) => {
  const { leave, kept, both, out, as } = /** @type {HTMLElement} */ (target).closest("button")?.dataset ?? {};
  const entry = now.entries[now.current], { given, collection } = entry ?? {}, all = filesOf(entry ? [entry] : []), outs = out?.split(",").map(Number);
  if (!both && (!given || !leave && !out && !as)) return;
  keep();
  now.isPressed = true;
  if (both) take(now.entries.map((it) => it === entry ? answered(it, both.split("\n")) : it), now.current);
  else if (given) take(as && kept ? [counted(given, kept.split("\n"), as.split("\n"))]
    : without(given, outs ? outs.map((it) => all[it]) : given.logs.filter(({ name }) => leave?.split("\n").includes(name)), kept, collection));
});

/**
 * Files are taken in the order in which they were opened, however long each is read. Until then nothing is shown.
 * @param {Iterable<File>} chosen
 * @param {string} [made] how they came, if they are none
 */
function open(chosen, made) {
  const all = [...chosen], reading = Promise.all(all.map((file) => read(file, now.stopping.signal, made)));
  if (!all.length) return;
  /** @type {Entry} */
  const mine = now.pending = { id: 0, name: all.length === 1 ? all[0].name : count(all.length, "file"), text: new Uint8Array() };
  wait();
  draw();
  now.opening = now.opening.then(async () => {
    const taken = await reading;
    if (now.pending === mine) now.pending = undefined;
    if (!now.pending) quiet();
    const made = gathered(taken, now.entries);
    if (now.entries.length) keep();
    take(made, made.length < 2 ? 0 : taken.length > 1 ? -1 : made.length - 1, taken[0].made === EXAMPLE ? [] : taken);
  }).catch(({ message }) => take([{ ...mine, error: message }]));
}

/** Puts the text of the log that is shown into its field. */
const edit = (entry = now.entries[now.current]) => pane.put(entry && !isSpreadsheet(startOf(entry)) ? entry.text : new Uint8Array());

saves.addEventListener("click", async () => {
  const log = now.entries[now.current], { collection } = log, fold = unfold(), text = shown.innerText, { title } = document, { away } = now;
  fold();
  const object = collection ? await withObjects(collection, openerOf(log)) : await whole(log).then((told) => (annotate({ ...log, told }, away), told?.object));
  const saved = Date.now(), on = new Date(saved).toLocaleString("sv", { dateStyle: "short", timeStyle: "short" }).replace(":", "");
  if (object) save(pageOf(new TextDecoder().decode(await unpacked(bytesOf(RECORD))), { ...object, saved }, title, text), `${stemOf(log.name)} ${on}.html`);
  else status.textContent = NOT_SAVED;
});

// How logs come

files.addEventListener("change", () => {
  open(files.files ?? []);
  // so that the same file, changed meanwhile, can be chosen again
  files.value = "";
});
at("example").addEventListener("click", () => open(Object.entries(SAMPLE).map(([name, text]) => new File([text], name)), EXAMPLE));
/**
 * Whether a text gets into the field, which takes one where no log is shown.
 * @param {Event} event
 */
const isInField = ({ target }) => target === field && !field.readOnly;
/** @param {DragEvent} event */
const isTyped = (event) => isInField(event) && !event.dataTransfer?.types.includes("Files");
// what is typed is judged at the end of each line
field.addEventListener("input", (event) => /^(?:insertText|delete)/.test(/** @type {InputEvent} */ (event).inputType) || open([new File([field.value], PASTED)], PASTED));
document.addEventListener("dragover", (event) => { if (!isTyped(event)) event.preventDefault(); });
document.addEventListener("drop", (event) => {
  if (isTyped(event)) return;
  event.preventDefault();
  const dropped = event.dataTransfer?.files ?? [];
  open(dropped);
  if (!dropped.length) status.textContent = NO_DROP;
});
/** Files are pasted anywhere; a text beside the field is opened as one. Cells of a spreadsheet come with a picture. */
document.addEventListener("paste", (event) => {
  const pasted = [...event.clipboardData?.files ?? []].filter(({ type }) => !type.startsWith("image/")), text = event.clipboardData?.getData("text/plain");
  if (!pasted.length && (!text || isInField(event))) return;
  event.preventDefault();
  if (pasted.length) open(pasted); else open([new File([text ?? ""], PASTED)], PASTED);
});
unfoldOnPaper();
if (document.body.classList.contains("empty")) draw();
else {
  // a browser has saved the page while it showed an answer
  beside.hidden = saves.hidden = stop.hidden = true;
  status.textContent = SAVED_COPY;
}
at("old")?.remove();
