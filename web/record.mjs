/** A page that was saved: draws the object that stands in it. */
import { collectionView } from "./draw/collection.mjs";
import { at } from "./draw/elements.mjs";
import { Pane } from "./draw/pane.mjs";
import { unfoldOnPaper } from "./draw/printing.mjs";
import { view } from "./draw/view.mjs";
import { isSpreadsheet } from "./judge/files.mjs";
import { tell } from "./judge/told.mjs";
import { dated, printable, titled } from "./say/words.mjs";

const object = JSON.parse(at("object").textContent ?? ""), shown = at("told");
if ("items" in object) {
  const { lists = [] } = object, listOf = (/** @type {number[] | number} */ it) => typeof it === "number" ? lists[it] : it;
  for (const item of [...object.items, ...object.unexpected]) Object.assign(item, { certain_in: listOf(item.certain_in), possible_in: listOf(item.possible_in) });
  shown.replaceChildren(...collectionView(object, (number, of = object.logs[number].object) => of ? async () => tell(of) : null));
} else {
  shown.replaceChildren(...view(tell(object)));
  new Pane(/** @type {HTMLTextAreaElement} */ (at("text")), shown).put(new TextEncoder().encode(object.text));
  at("beside").hidden = isSpreadsheet(object.text);
}
at("made").textContent = [object.version, printable(object.file), ...object.saved ? [`saved on ${dated(object.saved)}`] : []].join(" · ");
document.title = titled(object.file, shown.querySelector("h1")?.textContent ?? "");
unfoldOnPaper();
// not in what a browser has saved of it
at("old")?.remove();
