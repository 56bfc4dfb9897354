/** The text of a log beside its rounds: what names a line leads to it. */

/** Of a text of more bytes only the line is shown that is asked for. */
const MOST_SEEN_WHOLE = 1_000_000, NEW_LINE = "\n", LARGE = "This log is too long to be shown here. Press the number of a line to see it.", AS_A_LOG = "vicinity-log ..";

export class Pane {
  /** The text, and the number of the field's first line. */
  #text = new Uint8Array();
  #firstLine = 1;

  /**
   * @param {HTMLTextAreaElement} field
   * @param {HTMLElement} shown the rounds are somewhere in it
   * @param {string} [hint] what an empty field is called; without one it is only read
   */
  constructor(field, shown, hint = "") {
    this.field = field;
    this.shown = shown;
    this.hint = hint;
    shown.addEventListener("click", (event) => {
      const line = /** @type {HTMLElement} */ (event.target).closest("[data-line]")?.getAttribute("data-line");
      // it stands beside what is for whoever maintains the reader
      if (line && this.#text.length) /** @type {HTMLElement | null} */ (shown.querySelector("details.reader:not([open]) > summary"))?.click();
      if (line && this.#text.length) this.select(Number(line));
    });
  }

  /** @param {Uint8Array} text */
  put(text) {
    const isLarge = text.length > MOST_SEEN_WHOLE;
    this.#text = text;
    this.#firstLine = 1;
    this.field.value = isLarge ? "" : new TextDecoder().decode(text);
    this.field.readOnly = text.length > 0 || !this.hint;
    this.field.placeholder = isLarge ? LARGE : this.hint && AS_A_LOG;
    for (const label of this.field.labels) label.textContent = text.length ? "The text" : this.hint;
  }

  /**
   * Shows a line, and marks it and its cell.
   * @param {number} line
   */
  select(line) {
    if (this.field.placeholder === LARGE) {
      this.field.value = new TextDecoder().decode(this.#text).split(NEW_LINE, line)[line - 1];
      this.#firstLine = line;
    }
    const above = line - this.#firstLine, lines = this.field.value.split(NEW_LINE).slice(0, above);
    const before = lines.join(NEW_LINE).length + (above > 0 ? 1 : 0), end = this.field.value.indexOf(NEW_LINE, before);
    this.field.focus();
    this.field.setSelectionRange(before, end < 0 ? this.field.value.length : end);
    this.field.scrollTop = Math.max(0, (above - 2) * parseFloat(getComputedStyle(this.field).lineHeight));
    this.shown.querySelector(".here")?.classList.remove("here");
    this.shown.querySelector(`td[data-line="${line}"]`)?.classList.add("here");
  }
}
