/** Judging, in a worker that can be stopped. */
import { sumOf } from "./judge/files.mjs";
import { indexed } from "./judge/log.mjs";
import { SENTENCES } from "./say/sentences.mjs";

/** @typedef {import("./judge/told.mjs").Told} Told */
/** @typedef {import("./judge/objects.mjs").CollectionObject} CollectionObject */
/** @typedef {{told?: Told, collection?: CollectionObject, error?: string, cure?: string[], files?: string[]}} Done
 *   why there is no answer, what to do, and which files can be left out */

/** Why there is no answer to what was ended. */
export const STOPPED = "stopped";

export class Work {
  #requested = 0;
  /** @type {Map<number, (done: any) => void>} */
  #waiting = new Map();
  /** @type {Worker | null} */
  #worker = null;

  /**
   * @param {string} code the worker's script
   * @param {Uint8Array} module the library as WebAssembly, compressed
   * @param {Uint8Array} sample a small log
   */
  constructor(code, module, sample) {
    this.code = URL.createObjectURL(new Blob([code], { type: "text/javascript" }));
    this.sent = { module, sample };
    this.#begin();
  }

  /** Where no worker can be begun, there is none, which is said when it is asked. */
  #begin() {
    this.#worker = null;
    try {
      const worker = new Worker(this.code);
      worker.onmessage = ({ data: { id, ...done } }) => this.#waiting.get(id)?.(done);
      worker.onerror = () => this.stop(SENTENCES.failures.none);
      worker.postMessage(this.sent);
      this.#worker = worker;
    } catch {}
  }

  get isBusy() { return this.#waiting.size > 0; }

  /**
   * A text is copied here, and handed over; while the worker has enough to do, its sum is worked out here, and if it is the only one, its index.
   * @param {{text?: Uint8Array, [member: string]: unknown}} what
   * @returns {Promise<Done>}
   */
  async ask(what) {
    const id = ++this.#requested, isIndexed = !this.isBusy && what.text !== undefined, asked = new Promise((answer) => { this.#waiting.set(id, answer); });
    if (!this.#worker) this.#begin();
    try {
      const text = what.text?.slice(), worker = /** @type {Worker} */ (this.#worker);
      worker.postMessage({ id, ...what, text, isIndexed }, text ? [text.buffer] : []);
      if (isIndexed && what.text) worker.postMessage({ id, index: indexed(what.text, false) });
    } catch { this.stop(SENTENCES.failures.none); }
    const sum = what.text ? await sumOf(what.text).catch(() => "") : "", done = await asked;
    this.#waiting.delete(id);
    if (done.told) done.told.object.sha256 = sum;
    return done;
  }

  /**
   * Ends what is being done, which has no answer then. One that fails isn't begun again before it is asked.
   * @param {string} [error]
   */
  stop(error = STOPPED) {
    this.#worker?.terminate();
    if (error === STOPPED) this.#begin(); else this.#worker = null;
    for (const answer of this.#waiting.values()) answer({ error });
    this.#waiting.clear();
  }
}
