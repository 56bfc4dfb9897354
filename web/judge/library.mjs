/**
 * What the program does, by the library's WebAssembly module: for browsers and for node.
 *
 * The module was compiled for addresses of 64 bits, so sizes and addresses are passed as BigInt. include/vicinity.h says what
 * `vicinity_run` does, and has the numbers of the commands.
 */

/** @typedef {(...words: (number | bigint)[]) => number | bigint} Call */
/** @typedef {{name?: string, text: Uint8Array | string}} Given a text, with the name of the file that it is of */

const INTERFACE = 2, NO_ANSWER = 4, NUMBER = 8;
/** The commands of the program, by the numbers of the header. */
const COMMAND = Object.freeze({ check: 1, explain: 2, report: 3, margin: 4, simulate: 5, reconcile: 6, frame: 7, spell: 8, survey: 9, collection: 10, json: 11, "json-collection": 12 });
const ENCODER = new TextEncoder();
/** How many bytes a command may write, for each byte of its texts too, and at most, also of a collection, so that most texts are judged once. */
const FIRST_WRITTEN = 4096, WRITTEN_FOR_EACH = 16, MOST_FIRST_WRITTEN = 1 << 20, MOST_OF_ALL = 1 << 26;

export const WRONG_TEXTS = "these texts aren't what the command takes";

/** Memory was refused, so there is no answer. */
export class OutOfMemory extends Error { constructor() { super("out of memory"); } }

export class Library {
  /** @type {Record<string, Call>} */
  #calls;
  /** @type {WebAssembly.Memory} */
  #memory;
  #broken = false;

  /** @param {WebAssembly.Instance} instance */
  constructor(instance) {
    this.#calls = /** @type {any} */ (instance.exports);
    this.#memory = /** @type {any} */ (instance.exports).memory;
    if (this.#calls.vicinity_interface() !== INTERFACE) throw new Error("the module is another library");
  }

  /**
   * Over the bytes of the module.
   * @param {BufferSource} bytes
   */
  static async of(bytes) { return new Library((await WebAssembly.instantiate(bytes)).instance); }

  /** The library's version, as in the header. */
  get version() { return Number(this.#calls.vicinity_version()); }

  /**
   * What the program does for a command over texts in memory: what it writes to standard output, and its exit status. Texts that
   * aren't what the command takes throw RangeError. What has trapped, or found the stack too small, which each browser calls
   * otherwise, left its memory half written: nothing is called after that.
   * @param {keyof typeof COMMAND} command
   * @param {Given[]} texts
   * @returns {{status: number, written: Uint8Array}}
   */
  run(command, texts) {
    if (this.#broken) throw new Error("the module has failed: load it again");
    if (texts.some(({ name = "" }) => name.includes("\n"))) throw new RangeError("a name has no LF");
    const names = ENCODER.encode(texts.map(({ name = "" }) => `${name}\n`).join("")), bytes = texts.map(({ text }) => typeof text === "string" ? ENCODER.encode(text) : text);
    if (bytes.some((it) => it.BYTES_PER_ELEMENT !== 1)) throw new TypeError("a text is a Uint8Array");
    /** @type {bigint[]} */
    const taken = [];
    try {
      return this.#run(COMMAND[command], names, bytes, taken);
    } catch (error) {
      this.#broken = !(error instanceof OutOfMemory || error instanceof RangeError && error.message === WRONG_TEXTS);
      throw error;
    } finally {
      if (!this.#broken) for (const at of taken) this.#calls.vicinity_free(at);
    }
  }

  /**
   * @param {number} command
   * @param {Uint8Array} names
   * @param {Uint8Array[]} texts
   * @param {bigint[]} taken gets the bytes of the module's memory that are given back at the end
   */
  #run(command, names, texts, taken) {
    const take = (/** @type {number} */ count) => {
      const at = /** @type {bigint} */ (this.#calls.vicinity_allocate(BigInt(Math.max(count, 1))));
      if (at === 0n) throw new OutOfMemory();
      taken.push(at);
      return Number(at);
    };
    const length = texts.reduce((sum, text) => sum + text.length, 0);
    const namesAt = take(names.length), textsAt = take(length), lengthsAt = take(NUMBER * texts.length), neededAt = take(NUMBER);
    const most = command === COMMAND["json-collection"] ? MOST_OF_ALL : MOST_FIRST_WRITTEN;
    for (let room = Math.min(most, FIRST_WRITTEN + WRITTEN_FOR_EACH * length); ;) {
      const at = take(room), bytes = new Uint8Array(this.#memory.buffer), view = new DataView(this.#memory.buffer);
      bytes.set(names, namesAt);
      texts.reduce((to, text, i) => {
        bytes.set(text, to);
        view.setBigUint64(lengthsAt + NUMBER * i, BigInt(text.length), true);
        return to + text.length;
      }, textsAt);
      const given = [namesAt, names.length, textsAt, length, lengthsAt, texts.length, at, room, neededAt].map(BigInt);
      const status = Number(this.#calls.vicinity_run(command, ...given)), written = new Uint8Array(this.#memory.buffer);
      const needed = Number(new DataView(written.buffer).getBigUint64(neededAt, true));
      if (status === NO_ANSWER && needed === 0) throw new OutOfMemory();
      if (status === NO_ANSWER) throw new RangeError(WRONG_TEXTS);
      if (needed <= room) return { status, written: written.slice(at, at + needed) };
      room = needed;
    }
  }
}
