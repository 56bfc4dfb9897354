/**
 * What the pages read of frames and what the library reads, of each line of standard input that is a request's or a reply's,
 * and the requests that the pages write: the lines that differ.
 *
 *     node frames.mjs MODULE.wasm <FRAMES
 */
import { readFileSync } from "node:fs";

import { inventoryOf, linkOf, maskOf, requestOf, slotMask, stayQuietOf, uidIn } from "../../web/judge/frames.mjs";
import { Library } from "../../web/judge/library.mjs";
import { Log } from "../../web/judge/log.mjs";

const bytes = readFileSync(process.argv[2]), library = await Library.of(bytes);
const calls = /** @type {any} */ ((await WebAssembly.instantiate(bytes)).instance.exports), at = calls.vicinity_allocate(16n);
const READ = /^request (?:inventory link (\d) slots (\d+) mask (\d+) (\S+)|stay-quiet link (\d) uid (\w+))$|^response flags \w+ dsfid \w+ uid (\w+)$/;
let tried = 0;

/** @param {string} digits */
function differs(digits) {
  const lines = new TextDecoder().decode(library.run("frame", [{ text: digits }]).written).trim().split("\n");
  return lines.map((line) => line.match(READ)).filter((it) => it).some((it) => {
    const [, link, slots, len, value, quietLink, quiet, replied] = it ?? [];
    tried++;
    if (replied) return uidIn(digits) !== BigInt(`0x${replied}`);
    const log = new Log(new TextEncoder().encode(`vicinity-log 1\nT ${digits}\nS\n`)), written = digits.toUpperCase();
    if (linkOf(digits) !== Number(link ?? quietLink) || log.isQuiet(0) !== Boolean(quiet)) return true;
    if (quiet) return uidIn(digits) !== BigInt(`0x${quiet}`) || stayQuietOf(BigInt(`0x${quiet}`), Number(quietLink)) !== written;
    const read = inventoryOf(digits), mask = maskOf({ mask_len: Number(len), mask_value: value });
    if (log.hasUnread(0) !== (Number(slots) > 1)) return true;
    if (read.slots !== Number(slots) || read.mask.len !== mask.len || read.mask.value !== mask.value) return true;
    return requestOf(read.slots, read.mask, Number(link)) !== written || [...Array(read.slots).keys()].some((slot) => isOther(read, slot));
  });
}

/**
 * Whether the mask of a slot is another one than the library's.
 * @param {import("../../web/judge/frames.mjs").Inventory} read
 * @param {number} slot
 */
function isOther(read, slot) {
  calls.vicinity_slot_mask(read.slots, read.mask.len, read.mask.value, slot, at);
  const view = new DataView(calls.memory.buffer, Number(at)), { len, value } = slotMask(read, slot);
  return view.getUint32(4, true) !== len || view.getBigUint64(8, true) !== value;
}

const lines = readFileSync(0, "utf8").trim().split("\n"), wrong = lines.filter(differs);
console.log(JSON.stringify({ tried, wrong }));
