/**
 * Makes the module's calls for tests/helpers/wasm.py, which passes on their arguments:  node serve.mjs MODULE.wasm
 *
 * A call is a line of JSON, `{call, words}`, and the bytes of its buffers. A word is a number of 32 bits, a text of digits
 * with one of 64, or `{bytes, again}`: how many bytes its buffer has, and whether they are given back. The answer is a line,
 * `{result}` or `{error}`, and these bytes.
 */
import { readFileSync, readSync, writeSync } from "node:fs";

const calls = (await WebAssembly.instantiate(readFileSync(process.argv[2]))).instance.exports;
let input = Buffer.alloc(0);

/** @param {number} least how many bytes are there at least, unless the input ends */
function fill(least) {
  const pieces = [input];
  let size = input.length;
  while (size < least) {
    const piece = Buffer.alloc(1 << 20), got = readSync(0, piece);
    if (got === 0) break;
    pieces.push(piece.subarray(0, got));
    size += got;
  }
  input = Buffer.concat(pieces);
  return size >= least;
}

function take(count) {
  fill(count);
  const taken = input.subarray(0, count);
  input = input.subarray(count);
  return taken;
}

function line() {
  let end;
  while ((end = input.indexOf(10)) < 0) if (!fill(input.length + 1)) return null;
  const said = input.subarray(0, end).toString();
  input = input.subarray(end + 1);
  return said;
}

function write(bytes) {
  for (let at = 0; at < bytes.length;) at += writeSync(1, bytes, at);
}

function passed(word) {
  if (typeof word === "number") return word;
  if (typeof word === "string") return BigInt(word);
  const at = calls.vicinity_allocate(BigInt(word.bytes));
  if (at === 0n) throw new Error("the module has no memory for an argument");
  word.at = Number(at);
  new Uint8Array(calls.memory.buffer).set(take(word.bytes), word.at);
  return at;
}

for (let said; (said = line()) !== null;) {
  const { call, words } = JSON.parse(said), back = [];
  try {
    const result = calls[call](...words.map(passed));
    for (const { at, bytes, again } of words.filter((word) => typeof word === "object")) {
      if (again) back.push(Buffer.from(calls.memory.buffer.slice(at, at + bytes)));
      calls.vicinity_free(BigInt(at));
    }
    back.unshift(Buffer.from(`${JSON.stringify({ result: Number(result ?? 0) })}\n`));
  } catch (error) {
    back.splice(0, back.length, Buffer.from(`${JSON.stringify({ error: String(error) })}\n`));
  }
  write(Buffer.concat(back));
}
