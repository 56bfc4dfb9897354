/**
 * What the module writes of texts by some of the commands, each answer after its status and its length.
 *
 *     node answers.mjs MODULE.wasm <TEXTS
 */
import { Library } from "../../web/judge/library.mjs";

/** @type {("check" | "explain" | "report" | "margin" | "json" | "survey")[]} */
const COMMANDS = ["check", "explain", "report", "margin", "json", "survey"];

/**
 * Texts, each after its length in decimal and an LF.
 * @param {Uint8Array} texts
 */
export function* textsIn(texts) {
  for (let at = 0; at < texts.length;) {
    const end = texts.indexOf(10, at), length = Number(new TextDecoder().decode(texts.subarray(at, end)));
    yield texts.subarray(end + 1, at = end + 1 + length);
  }
}

/**
 * @param {Library} library
 * @param {Uint8Array} texts
 */
export function answers(library, texts) {
  return [...textsIn(texts)].flatMap((text) => COMMANDS.map((command) => {
    const { status, written } = library.run(command, [{ name: "log", text }]);
    return `${command} ${status} ${written.length}\n${new TextDecoder().decode(written)}`;
  })).join("");
}

if (typeof process !== "undefined" && process.argv[1]?.endsWith("answers.mjs")) {
  const { readFileSync, writeSync } = await import("node:fs");
  const library = await Library.of(readFileSync(process.argv[2]));
  const written = new TextEncoder().encode(answers(library, readFileSync(0)));
  for (let at = 0; at < written.length;) at += writeSync(1, written, at);
}
