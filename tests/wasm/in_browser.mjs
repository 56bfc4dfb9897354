/** Everything that the module answers to texts, in a browser; both are given by their addresses. */
import { Library } from "../../web/judge/library.mjs";
import { answers } from "./answers.mjs";

/** @param {string} address */
async function bytesAt(address) {
  return new Uint8Array(await (await fetch(address)).arrayBuffer());
}

/**
 * @param {string} module
 * @param {string} texts
 */
export async function run(module, texts) {
  return answers(await Library.of(await bytesAt(module)), await bytesAt(texts));
}
