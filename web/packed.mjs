/** What a page carries with it, compressed. */

/**
 * What is written in base64.
 * @param {string} text
 */
export const bytesOf = (text) => Uint8Array.from(atob(text), (letter) => letter.charCodeAt(0));

/** @param {Uint8Array} bytes that were compressed */
export const unpacked = async (bytes) => new Uint8Array(await new Response(new Blob([bytes]).stream().pipeThrough(
  new (/** @type {any} */ (globalThis).DecompressionStream)("deflate"))).arrayBuffer());
