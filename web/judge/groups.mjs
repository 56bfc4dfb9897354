/** What is made once, and items by their keys. */

/**
 * What was made of a key before, or is made of it now.
 * @template Key, Made
 * @param {{get: (key: Key) => Made | undefined, set: (key: Key, made: Made) => unknown}} before
 * @param {Key} key
 * @param {() => Made} make
 */
export function madeOnce(before, key, make) {
  const made = before.get(key) ?? make();
  before.set(key, made);
  return made;
}

/**
 * Items by their keys, in the order of the first of each.
 * @template Item, Key
 * @param {Iterable<Item>} items
 * @param {(item: Item) => Key} keyOf
 */
export function grouped(items, keyOf) {
  const groups = /** @type {Map<Key, Item[]>} */ (new Map());
  for (const item of items) madeOnce(groups, keyOf(item), () => /** @type {Item[]} */ ([])).push(item);
  return groups;
}
