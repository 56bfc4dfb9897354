/**
 * The fields of a log's frames, from their digits. Nothing is checked: the library has accepted the log. docs/FRAMES.md has
 * the layout.
 */

/** @typedef {{len: number, value: bigint}} Mask the UIDs whose low bits, so many, are the value */
/** @typedef {{slots: number, mask: Mask}} Inventory */

/** The Nb_slots_flag in the flags, which is the Address_flag without inventory; the bits that say the link; the command of a
 *  Stay Quiet request. */
const ONE_SLOT = 0x20, ADDRESSED = 0x20, INVENTORY_FLAG = 4, LINK = 3, INVENTORY = 1, STAY_QUIET = 2;
/** One subcarrier, high data rate; the bits of a UID, and those in which UIDs differ: the others are those of E0. */
export const ANY_LINK = 2, SLOTS = 16, UID_LEN = 64, UID_BITS = 56;
/** The bits of a slot's number, and of the longest mask that sixteen slots have. */
const SLOT_BITS = 4, MOST_ASKED = 60;
/** Where the digits of the command, of the length of a mask, of its value and of a UID begin, and how many that has. */
const COMMAND_AT = 2, LENGTH_AT = 4, VALUE_AT = 6, UID_AT = 4, UID_DIGITS = 16;
/** ISO/IEC 13239, 16-bit FCS: so many digits at the end of a frame. */
const CRC_DIGITS = 4, CRC_START = 0xFFFF, CRC_POLYNOMIAL = 0x8408;

/**
 * @param {bigint | number} value
 * @param {number} [digits]
 */
export const hex = (value, digits = 16) => value.toString(16).toUpperCase().padStart(digits, "0");

/**
 * The digits of bytes in the opposite order.
 * @param {string} digits
 */
const turnedOf = (digits) => (digits.match(/../g) ?? []).reverse().join("");

/**
 * The number that bytes have, which are sent low byte first.
 * @param {string} digits
 */
const numberOf = (digits) => BigInt(`0x${turnedOf(digits) || "0"}`);

/** @param {string} frame */
const withCrc = (frame) => frame + crcOf(frame);

/** @param {string} frame */
export const linkOf = (frame) => parseInt(frame.slice(0, 2), 16) & LINK;

/**
 * The UID in a Stay Quiet request, or in a reply.
 * @param {string} frame
 */
export const uidIn = (frame) => numberOf(frame.slice(UID_AT, UID_AT + UID_DIGITS));

/**
 * The frame that silences a tag.
 * @param {bigint} uid
 * @param {number} link
 */
export const stayQuietOf = (uid, link) => withCrc(hex(ADDRESSED | link, 2) + hex(STAY_QUIET, 2) + turnedOf(hex(uid)));

/**
 * The frame that asks for a mask.
 * @param {number} slots
 * @param {Mask} mask
 * @param {number} link
 */
export const requestOf = (slots, { len, value }, link) => withCrc(hex((slots === 1 ? ONE_SLOT : 0) | INVENTORY_FLAG | link, 2) +
  hex(INVENTORY, 2) + hex(len, 2) + (len ? turnedOf(hex(value, 2 * Math.ceil(len / 8))) : ""));

/**
 * @param {{mask_len: number, mask_value: string}} written
 * @returns {Mask}
 */
export const maskOf = ({ mask_len, mask_value }) => ({ len: mask_len, value: mask_value === "-" ? 0n : BigInt(`0x${mask_value}`) });

/**
 * Whether a UID is in a mask.
 * @param {Mask} mask
 * @param {bigint} uid
 */
export const hasUid = ({ len, value }, uid) => !BigInt.asUintN(len, value ^ uid);

/**
 * The line that asks for a mask in sixteen slots, or in one if it is too narrow for these.
 * @param {Mask} mask
 * @param {number} link
 */
export const sixteen = (mask, link) => `T ${requestOf(mask.len > MOST_ASKED ? 1 : SLOTS, mask, link)}`;

/**
 * The CRC of bytes as it is sent, low byte first.
 * @param {string} digits
 */
export function crcOf(digits) {
  let crc = CRC_START;
  for (const pair of digits.match(/../g) ?? []) {
    crc ^= parseInt(pair, 16);
    for (let bit = 0; bit < 8; bit++) crc = crc & 1 ? crc >> 1 ^ CRC_POLYNOMIAL : crc >> 1;
  }
  const sent = hex(crc ^ CRC_START, CRC_DIGITS);
  return sent.slice(2) + sent.slice(0, 2);
}

/**
 * @param {string} frame
 * @returns {Inventory}
 */
export function inventoryOf(frame) {
  const len = parseInt(frame.slice(LENGTH_AT, VALUE_AT), 16), slots = parseInt(frame.slice(0, COMMAND_AT), 16) & ONE_SLOT ? 1 : SLOTS;
  return { slots, mask: { len, value: numberOf(frame.slice(VALUE_AT, VALUE_AT + 2 * Math.ceil(len / 8))) } };
}

/**
 * Which UIDs answer in a slot, counted from 0.
 * @param {Inventory} asked
 * @param {number} slot
 * @returns {Mask}
 */
export const slotMask = ({ slots, mask: { len, value } }, slot) => slots === 1 ? { len, value } : { len: len + SLOT_BITS, value: value | BigInt(slot) << BigInt(len) };
