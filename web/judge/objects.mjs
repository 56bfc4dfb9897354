/** What the library writes, as docs/answers.schema.json has it, with what only who opens the files knows. */

/** The kinds of answers and findings. */
export const KIND = Object.freeze({ COMPLETE: "complete", ABSENT: "absent", UNLISTED: "unlisted", UNSETTLED: "unsettled",
  DOUBTFUL: "doubtful", IMPOSSIBLE: "impossible", REFUSED: "refused" });

/** @typedef {{mask_len: number, mask_value: string}} MaskFields */
/**
 * The object of a log, as docs/answers.schema.json has it.
 * @typedef {Object} LogObject
 * @property {number} schema
 * @property {string} version of the library
 * @property {string} file
 * @property {string} kind
 * @property {number} status
 * @property {string} answer the line that `vicinity check` prints
 * @property {number} [count]
 * @property {number} [line]
 * @property {string} [fault]
 * @property {string} [uid]
 * @property {number} [mask_len]
 * @property {string} [mask_value]
 * @property {number} lines
 * @property {boolean} ended whether the text ends with an LF
 * @property {string} sha256 empty where it can't be had
 * @property {number} [changed] when the file was
 * @property {string} text
 * @property {{kind: string, uid?: string, line?: number, overlooked?: number}[]} findings the first of each kind, and all lines
 *   of a conflict; an absent UID was overlooked in so many slots
 * @property {{absent: number, unlisted: number, doubtful: number}} found how many there are
 * @property {{count: number, uids: string[]}} certain
 * @property {{count: number, uids: string, masks: {mask_len: number, mask_value: string, ask: string[]}[]}} open
 * @property {string | null} unnoticed a UID that isn't listed, and could be there
 * @property {Reading} [captured] of a log: how it is read if strong replies hid weaker ones
 * @property {Reading} [deaf] and if moreover the reader went deaf behind the last slot in which a tag answered
 * @property {number} [margin] of a complete list
 * @property {MaskFields} [weakest]
 * @property {number} [newer] when a file was that was here before it, if that is newer
 * @property {string} [than] the name of that file
 * @property {number} [beside] by what answers know all that are newer
 * @property {string[]} [both] what was answered of it, by the keys of the questions
 */
/** @typedef {{margin: number, weakest: MaskFields}} Margin in how many slots a tag that isn't listed would have had to be missed, and
 *    the weakest mask */
/**
 * How a log is read more cautiously.
 * @typedef {Object} Reading
 * @property {boolean} holds whether the answer also holds then
 * @property {string} [kind] of the answer that does, if it doesn't
 * @property {number} [status]
 * @property {number} [mask_len] of what is unsettled then
 * @property {string} [mask_value]
 * @property {number} [margin] of a complete list, if it holds
 * @property {boolean} [settled] where nothing is left to ask, whether the same is known and nothing left then
 */
/** @typedef {"no tag" | "returned" | "in place" | "misplaced" | "there" | "not provable" | "away" | "not counted" | "missing" |
 *    "unexpected"} State */
/** @typedef {{uid: string | null, state: State, place: string | null, cells?: string[], certain_in: number[], possible_in: number[]}} Item */
/** @typedef {Omit<Item, "state" | "place" | "cells"> & {line: number}} Unexpected */
/**
 * Of a log `denied` are the UIDs on its own list that it rules out, and `was` is the name of its file, if it took the place of another;
 * `changed` is when the file was, and `newer` when one was of its name, called `than`, that isn't here any more; `surveys` is the sum of the text that has it.
 * @typedef {{name: string, place: string | null, left_over: boolean, field: string, answers?: number, certain?: number, shared?: number,
 *   open?: MaskFields[], more?: boolean, margin?: number, hidden?: MaskFields | null, deaf?: MaskFields | null, sha256?: string,
 *   object?: LogObject, denied?: string[], surveys?: string, was?: string, changed?: number, newer?: number, than?: string, beside?: number}} OneLog
 */
/**
 * The object of a collection, as docs/answers.schema.json has it.
 * @typedef {Object} CollectionObject
 * @property {number} schema
 * @property {string} version
 * @property {string} file the catalogue's name
 * @property {number} status
 * @property {string} answer
 * @property {{margin: number, weakest: MaskFields, log: number}} [margin] of a complete collection
 * @property {number} [wanted] the margin that was asked for, where its own is less or isn't known
 * @property {Record<State, number>} counts how many items there are of each state
 * @property {string[]} columns
 * @property {boolean} ended whether the catalogue ends by LF
 * @property {Item[]} items
 * @property {Unexpected[]} unexpected
 * @property {string[]} without_log
 * @property {OneLog[]} logs
 * @property {{file: string, sha256: string, changed?: number, newer?: number, than?: string, beside?: number, text?: string}[]} files what was given beside the
 *   logs, of which only a table of places has its text
 * @property {string[]} [both] what was answered of its files, by the keys of the questions
 * @property {string} [example] that it is one, and no count
 * @property {{rows: string[], key: string, names: string[]}} [lost] rows of catalogues that aren't here any more, of which this one has none, by what these are known, and
 *   their names
 * @property {string[]} [left] what is said of files that were left out, or count as others, on which the answer rests
 */
