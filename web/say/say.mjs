/** What a person is told of a log, in sentences: the answer, what to do at the shelf, and what the reader's maintainer needs. */
import { KIND } from "../judge/objects.mjs";
import { contradiction, HIDDEN } from "./contradiction.mjs";
import { askedOf, older } from "./copies.mjs";
import { refused } from "./refused.mjs";
import { SENTENCES } from "./sentences.mjs";
import { howSure, isShaken } from "./sure.mjs";
import { count, listing, numbered } from "./words.mjs";
import { whyOpen } from "./why.mjs";

/** @typedef {import("../judge/told.mjs").Told} Told */
/** @typedef {"yes" | "no" | "read" | "broken" | "refused" | "plain"} Look */
/** @typedef {{value: string, look: Look}} Shown */
/** @typedef {{name: string} & Shown} Light */
/** @typedef {string | {when: string, steps: string[]}} Step */
/**
 * @typedef {Object} Said
 * @property {Look} look
 * @property {string} sign
 * @property {string} headline
 * @property {Light[]} lights
 * @property {Step[]} shelf what to do at the shelf: steps, or steps of a case
 * @property {string} why a cause, for the shelf; empty if there is none
 * @property {string} lead what the causes are
 * @property {string[]} causes why it came so, for whoever maintains the reader
 * @property {string} test what tells the causes apart
 * @property {string[]} ask lines that send it
 * @property {import("./copies.mjs").Doubt[]} doubts what is asked about its file
 * @property {string[]} answered and what was answered
 */

const AGAIN = "Count again, to the end.", CYCLE = "Switch the reader off and on, and count again.";
const NEW_LOG = "Count again, in a new log: with less interference, tags that lie still and not on top of each other, and no second reader.";
const LOOK = "Or look whether what isn't proved is there: the answer speaks only of what the log shows.";
const ONE_ROUND = "To see whether others are here: run the inventory again, to a last round that no tag answers.";
const COMPARE = "To see the items' titles, and what should be here: open a catalogue (CSV) together with the log.";
/** If the list is what was expected here, and if it is what the reader found: of tags that didn't answer, and of others. */
const IF_EXPECTED = "If the list says what should be here:", IF_READ = "If the reader wrote the list of what it found:";
const NOT_KNOWN_WHOSE = "Count again first, unless you know who made the list, and look for what still differs.";
const IS_BROKEN = "is here, its tag is broken or covered, or its reply was lost: move it, and count again. If you don't find it, it is missing.";
const WERE_TAKEN = "Tags were taken away since it was written, it is that of another session, or it has UIDs that weren't heard: count again.";
const STRANGERS = "Find the items whose tags aren't listed, by reading items one by one; take each where it belongs, or add it to the list.";
const WERE_OMITTED = "The reader's software omitted tags that were here, or the list is that of another session: count again.";
const STAYS = "If the answer stays the same, send the log and this page (printed as PDF) to whoever maintains the reader.";
/** For whoever maintains it. */
const NOT_CLAIMED = "If the reader wrote the list, its software has to write a U line for each UID that it heard in this log, and for no other.";
const NO_LINES = "The log lists no UIDs: the reader's software has to write a U line for each UID that it heard.";
/** What an answer means. */
const ANSWERS = SENTENCES.answers, STEPS = SENTENCES.steps, NO_CONFLICT = `${HIDDEN} Read so, the log doesn't contradict itself.`;

/**
 * What is green isn't while anything is asked about it.
 * @param {Told} told
 * @param {boolean} isAlone whether it is no log of a collection, which is compared with a catalogue
 * @returns {Said}
 */
export function say(told, isAlone = true) {
  const { object } = told, asked = askedOf(isAlone ? older([{ ...object, name: object.file }], object.both) : [], object.both);
  const said = { ...answerOf(told, isAlone), ...asked }, { look, lights, headline } = said, isSure = look !== "yes" || !asked.doubts.length;
  return isSure ? said : { ...said, look: "read", sign: "i", headline: `${headline} But ${asked.doubts[0].short}.`, shelf: [],
    lights: lights.map((it) => it.look === "yes" ? { ...it, look: "plain" } : it) };
}

/**
 * @param {Told} told
 * @param {boolean} isAlone
 * @returns {Omit<Said, "doubts" | "answered">}
 */
function answerOf(told, isAlone) {
  const none = { lights: [], why: "", lead: "", test: "", ask: [] };
  if (told.object.kind === KIND.REFUSED) return { ...none, look: "refused", sign: "?", ...refused(told) };
  if (!told.conflict) return { ...none, ...possible(told, isAlone) };
  const { sentence, causes, test = "", ask = [], shelf = NEW_LOG } = contradiction(told.conflict, told);
  const isExplained = (told.object.captured?.kind ?? KIND.IMPOSSIBLE) !== KIND.IMPOSSIBLE;
  return { ...none, look: "broken", sign: "≠", headline: `${ANSWERS.contradicts}${sentence}`, shelf: [shelf, STAYS],
    lights: lightsOf(told, isAlone, { value: "not known", look: "plain" }, { value: "not known", look: "plain" }), ask, test,
    lead: `Usually it is one of these${told.conflict.silencer ? "" : "; other lines may contradict each other too"}:`,
    causes: isExplained ? [NO_CONFLICT, ...causes.filter((it) => it !== HIDDEN)] : causes };
}

/**
 * @param {Told} told
 * @param {boolean} isAlone
 */
function possible(told, isAlone) {
  const { object, object: { found, kind, open, captured: ifHidden }, counts } = told, ended = !open.count, hasList = counts.listed > 0;
  const whole = kind === KIND.COMPLETE && hasList, isHiding = (whole ? ifHidden?.holds : ifHidden?.settled) === false;
  const isSure = whole && !isHiding, only = ended && !hasList || whole, differs = found.absent || found.unlisted, why = whyOpen(told);
  // a listed tag that isn't proved may be one of those that answered
  const lacks = told.isMore && !found.doubtful, list = isSure ? "matches" : whole ? "matches what was heard" : differs ? "differs" : lacks ? "incomplete" : "not known yet";
  // a list is green only if it is complete also if the reader went deaf; of a log of a collection what is green says that with which it is compared
  const isGreen = isSure && isAlone && object.deaf?.holds, isBare = only && !isAlone && object.certain.count > 0 && !isHiding && !isShaken(told, object.deaf);
  const causes = [...why, ...hasList && found.unlisted ? [NOT_CLAIMED] : [], ...!hasList && isAlone && object.certain.count ? [NO_LINES] : []];
  const finished = /** @type {Shown} */ (!ended ? { value: "no", look: "no" } : isHiding ? { value: "not known yet", look: "plain" }
    : { value: "yes", look: "yes" });
  return { look: /** @type {Look} */ (isGreen ? "yes" : isBare ? "plain" : only ? "read" : "no"), sign: isGreen ? "✓" : isBare ? "" : only ? "i" : "!",
    headline: headline(told, isAlone), shelf: steps(told, isAlone), causes,
    why: why[0] ?? "",
    lights: lightsOf(told, isAlone, finished, { value: list, look: isSure ? "yes" : differs || lacks ? "no" : "plain" }) };
}

/**
 * @param {Told} told
 * @param {boolean} isAlone
 * @param {Shown} finished
 * @param {Shown} list if there is one
 * @returns {Light[]}
 */
function lightsOf(told, isAlone, finished, list) {
  const { object: { kind, count: number, margin, captured: ifHidden, deaf }, counts: { listed } } = told, isComplete = kind === KIND.COMPLETE;
  const other = !isComplete && listed ? "the answer may be wrong" : number === 0 ? "tags may be here" : "others may be here";
  return [{ name: "Search finished", ...finished },...isAlone ? [/** @type {Light} */ ({ name: "The reader's list", ...listed ? list : { value: "none given", look: "plain" } })] : [],
    ...howSure(isComplete && deaf ? margin : 0, number ? "still complete" : "still empty", other, isShaken(told, ifHidden), isShaken(told, deaf))];
}

/**
 * What to do at the shelf.
 * @param {Told} told
 * @param {boolean} isAlone of a log of a collection what there is to do by its catalogue stands above
 * @returns {Step[]}
 */
function steps({ object: { kind, found, open, captured: ifHidden, deaf }, counts: { listed }, quiet }, isAlone) {
  if (kind === KIND.COMPLETE) return !isAlone ? [] : !listed ? STEPS.empty : ifHidden?.holds === false ? STEPS.oneMore : deaf?.holds ? STEPS.nothing : STEPS.hears;
  if (!open.count && !listed) return [...ifHidden?.settled === false ? [ONE_ROUND, STAYS] : [], ...isAlone ? [COMPARE] : []];
  const isMore = found.unlisted > 0 && listed > 0, differs = found.absent > 0 || isMore, titles = (differs || found.doubtful) && isAlone ? [COMPARE] : [];
  const first = kind === KIND.DOUBTFUL ? [CYCLE, LOOK] : open.count ? [quiet === open.count ? CYCLE : AGAIN] : [];
  if (!differs) return [...first, STAYS, ...titles];
  const lookFor = found.absent === 1 ? `Look on this shelf for the item below. If it ${IS_BROKEN}`
    : `Look on this shelf for the ${count(found.absent, "item")} below. If one ${IS_BROKEN}`;
  const of = (/** @type {string} */ absent, /** @type {string} */ more) => [...found.absent ? [absent] : [], ...isMore ? [more] : []];
  return [...first, ...first.length ? [] : [NOT_KNOWN_WHOSE], { when: IF_EXPECTED, steps: of(lookFor, STRANGERS) }, { when: IF_READ, steps: of(WERE_TAKEN, WERE_OMITTED) }, STAYS, ...titles];
}

/**
 * The answer in a sentence, which begins with what matters most: that the search isn't finished, and then what differs.
 * @param {Told} told
 * @param {boolean} isAlone
 */
function headline(told, isAlone) {
  const { object: { kind, found, certain, open, captured: ifHidden, deaf }, silenced, quiet, isMore, counts: { listed } } = told;
  const noMore = noOthers(certain.count, isShaken(told, ifHidden), isShaken(told, deaf)), tagsHere = numbered(ANSWERS.tagsHere, certain.count);
  const only = open.count > 0 && quiet === open.count, without = listed || !isAlone ? "" : ANSWERS.noList;
  // tags that are open only since they were silenced before they were heard
  const unproved = numbered(silenced.length > found.doubtful ? ANSWERS.silenced : ANSWERS.silencedListed, silenced.length);
  const others = only ? unproved : isMore ? ANSWERS.othersAre : ANSWERS.othersMayBe;
  if (kind === KIND.COMPLETE && !certain.count) return isAlone ? ANSWERS.empty : ANSWERS.emptyField;
  // what else a catalogue says of it stands above
  if (kind === KIND.COMPLETE) return (isAlone ? numbered(ANSWERS.allListed, certain.count) : tagsHere) + noMore;
  if (!open.count && !listed) return tagsHere + noMore + without;
  if (!open.count && !certain.count) return numbered(ANSWERS.noneAnswered, listed);
  const left = open.count ? ANSWERS.notFinished : "", here = listed - found.absent - found.doubtful, all = numbered(ANSWERS.allListed, listed);
  if (!listed && certain.count) return `${left}${tagsHere}; ${others}.${without}`;
  if (!listed) return `${left}${only ? others : isMore ? ANSWERS.noneRead : ANSWERS.noneProved}.${without}`;
  const ofListed = here === listed ? all[0].toLowerCase() + all.slice(1) : `${here.toLocaleString("en")} of ${count(listed, "listed tag")} ` +
    `${here === 1 || listed === 1 ? "is" : "are"} ${open.count ? "proved to be here" : "here"}`;
  const kinds = /** @type {("absent" | "unlisted" | "doubtful")[]} */ (only ? ["absent", "unlisted"] : ["absent", "unlisted", "doubtful"]);
  const parts = [...kinds.filter((it) => found[it]).map((it) => numbered(ANSWERS[it], found[it])), ...only ? [others] : []], differs = found.absent || found.unlisted || found.doubtful;
  return `${left}${differs ? `${listing(parts)}; ${ofListed}` : `${ofListed}; ${others}`}.`;
}

/**
 * What is said of several logs together: how many there are, and if that is said, how many of them are green.
 * @param {(Look | undefined)[]} looks of each, if it is said
 * @param {number} logs
 * @param {number} foreign how many files aren't logs
 */
export function headlineOfEach(looks, logs, foreign) {
  const green = looks.filter((look) => look === "yes").length, others = foreign ? ` ${count(foreign, "file isn't a log", "files aren't logs")}.` : "";
  const how = looks.length && logs ? ` Complete, as far as a log can show: ${green.toLocaleString("en")} of ${logs.toLocaleString("en")}.` : "";
  return `${count(logs, "log")}${logs > 1 ? ", each with its own answer" : ""}.${how}${others}`;
}

/**
 * What is said behind tags that are here, where nothing is left to ask.
 * @param {number} number
 * @param {boolean} isHiding whether others may be there if their replies were hidden
 * @param {boolean} isDeaf whether others may be there if the reader went deaf
 */
export const noOthers = (number, isHiding, isDeaf) => isHiding ? ANSWERS.ifHidden : numbered(isDeaf ? ANSWERS.noOthersHeard : ANSWERS.noOthers, number);
