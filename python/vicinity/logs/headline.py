"""The answer to a log in one sentence, and how sure it is: what its page says, too."""
from typing import Iterator

from .._answers import Kind
from .._objects import UID_BITS
from .._sentences import SENTENCES, numbered
from .findings import CONFLICTS, JudgedLog
from .words import count, listing

#: How many lines of a contradiction a sentence names.
MOST_NAMED = 4
ANSWERS = SENTENCES["answers"]
#: How an answer is read more cautiously: in the object of a log, in that of a collection, in words.
READ_AGAIN = (("captured", "hidden", "If replies were hidden"),
              ("deaf", "deaf", "If the reader went deaf"))
STILL_COMPLETE, MAY_BE_HERE = "still complete", "others may be here"


def headline(log: JudgedLog) -> str:
    """The answer in a sentence, as the page says it."""
    answer = log.answer
    if answer.kind is Kind.REFUSED:
        if log.rows.foreign:
            return str(ANSWERS["foreign"]).format(log.rows.foreign[0])
        what = ANSWERS["cannotBeUsed" if answer.line > 1 else "noLog"]
        cut = " The text ends in the middle of this line: was it cut?" if log.rows.is_cut else ""
        return f"{what}. Line {answer.line}: {log.rows.advice(answer.fault.word).wrong}.{cut}"
    if answer.kind is Kind.IMPOSSIBLE:
        return f"{ANSWERS['contradicts']}{_contradiction(log)}."
    if answer.kind is Kind.COMPLETE:
        here = numbered("allListed", answer.count) + _others(log, answer.count)
        return here if answer.count else str(ANSWERS["empty"])
    return _unfinished(log)


def _unfinished(log: JudgedLog) -> str:
    """The sentence of a list that isn't complete: the first whose condition holds."""
    left, listed, found = log.object["open"]["count"], log.rows.listed, log.object["found"]
    certain, silenced = log.object["certain"]["count"], _silenced(log)
    here, of_listed = numbered("tagsHere", certain), _of_listed(log)
    others = silenced or ANSWERS["othersAre" if log.is_more else "othersMayBe"]
    none = silenced or ANSWERS["noneRead" if log.is_more else "noneProved"]
    sentence = first(
        (not left and not listed, f"{here}{_others(log, certain)}"),
        (not left and not certain, numbered("noneAnswered", listed)),
        (not listed and not certain, f"{none}."),
        (not listed, f"{here}; {others}."),
        (not any(found.values()), f"{of_listed}; {others}."),
        (True, f"{_differences(log, silenced)}; {of_listed}."))
    not_finished = ANSWERS["notFinished"] if left else ""
    return f"{not_finished}{sentence}{'' if listed else ANSWERS['noList']}"


def first(*cases: tuple[object, str]) -> str:
    """The words of the first case whose condition holds."""
    return next(words for holds, words in cases if holds)


def _differences(log: JudgedLog, silenced: str) -> str:
    """In what a list differs from what was found; of doubtful tags that were silenced, this."""
    found = log.object["found"]
    kinds = ("absent", "unlisted") if silenced else ("absent", "unlisted", "doubtful")
    parts = [numbered(kind, found[kind]) for kind in kinds if found[kind]]
    return listing([*parts, silenced] if silenced else parts)


def _others(log: JudgedLog, number: int) -> str:
    """What is said of other tags behind those that are here, where nothing is left to ask."""
    if log.is_shaken("captured"):
        return str(ANSWERS["ifHidden"])
    return numbered("noOthersHeard" if log.is_shaken("deaf") else "noOthers", number)


def _silenced(log: JudgedLog) -> str:
    """What is said of tags that were silenced before they were heard, if nothing else is open."""
    if not 0 < len(log.quiet) == log.object["open"]["count"]:
        return ""
    number = sum(1 << UID_BITS - mask.length for mask in log.quiet)
    are_listed = number <= log.object["found"]["doubtful"]
    return numbered("silencedListed" if are_listed else "silenced", number)


def _of_listed(log: JudgedLog) -> str:
    """How many listed tags are here, or proved to be where something is left to ask; behind the
    beginning of a sentence."""
    found, listed = log.object["found"], log.rows.listed
    here = listed - found["absent"] - found["doubtful"]
    if here == listed:
        whole = numbered("allListed", listed)
        return whole[0].lower() + whole[1:]
    are = "is" if 1 in (here, listed) else "are"
    proved = "proved to be " if log.object["open"]["count"] else ""
    return f"{here:,} of {count(listed, 'listed tag')} {are} {proved}here"


def lights(log: JudgedLog) -> Iterator[tuple[str, str]]:
    """What else is known of an answer, by name: whether the search is finished, what the list is
    worth, how often each other tag was asked, and whether the answer holds if replies were hidden,
    and if the reader went deaf."""
    kind, is_complete, number = log.answer.kind, log.answer.is_complete, log.answer.count
    if kind is Kind.REFUSED:
        return
    yield "Search finished", first(
        (kind is Kind.IMPOSSIBLE, "not known"), (log.object["open"]["count"], "no"),
        (log.settles("captured"), "yes"), (True, "not known yet"))
    yield "List", _list(log)
    if is_complete:
        name = "Each other tag was asked" if number else "Each tag was asked"
        yield name, numbered("asked", log.object["margin"])
    for reading, _, name in READ_AGAIN:
        if is_complete and log.holds(reading):
            yield name, STILL_COMPLETE if number else "still empty"
        elif log.is_shaken(reading):
            yield name, first((is_complete and not number, "tags may be here"),
                              (is_complete or not log.rows.listed, MAY_BE_HERE),
                              (True, "the answer may be wrong"))


def _list(log: JudgedLog) -> str:
    """What the list is worth."""
    found, is_complete = log.object["found"], log.answer.is_complete
    return first((not log.rows.listed, "none given"),
                 (log.answer.kind is Kind.IMPOSSIBLE, "not known"),
                 (is_complete and log.holds("captured"), "matches"),
                 (is_complete, "matches what was heard"),
                 (found["absent"] or found["unlisted"], "differs"),
                 (log.is_more and not found["doubtful"], "incomplete"),
                 (True, "not known yet"))


def _contradiction(log: JudgedLog) -> str:
    """Which lines contradict each other."""
    lines = sorted({finding.line for kind in CONFLICTS for finding in log.of(kind)})
    if len(lines) == 1:
        return f"line {lines[0]} can't be true"
    if len(lines) > MOST_NAMED:
        return f"{len(lines):,} lines from {lines[0]} to {lines[-1]} can't all be true"
    return f"lines {listing(list(map(str, lines)))} can't {'all' if lines[2:] else 'both'} be true"
