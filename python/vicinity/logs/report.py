"""What is found in a log, and what is worth a look there: in lines for people,
and as JSON, one object for each log."""
from typing import Iterator, Optional

from .._answers import Finding, FindingKind, Mask
from .._objects import UID_BITS, Object, of_file
from ..frames import uid_text
from .findings import WORDS, JudgedLog
from .headline import headline
from .words import count, ending, meaning

#: How many notes of one kind are written separately.
MOST_NOTES = 5
#: Of how many findings of each kind it is said what their line says.
MOST = 2000


def described(log: JudgedLog, most: Optional[int] = None) -> Iterator[tuple[Finding, str]]:
    """The findings, the first `most` of each kind, each in words. The unsettled mask is one of the
    open ones."""
    for kind in WORDS:
        for finding in log.of(kind)[:most] if kind is not FindingKind.UNSETTLED else ():
            yield finding, _words(log, finding)


def _words(log: JudgedLog, finding: Finding) -> str:
    """What a finding says of its mask or its UID; nothing if it has neither."""
    if finding.kind is FindingKind.OPEN_MASK:
        return f"{ending(finding.mask)} may be there"
    if finding.kind is FindingKind.DOUBTFUL:
        return f"{uid_text(finding.uid)} may be missing"
    uid = uid_text(finding.uid) if finding.uid else ""
    slots = log.overlooked.get(uid)
    return f"{uid} would have been missed in {count(slots, 'slot')}" if slots else uid


def _left(log: JudgedLog, finding: Finding) -> str:
    """What is left to ask of a finding that isn't settled."""
    if finding.kind not in (FindingKind.OPEN_MASK, FindingKind.DOUBTFUL):
        return ""
    mask = Mask(UID_BITS, finding.uid & (1 << UID_BITS) - 1) if finding.uid else finding.mask
    cycle = "switch the field off and on, write F, and " * (mask in log.quiet)
    if cycle and not log.rows.has_cycles:
        return "count again, in a new log of version 3"
    return f"{cycle}send {log.rows.ask(mask)}"


def lines_of_report(name: str, log: JudgedLog) -> Iterator[str]:
    """A line for each finding and note, like a compiler's: with the number of the line
    of the log that shows it, or of the one after which further requests go.
    There is no finding if the list is complete."""
    if log.answer.status > 1:
        fault = log.answer.fault.word
        why = f"{fault}: {log.rows.advice(fault).wrong}" if log.refused_line else headline(log)
        yield f"{name}:{log.answer.line}: {log.answer.kind.word}: {why}\n"
    quoted = {line: meaning(log.rows, line) for line in log.lines(MOST)}
    for finding, words in described(log):
        parts = WORDS[finding.kind], words, _left(log, finding), quoted.get(finding.line)
        yield f"{name}:{finding.line or log.rows.asked_until}: {': '.join(filter(None, parts))}\n"
    yield from (f"{name}:{line}: note: {text}\n" for line, text in notes(log))


def object_of_report(name: str, log: JudgedLog) -> Object:
    """What `--json` says of a log: its object, with a sentence and all notes."""
    return {**of_file(name, log.object), "sentence": headline(log),
            "notes": [{"line": line, "text": text} for line, text in notes(log)]}


def notes(log: JudgedLog) -> Iterator[tuple[int, str]]:
    """What is worth a look in lines of a log, and isn't part of the answer: tags that were silenced
    and never heard, and rounds that were cut short; of many of a kind the first."""
    rows, unheard, cut = log.rows, dict[int, int](), list[tuple[int, str]]()
    for row in map(rows.row, range(0 if log.refused_line else len(rows.lines))):
        if row.request is None:
            continue
        slots, uid = row.request.slots, row.request.uid
        if row.number < slots:
            cut.append((row.line, f"this round was cut short after {row.number} of "
                                  f"{count(slots, 'slot')}" if row.number else
                                  "none of this round's slots is logged"))
        if not slots and not rows.is_heard(uid):
            unheard.setdefault(uid, row.line)
    never = [(line, f"{uid_text(uid)} was silenced here but never heard")
             for uid, line in unheard.items()]
    for alike in never, cut:
        yield from alike[:MOST_NOTES]
        if alike[MOST_NOTES:]:
            yield alike[MOST_NOTES][0], f"{count(len(alike) - MOST_NOTES, 'more note')} like these"
