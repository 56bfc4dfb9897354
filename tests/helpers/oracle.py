"""Judges a log by brute force. It shares no code and no definition with what is proved: it was
written from docs/AIR.md, VERDICTS.md, COMMANDS.md, LOG_FORMAT.md and FRAMES.md alone.

The first lines of most logs leave eight UIDs that may be in the field, by silent slots and Stay
Quiets (random_logs.py). So there are 256 populations to try, and each is played against each line.
What is possible and certain is read off those that are left, and from that follow the answer and
the report (reports.py). The population that the library shows has to be one of them and to show the
answer. The other logs leave any UID, and one population of all that silence and replies leave is
tried.
"""
import functools

from helpers import reports
from helpers.air import (COLLISION, FIELD_CYCLE, GARBLED, SILENT, UNKNOWN, Ask, Reply, answers,
                         as_mask, fits, is_slot, lies_in, slots_of)
from helpers.random_logs import LEFT, log_text
from helpers.reports import Known, Report

ALL = 2**LEFT - 1


class Judge:
    """Tries the populations of eight UIDs. Each is a number of eight bits."""

    def __init__(self, uids):
        self.uids = sorted(uids)
        self.bits = {uid: 1 << place for place, uid in enumerate(self.uids)}

    def slots(self, lines):
        return slots_of(lines)

    def those(self, holds):
        return sum(bit for uid, bit in self.bits.items() if holds(uid))

    def judge(self, lines):
        """What is known of a log."""
        left = range(ALL + 1)
        for slot in self.slots(lines):
            would = self.those(functools.partial(answers, slot))
            its_own = self.bits.get(slot.line.uid, 0) if isinstance(slot.line, Reply) else 0
            can_be = {them: fits(slot.line, them, its_own)
                      for them in ({them & would for them in left} if would else (0,))}
            if not all(can_be.values()):
                left = [them for them in left if can_be[them & would]]
            if not left:
                return Known(slot.number, [], [])
        possible, certain = self.known(left)
        return Known(None, list(map(as_mask, possible)), certain, left)

    def known(self, populations):
        """The UIDs that are possible, and those that are certain."""
        def those(holds):
            return {uid for place, uid in enumerate(self.uids)
                    if holds(them >> place & 1 for them in populations)}
        return those(any), those(all)

    def shows(self, text, lines, populations, shown):
        """Why a population doesn't show an answer (docs/COMMANDS.md, explain); None where it
        does."""
        kind, *rest = text.split()
        if kind in ("complete", "impossible"):
            return "none can be shown" if shown else None
        them = self.those(lambda uid: uid in shown)
        if shown != sorted(set(shown) & set(self.uids)) or them not in populations:
            return "it could not have given the log"
        named = in_mask(shown, rest) if kind == "unsettled" else {int(rest[0], 16)} & set(shown)
        if bool(named) != (kind in ("unlisted", "unsettled")):
            return "it doesn't show the answer"
        most = len({line.uid for line in lines if isinstance(line, Reply)}) + 1
        most += 2 * lines.count(COLLISION) + lines.count(GARBLED)
        return "it has too many UIDs" if len(shown) > most else None

    def answer(self, lines):
        """As the library would: the line, and a population that shows it."""
        known = self.judge(lines)
        text = Report(lines, known).answer()
        return text, self.choose(text, lines, known.populations)

    def choose(self, text, lines, populations):
        for them in sorted(populations, key=lambda them: bin(them).count("1")):
            shown = [uid for place, uid in enumerate(self.uids) if them >> place & 1]
            if not self.shows(text, lines, populations, shown):
                return shown
        return []


def in_mask(uids, words):
    """Those that lie in the mask of the words `L V`."""
    return [uid for uid in uids if lies_in(uid, int(words[0]), int(words[1].replace("-", "0"), 16))]


# Wrong judges, each wrong in one rule.

def wrong(**rules):
    return type("WrongJudge", (Judge,), rules)


def takes(kind, other):
    """Takes lines of a kind for another one."""
    return wrong(slots=lambda self, lines: slots_of(
        [other if line == kind else line for line in lines]))


def takes_replies(is_captured, other):
    """Takes replies that are captured, or aren't, for another line."""
    return wrong(slots=lambda self, lines: slots_of(
        [other(line.uid) if isinstance(line, Reply) and line.captured == is_captured else line
         for line in lines]))


def silence_asks_the_quiet(self, lines):
    return [slot._replace(quiet=()) if slot.line == SILENT else slot for slot in slots_of(lines)]


def a_quiet_tag_is_captured(self, lines):
    return [slot._replace(line=UNKNOWN) if slot.line in map(captured, slot.quiet) else slot
            for slot in slots_of(lines)]


def unknown_ends_the_round(self, lines):
    read, is_over = [], False
    for line in lines:
        is_over = (is_over or line == UNKNOWN) and not isinstance(line, Ask)
        read.append(UNKNOWN if is_over and is_slot(line) else line)
    return slots_of(read)


def captured(uid):
    return Reply(uid, True)


def last_line(self, lines):
    known = Judge.judge(self, lines)
    return known._replace(impossible=known.impossible and slots_of(lines)[-1].number)


def heard_alone(self, lines):
    known = Judge.judge(self, lines)
    heard = {line.uid for line in lines if isinstance(line, Reply)}
    return known._replace(certain=heard.intersection(known.certain))


def one_too_many(self, text, lines, populations):
    shown = Judge.choose(self, text, lines, populations)
    more = [uid for uid in self.uids if uid not in shown]
    return sorted(shown + more[:1]) if shown and more else shown


def none_of_the_mask(self, text, lines, populations):
    shown, (kind, *mask) = Judge.choose(self, text, lines, populations), text.split()
    return sorted(set(shown).difference(in_mask(shown, mask) if kind == "unsettled" else ()))


WRONG = {
    "Quiet over a field cycle": takes(FIELD_CYCLE, ""),
    "silence asks Quiet tags as well": wrong(slots=silence_asks_the_quiet),
    "one tag makes a collision": takes(COLLISION, GARBLED),
    "garbled says nothing": takes(GARBLED, UNKNOWN),
    "garbled is a collision": takes(GARBLED, COLLISION),
    "a reply hides others": takes_replies(False, captured),
    "a captured reply is the only one": takes_replies(True, Reply),
    "a captured reply is garbled": takes_replies(True, lambda uid: GARBLED),
    "a captured reply says nothing": takes_replies(True, lambda uid: UNKNOWN),
    "a Quiet tag is captured": wrong(slots=a_quiet_tag_is_captured),
    "unknown is silent": takes(UNKNOWN, SILENT),
    "unknown is garbled": takes(UNKNOWN, GARBLED),
    "unknown ends the round": wrong(slots=unknown_ends_the_round),
    "the last line is named": wrong(judge=last_line),
    "those heard alone are certain": wrong(judge=heard_alone),
    "one UID too many is shown": wrong(choose=one_too_many),
    "none of the unsettled mask is shown": wrong(choose=none_of_the_mask),
}


class Case:
    """A random log, and what has to be said of it."""

    def __init__(self, version, uids, lines):
        self.version, self.uids, self.lines = version, uids, lines
        self.known = Judge(uids).judge(lines) if uids else reports.known_of(lines)
        self.report = Report(lines, self.known)
        self.answer = self.report.answer()

    @functools.cached_property
    def text(self):
        return log_text(self.version, self.lines)

    def wrong_answer(self, given, shown):
        """Why an answer, and the population that is shown, are wrong, if so."""
        if given != self.answer:
            return f"{given}, and not {self.answer}"
        why = self.uids and Judge(self.uids).shows(given, self.lines, self.known.populations, shown)
        return why and f"{given}, shown by {[f'{uid:016X}' for uid in shown]}: {why}"

    def wrong_report(self, given):
        """Why a report is wrong, if so."""
        if given[:1] != [self.answer]:
            return f"{given}, and not {self.answer} first"
        return self.report.wrong(given)
