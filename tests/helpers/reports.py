"""What `report` has to write of a log, written from docs/VERDICTS.md and COMMANDS.md alone. Its
first line is the answer, as `check` writes it.

What is possible and certain comes from populations that were tried (oracle.py). For a log without
first lines, and to see whether some lines of a log can be true together, one population is tried:
all UIDs that silence and replies leave. More tags spoil no collision and no garbled slot, so where
this one fails, each does.
"""
import collections

from helpers.air import (FIELD_CYCLE, LEAST, SILENT, UID_BITS, UNKNOWN, Listed, Reply, StayQuiet,
                         answers, as_mask, as_uid, fits, greatest, mask_digits, lies_in, slots_of)

MOST_OPEN = 16


def is_reply(line, uid):
    return isinstance(line, Reply) and line.uid == uid


def lacks_reply(slot, uid):
    """Whether no tag of this UID is heard in a slot, where each that answers would be."""
    if isinstance(slot.line, Reply):
        return slot.line.uid != uid and not slot.line.captured
    return slot.line == SILENT


def rules_out(slot, uid):
    """Whether a slot tells that no tag has this UID."""
    return lacks_reply(slot, uid) and answers(slot, uid)


def open_lines(masks):
    """The lines of the first open masks, and whether there are more."""
    return ["open %d %s" % (mask[0], mask_digits(*mask)) for mask in masks[:MOST_OPEN]] + (
        ["more open"] * (len(masks) > MOST_OPEN))


class Parts:
    """All UIDs, in masks that are apart, of which each slot asks all UIDs or none. Sets of them are
    the bits of a number. A part with more than one UID has three beside it that answer as it
    does."""

    def __init__(self, slots, named=()):
        self.masks, self.spans = [], {}
        uids = {uid for slot in slots for uid in slot.quiet}
        uids.update(named, (slot.line.uid for slot in slots if isinstance(slot.line, Reply)))
        uids.update(slot.mask[1] for slot in slots if slot.mask[0] > UID_BITS)
        self.divide(sorted({slot.mask for slot in slots
                            if slot.mask[0] <= UID_BITS} | set(map(as_mask, uids))), 0, 0)
        self.all = 2**len(self.masks) - 1
        self.answering = {slot: self.who_answers(slot) for slot in slots}

    def divide(self, masks, length, value):
        """Adds the parts of one mask, so that each of these masks is some of them; and which parts
        it has, to `spans`."""
        start = len(self.masks)
        longer = [mask for mask in masks if mask[0] > length]
        if longer:
            for bit in 0, 1:
                half = [mask for mask in longer if mask[1] >> length & 1 == bit]
                self.divide(half, length + 1, value + bit * 2**length)
        else:
            more = min(2, UID_BITS - length)
            self.masks += [(length + more, value + high * 2**length) for high in range(2**more)]
        self.spans[length, value] = 2**len(self.masks) - 2**start

    def of(self, uid):
        return self.spans[as_mask(uid)]

    def who_answers(self, slot):
        length, value = slot.mask
        if length > UID_BITS:
            uid = as_uid(as_mask(value))
            return self.of(uid) if answers(slot, uid) else 0
        return self.spans[slot.mask] & ~sum(self.of(uid) for uid in slot.quiet)

    def shut_out(self, slot):
        """Those that a slot rules out."""
        if slot.line == SILENT:
            return self.answering[slot]
        if isinstance(slot.line, Reply) and not slot.line.captured:
            return self.answering[slot] & ~self.of(slot.line.uid)
        return 0

    def is_met(self, slot, left):
        """Whether a slot is true if these are left."""
        its_own = self.of(slot.line.uid) if isinstance(slot.line, Reply) else 0
        return fits(slot.line, self.answering[slot] & left, its_own)

    def left_by(self, slots):
        """The parts that none of the slots rules out."""
        left = self.all
        for slot in slots:
            left &= ~self.shut_out(slot)
        return left

    def can_be_true(self, slots):
        """Whether each slot is true if all UIDs that are left are there."""
        left = self.left_by(slots)
        return all(self.is_met(slot, left) for slot in slots)

    def first_impossible(self, slots):
        """The line of the first slot that can't be true together with those before it."""
        left, asking = self.all, []
        for slot in slots:
            left &= ~self.shut_out(slot)
            asking += [slot] * (slot.line != SILENT)
            if not all(self.is_met(one, left) for one in asking):
                return slot.number
        return None

    def certain(self, slots):
        """The UIDs without which some slot isn't met."""
        left = self.left_by(slots)
        needed = 0
        for slot in slots:
            there = self.answering[slot] & left
            if isinstance(slot.line, Reply):
                needed |= self.of(slot.line.uid)
            elif bin(there).count("1") == LEAST.get(slot.line):
                needed |= there
        return [as_uid(mask)
                for place, mask in enumerate(self.masks) if needed >> place & 1
                and mask[0] == UID_BITS]


# The first impossible line; masks of what is possible, UIDs that are certain, and the populations
# that could have produced the log, if they were tried.
Known = collections.namedtuple("Known", "impossible possible certain populations", defaults=([],))


def known_of(lines):
    """What is known of a log without first lines."""
    slots = slots_of(lines)
    parts = Parts(slots, [line.uid for line in lines if isinstance(line, Listed)])
    number = parts.first_impossible(slots)
    if number:
        return Known(number, [], [])
    left = parts.left_by(slots)
    possible = [mask for place, mask in enumerate(parts.masks) if left >> place & 1]
    return Known(None, possible, parts.certain(slots))


class Report:
    """What has to be written of a log, line by line, and whether something else is right as
    well."""

    def __init__(self, lines, known):
        self.lines, self.known, self.slots = lines, known, slots_of(lines)
        self.listed = self.in_order(line.uid for line in lines if isinstance(line, Listed))
        self.number, self.possible = known.impossible, known.possible
        self.certain = sorted(known.certain)

    def in_order(self, uids):
        return sorted(uids)

    def answer(self):
        return next(self.choices())[0]

    def given(self):
        """The first right report."""
        return [choice[0] for choice in self.choices()]

    def wrong(self, given):
        """Why some lines aren't the report, if so."""
        if self.number and self.two_lines() is None:
            return self.wrong_conflict(given)
        wanted = list(self.choices())
        if len(given) == len(wanted) and all(line in choice for line, choice in zip(given, wanted)):
            return None
        return f"{given}, and not {wanted}"

    def choices(self):
        """For each line all that are right."""
        found = self.impossible() if self.number else self.findings()
        yield next(found, [f"complete {len(self.listed)}"])
        yield from found

    def findings(self):
        """The lines for a possible log, if there are some; of each all that are right."""
        for uid in self.absent():
            yield [f"absent {uid:016X}"]
            yield self.by(self.lines_against(uid)[:1])
        for uid in self.unlisted():
            yield [f"unlisted {uid:016X}"]
            yield self.by(self.lines_for(uid))
        left = self.left()
        unsettled = greatest(left - set(map(as_mask, self.listed)))
        if unsettled:
            mask = self.unsettled(unsettled)
            yield ["unsettled %d %s" % (mask[0], mask_digits(*mask))]
            yield from ([line] for line in self.open(greatest(left)))
        for uid in self.doubtful():
            yield [f"doubtful {uid:016X}"]

    def by(self, numbers):
        return [f"by line {number}" for number in numbers]

    # What is found in a possible log.

    def is_possible(self, uid):
        return any(lies_in(uid, *mask) for mask in self.possible)

    def absent(self):
        return [uid for uid in self.listed if not self.is_possible(uid)]

    def unlisted(self):
        return [uid for uid in self.certain if uid not in self.listed]

    def doubtful(self):
        return [uid for uid in self.listed if self.is_possible(uid) and uid not in self.certain]

    def left(self):
        """What is possible and not certain."""
        return set(self.possible) - set(map(as_mask, self.certain))

    def unsettled(self, masks):
        return masks[0]

    def open(self, masks):
        return open_lines(masks)

    def lines_against(self, uid):
        """The slots that rule a UID out."""
        return [slot.number for slot in self.slots if rules_out(slot, uid)]

    def lines_for(self, uid):
        """The first reply of a UID, else the slots that need it."""
        heard = [slot.number for slot in self.slots if is_reply(slot.line, uid)]
        return heard[:1] or [slot.number for slot in self.slots
                             if answers(slot, uid) and self.needs(slot)]

    def needs(self, slot):
        """Whether no more UIDs are left in a slot than it needs."""
        there = [mask for mask in self.possible if mask[0] < UID_BITS
                 or as_uid(mask) not in slot.quiet]
        there = [mask for mask in there if lies_in(mask[1], *slot.mask) or slot.mask[0] > UID_BITS
                 and lies_in(as_uid(mask), *slot.mask)]
        return len(there) == LEAST.get(slot.line)

    # What contradicts itself in an impossible log.

    def impossible(self):
        """The lines for an impossible log."""
        yield [f"impossible at line {self.number}"]
        yield from ([line] for line in self.by(self.conflict()))
        yield from ([f"silenced by line {number}"] for number in self.silencers()[-1:])

    def last(self):
        """The first slot that can't be true."""
        return next(slot for slot in self.slots if slot.number == self.number)

    def silencers(self):
        """The lines by which the tag is Quiet that is heard in the first impossible line."""
        last = self.last()
        if not isinstance(last.line, Reply) or last.line.uid not in last.quiet:
            return []
        numbered = list(enumerate(self.lines[:self.number - 2], 2))
        cycle = max((number for number, line in numbered if line == FIELD_CYCLE), default=0)
        return [number for number, line in numbered
                if isinstance(line, StayQuiet) and line.uid == last.line.uid and number > cycle]

    def two_lines(self):
        """The conflict of at most two lines, if there is one."""
        last, before = self.last(), [slot for slot in self.slots if slot.number < self.number]
        if isinstance(last.line, Reply):
            if not answers(last, last.line.uid):
                return [last.number]
            against = [slot.number for slot in before if rules_out(slot, last.line.uid)]
            if against:
                return [against[0], last.number]
        heard = [slot.number for slot in before
                 if isinstance(slot.line, Reply) and rules_out(last, slot.line.uid)]
        return [heard[0], last.number] if heard else None

    def conflict(self):
        return self.two_lines() or self.long_conflict()

    def long_conflict(self):
        """Slots of which none can be left out."""
        kept = [slot for slot in self.slots if slot.number <= self.number]
        parts = Parts(kept)
        for slot in kept[:-1]:
            without = [other for other in kept if other is not slot]
            if not parts.can_be_true(without):
                kept = without
        return [slot.number for slot in kept]

    def wrong_conflict(self, given):
        """Why some lines aren't a conflict of which none can be left out, if so."""
        slots = [slot for slot in self.slots if f"by line {slot.number}" in given]
        if given != [f"impossible at line {self.number}"] + self.by(slot.number for slot in slots):
            return f"{given}: not slots in their order"
        if not slots or slots[-1].number != self.number:
            return f"{given}: the last one isn't the first impossible line"
        parts = Parts(slots)
        if parts.can_be_true(slots):
            return f"{given}: they can be true together"
        for slot in slots:
            if not parts.can_be_true([other for other in slots if other is not slot]):
                return f"{given}: line {slot.number} can be left out"
        return None


# Wrong reports, each wrong in one rule.

def wrong(**rules):
    return type("WrongReport", (Report,), rules)


def greatest_value(self, masks):
    return [mask for mask in masks if mask[0] == masks[0][0]][-1]


def quiet_is_ruled_out(self, uid):
    return [slot.number for slot in self.slots
            if lacks_reply(slot, uid) and lies_in(uid, *slot.mask)]


def captured_rules_out(self, uid):
    return [slot.number for slot in self.slots if answers(slot, uid)
            and (slot.line == SILENT or isinstance(slot.line, Reply) and slot.line.uid != uid)]


def captured_is_not_heard(self, uid):
    heard = [slot.number for slot in self.slots if slot.line == Reply(uid)]
    return heard[:1] or Report.lines_for(self, uid)


def unknown_in_conflict(self):
    unknown = [slot.number for slot in self.slots
               if slot.line == UNKNOWN and slot.number < self.number]
    return sorted(unknown + Report.conflict(self))


def two_replies(self):
    """Where the second one is of a Quiet tag."""
    uid = self.last().line.uid if self.silencers() else None
    heard = [slot.number for slot in self.slots if is_reply(slot.line, uid)
             and slot.number < self.number]
    return heard[-1:] + [self.number] if heard else Report.conflict(self)


WRONG = {
    "the first finding of each kind alone": wrong(
        absent=lambda self: Report.absent(self)[:1],
        unlisted=lambda self: Report.unlisted(self)[:1],
        doubtful=lambda self: Report.doubtful(self)[:1]),
    "in listing order": wrong(in_order=lambda self, uids: list(uids)),
    "doubtful before unsettled": wrong(findings=lambda self: iter(sorted(
        Report.findings(self), key=lambda it: it[0].startswith(("unsettled", "open", "more"))))),
    "the greatest value of a mask": wrong(unsettled=greatest_value),
    "an absent UID is doubtful as well": wrong(
        doubtful=lambda self: [uid for uid in self.listed if uid not in self.certain]),
    "absent by a slot in which it was Quiet": wrong(lines_against=quiet_is_ruled_out),
    "absent by a captured reply": wrong(lines_against=captured_rules_out),
    "a captured reply shows no unlisted UID": wrong(lines_for=captured_is_not_heard),
    "unknown slots in a conflict": wrong(conflict=unknown_in_conflict),
    "absent by the last line": wrong(
        lines_against=lambda self, uid: Report.lines_against(self, uid)[::-1]),
    # in which more than two may have answered
    "unlisted by any collision": wrong(needs=lambda self, slot: slot.line in LEAST),
    "a certain UID in an open mask": wrong(left=lambda self: set(self.possible)),
    "open masks broken up by listed UIDs": wrong(open=lambda self, masks: Report.open(
        self, greatest(self.left() - set(map(as_mask, self.listed))))),
    "fifteen open masks": wrong(open=lambda self, masks: Report.open(
        self, masks[:MOST_OPEN - 1] + masks[MOST_OPEN:])),
    "more open masks aren't told": wrong(
        open=lambda self, masks: Report.open(self, masks[:MOST_OPEN])),
    "two replies of one UID are a conflict": wrong(conflict=two_replies),
    "a reply of a Ready tag is a conflict by itself": wrong(
        conflict=lambda self: [self.number] if isinstance(self.last().line, Reply)
        else Report.conflict(self)),
    "a conflict with lines that can be left out": wrong(long_conflict=lambda self: [
        slot.number for slot in self.slots if slot.number <= self.number]),
    "a conflict with a line too few": wrong(
        long_conflict=lambda self: Report.long_conflict(self)[1:]),
    "silenced by the first Stay Quiet": wrong(
        silencers=lambda self: Report.silencers(self)[:1]),
}
