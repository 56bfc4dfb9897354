"""Counts how often UIDs were overlooked: written from docs/AIR.md and VERDICTS.md alone.

All UIDs are divided into masks of which each slot asks all or none, so that one UID of each mask is
enough."""
import collections

from helpers.air import (FIELD_CYCLE, UID_BITS, Listed, StayQuiet, answers, as_mask, as_uid,
                         divided, greatest, mask_digits, lies_in, slots_of)
from helpers.random_logs import line_text
from helpers.reports import is_reply

# The margin of a log, and the length and the value of its weakest mask.
Weakest = collections.namedtuple("Weakest", "margin length value")


class Margins:
    """How often each UID was overlooked in a log."""
    counted = "SR"

    def __init__(self, lines):
        self.listed = {as_mask(line.uid) for line in lines if isinstance(line, Listed)}
        self.slots = self.slots_of(lines)

    def slots_of(self, lines):
        """Those that were silent, or in which one tag was heard alone."""
        return [slot for slot in slots_of(lines) if line_text(slot.line)[0] in self.counted]

    def is_overlooked(self, slot, uid):
        return answers(slot, uid) and not is_reply(slot.line, uid)

    def of(self, uid):
        return sum(self.is_overlooked(slot, uid) for slot in self.slots)

    def left_out(self):
        """The masks of the UIDs that have no say."""
        return self.listed

    def unlisted(self):
        """Masks that have all UIDs which aren't listed, each with the margin of its UIDs."""
        # a mask that is longer than a UID has one UID, or none
        masks = {slot.mask if slot.mask[0] <= UID_BITS else as_mask(slot.mask[1])
                 for slot in self.slots}
        masks.update(as_mask(uid) for slot in self.slots for uid in slot.quiet)
        masks.update(as_mask(slot.line.uid) for slot in self.slots if hasattr(slot.line, "uid"))
        left_out = self.left_out()
        return {part: self.of(as_uid(part)) for part in divided(masks | self.listed)
                if part not in left_out}

    def least(self, margins):
        return min(margins)

    def weakest(self):
        margins = self.unlisted()
        least = self.least(margins.values())
        return Weakest(least, *self.first(greatest(part for part, margin in margins.items()
                                                   if margin == least)))

    def first(self, masks):
        return masks[0]

    def is_answer(self, slot):
        """Whether a tag answered in the slot."""
        return line_text(slot.line)[0] in "RHCD"

    def silent(self):
        return [slot for slot in self.slots if line_text(slot.line) == "S"]

    def heard_last(self, lines):
        """The number of the last line in which a tag answered, 0 if there is none."""
        return max((slot.number for slot in slots_of(lines) if self.is_answer(slot)), default=0)

    def readings(self, lines):
        """Of a complete list: the first masks of the UIDs that aren't listed and possible if
        replies may have hidden others, so that only silence rules out; and if, besides, nothing
        is known of the silence behind the last answer. None if there is none."""
        last = self.heard_last(lines)
        return [self.opened(self.silent()),
                self.opened([slot for slot in self.silent() if slot.number < last])]

    def opened(self, silent):
        parts = [part for part in self.unlisted()
                 if not any(answers(slot, as_uid(part)) for slot in silent)]
        return self.first(greatest(parts)) if parts else None

    def said(self, answer, lines):
        """What `margin` prints of a log with this answer."""
        if not answer.startswith("complete"):
            return [answer]
        margin, *mask = self.weakest()
        return [answer, f"margin {margin}", "weakest %d %s" % (mask[0], mask_digits(*mask)), *(
            f"{name} %d %s" % (mask[0], mask_digits(*mask)) if mask else f"{name} -"
            for name, mask in zip(("hidden", "deaf"), self.readings(lines)))]


# Wrong counts, each wrong in one rule.

def wrong(**rules):
    return type("WrongMargins", (Margins,), rules)


def after_the_last_field_cycle(self, lines):
    cycles = [number for number, line in enumerate(lines, 2) if line == FIELD_CYCLE]
    return [slot for slot in Margins.slots_of(self, lines)
            if slot.number > max(cycles, default=0)]


WRONG = {
    "a slot counts for a Quiet UID": wrong(is_overlooked=lambda self, slot, uid: (
        lies_in(uid, *slot.mask) and not is_reply(slot.line, uid))),
    "Quiet over a field cycle": wrong(slots_of=lambda self, lines: Margins.slots_of(
        self, ["" if line == FIELD_CYCLE else line for line in lines])),
    "its own reply counts": wrong(is_overlooked=lambda self, slot, uid: answers(slot, uid)),
    "a captured reply counts": wrong(counted="SRH"),
    "a collision counts": wrong(counted="SRC"),
    "a garbled slot counts": wrong(counted="SRD"),
    "an unknown slot counts": wrong(counted="SRN"),
    "only silence counts": wrong(counted="S"),
    "slots before a field cycle are forgotten": wrong(slots_of=after_the_last_field_cycle),
    "a mask that is asked twice counts once": wrong(of=lambda self, uid: len(
        {slot.mask for slot in self.slots if self.is_overlooked(slot, uid)})),
    "listed UIDs have a say": wrong(left_out=lambda self: ()),
    "the margin is the greatest": wrong(least=lambda self, margins: max(margins)),
    "the last of several masks": wrong(
        first=lambda self, masks: [mask for mask in masks if mask[0] == masks[0][0]][-1]),
    "a silence behind the last answer stays": wrong(heard_last=lambda self, lines: len(lines) + 2),
    "all silence is behind the last answer": wrong(heard_last=lambda self, lines: 0),
    "a captured reply is no answer": wrong(
        is_answer=lambda self, slot: line_text(slot.line)[0] in "RCD"),
    "an unknown slot is an answer": wrong(
        is_answer=lambda self, slot: line_text(slot.line)[0] in "RHCDN"),
    "a Stay Quiet is an answer": wrong(heard_last=lambda self, lines: max(
        (number for number, line in enumerate(lines, 2)
         if isinstance(line, StayQuiet) or line_text(line)[:1] in tuple("RHCD")), default=0)),
}
