"""Logs as the oracles read them, line by line and slot by slot: written from docs/AIR.md and
LOG_FORMAT.md alone."""
import collections

UID_BITS = 56
TOP_BYTE = 0xE0 << UID_BITS


# What a line says.

Ask = collections.namedtuple("Ask", "sixteen length value")
StayQuiet = collections.namedtuple("StayQuiet", "uid")
# A reply; where it isn't known to be the only one in its slot, it is captured.
Reply = collections.namedtuple("Reply", "uid captured", defaults=(False,))
Listed = collections.namedtuple("Listed", "uid")
SILENT, COLLISION, GARBLED, UNKNOWN, FIELD_CYCLE = "S", "C", "D", "N", "F"


def is_slot(line):
    return line in (SILENT, COLLISION, GARBLED, UNKNOWN) or isinstance(line, Reply)


# Masks.

def lies_in(uid, length, value):
    return uid % 2**length == value


def slot_mask(ask, number):
    """The mask of a slot of a request."""
    if ask.sixteen:
        return ask.length + 4, ask.value + number * 2**ask.length
    return ask.length, ask.value


def as_mask(uid):
    return UID_BITS, uid % 2**UID_BITS


def as_uid(mask):
    return TOP_BYTE | mask[1]


def mask_digits(length, value):
    return "%0*X" % ((length + 7) // 8 * 2, value) if length else "-"


def divided(masks, length=0, value=0):
    """The masks into which some masks divide all UIDs, or those of one mask: all UIDs of such a
    part are in one of them, or none is."""
    longer = [mask for mask in masks if mask[0] > length]
    if not longer:
        yield length, value
    else:
        for bit in 0, 1:
            half = [mask for mask in longer if mask[1] >> length & 1 == bit]
            yield from divided(half, length + 1, value + bit * 2**length)


def greatest(masks):
    """The greatest masks all of whose UIDs are in some masks that are apart, by length and then by
    value."""
    by_length = collections.defaultdict(set)
    for length, value in masks:
        by_length[length].add(value)
    found = []
    for length in range(UID_BITS, 0, -1):
        half = 2**(length - 1)
        for value in by_length[length]:
            if value ^ half in by_length[length]:
                by_length[length - 1].add(value % half)
            else:
                found.append((length, value))
    return sorted(found + [(0, 0)] * (0 in by_length[0]))


# Slots.

# The number of the line, the mask that is asked, the UIDs that are Quiet, and the line.
Slot = collections.namedtuple("Slot", "number mask quiet line")
# How many UIDs there are at least in a slot in which tags answered and none was read.
LEAST = {GARBLED: 1, COLLISION: 2}


def slots_of(lines):
    """The slots of a log."""
    ask, place, quiet, slots = None, 0, frozenset(), []
    for number, line in enumerate(lines, 2):
        if isinstance(line, Ask):
            ask, place = line, 0
        elif isinstance(line, StayQuiet):
            quiet |= {line.uid}
        elif line == FIELD_CYCLE:
            quiet = frozenset()
        elif is_slot(line):
            slots.append(Slot(number, slot_mask(ask, place), quiet, line))
            place += 1
    return slots


def answers(slot, uid):
    return lies_in(uid, *slot.mask) and uid not in slot.quiet


def fits(line, there, its_own):
    """Whether a line can be what is written of a slot in which these answer. Sets of UIDs are the
    bits of a number; `its_own` is the UID of a reply."""
    number = there.bit_count()
    if isinstance(line, Reply):
        return there & its_own != 0 and (line.captured or number == 1)
    return line == UNKNOWN or (number == 0 if line == SILENT else number >= LEAST[line])
