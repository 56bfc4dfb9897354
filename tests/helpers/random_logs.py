"""Random logs of each version, as text and as lines, written from docs/LOG_FORMAT.md and FRAMES.md
alone.

Most have first lines that leave eight UIDs that may be in the field, by silent slots and Stay
Quiets.
"""
import sys

from helpers.air import (COLLISION, FIELD_CYCLE, GARBLED, SILENT, TOP_BYTE, UID_BITS, UNKNOWN, Ask,
                         Listed, Reply, StayQuiet, as_mask, divided, is_slot, lies_in, slot_mask)
from helpers.frames import hex_of

LEFT = 8
# UIDs that have so many low bits in common are left by some hundred silent slots; others by Stay
# Quiets.
NEAR_BITS = 48
# What share of the logs has no such first lines.
OPEN_SHARE = 0.15
# What share of the logs of version 3 has lines that tell less than they could.
WEAKENED_SHARE = 0.3
PASSED_OVER = ("", "# a remark")


def line_text(line):
    if isinstance(line, Ask):
        flags = 0x06 if line.sixteen else 0x26
        value = line.value.to_bytes((line.length + 7) // 8, "little")
        return "T " + hex_of(bytes((flags, 1, line.length)) + value)
    if isinstance(line, StayQuiet):
        return "T " + hex_of(b"\x22\x02" + line.uid.to_bytes(8, "little"))
    if isinstance(line, Reply):
        return "RH"[line.captured] + " " + hex_of(b"\x00\x07" + line.uid.to_bytes(8, "little"))
    if isinstance(line, Listed):
        return "U %016X" % line.uid
    return line


def log_text(version, lines):
    return "".join(f"{line}\n" for line in [f"vicinity-log {version}",
                                            *map(line_text, lines)]).encode()


# Random logs.

def eight_uids(rng):
    """Eight UIDs: all that have the same low bits, or some of those, or any."""
    common = rng.choice((0, 4, 30, 48, 50, 51, 52, 53, 53, 53))
    value = rng.getrandbits(common)
    return [TOP_BYTE | high << common | value
            for high in rng.sample(range(1 << min(UID_BITS - common, 40)), LEFT)]


def ruled_out(uids):
    """The masks that hold all UIDs but these, and none of these."""
    left = set(map(as_mask, uids))
    return [mask for mask in divided(left) if mask not in left]


def opening(rng, version, uids):
    """Lines that leave these UIDs and no other, and which of them are Quiet then. Those that are
    silenced first aren't ruled out by silence."""
    near = len({uid % 2**NEAR_BITS for uid in uids}) == 1
    silenced = [uid for uid in uids if not near or rng.random() < rng.choice((0, 0, 0.3))]
    lines = [StayQuiet(uid) for uid in silenced]
    masks = ruled_out([uid for uid in uids if uid not in silenced])
    if sum(2**(UID_BITS - length) for length, _ in masks) + LEFT - len(silenced) != 2**UID_BITS:
        sys.exit("oracle: the first lines leave others than the eight UIDs")
    for length, value in masks:
        sixteen = length <= 52 and rng.random() < 0.03
        lines += [Ask(sixteen, length, value)] + [SILENT] * (16 if sixteen else 1)
    if version > 1 and silenced and rng.random() < 0.8:
        return lines + [FIELD_CYCLE], []
    return lines, silenced


def request(rng, uids):
    """An Inventory request whose masks part the UIDs."""
    one, other = rng.sample(uids, 2)
    parting = next(bit for bit in range(UID_BITS) if (one ^ other) >> bit & 1)
    sixteen = rng.random() < 0.4
    length = rng.choice((0, parting, parting, parting + 1, parting + 1, UID_BITS,
                         rng.randint(0, 64)))
    length = max(0, min(length - rng.randint(0, 4), 60)) if sixteen else length
    return Ask(sixteen, length, one % 2**length if rng.random() < 0.97 else rng.getrandbits(length))


def outcome(rng, version, uids, answering, noise):
    """What a slot is logged as, mostly truly."""
    if rng.random() < noise:
        answering = rng.sample(uids, rng.randint(0, 2))
    if version == 3 and rng.random() < 0.05:
        return UNKNOWN
    if answering and version == 3 and rng.random() < 0.4:
        return Reply(rng.choice(sorted(answering)), True)
    if answering and version > 1 and rng.random() < 0.15:
        return GARBLED
    return SILENT if not answering else Reply(answering[0]) if len(answering) == 1 else COLLISION


def weaker(line):
    """What can stand in a slot line's place and tells less."""
    if isinstance(line, Reply):
        yield from [] if line.captured else [line._replace(captured=True)]
    if isinstance(line, Reply) or line == COLLISION:
        yield GARBLED
    if is_slot(line) and line != UNKNOWN:
        yield UNKNOWN


def weakened(rng, lines):
    """Lines of which some tell less: some of any kind, or each reply, which may have hidden
    others."""
    share = rng.choice((0, 0.1, 0.3))
    for line in lines:
        if isinstance(line, Reply) and not share:
            line = line._replace(captured=True)
        elif rng.random() < share:
            line = rng.choice([*weaker(line)] or [line])
        yield line


def rounds(rng, version, uids, silenced):
    """Random rounds and Stay Quiets over some of the UIDs, which are in the field."""
    there = {uid for uid in uids if rng.random() < rng.choice((0.1, 0.3, 0.5))}
    noise, deaf = rng.choice((0, 0, 0, 0.02, 0.1)), rng.choice((0, 0, 0, 0, 0.5))
    quiet = set(silenced)
    for _ in range(rng.randint(0, 9)):
        turn = rng.random()
        if turn < 0.35:
            uid = rng.choice(sorted(there) if there and rng.random() < 0.8 else uids)
            quiet.update([uid] * (rng.random() >= deaf))
            yield StayQuiet(uid)
        elif turn < 0.45 and version > 1:
            quiet.clear()
            yield FIELD_CYCLE
        else:
            ask = request(rng, uids)
            yield ask
            for number in range(rng.choice((16, 16, 16, rng.randint(0, 16))) if ask.sixteen
                                else rng.random() < 0.97):
                mask = slot_mask(ask, number)
                answering = [uid for uid in there - quiet if lies_in(uid, *mask)]
                yield outcome(rng, version, uids, answering, noise)
        if rng.random() < 0.05:
            yield rng.choice(PASSED_OVER)
    forgotten, made_up = rng.choice(((0, 0), (0, 0), (0.4, 0), (0, 0.15), (0.1, 0.1)))
    claimed = [uid for uid in uids
               if (rng.random() >= forgotten if uid in there else rng.random() < made_up)]
    rng.shuffle(claimed)
    yield from map(Listed, claimed)


def ended(lines):
    """The rounds of a log that ends as a complete search does: each UID heard is silenced, and all
    is silent."""
    heard = dict.fromkeys(line.uid for line in lines if isinstance(line, Reply))
    at = next((place for place, line in enumerate(lines) if isinstance(line, Listed)), len(lines))
    return lines[:at] + [StayQuiet(uid) for uid in heard] + [Ask(False, 0, 0), SILENT] + lines[at:]


def one_more(rng):
    """A line that lists some UID."""
    return [Listed(TOP_BYTE | rng.getrandbits(UID_BITS))] if rng.random() < 0.05 else []


def random_log(rng, version):
    """The UIDs that the first lines leave, none if there are no first lines, and all lines."""
    uids = eight_uids(rng)
    # in other lines, as far as they can be weaker
    is_weakened = version == 3 and rng.random() < WEAKENED_SHARE
    if rng.random() < OPEN_SHARE:
        lines = list(rounds(rng, version - is_weakened, uids, ()))
        return [], list(weakened(rng, lines)) if is_weakened else lines
    first, silenced = opening(rng, version, uids)
    lines = list(rounds(rng, version - is_weakened, uids, silenced))
    lines = ended(lines) if rng.random() < 0.4 else lines
    return uids, first + (list(weakened(rng, lines)) if is_weakened else lines) + one_more(rng)


def contradicted(rng):
    """A version, and the lines of a few sessions one after the other, each over other tags, though
    nothing says so, behind first lines or none."""
    version, uids = rng.randint(1, 3), eight_uids(rng)
    lines = opening(rng, version, uids)[0] if rng.randrange(2) else []
    for _ in range(rng.randint(2, 8)):
        lines += [line for line in rounds(rng, version, uids, ()) if not isinstance(line, Listed)]
    return version, lines
