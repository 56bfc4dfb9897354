#!/usr/bin/env python3
"""Writes a large log to standard output, always the same one for the same words:

    biglog.py SHAPE SIZE [SEED] [--refused]

--refused adds a last line with a fault, so that the time of `vicinity check` is the time of reading
alone. Without words it lists the shapes. SIZE counts what the shape is made of; a log has at most
1,000,000 lines.
"""
import random
import sys

BITS = 56
EVERYONE = (0, 0)
SHAPES = {}


def shape(function):
    SHAPES[function.__name__.replace("_", "-")] = function
    return function


def version_of(name):
    """The version of a shape's logs, with which its text begins, unless it is 1."""
    first, version, *_ = SHAPES[name].__doc__.split(None, 2)
    return int(version[0]) if first == "Version" else 1


def crc_step(byte):
    for _ in range(8):
        byte = byte >> 1 ^ (0x8408 if byte & 1 else 0)
    return byte


CRC_TABLE = [crc_step(byte) for byte in range(256)]


def frame(body):
    register = 0xFFFF
    for byte in body:
        register = register >> 8 ^ CRC_TABLE[(register ^ byte) & 0xFF]
    return (body + (register ^ 0xFFFF).to_bytes(2, "little")).hex().upper()


def ask(mask, slots=1):
    length, value = mask
    flags = 0x06 if slots == 16 else 0x26
    return "T " + frame(bytes((flags, 1, length)) + value.to_bytes((length + 7) // 8, "little"))


def silence(uid):
    return "T " + frame(b"\x22\x02" + uid.to_bytes(8, "little"))


def reply(uid):
    return "R " + frame(b"\x00\x00" + uid.to_bytes(8, "little"))


def claim(uid):
    return "U %016X" % uid


def heard(tags):
    """The line of a slot in which these tags answer."""
    return "S" if not tags else reply(tags[0]) if len(tags) == 1 else "C"


def low(uid, length):
    return length, uid & (1 << length) - 1


def at_key(key):
    """The UID at a key, in the order of low bits first."""
    return 0xE0 << BITS | int(format(key, "056b")[::-1], 2)


def new_tags(random_, size):
    """Different UIDs of one maker, in no order."""
    return [0xE004 << 48 | serial for serial in random_.sample(range(1 << 48), size)]


def search(tags):
    """Sixteen-slot rounds, one digit deeper on each collision, a Stay Quiet on each reply, until
    all is silent."""
    asked = [(EVERYONE, tags)]
    while asked:
        (length, value), here = asked.pop()
        yield ask((length, value), 16)
        slots = [[] for _ in range(16)]
        for uid in here:
            slots[uid >> length & 15].append(uid)
        for number, inside in enumerate(slots):
            yield heard(inside)
            if len(inside) > 1:
                asked.append(((length + 4, value | number << length), inside))
        yield from (silence(inside[0]) for inside in slots if len(inside) == 1)
    yield ask(EVERYONE)
    yield "S"


@shape
def session(random_, size):
    """A complete search of SIZE tags: complete SIZE."""
    tags = new_tags(random_, size)
    yield from search(tags)
    yield from map(claim, sorted(tags))


@shape
def session_cut(random_, size):
    """The same without its last round and the one before: unsettled."""
    tags = new_tags(random_, size)
    lines = list(search(tags))
    for _ in range(2):
        while not lines.pop().startswith(("T 06", "T 26")):
            pass
    yield from lines
    yield from map(claim, sorted(tags))


@shape
def session_late(random_, size):
    """A complete search, and then a silenced tag answers: impossible near the end."""
    tags = new_tags(random_, size)
    yield from search(tags)
    yield ask(EVERYONE)
    yield reply(tags[0])
    yield from map(claim, sorted(tags))


@shape
def captured(random_, size):
    """Version 3. As session, behind an unknown round, with each reply captured: complete SIZE."""
    yield ask(EVERYONE, 16)
    yield from ["N"] * 16
    for line in session(random_, size):
        yield "H" + line[1:] if line[0] == "R" else line


@shape
def captured_turns(random_, size):
    """Version 3. SIZE Stay Quiet, then SIZE times an open round in which another tag is captured,
    and an unknown one: unlisted."""
    tags = new_tags(random_, 2 * size)
    yield from map(silence, tags[:size])
    for uid in tags[size:]:
        yield from (ask(EVERYONE), "H" + reply(uid)[1:], ask(low(uid, 16)), "N")


@shape
def deep(random_, size):
    """Each of SIZE tags asked by a mask of 56 bits and silenced, then no tag is left: complete
    SIZE."""
    tags = new_tags(random_, size)
    for uid in tags:
        yield from (ask(low(uid, BITS)), reply(uid), silence(uid))
    yield from (ask(EVERYONE), "S")
    yield from map(claim, sorted(tags))


@shape
def one_slot(random_, size):
    """SIZE times: an open round, a reply, its Stay Quiet: impossible at line 6."""
    for uid in new_tags(random_, size):
        yield from (ask(EVERYONE), reply(uid), silence(uid))


@shape
def listed(random_, size):
    """SIZE different U lines and nothing else: unsettled."""
    yield from map(claim, new_tags(random_, size))


def storm(random_, size, outcome):
    yield from map(silence, new_tags(random_, size))
    for _ in range(size):
        yield from (ask(EVERYONE), outcome)


@shape
def quiet_storm(random_, size):
    """SIZE Stay Quiet, then SIZE times the same silent open round: unsettled 56 .."""
    return storm(random_, size, "S")


@shape
def collision_storm(random_, size):
    """SIZE Stay Quiet, then SIZE times the same open collision: unsettled 0 -"""
    return storm(random_, size, "C")


def nested(random_, size, lengths, outcome):
    value = random_.getrandbits(36)
    yield from (silence(0xE0 << BITS | high << 36 | value)
                for high in random_.sample(range(1 << 20), size))
    for length in lengths:
        yield from (ask(low(value, length)), outcome)


@shape
def nest(random_, size):
    """SIZE Stay Quiet inside a mask of 36 bits, then silent rounds of 36, 35, .. 0 of its bits."""
    return nested(random_, size, range(36, -1, -1), "S")


@shape
def nest_out(random_, size):
    """The same from 0 bits to 36."""
    return nested(random_, size, range(37), "S")


@shape
def nest_coll(random_, size):
    """As nest, with collisions."""
    return nested(random_, size, range(36, -1, -1), "C")


@shape
def nest_quiet(random_, size):
    """Version 2. SIZE Stay Quiet of the first UIDs of the masks of 0 to 36 zeros, then a collision
    and a D in each."""
    yield from (silence(0xE0 << BITS | int(format(place, "020b")[::-1], 2) << 36)
                for place in range(size))
    for length in range(37):
        yield from (ask((length, 0)), "C", ask((length, 0)), "D")
    yield from (ask((BITS, 1)), "C")


@shape
def coll_masks(random_, size):
    """SIZE Stay Quiet, then SIZE collisions of random masks of at most 16 bits."""
    yield from map(silence, new_tags(random_, size))
    for _ in range(size):
        yield from (ask(low(random_.getrandbits(16), random_.randrange(17))), "C")


@shape
def quiet_turns(random_, size):
    """SIZE times: a Stay Quiet and a silent open round."""
    for uid in new_tags(random_, size):
        yield from (silence(uid), ask(EVERYONE), "S")


@shape
def heard_turns(random_, size):
    """SIZE Stay Quiet, then SIZE times an open round that one tag answers."""
    yield from map(silence, new_tags(random_, size))
    for _ in range(size):
        yield from (ask(EVERYONE), reply(0xE0 << BITS | 5))


@shape
def quiet_polls(random_, size):
    """Ten tags are silenced, and the first by low bits answers each of SIZE open rounds: impossible
    at line 13."""
    tags = [at_key(place << 40) for place in range(1, 11)]
    yield from map(silence, tags)
    for _ in range(size):
        yield from (ask(EVERYONE), reply(tags[0]))
    yield from map(claim, tags)


@shape
def quiet_answers(random_, size):
    """A silenced tag answers SIZE open rounds, others are silenced before and in between:
    impossible early."""
    yield from (silence(at_key(1 << 40)),
                *(silence(at_key(2 << 40 | place)) for place in range(size // 25)))
    for number in range(size):
        yield from (ask(EVERYONE), reply(at_key(1 << 40)))
        if number % 25 == 24:
            yield silence(at_key(3 << 40 | random_.getrandbits(40)))


def apart(random_, size):
    """The tags of SIZE keys, no two of them adjoining, in no order; and two whose keys adjoin after
    them."""
    keys = random_.sample(range(size), size)
    return [at_key(2 * key) for key in keys], at_key(2 * size), at_key(2 * size + 1)


def in_nested_rounds(*outcomes):
    """Rounds of the masks of 0 to 35 zeros, in each of them each of these lines."""
    for length in range(36):
        for outcome in outcomes:
            yield from (ask((length, 0)), outcome)


@shape
def nest_singles_late(random_, size):
    """Version 2. SIZE tags apart, left by silent nested rounds and Quiet again amid C and D:
    impossible at the end."""
    tags, one, two = apart(random_, size)
    yield from map(silence, [*tags, one, two])
    yield from in_nested_rounds("S")
    yield "F"
    yield from map(silence, tags)
    yield from in_nested_rounds("C", "D")
    yield from (silence(two), silence(one), ask(low(two, BITS)), "D")


@shape
def nest_scattered_late(random_, size):
    """Version 2. SIZE tags apart, Quiet in nested rounds that one answers, then in others with D:
    impossible at the end."""
    tags, _, two = apart(random_, size)
    yield from map(silence, tags)
    yield from in_nested_rounds(reply(two))
    yield from in_nested_rounds("D")
    yield from (silence(two), ask(low(two, BITS)), "D")


@shape
def nest_unmet_late(random_, size):
    """Version 2. SIZE tags apart, Quiet amid nested C, replies and D; F, then S leaves each C one
    tag: impossible there."""
    tags, one, two = apart(random_, size)
    yield from map(silence, tags)
    yield from in_nested_rounds("C")
    yield silence(one)
    yield from in_nested_rounds(reply(two))
    yield from in_nested_rounds("D")
    yield "F"
    for uid in (one, at_key(1 << 55)):
        yield from (ask(low(uid, BITS)), "S")


def half_heard(random_, size, length, mask_of, slots=8):
    """SIZE rounds of sixteen slots, in which one tag answers in each of so many; then the round is
    left."""
    for number in range(size):
        value = mask_of(number)
        yield ask((length, value), 16)
        for slot in range(slots):
            yield reply(0xE0 << BITS | value | slot << length
                        | random_.getrandbits(52 - length) << length + 4)


@shape
def eight_replies(random_, size):
    """SIZE rounds of sixteen slots, far apart, a reply in the slots 0 to 7: unlisted, with the most
    open ranges."""
    return half_heard(random_, size, 28, lambda number: at_key(number << 34) & (1 << 28) - 1)


def ended_late(lines):
    """These lines, and a collision where the last reply alone could be: impossible in the last
    line."""
    for line in lines:
        yield line
    # the last line is a reply
    uid = int.from_bytes(bytes.fromhex(line[6:22]), "little")
    yield from (ask(low(uid, BITS)), "C")


@shape
def eight_replies_late(random_, size):
    """The same, and a collision of one tag: impossible in the last line."""
    return ended_late(eight_replies(random_, size))


@shape
def replies_listed(random_, size):
    """The same without the collision, and the tags heard are listed in no order: unsettled 1 01."""
    lines = list(eight_replies(random_, size))
    yield from lines
    found = [int.from_bytes(bytes.fromhex(line[6:22]), "little")
             for line in lines if line[0] == "R"]
    yield from map(claim, random_.sample(found, len(found)))


@shape
def all_heard_hidden(random_, size):
    """Version 2. SIZE rounds of random masks, a reply in each slot, then D and S in one mask:
    impossible at that S."""
    yield from half_heard(random_, size, 40, lambda number: random_.getrandbits(40), slots=16)
    for mask, outcome in ((BITS, 1), "D"), ((BITS, 1), "S"), ((BITS, 2), "S"):
        yield from (ask(mask), outcome)


@shape
def all_silent(random_, size):
    """An open collision, then SIZE rounds of silent slots over all UIDs, in no order: a conflict of
    all slots."""
    yield from (ask(EVERYONE), "C")
    length = size.bit_length() - 1
    halved = size - (1 << length)
    masks = [(length + 1, value | bit << length) for value in range(halved) for bit in (0, 1)]
    masks += [(length, value) for value in range(halved, 1 << length)]
    for mask in random_.sample(masks, size):
        yield from (ask(mask, 16), *["S"] * 16)


def half_heard_anywhere(random_, size):
    return half_heard(random_, size, 40, lambda number: random_.getrandbits(40))


@shape
def sixteen_late(random_, size):
    """SIZE rounds of random masks of 40 bits, a reply in the slots 0 to 7, a collision: impossible
    at the end."""
    return ended_late(half_heard_anywhere(random_, size))


@shape
def listed_scattered(random_, size):
    """SIZE such rounds without the collision, then as many other UIDs as lines, listed in no order:
    unlisted."""
    yield from half_heard_anywhere(random_, size)
    yield from map(claim,
                   {0xE0 << BITS | random_.getrandbits(BITS) | 8 << 40 for _ in range(9 * size)})


def truly(random_, tags, size, cycles):
    """Random rounds of one slot and Stay Quiet, answered as these tags would, and perhaps a few
    field cycles."""
    lengths = (8, 12, 14, 16, 18, 20, 24, 32, 40, BITS)
    inside = {length: {} for length in lengths}
    for uid in tags:
        for length in lengths:
            inside[length].setdefault(low(uid, length), []).append(uid)
    silenced = set()
    for _ in range(size):
        turn, uid = random_.random(), random_.choice(tags)
        if turn < 0.25:
            silenced.add(uid)
            yield silence(uid)
        elif turn < 0.2502 and cycles:
            silenced.clear()
            yield "F"
        else:
            mask = low(uid, random_.choice(lengths))
            yield from (ask(mask),
                        heard([uid for uid in inside[mask[0]][mask] if uid not in silenced]))
    yield from map(claim, sorted(tags))


@shape
def mix(random_, size):
    """SIZE random rounds and Stay Quiet over SIZE / 10 tags, answered truly: unsettled."""
    return truly(random_, new_tags(random_, max(size // 10, 1)), size, cycles=False)


@shape
def mix_cycles(random_, size):
    """Version 2. The same with a few field cycles."""
    return truly(random_, new_tags(random_, max(size // 10, 1)), size, cycles=True)


@shape
def storm_cycles(random_, size):
    """Version 2. SIZE Stay Quiet and a silent open round, then SIZE times: a field cycle and a
    silent open round."""
    yield from map(silence, new_tags(random_, size))
    yield from (ask(EVERYONE), "S")
    for _ in range(size):
        yield from ("F", ask(EVERYONE), "S")


@shape
def quiet_cycles(random_, size):
    """Version 2. SIZE Stay Quiet and an open collision; for half of them a field cycle, it again,
    and a collision."""
    tags = new_tags(random_, size)
    yield from map(silence, tags)
    yield from (ask(EVERYONE), "C")
    for uid in tags[: size // 2]:
        yield from ("F", silence(uid), ask(EVERYONE), "C")


@shape
def closed_cycles(random_, size):
    """Version 2. SIZE Stay Quiet; for half of them a field cycle, it again, and silence in a mask
    of 16 bits; then silence in all: complete 0."""
    tags = new_tags(random_, size)
    yield from map(silence, tags)
    for uid in tags[: size // 2]:
        yield from ("F", silence(uid), ask(low(random_.choice(tags), 16)), "S")
    yield from ("F", ask(EVERYONE), "S")


@shape
def jump_cycles(random_, size):
    """Version 2. SIZE / 2 times: a field cycle, and silent rounds of 56 bits at both ends of the
    order of low bits."""
    tags = sorted(new_tags(random_, size), key=lambda uid: bin(uid)[:1:-1])
    for first, last in zip(tags[: size // 2], reversed(tags)):
        yield from ("F", ask(low(first, BITS)), "S", ask(low(last, BITS)), "S")


@shape
def sim_session(random_, size):
    """For simulate: SIZE / 20 tags, SIZE rounds of sixteen slots around them, a Stay Quiet after
    every tenth."""
    tags = new_tags(random_, max(size // 20, 1))
    for number in range(size):
        uid = random_.choice(tags)
        yield ask(low(uid, random_.choice((0, 4, 8, 12, 16))), 16)
        if number % 10 == 9:
            yield silence(uid)
    yield from map(claim, tags)


@shape
def sim_storm(random_, size):
    """For simulate: SIZE tags, all silenced, then SIZE open rounds."""
    tags = new_tags(random_, size)
    yield from map(silence, tags)
    yield from [ask(EVERYONE)] * size
    yield from map(claim, tags)


@shape
def sim_pairs(random_, size):
    """The same where tags differ in pairs, in their highest serial bit alone."""
    tags = [uid & ~(1 << 47) | bit for uid in new_tags(random_, size // 2) for bit in (0, 1 << 47)]
    yield from map(silence, tags)
    yield from [ask(EVERYONE)] * size
    yield from map(claim, tags)


@shape
def sim_cycles(random_, size):
    """Version 2. For simulate: SIZE random rounds and Stay Quiet, a few field cycles, SIZE tags."""
    tags = new_tags(random_, size)
    for _ in range(size):
        turn, uid = random_.random(), random_.choice(tags)
        if turn < 0.5:
            yield silence(uid)
        elif turn < 0.5003:
            yield "F"
        else:
            yield ask(low(uid, random_.randrange(BITS + 1)))
    yield from map(claim, tags)


@shape
def sim_listed(random_, size):
    """For simulate: SIZE tags in no order, and no request."""
    return map(claim, new_tags(random_, size))


def main():
    words = [word for word in sys.argv[1:] if word != "--refused"]
    if len(words) not in (2, 3) or words[0] not in SHAPES:
        listing = ["    %-16s %s\n" % (name, function.__doc__) for name, function in SHAPES.items()]
        sys.exit(__doc__ + "\n" + "".join(listing))
    lines = SHAPES[words[0]](random.Random(int((words + [1])[2])), int(words[1]))
    sys.stdout.write("vicinity-log %d\n" % version_of(words[0]))
    sys.stdout.writelines(line + "\n" for line in lines)
    if "--refused" in sys.argv:
        sys.stdout.write("X\n")


if __name__ == "__main__":
    main()
