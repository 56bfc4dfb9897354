"""Changed logs."""

LINES = [
    b"T 260100F60A", b"T 060100CD09", b"T 2202A1000000000104E0662A", b"R 0000A1000000000104E06745",
    b"R 0000B2000000000104E0CF94", b"U E0040100000000A1", b"U E0040100000000B2", b"S", b"C", b"D",
    b"H 0000A1000000000104E06745", b"N", b"F", b"# x", b"", b"T 26013700000000000000641B",
    b"T 06013C0000000000000000069E"]
REPLIES = [b"R 0000A1000000000104E06745", b"R 0000B2000000000104E0CF94"]
OUTCOMES = {2: [b"S", b"C", b"D", *REPLIES],
            3: [b"S", b"C", b"D", b"N", *REPLIES, b"H 0000A1000000000104E06745",
                b"H 0000B2000000000104E0CF94"]}
LISTED = [b"U E0040100000000A1", b"U E0040100000000B2"]


def change(rng, lines):
    """One line dropped, put in, swapped with another or damaged."""
    at = rng.randrange(len(lines))
    what = rng.randrange(4)
    if what == 0 and len(lines) > 1:
        del lines[at]
    elif what == 1:
        lines.insert(at, rng.choice(LINES))
    elif what == 2:
        other = rng.randrange(len(lines))
        lines[at], lines[other] = lines[other], lines[at]
    elif lines[at]:
        line = bytearray(lines[at])
        line[rng.randrange(len(line))] = rng.choice(b"0123456789ABCDEFf \x00\r")
        lines[at] = bytes(line)


def session(rng):
    """A log of rounds of one slot, Stay Quiets and field cycles, which lists some of two UIDs."""
    version = rng.randint(2, 3)
    lines = [b"vicinity-log %d" % version]
    for _ in range(rng.randint(1, 5)):
        lines += rng.choice(([b"T 260100F60A", rng.choice(OUTCOMES[version])],
                             [b"T 2202A1000000000104E0662A"], [b"F"]))
    return lines + [uid for uid in LISTED if rng.randrange(2)]


def changed_log(rng, seeds):
    """A session; or a log of a few lines, or one of the seeds, with up to three changes."""
    kind = rng.randrange(3)
    if kind == 0:
        return b"\n".join(session(rng))
    if kind == 1:
        lines = [b"vicinity-log %d" % rng.randint(1, 3)]
        lines += [rng.choice(LINES) for _ in range(rng.randrange(9))]
    else:
        lines = rng.choice(seeds).split(b"\n")
    for _ in range(rng.randrange(4)):
        change(rng, lines)
    return b"\n".join(lines)
