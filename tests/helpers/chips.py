"""Simulated chips and fields of a reader's loop, each of which goes wrong in its way; and the loop
in C over one of them."""
import subprocess

import vicinity
from reader_loop import Field, lies_in

from helpers.program import TOP, linked

# The receiver dies at one of so many requests, in which most of a field is searched.
DEAD_BY = 60
ONE_IN_TEN = 0.1
E0 = 0xE0 << 56


class Recorded(Field):
    """Keeps the UIDs of the replies that the reader was told, in whichever log."""

    def __init__(self, *given):
        self.told = set()
        super().__init__(*given)

    def slot(self, answering):
        letter, reply = super().slot(answering)
        if letter == "H":
            self.told.add(vicinity.read_response(reply).uid)
        return letter, reply


class Deaf(Recorded):
    """A receiver that dies at a random request. The tags still hear it."""

    def __init__(self, *given):
        super().__init__(*given)
        self.left = self.rng.randrange(DEAD_BY)

    def transceive(self, frame):
        self.left -= 1
        if self.left >= 0:
            return super().transceive(frame)
        return [("S", b"")] * vicinity.read_request(frame).slots


class Counted(Field):
    """Counts its requests, up to the last that a tag answered."""
    sent = heard_last = 0

    def transceive(self, frame):
        self.sent += 1
        held = super().transceive(frame)
        if any(letter == "H" for letter, _ in held):
            self.heard_last = self.sent
        return held


class ShortOff(Field):
    """A field that isn't off for long enough: Quiet tags stay Quiet."""

    def cycle(self):
        self.ready = getattr(self, "ready", set(self.uids))


class Careless(Field):
    """Each tag misses one Stay Quiet in ten."""

    def transceive(self, frame):
        if vicinity.read_request(frame).slots or self.rng.random() >= ONE_IN_TEN:
            return super().transceive(frame)
        return []


class Astray(Field):
    """In a round of sixteen slots, each tag misses an EOF with this chance, and answers in the next
    slot."""
    lost = 0.02

    def transceive(self, frame):
        request = vicinity.read_request(frame)
        if request.slots != 16:
            return super().transceive(frame)
        answering = [[] for _ in range(request.slots + 1)]
        for slot in range(request.slots):
            mask = vicinity.slot_mask(request.slots, request.mask, slot)
            for uid in sorted(uid for uid in self.ready if lies_in(uid, mask)):
                answering[slot + (self.rng.random() < self.lost)].append(uid)
        return [self.slot(uids) for uids in answering[:-1]]


class Foreign(Field):
    """One tag has a UID that doesn't begin with E0."""

    def __init__(self, uids, *given):
        self.first = min(uids)
        super().__init__(uids - {self.first} | {self.first - E0}, *given)

    def slot(self, answering):
        letter, reply = super().slot([uid | E0 for uid in answering])
        if reply == vicinity.write_response(0, 0, self.first):
            reply = vicinity.add_crc(bytes(2) + (self.first - E0).to_bytes(8, "little"))
        return letter, reply


class Twins(Field):
    """Two tags have the same UID, the least, and another DSFID: they always collide."""

    def slot(self, answering):
        return super().slot(answering + [uid for uid in answering if uid == min(self.uids)])


class Damaged(Field):
    """A chip that says what it received of replies that it couldn't read, now and then as a reply.
    """

    def slot(self, answering):
        letter, reply = super().slot(answering)
        if letter not in "CD":
            return letter, reply
        return "H" if self.rng.random() < ONE_IN_TEN else letter, bytes(12)


class BrokenOff(Field):
    """A reader that breaks off one in ten of its rounds."""

    def transceive(self, frame):
        held = super().transceive(frame)
        return held[:self.rng.randrange(17)] if self.rng.random() < ONE_IN_TEN else held


CHIPS = [Field, Deaf, ShortOff, Careless, Astray, Foreign, Twins, Damaged, BrokenOff]

# Lines for reader_loop.c, by the lines before which they stand: a chip that is asked by standard
# input and output, and what is told at the end.
OVER_A_CHIP = {
    "static struct slot listen(": """static uint32_t by_streams(const struct vicinity_frame *frame,
                           struct slot held[SLOTS])
{
    uint32_t reached = 0;
    int letter;
    printf("T ");
    for (uint32_t i = 0; i < frame->len; i++)
        printf("%02X", frame->bytes[i]);
    printf("\\n");
    fflush(stdout);
    for (; (letter = getchar()) != '\\n'; reached++) {
        unsigned byte = 0;
        held[reached].letter = (char)letter;
        if (scanf("%2x", &held[reached].reply.len) != 1)
            abort();
        for (uint32_t i = 0; i < held[reached].reply.len; i++) {
            if (scanf("%2x", &byte) != 1)
                abort();
            held[reached].reply.bytes[i] = (uint8_t)byte;
        }
    }
    return reached;
}

""",
    "    struct vicinity_request request;\n":
        "    if (frame)\n        return by_streams(frame, held);\n",
    "    for (size_t i = 0; i < tags; i++)\n        field[i].quiet": '    puts("F");\n',
    '    printf("%.*s after': """    printf("%.*s.\\n", (int)len, text);
    for (size_t i = 0; i < heard.count; i++)
        printf("%016llX ", (unsigned long long)heard.uid[i]);
    puts("");
"""}


def loop_with(release, folder, lines):
    """reader_loop.c, with lines before some of its own."""
    source = (TOP / "examples/c/reader_loop.c").read_text()
    for before, added in lines.items():
        assert source.count(before) == 1
        source = source.replace(before, added + before)
    (folder / "loop.c").write_text(source)
    return linked(release, folder / "loop", folder / "loop.c")


def searched(loop, chip, margin):
    """The log of the loop in C over a chip, its list, and what it says."""
    with subprocess.Popen([*loop.words, "0", str(margin)], stdin=subprocess.PIPE,
                          stdout=subprocess.PIPE, stderr=subprocess.DEVNULL) as process:
        for line in process.stdout:
            if line == b"F\n":
                chip.cycle()
            elif line.startswith(b"T "):
                held = chip.transceive(bytes.fromhex(line[2:].decode()))
                process.stdin.write("".join(f"{letter}{len(reply):02X}{reply.hex()}"
                                            for letter, reply in held).encode() + b"\n")
                process.stdin.flush()
            else:
                break
        log, _, rest = (line + process.stdout.read()).partition(b".\n")
    uids, _, said = rest.decode().partition("\n")
    return log, {int(uid, 16) for uid in uids.split()}, said
