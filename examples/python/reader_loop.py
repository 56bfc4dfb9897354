"""A reader's search at one shelf: rounds over a field of tags, each noted in a log, until the
checker calls the list complete.

    reader_loop.py [TAGS] [--margin K] [--capture P] [--miss P] [--noise P] [--seed N]

docs/READERS.md says what each step is for. In short: the field is switched off and on before a log
begins. Each tag that is heard is silenced, and each slot that can't be read is asked again, by four
more bits. At the end all are asked in one slot, until none answers and the margin is reached. Then
comes a field cycle, and one request that a tag that was found has to answer: a reader that has gone
deaf ends in a contradiction. After one there is another log, whose list keeps what was ever heard.

`transceive` and `cycle` are the places for a chip: here they simulate a field. --capture is the
probability that one reply hides the others of its slot, --noise that nothing can be read in a slot,
and --miss that a request is missed by a weak tag, which one in ten is. Frames, masks of slots and
lines come from the library."""
import argparse
import random
import sys
from typing import NamedTuple, NoReturn, Protocol

import vicinity
from vicinity import Kind

ALL = vicinity.Mask(0, 0)
LINK = 2
# The longest mask that can be asked in sixteen slots, and the bits in which UIDs differ.
MOST_BITS, UID_BITS = 60, 56
# How many logs there are at most, and rounds in one: so many, and more for each tag found in it.
MOST_LOGS, MOST_ROUNDS, MOST_ROUNDS_EACH = 20, 100, 10
# A slot: the letter of its line, and the frame of a reply.
Slot = tuple[str, bytes]


class Chip(Protocol):
    """What reaches the tags: a reader's chip, or here a simulated field."""

    def cycle(self) -> None:
        """Switches the field off, until no tag has power (docs/READERS.md says for how long), and
        on: all tags are Ready."""

    def transceive(self, frame: bytes) -> list[Slot]:
        """Sends a request, and returns each slot that was reached. A Stay Quiet has none."""


def lies_in(uid: int, mask: vicinity.Mask) -> bool:
    return uid % (1 << mask.length) == mask.value


def uid_of(reply: bytes) -> int:
    """The UID of a reply, even one that doesn't begin with E0; 0 if it can't be read."""
    try:
        return vicinity.read_response(reply).uid
    except vicinity.FrameFault as read:
        foreign = read.fault is vicinity.Fault.FRAME_NOT_VICINITY
        return int.from_bytes(reply[2:10], "little") if foreign else 0


def is_vicinity(uid: int) -> bool:
    return uid >> UID_BITS == 0xE0


def mask_of(uid: int) -> vicinity.Mask:
    """The mask in which no other UID lies."""
    return vicinity.Mask(UID_BITS, uid % (1 << UID_BITS))


class Search:
    """The search at one shelf. What was heard since the reader came there is never forgotten, not
    even where a new log begins."""

    def __init__(self, field: Chip) -> None:
        self.field, self.logs, self.calls = field, 0, 0
        self.heard: set[int] = set()
        self.foreign: dict[int, None] = {}
        self.begin()

    def begin(self) -> None:
        """Begins a log."""
        self.logs, self.rounds, self.lines = self.logs + 1, 0, [vicinity.HEADER_LINE]
        # UIDs: found in this log, in this order; silenced since its last field cycle; never read
        self.found: dict[int, None] = {}
        self.quiet: set[int] = set()
        self.unread: set[int] = set()
        # whether a tag that was found answered after the last silence
        self.is_sure = False
        self.cycle()

    def cycle(self) -> None:
        """A field cycle: all tags are Ready. Those whose UIDs begin with another byte than E0 are
        silenced at once, since the checker knows nothing of them."""
        self.field.cycle()
        self.note("F")
        self.quiet.clear()
        for uid in self.foreign:
            self.silence(uid)

    def note(self, letter: str, frame: bytes = b"") -> None:
        self.lines.append(vicinity.write_line(letter, frame))

    def send(self, frame: bytes) -> list[Slot]:
        """Sends a request, and notes it."""
        held = self.field.transceive(frame)
        self.note("T", frame)
        return held

    def silence(self, uid: int) -> None:
        """Silences a tag. It may miss a request, so there are two."""
        for _ in range(2):
            self.send(vicinity.write_stay_quiet(LINK, uid))
        self.quiet.add(uid)

    def letter_of(self, letter: str, uid: int) -> str:
        """N for a reply that can't be read, or isn't a tag's, or is that of a tag that the log has
        silenced, which missed that."""
        is_odd = not is_vicinity(uid) or uid in self.quiet
        return "N" if letter in "HR" and is_odd else letter

    def ask(self, slots: int, mask: vicinity.Mask) -> list[str]:
        """One round. Silences each tag that was heard, and returns the letter of each slot: N if
        it wasn't reached."""
        self.rounds += 1
        held = self.send(vicinity.write_inventory(LINK, slots, mask))
        uids = [uid_of(reply) if letter in "HR" else 0 for letter, reply in held]
        self.heard |= {uid for uid in uids if is_vicinity(uid)}
        if any(uid and not lies_in(uid, vicinity.slot_mask(slots, mask, slot))
               for slot, uid in enumerate(uids)):
            # a tag has lost count of the slots, and others may have: nothing is known of any
            held = [("N", b"")] * len(held)
        letters = [self.letter_of(letter, uid) for (letter, _), uid in zip(held, uids)]
        for letter, (_, reply) in zip(letters, held):
            self.note(letter, reply)
        for letter, uid in zip(letters, uids):
            if letter in "HR":
                self.found[uid] = None
            elif uid and not is_vicinity(uid):
                self.foreign[uid] = None
            if letter in "HR" or uid in self.quiet or uid in self.foreign:
                self.silence(uid)
        return letters + ["N"] * (slots - len(held))

    def has_rounds(self) -> bool:
        """Whether the log may have more rounds."""
        return self.rounds < MOST_ROUNDS + MOST_ROUNDS_EACH * len(self.found)

    def ask_on(self, mask: vicinity.Mask) -> None:
        """Asks the tags of a mask in sixteen slots, and those of each slot that wasn't read."""
        to_ask = [mask]
        while to_ask and self.has_rounds():
            mask = to_ask.pop()
            if mask.length > MOST_BITS:
                self.unread.add(mask.value)
                continue
            letters = self.ask(16, mask)
            to_ask += [vicinity.slot_mask(16, mask, slot) for slot, letter in enumerate(letters)
                       if letter in "CD"]

    def find(self, mask: vicinity.Mask, letter: str = "C") -> None:
        """Asks the tags of a mask until none of them answers: in sixteen slots first, or in one."""
        self.is_sure = False
        while letter != "S" and self.has_rounds():
            if letter in "CD":
                self.ask_on(mask)
            [letter] = self.ask(1, mask)

    def find_anew(self, mask: vicinity.Mask) -> None:
        """Finds a tag that was silenced before it was heard, after a field cycle."""
        self.cycle()
        for uid in self.found:
            self.silence(uid)
        self.find(mask)

    def make_sure(self) -> None:
        """Asks for a tag that was found, after a field cycle. Its silence contradicts the log: then
        the reader is deaf, or the field wasn't off for long enough."""
        self.cycle()
        letter = "N"
        while letter in "DN" and self.has_rounds():
            [letter] = self.ask(1, mask_of(next(iter(self.found))))
        self.is_sure = letter in "HR"

    def check(self) -> vicinity.Margin:
        """The checker's answer, and how often a tag that isn't listed would have been missed."""
        self.calls += 1
        return vicinity.margin_listed(b"".join(self.lines), self.heard)

    def search(self, margin: int) -> vicinity.Margin:
        """Searches in one log, and returns the checker's answer and margin."""
        self.find(ALL)
        found = self.check()
        while self.has_rounds():
            answer, weakest = found
            if answer.kind in (Kind.UNSETTLED, Kind.DOUBTFUL):
                self.find_anew(mask_of(answer.uid) if answer.uid else answer.mask)
            elif answer.is_complete and weakest and weakest.margin < margin:
                for _ in range(margin - weakest.margin):
                    self.find(ALL, "N")
            elif answer.is_complete and self.found and not self.is_sure:
                self.make_sure()
            else:
                break
            found = self.check()
        return found

    def run(self, margin: int = 1) -> vicinity.Margin:
        """Searches until the list is complete with this margin. Where a log contradicts itself, or
        a tag that was heard in an earlier one didn't answer, all is asked again in a new log."""
        found = self.search(margin)
        while (found.answer.kind in (Kind.IMPOSSIBLE, Kind.ABSENT) and self.has_rounds()
               and self.logs < MOST_LOGS):
            self.begin()
            found = self.search(margin)
        return found

    def is_done(self, found: vicinity.Margin, margin: int) -> bool:
        """Whether the list is complete with this margin, by a reader that hears. Where no tag was
        found, only a reference tag could show that."""
        answer, weakest = found
        return (answer.is_complete and weakest is not None and weakest.margin >= margin
                and (self.is_sure or not self.heard))


WEAK = 0.1


class Chances(NamedTuple):
    """How often things go wrong in a simulated field."""

    capture: float = 0.0
    miss: float = 0.0
    noise: float = 0.0


class Field:
    """A simulated field of tags, in place of a reader's chip."""

    def __init__(self, uids: set[int], rng: random.Random, chances: Chances = Chances()) -> None:
        self.uids, self.rng, self.chances = uids, rng, chances
        self.weak = {uid for uid in sorted(uids) if rng.random() < WEAK}
        self.overlooked: set[int] = set()
        self.cycle()

    def cycle(self) -> None:
        self.ready = set(self.uids)

    def transceive(self, frame: bytes) -> list[Slot]:
        request = vicinity.read_request(frame)
        if not request.slots:
            self.ready -= {request.uid} - self.missing({request.uid})
            return []
        asked = {uid for uid in self.ready if lies_in(uid, request.mask)}
        missed = self.missing(asked)
        self.overlooked |= missed
        slots = [vicinity.slot_mask(request.slots, request.mask, slot)
                 for slot in range(request.slots)]
        return [self.slot([uid for uid in sorted(asked - missed) if lies_in(uid, mask)])
                for mask in slots]

    def missing(self, asked: set[int]) -> set[int]:
        """Those of the tags that miss a request."""
        return {uid for uid in sorted(asked & self.weak) if self.rng.random() < self.chances.miss}

    def slot(self, answering: list[int]) -> Slot:
        """What a chip reports of the slot in which these tags answer. It may know of a damaged
        reply that it was one; else nothing is known."""
        if self.rng.random() < self.chances.noise:
            return "D" if answering and self.rng.random() < 0.5 else "N", b""
        if not answering:
            return "S", b""
        if len(answering) == 1 or self.rng.random() < self.chances.capture:
            return "H", vicinity.write_response(0, 0, self.rng.choice(answering))
        return "C", b""


class Words(argparse.ArgumentParser):
    def error(self, message: str) -> NoReturn:
        self.exit(4, f"{self.format_usage()}{message}\n")


def count(word: str) -> int:
    if not word.isdecimal():
        raise argparse.ArgumentTypeError(f"{word!r} is not a number")
    return int(word)


def explain(search: Search, found: vicinity.Margin, is_done: bool) -> None:
    """Says on standard error why a search isn't done, or isn't sure."""
    if not search.heard:
        print("no tag was heard: a deaf reader writes the same log, unless a reference tag is fixed"
              " to its antenna", file=sys.stderr)
    if not is_done and not search.has_rounds():
        margin = found.weakest.margin if found.weakest else 0
        print(f"stopped at the limit of {search.rounds} rounds, with margin {margin}",
              file=sys.stderr)
    for uid in sorted(search.unread):
        print(f"{uid:016X} can't be read: have two tags this UID?", file=sys.stderr)


def main() -> int:
    words = Words(description="A search over a simulated field, one tag of which is Quiet.")
    words.add_argument("tags", type=count, nargs="?", default=40)
    words.add_argument("--margin", type=count, default=1, metavar="K")
    for chance in Chances._fields:
        words.add_argument(f"--{chance}", type=float, default=0.0, metavar="P")
    words.add_argument("--seed", type=int, default=7)
    given = words.parse_args()
    rng = random.Random(given.seed)
    uids = {0xE0 << 56 | rng.randrange(1 << 56) for _ in range(given.tags)}
    search = Search(Field(uids, rng, Chances(given.capture, given.miss, given.noise)))
    if uids:
        # a tag is silenced before it was heard
        search.silence(min(uids))
    found = search.run(given.margin)
    is_done = search.is_done(found, given.margin)
    try:
        # with print alone, a stream that is closed wouldn't be noticed
        with open(1, "w", closefd=False) as out:
            print(f"{found.answer} after {search.rounds} rounds in log {search.logs},"
                  f" {search.calls} calls of the checker", file=out)
    except OSError as error:
        words.error(str(error))
    explain(search, found, is_done)
    return 0 if is_done and search.heard == uids else 1


if __name__ == "__main__":
    sys.exit(main())
