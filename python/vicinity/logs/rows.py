"""A log as rows: a round with its slots, a Stay Quiet, or a field cycle.
Only where they begin is kept, and a row is read when it is asked for.
Frames and the masks of slots come from library calls."""
import io
import re
from array import array
from bisect import bisect_right
from functools import cached_property
from itertools import islice
from typing import Container, Iterable, NamedTuple, Optional, Sequence

from .._answers import Mask
from .._objects import UID_BITS
from .._sentences import Advice, advice, foreign
from ..frames import (Request, read_request, read_response, slot_mask, write_inventory, write_line,
                      write_stay_quiet)

#: The UID of a Stay Quiet.
SILENCED = re.compile(rb"^T ..02(.{16})", re.MULTILINE)
#: How many bits the masks have at least of which each UID may have been silenced.
LEAST_SILENCED = UID_BITS - 6
#: In so many rounds, the last ones, collisions are looked at.
MOST_ROUNDS = 1000
#: The link if there is no request.
ANY_LINK = 2
STAY_QUIET = b"02"
#: How much of a refused line is kept, and how much of the first one is looked at.
MOST_QUOTED, MOST_SEEN = 160, 4096
#: What may be read in a slot, by the letter of its line: its sign and colour in a terminal,
#: and in words, in which a UID that was heard takes the place of the braces.
READINGS = {
    "S": ("·", "2", "no tag answered"),
    "R": ("", "32", "{} answered alone"),
    "C": ("╳", "33", "two or more tags answered"),
    "D": ("?", "35", "one or more tags answered, unreadable"),
    "H": ("", "36", "{} answered, perhaps with others"),
    "N": ("-", "35", "nothing is known of this slot"),
}


class Slot(NamedTuple):
    """A logged slot: its line, which tags answer in it, the letter of what was read,
    and the UID that was heard."""

    line: int
    mask: Mask
    letter: str
    uid: Optional[int]


class Row:
    """An Inventory request with its slots, and the Stay Quiets after it to tags that were heard;
    another Stay Quiet; or a field cycle, which has no request."""

    def __init__(self, line: int, text: bytes):
        self.line = line
        self.lines = {number: entry.rstrip() for number, entry in enumerate(io.BytesIO(text), line)
                      if entry[:1] not in b"#\r\nU"}
        self.end = max(self.lines)
        #: How many slots are logged.
        self.number = sum(entry[:1] not in b"TF" for entry in self.lines.values())
        requests = [read_request(_frame(entry)) for entry in self.lines.values()
                    if entry[:1] == b"T"]
        self.request: Optional[Request] = requests[0] if requests else None
        self.quiets = {request.uid for request in requests[1:]}

    @cached_property
    def slots(self) -> list[Slot]:
        slots: list[Slot] = []
        for line, text in self.lines.items():
            if self.request and text[:1] not in b"TF":
                mask = slot_mask(self.request.slots, self.request.mask, len(slots))
                uid = read_response(_frame(text)).uid if text[1:] else None
                slots.append(Slot(line, mask, text[:1].decode(), uid))
        return slots


class Rows:
    """The rows of a text, up to its refused line if there is one.
    A Stay Quiet in a named line is a row of its own."""

    def __init__(self, text: bytes, refused: int = 0, named: Container[int] = ()):
        self.text, self._named = text, named
        #: Whether its version has lines for field cycles.
        self.has_cycles = not text.startswith(b"vicinity-log 1")
        #: Of each row, the number of its first line and where that is in the text.
        self.lines: array[int] = array("I")
        self._starts: array[int] = array("I")
        #: How many UIDs are listed; the numbers of the first and the last line of the list.
        self.listed, self.list_lines = 0, (0, 0)
        #: The last line that isn't part of the list, and where it ends in the text.
        self.asked_until, self._end = 1, 0
        #: The digits of the UIDs that were heard: in the rows before, and in the last one.
        self._heard, self._heard_last = set[bytes](), set[bytes]()
        start = 0
        for number, line in enumerate(io.BytesIO(text), 1):
            if number == refused:
                break
            self._add(number, line, start)
            start += len(line)
        self._last_rows = range(max(0, len(self.lines) - MOST_ROUNDS), len(self.lines))
        line, end, _ = self.text[start:start + MOST_QUOTED].partition(b"\n")
        first = text[:MOST_SEEN].partition(b"\n")[0].decode(errors="replace").rstrip("\r")
        #: What it is, and what to do, if nobody meant it as a log.
        self.foreign = foreign(first) if refused == 1 else ()
        #: The refused line, whether the text ends in it, and the text until its end.
        self.refused, self.until_refused = line, self.text[:start] + line + end
        self.is_cut = 0 < start < len(self.text) and self.text.find(b"\n", start) < 0

    def _add(self, number: int, line: bytes, start: int) -> None:
        """Notes a line: what is listed, what was heard, and where a row begins."""
        letter, digits = line[:1], line[6:22].upper()
        if letter == b"U":
            self.listed += 1
            self.list_lines = self.list_lines[0] or number, number
        elif number > 1 and letter not in b"#\r\n":
            self.asked_until, self._end = number, start + len(line)
            if letter in b"RH":
                self._heard_last.add(digits)
            elif letter in b"TF" and not (line[4:6] == STAY_QUIET and number not in self._named
                                          and digits in self._heard_last):
                self.lines.append(number)
                self._starts.append(start)
                self._heard |= self._heard_last
                self._heard_last = set()

    def row(self, index: int) -> Row:
        """A row, of the text with its comments."""
        ends = self._starts[index + 1:index + 2] or [self._end]
        return Row(self.lines[index], self.text[self._starts[index]:ends[0]])

    def is_heard(self, uid: int) -> bool:
        """Whether a reply has a UID."""
        digits = uid.to_bytes(8, "little").hex().upper().encode()
        return digits in self._heard or digits in self._heard_last

    def place(self, line: int) -> int:
        """The index of the row that a line belongs to."""
        return bisect_right(self.lines, line) - 1

    def advice(self, fault: str) -> Advice:
        """What the fault of the refused line means."""
        return advice(fault, "replies" if self.refused[:2] in (b"R ", b"H ") else "faults")

    def ask(self, mask: Mask, slots: int = 1) -> str:
        """The line that asks a mask."""
        return write_line("T", write_inventory(self._link, slots, mask)).decode().rstrip()

    def silence(self, uid: int) -> str:
        """The line that silences a tag."""
        return write_line("T", write_stay_quiet(self._link, uid)).decode().rstrip()

    @property
    def _link(self) -> int:
        """The link of the log's requests."""
        requests = (self.row(index).request for index in range(len(self.lines)))
        return next((request.link for request in requests if request), ANY_LINK)

    def cut_short(self, masks: Sequence[Mask]) -> list[Mask]:
        """What the last rounds asked that lack slots, if it has all these masks; else nothing."""
        rows = map(self.row, self._last_rows if masks else ())
        cut = dict.fromkeys(row.request.mask for row in rows
                            if row.request and len(row.slots) < row.request.slots - 1)
        wider = [{other for other in cut if other.length <= mask.length and other.has(mask.value)}
                 for mask in masks]
        return [mask for mask in cut if mask in set().union(*wider)] if all(wider) else []

    def silenced(self, masks: Iterable[Mask]) -> set[Mask]:
        """Those of the masks that have no UIDs but those of tags that were silenced."""
        narrow = {mask for mask in masks if mask.length >= LEAST_SILENCED}
        uids = {int.from_bytes(bytes.fromhex(digits.decode()), "little")
                for digits in (SILENCED.findall(self.text) if narrow else ())}
        return {mask for mask in narrow
                if sum(map(mask.has, uids)) == 1 << UID_BITS - mask.length}

    def has_more(self, certain: Sequence[int]) -> bool:
        """Whether in a slot of the last rounds, whose tags no later one asked, two or more tags
        answered of which at most one is certain."""
        asked = set[Mask]()
        for row in map(self.row, reversed(self._last_rows)):
            if any(slot.letter == "C" and slot.mask not in asked
                   and len([*islice(filter(slot.mask.has, certain), 2)]) < 2 for slot in row.slots):
                return True
            if row.slots and row.request:
                length, value = row.request.mask
                asked.update(Mask(less, value & (1 << less) - 1) for less in range(length + 1))
        return False


def _frame(line: bytes) -> bytes:
    """The frame of a line."""
    return bytes.fromhex(line[2:].decode())
