"""What an answer is, with the numbers of vicinity.h."""
import enum
from typing import NamedTuple, Optional

from ._native import name_of
from ._sentences import advice


class Mask(NamedTuple):
    """The UIDs whose `length` low bits, 0 to 64, are `value`."""

    length: int
    value: int

    @property
    def digits(self) -> str:
        """The value as `vicinity spell` takes it: two hex digits for each byte that the bits need,
        or - if there is none."""
        return f"{self.value:0{2 * ((self.length + 7) // 8)}X}" if self.length else "-"

    def has(self, uid: int) -> bool:
        """Whether a UID is among them."""
        return (self.value ^ uid) & (1 << self.length) - 1 == 0

    def __str__(self) -> str:
        """The last digits of these UIDs, with bits in parentheses if they don't fill a digit."""
        digits, bits = divmod(self.length, 4)
        low = f"{self.value & (1 << 4 * digits) - 1:0{digits}X}" if digits else ""
        part = f"({self.value >> 4 * digits:0{bits}b})" if bits else ""
        return f"..{part}{low}"


class Kind(enum.IntEnum):
    """Which answer it is."""

    COMPLETE, ABSENT, UNLISTED, UNSETTLED, DOUBTFUL, IMPOSSIBLE, REFUSED = range(1, 8)

    @property
    def word(self) -> str:
        """The word with which the line of the answer begins."""
        return name_of("kind", self)


class Fault(enum.IntEnum):
    """Why a text isn't a log. Those that begin with FRAME are about the frame of a T or R line."""

    NONE = 0
    (TOO_MANY_LINES, LINE_TOO_LONG, HEADER, UNKNOWN_ENTRY, HEX, LISTED_LENGTH, NOT_VICINITY,
     SLOT_OUTSIDE_ROUND, ENTRY_AFTER_LIST, DUPLICATE_LISTED) = range(1, 11)
    (FRAME_SHORT, FRAME_CRC, FRAME_EXTENSION, FRAME_RESERVED, FRAME_OPTION_FLAG,
     FRAME_OTHER_COMMAND, FRAME_INVENTORY_FLAG, FRAME_AFI, FRAME_LENGTH, FRAME_MASK_TOO_LONG,
     FRAME_MASK_PADDING, FRAME_SELECT_FLAG, FRAME_NOT_ADDRESSED, FRAME_ERROR_FLAG,
     FRAME_NOT_VICINITY) = range(101, 116)

    @property
    def wrong(self) -> str:
        """What is wrong, in words; empty if nothing is."""
        of = "replies" if self is Fault.FRAME_NOT_VICINITY else "faults"
        return advice(self.word, of).wrong if self else ""

    @property
    def word(self) -> str:
        """The name of the fault in the line of the answer, such as SlotOutsideRound."""
        return name_of("fault", self)


class Answer(NamedTuple):
    """The answer to a text. Numbers that the kind doesn't use are 0.

    status: the exit status of `vicinity check`, 0 to 3. Here 0 is complete
    count: how many UIDs are listed, if the kind is COMPLETE
    line: the line, from 1, if the kind is IMPOSSIBLE or REFUSED
    fault: what is wrong with that line, if the kind is REFUSED
    mask_len, mask_value: how many low bits the mask has, 0 to 56, and the value of these bits,
        if the kind is UNSETTLED
    uid: the UID, if the kind is ABSENT, UNLISTED or DOUBTFUL. Its top byte is E0
    text: the line that `vicinity check` writes, without its LF"""

    kind: Kind
    status: int
    count: int  # type: ignore[assignment]
    line: int
    fault: Fault
    mask_len: int
    mask_value: int
    uid: int
    text: str

    @property
    def mask(self) -> Mask:
        """The mask, if the kind is UNSETTLED."""
        return Mask(self.mask_len, self.mask_value)

    @property
    def is_complete(self) -> bool:
        """Whether the list is complete. Only then is an answer true, or what has one."""
        return self.kind is Kind.COMPLETE

    def __bool__(self) -> bool:
        return self.is_complete

    def __str__(self) -> str:
        return self.text


class Explanation(NamedTuple):
    """The answer to a text, and tags that show it.

    population: UIDs of tags that could have produced the log but aren't exactly the listed ones,
        in rising order. It is empty if there are none to show (COMPLETE, IMPOSSIBLE, REFUSED),
        and if an empty field shows the answer"""

    answer: Answer
    population: list[int]

    def __bool__(self) -> bool:
        return self.answer.is_complete


class FindingKind(enum.IntEnum):
    """What a finding is. The first four have the same numbers as the answers."""

    ABSENT, UNLISTED, UNSETTLED, DOUBTFUL = range(2, 6)
    OPEN_MASK, MORE_OPEN_MASKS, CONFLICT_LINE, SILENCED_BY = range(8, 12)


class Finding(NamedTuple):
    """One point in which a log contradicts its list or leaves it undecided.
    Numbers that the kind doesn't use are 0.

    line: the line that shows it (ABSENT, UNLISTED), that belongs to a conflict, or that silenced
        a tag
    mask_len, mask_value: how many low bits the mask has, and the value of these bits, if the kind
        is UNSETTLED or OPEN_MASK
    uid: the UID, if the kind is ABSENT, UNLISTED or DOUBTFUL"""

    kind: FindingKind
    line: int
    mask_len: int
    mask_value: int
    uid: int

    @property
    def mask(self) -> Mask:
        """The mask, if the kind is UNSETTLED or OPEN_MASK."""
        return Mask(self.mask_len, self.mask_value)

    def __str__(self) -> str:
        """The line that `vicinity report` writes, without its LF, and of what a line shows the
        one that names that."""
        kind, line = self.kind, f"by line {self.line}"
        of = f"{self.uid:016X}" if self.uid else f"{self.mask_len} {self.mask.digits}"
        said = {kind.OPEN_MASK: f"open {of}", kind.MORE_OPEN_MASKS: "more open",
                kind.CONFLICT_LINE: line, kind.SILENCED_BY: f"silenced {line}",
                }.get(kind, f"{kind.name.lower()} {of}")
        return f"{said}\n{line}" if kind in (kind.ABSENT, kind.UNLISTED) else said


class Report(NamedTuple):
    """The answer to a text, and every finding.

    findings: in the order of the lines of `vicinity report`; none for COMPLETE and REFUSED"""

    answer: Answer
    findings: list[Finding]

    def __bool__(self) -> bool:
        return self.answer.is_complete

    def __str__(self) -> str:
        """What `vicinity report` writes, without its last LF."""
        first = [] if self.answer.status == 1 else [self.answer.text]
        return "\n".join([*first, *map(str, self.findings)])


class Weakest(NamedTuple):
    """Where a list is weakest: a tag that isn't on it would have had to be missed least often.

    margin: in how many slots: a UID was overlooked in a slot in which its tag should have answered,
        if that is logged as silent, or as the reply R of another
    mask: the first mask, by length and then by value, of at most 56 bits, all of whose UIDs aren't
        listed and were overlooked in so many slots
    hidden: of a complete list the first mask of UIDs that aren't on it and could be there if each
        reply R may have hidden others; None if it is complete even so
    deaf: the same if, besides, the reader may have gone deaf after the last slot in which a tag
        answered"""

    margin: int
    mask: Mask
    hidden: Optional[Mask] = None
    deaf: Optional[Mask] = None


class Margin(NamedTuple):
    """The answer to a text, and how sure it is.

    weakest: None if the text is refused or the log impossible. Of a complete list the margin is at
        least 1; it is 0 if a tag that isn't listed may be there"""

    answer: Answer
    weakest: Optional[Weakest]

    def __bool__(self) -> bool:
        return self.answer.is_complete

    def __str__(self) -> str:
        """What `vicinity margin` writes, without its last LF."""
        if self.weakest is None or not self.answer.is_complete:
            return self.answer.text
        margin, *masks = self.weakest
        return "\n".join([str(self.answer), f"margin {margin}", *(
            f"{name} {mask.length} {mask.digits}" if mask else f"{name} -"
            for name, mask in zip(("weakest", "hidden", "deaf"), masks))])


class Simulation(NamedTuple):
    """What `vicinity simulate` writes for a text, and its status: 0 if that is a log, 3 if it is
    the one line of a refusal."""

    status: int
    text: bytes
