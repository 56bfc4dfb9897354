"""Numbers, masks and lines of a log in words."""
from typing import Sequence

from .._answers import Mask
from .._objects import UID_BITS
from ..frames import uid_text
from .rows import READINGS, Rows


def count(number: int, one: str, many: str = "") -> str:
    """A number with its noun: 1 tag, 2,000 tags."""
    return f"{number:,} {one if number == 1 else many or one + 's'}"


def span(first: int, last: int) -> str:
    """The numbers of consecutive lines."""
    return f"{first}" if first == last else f"{first} to {last}"


def listing(items: Sequence[str], last: str = "and") -> str:
    return f" {last} ".join(filter(None, [", ".join(items[:-1]), *items[-1:]]))


def ending(mask: Mask) -> str:
    """Which UIDs have a mask: any UID; UIDs ending in 61 or E1, or in 01, 21 .. E1;
    E0040100000000A1."""
    digits, bits = divmod(mask.length, 4)
    low, top = str(Mask(4 * digits, mask.value))[2:], mask.value >> 4 * digits
    if not mask.length:
        return "any UID"
    if mask.length >= UID_BITS:
        whole = uid_text(mask.value | 0xE0 << UID_BITS)
        return whole if mask.length == UID_BITS else f"the UID {mask}"
    if bits == 1 and not low:
        return f"UIDs ending in an {'odd' if top else 'even'} digit"
    ends = [f"{head:X}{low}" for head in range(top, 16, 1 << bits)] if bits else [low]
    return f"UIDs ending in {ends[0]}, {ends[1]} .. {ends[-1]}" if bits == 1 else \
        f"UIDs ending in {listing(ends, 'or')}"


def meaning(rows: Rows, line: int) -> str:
    """What a line of a row says."""
    row = rows.row(rows.place(line))
    for slot in row.slots:
        if slot.line == line:
            read = READINGS[slot.letter][2].format(uid_text(slot.uid or 0))
            uids = ending(slot.mask) if slot.mask.length else "all UIDs"
            return f"{read}; asked: {uids}"
    return f"Stay Quiet to {uid_text(row.request.uid)}" if row.request else "field off and on"
