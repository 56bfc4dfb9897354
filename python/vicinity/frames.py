"""Frames read and written, lines of a log, and which tags answer in a slot:
library calls that allocate no memory."""
import ctypes
import re
from typing import NamedTuple, Union

from ._answers import Fault, Mask
from ._native import (BytesLike, FrameStruct, LineStruct, MaskStruct, ReplyStruct, RequestStruct,
                      library, name_of, sized)

#: The first line of a log.
HEADER_LINE = b"vicinity-log 3\n"
#: A UID in a text, and what may be among its digits,
#: as spreadsheets and library systems write them.
DIGITS = re.compile("'?(?:0[xX])?([0-9A-Fa-f]{16})")
BETWEEN_DIGITS = re.compile("[\\s:\u2010-\u2013-]")
#: What is asked of a frame or a line that can't be made, by the name of the refusal.
WANTED = {
    "WrongLink": "a link is 0 to 3", "WrongSlots": "a round has 1 or 16 slots",
    "WrongMask": "a mask has at most 64 bits, or 60 with sixteen slots, "
                 "and its value no more bits than that",
    "WrongSlot": "slots are counted from 0, and are fewer than the round has",
    "WrongReply": "a reply has flags and a DSFID of one byte each, no error flag, "
                  "and a UID that begins with E0",
    "TooLong": "there are more bytes than fit",
    "WrongLetter": "a line begins with T, S, R, H, C, D, N, F or U",
}


class FrameFault(ValueError):
    """The first fault of a frame."""

    def __init__(self, fault: Fault):
        super().__init__(f"{fault.word}: {fault.wrong}")
        self.fault = fault

    def __reduce__(self) -> "tuple[type[FrameFault], tuple[Fault]]":
        """How it travels between processes."""
        return FrameFault, (self.fault,)


def uid_text(uid: int) -> str:
    """A UID as 16 hex digits, E0 first."""
    return f"{uid:016X}"


def parse_uid(text: str) -> int:
    """The UID in a text: 16 hex digits in either case, E0 first.
    Colons, dashes and spaces may be among them, 0x or an apostrophe before them.
    Raises ValueError if it isn't one."""
    match = DIGITS.fullmatch(BETWEEN_DIGITS.sub("", text))
    digits = match[1].upper() if match else ""
    if digits.startswith("E0"):
        return int(digits, 16)
    raise ValueError(f"{text!r} isn't a UID: 16 hex digits that begin with E0"
                     + "; its bytes seem to be in the opposite order" * digits.endswith("E0"))


class Request(NamedTuple):
    """The fields of a request. Inventory opens 1 or 16 slots; Stay Quiet opens 0, and has a UID."""

    link: int
    slots: int
    mask: Mask
    uid: int


class Reply(NamedTuple):
    """The fields of a reply."""

    flags: int
    dsfid: int
    uid: int


def read_request(frame: BytesLike) -> Request:
    """The fields of a request's frame, CRC included. Raises FrameFault if it isn't one."""
    fields = _filled("read_request", RequestStruct(), *sized(frame))
    return Request(fields.link, fields.slots, Mask(fields.mask_len, fields.mask_value), fields.uid)


def read_response(frame: BytesLike) -> Reply:
    """The fields of a reply's frame, CRC included. Raises FrameFault if it isn't one."""
    fields = _filled("read_response", ReplyStruct(), *sized(frame))
    return Reply(fields.flags, fields.dsfid, fields.uid)


def write_inventory(link: int, slots: int, mask: Mask = Mask(0, 0)) -> bytes:
    """The frame of an Inventory request, CRC included, with a link of 0 to 3 and 1 or 16 slots.

    Raises ValueError, with the name of the refusal and what is asked,
    if there is no such request."""
    return _frame("write_inventory", link, slots, mask.length, mask.value)


def write_stay_quiet(link: int, uid: int) -> bytes:
    """The frame of a Stay Quiet request, CRC included.
    Raises ValueError as `write_inventory` does."""
    return _frame("write_stay_quiet", link, uid)


def write_response(flags: int, dsfid: int, uid: int) -> bytes:
    """The frame of a reply, CRC included, for a simulated field.
    Raises ValueError as `write_inventory` does."""
    return _frame("write_response", flags, dsfid, uid)


def add_crc(content: BytesLike) -> bytes:
    """At most 14 bytes with their CRC after them: a frame whose CRC the reader's chip removed.
    Raises ValueError if there are more."""
    return _frame("add_crc", *sized(content))


def write_line(letter: str, frame: BytesLike = b"", uid: int = 0) -> bytes:
    """A line of a log, with its LF: "T", "R" or "H" with a frame of at most 63 bytes,
    which isn't judged, "U" with a UID, or only "S", "C", "D", "N" or "F".
    Raises ValueError, with the name of the refusal and what is asked, if there is no such line."""
    if not (isinstance(letter, str) and len(letter) == 1 and letter.isascii()):
        raise ValueError(f"WrongLetter: {WANTED['WrongLetter']}, not {letter!r}")
    return bytes(_filled("write_line", LineStruct(), ord(letter), *sized(frame), uid).text)


def slot_mask(slots: int, mask: Mask, slot: int) -> Mask:
    """Which UIDs answer in a slot, counted from 0,
    of an Inventory request with 1 or 16 slots and a mask.

    Raises ValueError if there is no such request or slot."""
    fields = _filled("slot_mask", MaskStruct(), slots, mask.length, mask.value, slot)
    return Mask(fields.len, fields.value)


def _frame(name: str, *inputs: Union[int, bytes]) -> bytes:
    """The frame that a call writes."""
    frame = _filled(name, FrameStruct(), *inputs)
    return bytes(frame.bytes)[:frame.len]


def _filled(name: str, output: ctypes.Structure, *inputs: Union[int, bytes]) -> ctypes.Structure:
    """The struct that a call fills, of bytes and of numbers that fit what C takes."""
    call = getattr(library(), f"vicinity_{name}")
    for number, kind in zip(inputs, call.argtypes):
        if isinstance(number, bytes):
            continue
        if not isinstance(number, int):
            raise TypeError(f"{number!r} isn't a number, but {type(number).__name__}; "
                            "parse_uid reads a UID from text")
        bits = 8 * ctypes.sizeof(kind)
        if not 0 <= number < 1 << bits:
            raise ValueError(f"{number} isn't a number of {bits} bits")
    fault = call(*inputs, ctypes.byref(output))
    if 0 < fault <= max(Fault):
        raise FrameFault(Fault(fault))
    if fault:
        refusal = name_of("fault", fault)
        raise ValueError(f"{refusal}: {WANTED[refusal]}")
    return output
