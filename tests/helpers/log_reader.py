"""Reads the text of a log, by docs/LOG_FORMAT.md and FRAMES.md alone: its lines as helpers/air.py
has them, or its first fault."""
import re

from helpers.air import Ask, Listed, Reply, StayQuiet, is_slot
from helpers.frames import with_crc

MAX_LINES, MAX_LEN = 1_000_000, 128
# The letters of each version beside T, S, C, R and U.
MORE = {1: "", 2: "DF", 3: "DFHN"}
FRAME_FAULTS = {"Short", "Crc", "Extension", "Reserved", "OptionFlag", "OtherCommand",
                "InventoryFlag", "Afi", "Length", "MaskTooLong", "MaskPadding", "SelectFlag",
                "NotAddressed", "ErrorFlag", "NotVicinity"}
FAULTS = FRAME_FAULTS | {"TooManyLines", "LineTooLong", "Header", "UnknownEntry", "Hex",
                         "ListedLength", "SlotOutsideRound", "EntryAfterList", "DuplicateListed"}


class Fault(Exception):
    """The first fault of a line."""


def first(faults):
    """Refuses by the first that applies, of names each with whether it does."""
    for name, applies in faults:
        if applies:
            raise Fault(name)


def is_right(frame):
    return len(frame) > 1 and with_crc(frame[:-2]) == bytes(frame)


def request(frame):
    first([("Short", len(frame) < 4), ("Crc", not is_right(frame))])
    flags, command = frame[:2]
    first([("Extension", flags & 0x08), ("Reserved", flags & 0x80), ("OptionFlag", flags & 0x40),
           ("OtherCommand", command not in (1, 2)),
           ("InventoryFlag", bool(flags & 0x04) != (command == 1))])
    return inventory(flags, frame) if command == 1 else stay_quiet(flags, frame)


def inventory(flags, frame):
    first([("Afi", flags & 0x10), ("Length", len(frame) == 4)])
    length, one_slot = frame[2], flags & 0x20
    value = int.from_bytes(frame[3:-2], "little")
    first([("MaskTooLong", length > (64 if one_slot else 60)),
           ("Length", len(frame) != 5 + (length + 7) // 8), ("MaskPadding", value >> length)])
    return Ask(not one_slot, length, value)


def stay_quiet(flags, frame):
    first([("SelectFlag", flags & 0x10), ("NotAddressed", not flags & 0x20),
           ("Length", len(frame) != 12)])
    return StayQuiet(int.from_bytes(frame[2:10], "little"))


def reply(frame, captured):
    first([("Length", len(frame) != 12), ("Crc", not is_right(frame))])
    first([("ErrorFlag", frame[0] & 1), ("NotVicinity", frame[9] != 0xE0)])
    return Reply(int.from_bytes(frame[2:10], "little"), captured)


def entry(line, version):
    """What a line behind the header says."""
    letter, more = line[:1], line[1:]
    if not line or letter == "#":
        return line
    if line in ("S", "C") or line in ("D", "N", "F") and line in MORE[version]:
        return line
    if more[:1] != " " or letter not in "TRU" and not (letter == "H" and version == 3):
        raise Fault("UnknownEntry")
    if not re.fullmatch("([0-9A-Fa-f]{2})*", more[1:]):
        raise Fault("Hex")
    frame = bytes.fromhex(more[1:])
    if letter == "U":
        first([("ListedLength", len(frame) != 8), ("NotVicinity", frame[:1] != b"\xe0")])
        return Listed(int.from_bytes(frame, "big"))
    return request(frame) if letter == "T" else reply(frame, letter == "H")


class Order:
    """Refuses a line that may not stand behind those before it."""

    def __init__(self):
        self.slots, self.listed = 0, set()

    def add(self, line):
        if is_slot(line):
            first([("SlotOutsideRound", not self.slots)])
            self.slots -= 1
        elif isinstance(line, Listed):
            first([("DuplicateListed", line in self.listed)])
            self.slots = 0
            self.listed.add(line)
        elif line == "F" or not isinstance(line, str):
            first([("EntryAfterList", self.listed)])
            self.slots = (16 if line.sixteen else 1) if isinstance(line, Ask) else 0


def read(text):
    """(version, lines), of which the first has the number 2; or (number, fault)."""
    parts = text.split(b"\n")
    last = parts.pop()
    parts = [part.removesuffix(b"\r") for part in parts] + [last] * bool(last)
    lines, number, order = [], 1, Order()
    header = re.fullmatch(rb"vicinity-log ([123])", parts[0]) if parts else None
    try:
        if parts and len(parts[0]) > MAX_LEN:
            raise Fault("LineTooLong")
        if not header:
            raise Fault("Header")
        for number, part in enumerate(parts[1:], 2):
            first([("TooManyLines", number > MAX_LINES), ("LineTooLong", len(part) > MAX_LEN)])
            line = entry(part.decode("latin-1"), int(header[1]))
            order.add(line)
            # no tag has a UID with another first byte, so nothing changes
            lines.append("" if isinstance(line, StayQuiet) and line.uid >> 56 != 0xE0 else line)
    except Fault as fault:
        return number, str(fault)
    return int(header[1]), lines
