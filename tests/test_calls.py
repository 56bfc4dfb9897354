"""Asks the library's calls on frames, lines, lists and margins: of both compilers, and as
WebAssembly. What is expected is worked out by hand, by the tables of docs/FRAMES.md and AIR.md;
random frames are made by helpers/frames.py."""
import ctypes
import random
import re

import pytest
from vicinity import _native
from vicinity._native import AnswerStruct, MaskStruct, WeakestStruct

from helpers.frames import hex_of, inventory, reply, stay_quiet, with_crc
from helpers.library import SIZE, U32, U64, answer_to, uids
from helpers.lines import log_of
from helpers.program import TOP

LINK, SLOTS, MASK, SLOT, REPLY, TOO_LONG, LETTER = range(201, 208)
KINDS = "complete absent unlisted unsettled doubtful impossible refused".split()
LINE_FAULTS = """TooManyLines LineTooLong Header UnknownEntry Hex ListedLength NotVicinity
    SlotOutsideRound EntryAfterList DuplicateListed""".split()
REFUSALS = "WrongLink WrongSlots WrongMask WrongSlot WrongReply TooLong WrongLetter".split()
FAULTS = """Short Crc Extension Reserved OptionFlag OtherCommand InventoryFlag Afi Length
    MaskTooLong MaskPadding SelectFlag NotAddressed ErrorFlag NotVicinity""".split()
UID_A, UID_B = 0xE0040100000000A1, 0xE0040100000000B2
A, B = f"{UID_A:016X}", f"{UID_B:016X}"
LITTLE_A = UID_A.to_bytes(8, "little")
ALONE = 56, 0x040100000000A1
WITHOUT_TEXT = "refused at line 1: Header"
# How many random frames of each kind are written and read.
NUMBER = 200


class Calls:
    """The calls on frames and lines: what each writes, field by field."""

    STRUCTS = {"write_line": _native.LineStruct, "slot_mask": MaskStruct,
               "read_request": _native.RequestStruct, "read_response": _native.ReplyStruct,
               "kind_name": _native.NameStruct, "fault_name": _native.NameStruct}

    def __init__(self, library):
        self.library = library

    def __getattr__(self, name):
        def call(*given):
            told = self.library.told(self.STRUCTS.get(name, _native.FrameStruct), name, *given)
            fields = (getattr(told, field) for field, _ in told._fields_)
            return tuple(bytes(it) if isinstance(it, ctypes.Array) else it for it in fields)
        return call


@pytest.fixture(scope="session")
def calls(library_of):
    return Calls(library_of)


def framed(digits):
    data = bytes.fromhex(digits)
    return 0, len(data), data.ljust(16, b"\0")


def no_frame(fault):
    return fault, 0, bytes(16)


def lined(text):
    return 0, len(text), text.encode()


def test_versions(native):
    """The header and the library are of the version in VERSION, or of the one to come."""
    version = (TOP / "VERSION").read_text().strip().removesuffix("~dev")
    first, second, third = map(int, version.split("."))
    header = (TOP / "include/vicinity.h").read_text()
    number = 10_000 * first + 100 * second + third
    assert re.findall(r'#define VICINITY_VERSION "(.*)"', header) == [version]
    assert re.findall(r"#define VICINITY_VERSION_NUMBER (\d+)u", header) == [str(number)]
    assert native.call("version") == number


@pytest.mark.parametrize(("call", "given", "told"), [
    *(("write_inventory", numbers, framed(frame)) for numbers, frame in (
        ((2, 1, 7, 0x61), "260107614C5D"), ((2, 16, 0, 0), "060100CD09"),
        ((2, 1, 64, 0), "26014000000000000000006DD2"),
        ((2, 16, 60, 0), "06013C0000000000000000069E"))),
    *(("write_inventory", numbers, no_frame(fault)) for numbers, fault in (
        ((4, 1, 0, 0), LINK), ((2, 2, 0, 0), SLOTS), ((2, 0, 0, 0), SLOTS), ((2, 1, 65, 0), MASK),
        ((2, 16, 61, 0), MASK), ((2, 1, 4, 0x10), MASK), ((4, 2, 65, 0), LINK),
        ((2, 1, 257, 0), MASK))),
    ("write_stay_quiet", (2, UID_A), framed("2202A1000000000104E0662A")),
    ("write_stay_quiet", (4, UID_A), no_frame(LINK)),
    ("write_response", (0, 0, UID_A), framed("0000A1000000000104E06745")),
    *(("write_response", numbers, no_frame(REPLY)) for numbers in (
        (1, 0, UID_A), (256, 0, UID_A), (0, 256, UID_A), (0, 0, 0xE1 << 56), (0, 0, 0xDF << 56))),
    ("add_crc", (bytes.fromhex("260100"),), framed("260100F60A")),
    ("add_crc", (bytes(14),), framed(hex_of(bytes(14)))),
    ("add_crc", (bytes(15),), no_frame(TOO_LONG)),
    *(("slot_mask", numbers, mask) for numbers, mask in (
        ((16, 4, 1, 15), (0, 8, 0xF1)), ((1, 64, 5, 0), (0, 64, 5)),
        ((16, 4, 1, 16), (SLOT, 0, 0)), ((1, 4, 1, 1), (SLOT, 0, 0)),
        ((3, 4, 1, 0), (SLOTS, 0, 0)), ((16, 61, 1, 0), (MASK, 0, 0)))),
    *(("write_line", (ord(letter), data, UID_A * (letter == "U")), line) for letter, data, line in (
        ("T", bytes.fromhex("260100F60A"), lined("T 260100F60A\n")),
        *((letter, bytes(63), lined(f"{letter} {'00' * 63}\n")) for letter in "RH"),
        *((letter, bytes(64), (TOO_LONG, 0, b"")) for letter in "RH"),
        ("U", b"", lined("U E0040100000000A1\n")),
        *((letter, bytes(64), lined(letter + "\n")) for letter in "SCDNF"),
        *((letter, b"", (LETTER, 0, b"")) for letter in "tX#\0")))])
def test_what_a_call_writes(calls, call, given, told):
    assert getattr(calls, call)(*given) == told


@pytest.mark.parametrize(("call", "name", "frame"), [
    ("request", "Short", b"\x26\x01\xF6"), ("request", "Crc", bytes.fromhex("260100F60B")),
    *(("request", name, with_crc(body)) for name, body in (
        ("Extension", [0x2E, 1, 0]), ("Reserved", [0xA6, 1, 0]), ("OptionFlag", [0x66, 1, 0]),
        ("OtherCommand", [0x26, 0x2B]), ("InventoryFlag", [0x22, 1, 0]), ("Afi", [0x36, 1, 0, 0]),
        ("Length", [0x26, 1, 8]), ("MaskTooLong", [0x26, 1, 65]),
        ("MaskPadding", [0x26, 1, 4, 0x1F]), ("SelectFlag", [0x32, 2, *LITTLE_A]),
        ("NotAddressed", [0x02, 2, *LITTLE_A]))),
    ("response", "Crc", bytes(12)),
    *(("response", name, with_crc(body)) for name, body in (
        ("Length", [0, 0]), ("ErrorFlag", [1, 0, *LITTLE_A]),
        ("NotVicinity", [0, 0, *LITTLE_A[:7], 0xE1])))])
def test_each_fault_of_a_frame(calls, call, name, frame):
    fault, *fields = getattr(calls, f"read_{call}")(frame)
    assert (fault, set(fields)) == (101 + FAULTS.index(name), {0})


def test_random_frames_are_written_and_read(calls):
    rng = random.Random(15693)
    for _ in range(NUMBER):
        frame, _, numbers = inventory(rng)
        assert calls.write_inventory(*numbers) == framed(frame)
        assert calls.read_request(bytes.fromhex(frame)) == (0, *numbers, 0)
        frame, _, (link, uid) = stay_quiet(rng)
        assert calls.write_stay_quiet(link, uid) == framed(frame)
        assert calls.read_request(bytes.fromhex(frame)) == (0, link, 0, 0, 0, uid)
        frame, _, numbers = reply(rng)
        assert calls.write_response(*numbers) == framed(frame)
        assert calls.read_response(bytes.fromhex(frame)) == (0, *numbers)
        assert calls.add_crc(bytes.fromhex(frame)[:-2]) == framed(frame)
        assert calls.write_line(ord("R"), bytes.fromhex(frame), 0) == lined(f"R {frame}\n")


@pytest.mark.parametrize(("what", "first", "words"), [
    ("kind", 1, KINDS), ("fault", 1, LINE_FAULTS), ("fault", 101, FAULTS),
    ("fault", 201, REFUSALS)])
def test_the_name_of_each_number(calls, what, first, words):
    """And none of those beside them."""
    name = getattr(calls, f"{what}_name")
    for number, word in enumerate(["", *words, ""], first - 1):
        assert name(number) == (len(word), word.encode()), number
    for number in (50, 99, 300, 1000, 1 << 31, (1 << 32) - 1):
        assert name(number) == (0, b""), number


def refusable(line):
    """The answer that a line says, with the number of its fault."""
    name = line.rpartition(" ")[2]
    return answer_to(line, 1 + LINE_FAULTS.index(name) if name in LINE_FAULTS else 0)


# A log that isn't complete has a margin too, unless it is impossible.
MEASURED = [
    ("I1 S", "complete 0", (1, 0, 0)), ("I1 RA UA", "complete 1", (1, 1, 0)),
    ("I1 RA QA I1 S UA", "complete 1", (2, 1, 0)), ("V2 I1 S F I1 S", "complete 0", (2, 0, 0)),
    ("V3 I1 HA QA I1 S UA", "complete 1", (1, 1, 0)),
    ("I1 RA QA QB I1 S UA", "complete 1", (1, 56, 0x040100000000B2)),
    ("I1 RA", f"unlisted {A}", (0, *ALONE)), ("I1 C UA", "unsettled 1 00", (0, 1, 0)),
    ("I1 S UA", f"absent {A}", (1, 1, 0)), ("I1 S I1 RA", "impossible at line 5", (0, 0, 0)),
    ("UA UA", "refused at line 3: DuplicateListed", (0, 0, 0))]


# What the hidden and the deaf reading of the complete ones leave unsettled.
READINGS = {
    "I1 S": (None, (0, 0)), "I1 RA UA": ((1, 0), (1, 0)), "I1 RA QA I1 S UA": (None, (1, 0)),
    "V2 I1 S F I1 S": (None, (0, 0)), "V3 I1 HA QA I1 S UA": (None, (1, 0)),
    "I1 RA QA QB I1 S UA": ((56, 0x040100000000B2), (1, 0))}


@pytest.mark.parametrize(("short", "line", "weakest"), MEASURED, ids=[row[0] for row in MEASURED])
def test_the_margin_of_a_log(library_of, short, line, weakest):
    """Also with its list removed and passed separately, with LF after the last line and without."""
    lines = log_of(short).splitlines(keepends=True)
    text = b"".join(given for given in lines if not given.startswith(b"U"))
    listed = uids([int(given[2:], 16) for given in lines if given.startswith(b"U")])
    for name, *given in (("margin", b"".join(lines)), ("margin_listed", text, listed),
                         ("margin_listed", text.removesuffix(b"\n"), listed)):
        told, least = (kind.from_buffer_copy(b"\x09" * ctypes.sizeof(kind))
                       for kind in (AnswerStruct, WeakestStruct))
        status = library_of.call(name, *given, ctypes.byref(told), ctypes.byref(least))
        assert (status, bytes(told)) == (told.status, bytes(refusable(line)))
        assert (least.margin, least.mask_len, least.mask_value) == weakest
        hidden, deaf = ((1, *mask) if mask else (0, 0, 0)
                        for mask in READINGS.get(short, (None, None)))
        assert (least.has_hidden, least.hidden_len, least.hidden_value) == hidden
        assert (least.has_deaf, least.deaf_len, least.deaf_value) == deaf


# Texts whose last line lacks its LF, each with what is answered with the list A beside it: the line
# of A would be lost in a comment, and make a line of another kind a fault.
WITHOUT_LF = {
    "a comment": (r"vicinity-log 1\nT 260100F60A\nS\n# end of session", f"absent {A}"),
    "a slot": (r"vicinity-log 1\nT 260100F60A\nS", f"absent {A}"),
    "CR": (r"vicinity-log 1\r\nT 260100F60A\r\nS\r", f"absent {A}"),
    "CR alone": (r"vicinity-log 1\nT 260100F60A\nS\n\r", f"absent {A}"),
    "the header": ("vicinity-log 1", "unsettled 1 00"),
    "a UID": (rf"vicinity-log 1\nU {B}", "unsettled 2 00"),
    "the same UID": (rf"vicinity-log 1\nU {A}", "refused at line 3: DuplicateListed"),
    "nothing": ("", "refused at line 1: Header")}


@pytest.mark.parametrize("name", WITHOUT_LF)
def test_a_list_beside_a_text_without_its_last_line_feed(library_of, name):
    """A CR at its end belongs to the line's end, and what the text lists itself counts too."""
    text, line = WITHOUT_LF[name]
    text, beside = text.encode().decode("unicode_escape").encode(), uids([UID_A])
    wanted = bytes(refusable(line))
    assert bytes(library_of.told(AnswerStruct, "check_listed", text, beside)) == wanted
    told, least = AnswerStruct(), WeakestStruct()
    library_of.call("margin_listed", text, beside, ctypes.byref(told), ctypes.byref(least))
    assert bytes(told) == wanted


# Nothing at a pointer, or an address that isn't aligned: what has no length isn't looked at.
SOMETHING = uids([0, 0])
NOTHING = (None, ctypes.addressof(SOMETHING) + 1)
LIST, SILENT = log_of("UA"), log_of("I1 S")
# Calls by what stands before the answer, with the answer and how many elements each array needs.
EMPTY = [
    ("check", [0], WITHOUT_TEXT, []), ("explain", [0], WITHOUT_TEXT, [0]),
    ("report", [0], WITHOUT_TEXT, [0]), ("check_listed", [SILENT, 0], "complete 0", []),
    ("explain", [LIST], "unsettled 1 00", [1])]


@pytest.mark.parametrize("nothing", NOTHING, ids=["NULL", "not aligned"])
def test_nothing_at_a_pointer(native, nothing):
    """The answer is that to a pointer to something."""
    calls = ctypes.CDLL(str(native.path))
    empty, told = (ctypes.c_void_p(nothing), SIZE(0)), AnswerStruct()
    for name, given, line, counts in EMPTY:
        words = [part for it in given for part in (empty if it == 0 else (it, SIZE(len(it))))]
        needed = [SIZE(9) for _ in counts]
        rooms = [part for it in needed for part in (*empty, ctypes.byref(it))]
        calls[f"vicinity_{name}"](*words, ctypes.byref(told), *rooms)
        wanted = f"{line}\n".encode(), counts
        assert (told.text, [it.value for it in needed]) == wanted, name
    room, number = (ctypes.c_char * 64)(), SIZE(9)
    assert calls.vicinity_simulate(*empty, room, SIZE(64), ctypes.byref(number)) == 3
    assert room.value == f"{WITHOUT_TEXT}\n".encode() and number.value == len(room.value)
    beside, weakest = (SILENT, SIZE(len(SILENT)), *empty, ctypes.byref(told)), WeakestStruct()
    assert calls.vicinity_margin_listed(*beside, ctypes.byref(weakest)) == 0
    for command, lengths, wanted in (1, [0], WITHOUT_TEXT), (6, [], "vicinity: usage"):
        names = (b"\n", SIZE(1)) if lengths else empty
        lengths = (uids(lengths), SIZE(1)) if lengths else empty
        status = calls.vicinity_run(U32(command), *names, *empty, *lengths, room, SIZE(64),
                                    ctypes.byref(number))
        assert status == (3 if command == 1 else 4)
        assert room.raw[:number.value] == f"{wanted}\n".encode()
    frame = ctypes.byref((U64 * 32)())
    assert [calls.vicinity_add_crc(*empty, frame), calls.vicinity_read_request(*empty, frame),
            calls.vicinity_read_response(*empty, frame),
            calls.vicinity_write_line(ord("S"), *empty, U64(0), frame)] == [
                0, 101 + FAULTS.index("Short"), 101 + FAULTS.index("Length"), 0]
