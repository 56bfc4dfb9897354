"""The library for C, as Python calls it."""
import contextlib
import ctypes
import os
import re
from unittest import mock

import vicinity
from vicinity import Kind, _native
from vicinity._native import COMMANDS, AnswerStruct, FindingStruct

from helpers.program import TOP, Said

# The calls that the header declares, without what it defines itself.
CALLS = re.findall(r"^(?!static )[a-z][a-z0-9_ *]*[ *](vicinity_[a-z_]+)\(",
                   (TOP / "include/vicinity.h").read_text(), re.M)
U8, U32, U64, SIZE = ctypes.c_uint8, ctypes.c_uint32, ctypes.c_uint64, ctypes.c_size_t
STATUSES = {"complete": 0, "impossible": 2, "refused": 3}
UNSETTLED, OPEN, MORE, CONFLICT, SILENCED = 4, 8, 9, 10, 11
# The calls that list something, with its elements.
LISTING = {"explain": U64, "report": FindingStruct, "simulate": U8, "run": U8}
# Of these, the calls that fill no struct in: they return a status alone.
WRITING = ("simulate", "run")


def answer_to(line, fault=0):
    """The answer that a line says, with each number; a refusal has that of its fault."""
    kind, *words = line.split()
    told = AnswerStruct(Kind[kind.upper()], STATUSES.get(kind, 1), fault=fault)
    told.text = line.encode() + b"\n"
    if kind == "complete":
        told.count = int(words[0])
    elif kind == "unsettled":
        told.mask_len, told.mask_value = mask_in(words)
    elif kind in STATUSES:
        told.line = int(words[2].rstrip(":"))
    else:
        told.uid = int(words[0], 16)
    return told


def mask_in(words):
    """The mask of the words `L V`."""
    return int(words[0]), int(words[1].replace("-", "0"), 16)


def findings_of(lines):
    """The findings that the lines of a report say."""
    found = []
    for line in lines:
        kind, *words = line.split()
        if kind in ("absent", "unlisted", "doubtful"):
            found.append(FindingStruct(Kind[kind.upper()], uid=int(words[0], 16)))
        elif kind in ("unsettled", "open"):
            number, (length, value) = UNSETTLED if kind == "unsettled" else OPEN, mask_in(words)
            found.append(FindingStruct(number, mask_len=length, mask_value=value))
        elif kind == "more":
            found.append(FindingStruct(MORE))
        elif kind == "by" and found and found[-1].uid:
            found[-1].line = int(words[1])
        elif kind in ("by", "silenced"):
            found.append(FindingStruct(CONFLICT if kind == "by" else SILENCED, int(words[-1])))
    return found


def uids(numbers):
    """UIDs, as calls take them."""
    return (U64 * len(numbers))(*numbers)


class Library:
    """A file of the library, by whichever compiler."""

    def __init__(self, path):
        self.path = path
        with self.package():
            self.calls = _native.library()

    @contextlib.contextmanager
    def package(self):
        """The Python package over this library, and over the one before when it ends."""
        with mock.patch.dict(os.environ, LIBVICINITY=str(self.path)):
            _native.library.cache_clear()
            try:
                yield vicinity
            finally:
                _native.library.cache_clear()

    def call(self, name, *given):
        """What a call returns. A text, and each array, is given with its length."""
        words = [part for it in given for part in
                 ((it, SIZE(len(it))) if isinstance(it, (bytes, ctypes.Array)) else (it,))]
        return getattr(self.calls, f"vicinity_{name}")(*words)

    def told(self, kind, name, *given):
        """The struct that a call fills, which held other bytes before. It has what the call
        returns."""
        told = kind.from_buffer_copy(b"\x09" * ctypes.sizeof(kind))
        result = self.call(name, *given, ctypes.byref(told))
        assert result == getattr(told, "status" if kind is AnswerStruct else kind._fields_[0][0])
        return told

    def into(self, room_len, name, *given):
        """What a call returns with a buffer of that many elements, whose bytes were 7 before: the
        answer, or the status, how many elements are needed, and the buffer."""
        told = AnswerStruct.from_buffer_copy(b"\x09" * ctypes.sizeof(AnswerStruct))
        room, needed = (LISTING[name] * room_len)(), SIZE(9)
        ctypes.memset(room, 7, ctypes.sizeof(room))
        answer = [] if name in WRITING else [ctypes.byref(told)]
        status = self.call(name, *given, *answer, room, ctypes.byref(needed))
        assert not answer or status == told.status
        return told if answer else status, needed.value, room

    def into_each(self, wanted, name, *given):
        """The answer of a call that has to write these elements, in buffers with none, with one too
        few, with as many as are needed, and with more."""
        elements = bytes((LISTING[name] * len(wanted))(*wanted))
        for room_len in sorted({0, max(len(wanted) - 1, 0), len(wanted), len(wanted) + 3}):
            told, needed, room = self.into(room_len, name, *given)
            held = elements if len(wanted) <= room_len else b""
            assert (needed, bytes(room)) == (len(wanted), held.ljust(ctypes.sizeof(room), b"\7"))
        return told


def run_arguments(command, texts, names=None):
    """What `run` is given for a command over texts, by the header."""
    names = [b"" for _ in texts] if names is None else names
    return (U32(1 + COMMANDS.index(command)), b"".join(name + b"\n" for name in names),
            b"".join(texts), (SIZE * len(texts))(*map(len, texts)))


class OneCall:
    """The program as the call `run` of a library does it, over files that are read here."""

    USAGE, OUT_OF_MEMORY = b"vicinity: usage\n", b"vicinity: out of memory\n"

    def __init__(self, library):
        self.library = library

    def run(self, command, *words, given=b"", name="vicinity", cwd=TOP, **_):
        """What the program `name` writes and its status, by a buffer that is first too small."""
        assert name == "vicinity"
        names = [os.fsencode(word) for word in words]
        texts = names
        if command not in ("frame", "spell"):
            texts = [(cwd / word).read_bytes() for word in words]
            if not words:
                names, texts = [b""], [given]
        told = run_arguments(command, texts, None if command in ("frame", "spell") else names)
        status, needed, _ = self.library.into(0, "run", *told)
        again, same, room = self.library.into(needed, "run", *told)
        assert (again, same) == (status, needed)
        said = bytes(room)
        return Said(b"", said or self.OUT_OF_MEMORY, 4) if status == 4 else Said(said, b"", status)
