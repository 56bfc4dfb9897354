"""The shared library, as ctypes sees it."""
import ctypes
import functools
import mmap
import os
from contextlib import suppress
from typing import Any, Callable, TypeVar, Union

from . import __version__

T = TypeVar("T")
BytesLike = Union[bytes, bytearray, memoryview, mmap.mmap]
#: That of the package, and of its library.
VERSION = __version__.partition(".dev")[0]
#: The library's file.
NAME = "vicinity.dll" if os.name == "nt" else "libvicinity.so.2"
#: What tells the flags of an x86-64 processor, and those of x86-64-v2.
PROCESSOR, X86_64_V2 = "/proc/cpuinfo", ("cx16", "lahf_lm", "popcnt", "sse4_1", "sse4_2", "ssse3")


U16, U32, U64 = ctypes.c_uint16, ctypes.c_uint32, ctypes.c_uint64


def _struct(name: str, **fields: Any) -> type[ctypes.Structure]:
    return type(name, (ctypes.Structure,), {"_fields_": list(fields.items())})


# the structs of vicinity.h
AnswerStruct = _struct("vicinity_answer", kind=U32, status=U32, count=U32, line=U32, fault=U32,
                       mask_len=U32, mask_value=U64, uid=U64, text=ctypes.c_char * 64)
FindingStruct = _struct("vicinity_finding", kind=U32, line=U32, mask_len=U32, zero=U32,
                        mask_value=U64, uid=U64)
RequestStruct = _struct("vicinity_request", fault=U32, link=U32, slots=U32, mask_len=U32,
                        mask_value=U64, uid=U64)
ReplyStruct = _struct("vicinity_reply", fault=U32, flags=U16, dsfid=U16, uid=U64)
MaskStruct = _struct("vicinity_mask", fault=U32, len=U32, value=U64)
WeakestStruct = _struct("vicinity_weakest", margin=U32, mask_len=U32, mask_value=U64,
                        has_hidden=U32, hidden_len=U32, hidden_value=U64,
                        has_deaf=U32, deaf_len=U32, deaf_value=U64)
FrameStruct = _struct("vicinity_frame", fault=U32, len=U32, bytes=ctypes.c_uint8 * 16)
LineStruct = _struct("vicinity_line", fault=U32, len=U32, text=ctypes.c_char * 132)
NameStruct = _struct("vicinity_name", len=U32, text=ctypes.c_char * 28)

SIZE, POINTER = ctypes.c_size_t, ctypes.POINTER
TEXT = [ctypes.c_char_p, SIZE]  # bytes, whose address C gets: never None, and read only
UIDS = [POINTER(U64), SIZE]
ANSWER, WEAKEST, FRAME = POINTER(AnswerStruct), POINTER(WeakestStruct), POINTER(FrameStruct)
POPULATION, WRITTEN = [*UIDS, POINTER(SIZE)], [POINTER(ctypes.c_uint8), SIZE, POINTER(SIZE)]
FINDINGS = [POINTER(FindingStruct), SIZE, POINTER(SIZE)]

#: The commands of the program, by the numbers of vicinity.h, from 1.
COMMANDS = ("check", "explain", "report", "margin", "simulate", "reconcile", "frame", "spell",
            "survey", "collection", "json", "json-collection")

CALLS = {
    "version": [],
    "check": [*TEXT, ANSWER], "check_listed": [*TEXT, *UIDS, ANSWER],
    "explain": [*TEXT, ANSWER, *POPULATION], "report": [*TEXT, ANSWER, *FINDINGS],
    "margin": [*TEXT, ANSWER, WEAKEST], "margin_listed": [*TEXT, *UIDS, ANSWER, WEAKEST],
    "simulate": [*TEXT, *WRITTEN], "run": [U32, *TEXT, *TEXT, POINTER(SIZE), SIZE, *WRITTEN],
    "kind_name": [U32, POINTER(NameStruct)], "fault_name": [U32, POINTER(NameStruct)],
    "write_inventory": [U32, U32, U32, U64, FRAME], "write_stay_quiet": [U32, U64, FRAME],
    "write_response": [U32, U32, U64, FRAME], "add_crc": [*TEXT, FRAME],
    "write_line": [ctypes.c_uint8, *TEXT, U64, POINTER(LineStruct)],
    "read_request": [*TEXT, POINTER(RequestStruct)], "read_response": [*TEXT, POINTER(ReplyStruct)],
    "slot_mask": [U32, U32, U64, U32, POINTER(MaskStruct)],
}


def bytes_of(text: BytesLike) -> bytes:
    """The bytes of a text or a frame.
    Other threads run during a call, so anything that can change is copied,
    or that may tell another length."""
    if type(text) is bytes:
        return text
    try:
        return memoryview(text).tobytes()
    except TypeError:
        raise TypeError("the text of a log, and a frame, are bytes, "
                        f"not {type(text).__name__}") from None


def sized(text: BytesLike) -> tuple[bytes, int]:
    """A text, or a frame, as a call takes it."""
    text = bytes_of(text)
    return text, len(text)


def room_of(place: Any, places: int) -> Any:
    """A buffer with that many elements, at least one, which takes memory only as it is filled."""
    try:
        return (place * places).from_buffer(mmap.mmap(-1, places * ctypes.sizeof(place)))
    except OSError as error:
        raise MemoryError("vicinity: out of memory") from error


def filled(call: Callable[..., T], place: Any, places: int) -> tuple[T, Any, int]:
    """Makes a call that fills a buffer, first with so many elements, and again if it needs more:
    what it returns, the buffer, and how many of its elements are filled."""
    while True:
        room, needed = room_of(place, places), ctypes.c_size_t()
        result = call(room, places, ctypes.byref(needed))
        if needed.value <= places:
            return result, room, needed.value
        places = needed.value


def lacking() -> list[str]:
    """What the processor lacks of x86-64-v2, without which the library would end the process, if
    the system tells its flags."""
    with suppress(OSError), open(PROCESSOR, encoding="utf-8") as file:
        flags = next((line.split() for line in file if line.startswith("flags")), X86_64_V2)
        return [flag for flag in X86_64_V2 if flag not in flags]
    return []


@functools.lru_cache(maxsize=None)
def library() -> ctypes.CDLL:
    """The library, loaded once: the file that LIBVICINITY names,
    or the one that came with the package, or the installed one. Another version than that of the
    package is refused, since it may lack what is fixed in this one."""
    within = os.path.join(os.path.dirname(os.path.abspath(__file__)), NAME)
    named = os.environ.get("LIBVICINITY")
    name = named or (within if os.path.exists(within) else NAME)
    if lacking():
        raise OSError(f"the library {name} needs a processor with x86-64-v2: "
                      f"this one lacks {', '.join(lacking())}")
    try:
        lib = ctypes.CDLL(name)
        number = lib.vicinity_version()
        version = f"{number // 10000}.{number // 100 % 100}.{number % 100}"
        if version == VERSION:
            for call_name, arguments in CALLS.items():
                call = getattr(lib, f"vicinity_{call_name}")
                call.restype, call.argtypes = U32, arguments
            return lib
    except (OSError, AttributeError) as error:
        raise OSError(f"the library {name} can't be loaded ({error}): "
                      "install vicinity or the package libvicinity2, or "
                      "name the file in the environment variable LIBVICINITY") from None
    which = ", which LIBVICINITY names," * bool(named)
    raise OSError(f"the library {_file_of(name)}{which} has the version {version}, "
                  f"and this package {VERSION}: both have to be of one version")


def _file_of(name: str) -> str:
    """Where the system found a library, if it tells."""
    with suppress(OSError), open("/proc/self/maps", encoding="utf-8", errors="replace") as maps:
        files = (line.split(maxsplit=5)[-1].rstrip() for line in maps if f"/{name}" in line)
        return next(files, name)
    return name


@functools.lru_cache(maxsize=None)
def name_of(what: str, number: int) -> str:
    """The name that the library has for a number of a kind or a fault."""
    name = NameStruct()
    getattr(library(), f"vicinity_{what}_name")(number, ctypes.byref(name))
    return bytes(name.text).decode("ascii")
