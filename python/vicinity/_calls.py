"""The calls of the library, for Python."""
import ctypes
import struct
from array import array
from functools import partial
from html import escape
from typing import Any, Collection, Sequence, Sized

from ._answers import (Answer, Explanation, Fault, Finding, FindingKind, Kind, Margin, Mask, Report,
                       Simulation, Weakest)
from ._native import (U64, AnswerStruct, BytesLike, FindingStruct, WeakestStruct, bytes_of, filled,
                      library, sized)
from ._run import NO_ANSWER, run

#: How many UIDs or findings there is room for at first.
FIRST_PLACES = 64
#: struct vicinity_finding.
PACKED_FINDING = struct.Struct("IIIIQQ")


def _numbers(uids: Collection[int]) -> tuple[ctypes.Array[ctypes.c_uint64], int]:
    """UIDs as a C array, and how many they are. Raises OverflowError if a number doesn't fit into
    64 bits."""
    if isinstance(uids, (str, bytes, bytearray, memoryview)) or hasattr(uids, "read"):
        raise TypeError(f"UIDs are numbers, not {type(uids).__name__}: parse_uid reads one")
    numbers = array("Q", uids if isinstance(uids, Sized) else ())
    if not isinstance(uids, Sized) or len(uids) != len(numbers):
        raise TypeError(f"UIDs are a list, not {type(uids).__name__}, which may be used up")
    place = ctypes.c_uint64 * len(numbers)
    # what an empty array points to isn't aligned
    return place.from_buffer(numbers) if numbers else place(), len(numbers)


def _call(name: str, inputs: Sequence[Any], *outputs: Any) -> ctypes.Structure:
    """The struct of the answer that a call fills, beside other outputs."""
    answer = AnswerStruct()
    getattr(library(), f"vicinity_{name}")(*inputs, ctypes.byref(answer), *outputs)
    return answer


def _answer(fields: ctypes.Structure) -> Answer:
    if fields.kind == 0:
        raise MemoryError("vicinity: out of memory")
    return Answer(Kind(fields.kind), fields.status, fields.count, fields.line, Fault(fields.fault),
                  fields.mask_len, fields.mask_value, fields.uid,
                  fields.text.decode("ascii").rstrip("\n"))


def _margin(name: str, inputs: Sequence[Any]) -> Margin:
    least = WeakestStruct()
    answer = _answer(_call(name, inputs, ctypes.byref(least)))
    return Margin(answer, None if answer.status > 1 else
                  Weakest(least.margin, Mask(least.mask_len, least.mask_value),
                          Mask(least.hidden_len, least.hidden_value) if least.has_hidden else None,
                          Mask(least.deaf_len, least.deaf_value) if least.has_deaf else None))


def check(text: BytesLike) -> Answer:
    """The answer to a text. Any number of threads may call at once.

    Raises TypeError if the text isn't bytes or similar, MemoryError if memory is refused,
    and OSError if the shared library can't be loaded."""
    return _answer(_call("check", sized(text)))


def check_listed(text: BytesLike, uids: Collection[int]) -> Answer:
    """The answer to a text that lists nothing, with a separate list of UIDs, in any order.
    The last line of the text may lack its LF.

    Raises what `check` raises, TypeError if the UIDs are an iterator, as a generator, a map or a
    csv.reader (one that is used up would be an empty list), or are fewer or more than their `len`,
    and OverflowError if one exceeds 64 bits."""
    return _answer(_call("check_listed", [*sized(text), *_numbers(uids)]))


def explain(text: BytesLike) -> Explanation:
    """The answer to a text, and the UIDs of tags that show it. Raises what `check` raises."""
    answer, room, count = filled(partial(_call, "explain", sized(text)), U64, FIRST_PLACES)
    return Explanation(_answer(answer), room[:count])


def explain_into(text: BytesLike, room: ctypes.Array[ctypes.c_uint64]) -> tuple[Answer, int]:
    """The answer to a text, and the number of UIDs in the counterexample.
    They are put at the start of the buffer `room` if they fit; otherwise it stays as it is.
    Raises what `check` raises."""
    needed = ctypes.c_size_t()
    answer = _call("explain", sized(text), room, len(room), ctypes.byref(needed))
    return _answer(answer), needed.value


def report(text: BytesLike) -> Report:
    """The answer to a text, and every finding. Raises what `check` raises."""
    answer, room, count = filled(partial(_call, "report", sized(text)), FindingStruct, FIRST_PLACES)
    findings = memoryview(room).cast("B")[:count * PACKED_FINDING.size]
    kinds = {kind.value: kind for kind in FindingKind}  # quicker than a call for each
    return Report(_answer(answer), [
        Finding(kinds[kind], line, mask_len, mask_value, uid)
        for kind, line, mask_len, _, mask_value, uid in PACKED_FINDING.iter_unpack(findings)])


def margin(text: BytesLike) -> Margin:
    """The answer to a text, and in how many slots a tag that isn't listed
    would have had to be missed. Raises what `check` raises."""
    return _margin("margin", sized(text))


def margin_listed(text: BytesLike, uids: Collection[int]) -> Margin:
    """The answer of `check_listed`, and the margin against this list.
    Raises what `check_listed` raises."""
    return _margin("margin_listed", [*sized(text), *_numbers(uids)])


def simulate_into(text: BytesLike, room: ctypes.Array[ctypes.c_uint8]) -> tuple[int, int]:
    """The status of `simulate` on a text, and the number of bytes that it writes.
    They are put at the start of the buffer `room` if they fit; otherwise it stays as it is.
    Raises what `check` raises."""
    needed = ctypes.c_size_t()
    status = library().vicinity_simulate(*sized(text), room, len(room), ctypes.byref(needed))
    if status == NO_ANSWER:
        raise MemoryError("vicinity: out of memory")
    return status, needed.value


def simulate(text: BytesLike) -> Simulation:
    """The log that conforming tags would produce: the text has the requests, and lists the tags.
    Raises what `check` raises."""
    made, status = run("simulate", text)
    return Simulation(status, made)


class Page(str):
    """A page as HTML, which a notebook shows."""

    def _repr_html_(self) -> str:
        return f'<iframe srcdoc="{escape(self)}" style="width: 100%; height: 40em"></iframe>'


def page(text: BytesLike, name: str = "") -> Page:
    """The page of a log, as `python3 -m vicinity page` writes it: the answer, what to do,
    what was found, and the rounds. `name` is the name of the log. Raises what `check` raises."""
    from ._process import shown  # drawing is loaded only here
    from .pages.document import of_log

    return Page("".join(of_log(bytes_of(text), shown(name))[1]))
