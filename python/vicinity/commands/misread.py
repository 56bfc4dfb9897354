"""`misread`: a true log as a reader would have written it that misses replies, reads strong ones
over others, or hears noise. Its author's software is tested against wrong answers with it."""
import random
from collections import defaultdict
from io import BytesIO
from typing import Iterable, Iterator, Mapping, NamedTuple, Optional, Sequence

from .._calls import check, simulate
from .._process import Arguments, REFUSED, read_log, write
from ..frames import HEADER_LINE, parse_uid, read_response, write_line, write_response

OUTCOMES = frozenset(b"SCRDHN")
#: A slot, by the number of its request, and its own in the round.
Place = tuple[int, int]


class Reader(NamedTuple):
    """With which probabilities it reads one reply over others, misses a reply, and hears noise;
    and whether it says what it doesn't know, in version 3,
    or writes R for each reply that it reads and C for noise."""

    capture: float
    miss: float
    noise: float
    is_careful: bool
    rng: random.Random

    def line(self, answering: Sequence[int]) -> bytes:
        """What it writes of a slot in which these tags answer."""
        if self.rng.random() < self.noise:
            return write_line(("D" if answering else "N") if self.is_careful else "C")
        heard = [uid for uid in answering if self.rng.random() >= self.miss]
        if len(heard) == 1 or heard and self.rng.random() < self.capture:
            return write_line("H" if self.is_careful else "R",
                              write_response(0, 0, self.rng.choice(heard)))
        return write_line("C" if heard else "S")


def misread(arguments: Arguments) -> int:
    """Writes what a reader would have written, and returns 0;
    of a text that is refused the refusal, and 3."""
    text = read_log(arguments.names[0])
    answer, lines = check(text), [line.rstrip(b"\n") + b"\n" for line in BytesIO(text)]
    requests = b"".join(line for line in lines if line[0] not in OUTCOMES and line[:1] != b"U")
    made = simulate(requests)
    if answer.status == REFUSED or made.status:
        write([f"{answer}\n" if answer.status == REFUSED else made.text])
        return REFUSED
    uids = [parse_uid(line[2:].decode()) for line in lines if line[:1] == b"U"]
    reader = Reader(arguments.capture, arguments.miss, arguments.noise,
                    text.startswith(HEADER_LINE.rstrip()), random.Random(arguments.seed))
    write(_written(lines, _answering(requests, uids), reader))
    return 0


def _slots(lines: Iterable[bytes]) -> Iterator[tuple[bytes, Optional[Place]]]:
    """Each line, and where its slot is if it is that of one."""
    request = slot = 0
    for line in lines:
        is_slot = line[0] in OUTCOMES
        yield line, (request, slot) if is_slot else None
        request, slot = (request + 1, 0) if line[:1] == b"T" else (request, slot + is_slot)


def _answering(requests: bytes, uids: Sequence[int]) -> Mapping[Place, list[int]]:
    """Which tags answer in each slot. The library says of each tag alone where it does."""
    answering: dict[Place, list[int]] = defaultdict(list)
    for uid in uids:
        for line, place in _slots(simulate(requests + write_line("U", uid=uid)).text.splitlines()):
            if place and line[:1] == b"R":
                answering[place].append(uid)
    return answering


def _written(lines: Sequence[bytes], answering: Mapping[Place, list[int]],
             reader: Reader) -> Iterator[bytes]:
    """The lines of the log, with other slots,
    and with a list of the tags that are heard in them."""
    heard: set[bytes] = set()
    for line, place in _slots(lines):
        if place:
            line = reader.line(answering.get(place, ()))
            if line[:1] in b"HR":
                heard.add(write_line("U", uid=read_response(bytes.fromhex(line[2:].decode())).uid))
        if line[:1] != b"U" or line.rstrip().upper() + b"\n" in heard:
            yield line
