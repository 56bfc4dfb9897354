"""What a log says of its field, by docs/SURVEYS.md: the survey of a log, the text of a survey, and
what is read of such a text.

What a log says is worked out as helpers/oracle.py, reports.py and margins.py do it, which were
written from the pages alone. Where several lines show that a tag is there, each of them is right.
"""
import re
from typing import NamedTuple

from helpers import log_reader
from helpers.air import SILENT, UID_BITS, UNKNOWN, Listed, Reply, greatest, is_slot, mask_digits
from helpers.frames import with_crc
from helpers.margins import Margins
from helpers.reports import Report, known_of

MAX_LINE, MAX_NUMBER, MAX_NAME = 1_000_001, 999_999, 4096
NUMBER = rb"(0|[1-9][0-9]*)"
MASK = NUMBER + rb" (-|[0-9A-F]+)"
# What `vicinity survey` ends with, by the first word of what a log says.
STATUSES = {"possible": 0, "impossible": 2, "refused": 3}


class Survey(NamedTuple):
    """`certain` has the right lines of each UID; of a log that isn't possible the rest is empty."""
    name: str
    field: str
    answers: int = 0
    certain: dict = {}
    open: list = []
    margin: int = 0
    weakest: tuple = ()
    hidden: tuple | None = None
    deaf: tuple | None = None

    @property
    def is_possible(self):
        return self.field == "possible"

    @property
    def status(self):
        return STATUSES[self.field.split()[0]]


class Fault(Exception):
    """The number of the first line that no text of surveys could have there."""


def is_name(name):
    """Whether a log can have the name."""
    return 0 < len(name.encode()) <= MAX_NAME and not re.search(r"[\0-\x1f\x7f]", name)


# The survey of a log.

def is_answer(line):
    return is_slot(line) and line not in (SILENT, UNKNOWN)


def hidden(lines):
    """The lines, of which each reply may have hidden others."""
    return [Reply(line.uid, True) if isinstance(line, Reply) else line for line in lines]


def deaf(lines):
    """The same, and nothing is known of the silence behind the last answer."""
    last = max((at for at, line in enumerate(lines) if is_answer(line)), default=-1)
    return [UNKNOWN if line == SILENT and at > last else line
            for at, line in enumerate(hidden(lines))]


def first_more(lines, known):
    """The first mask of what is possible by these lines and isn't known to be possible."""
    return next(iter(greatest(set(known_of(lines).possible) - set(known.possible))), None)


def certain_in(masks, certain):
    """Whether each UID of a mask is certain."""
    length, value = masks
    inside = [uid for uid in certain if uid % 2**length == value]
    return len(inside) == 2**(UID_BITS - length)


def of(name, text):
    """The survey of a log's text."""
    read, lines = log_reader.read(text)
    if isinstance(lines, str):
        return Survey(name, f"refused at line {read}: {lines}")
    lines = ["" if isinstance(line, Listed) else line for line in lines]
    known = known_of(lines)
    if known.impossible:
        return Survey(name, f"impossible at line {known.impossible}")
    report = Report(lines, known)
    certain = {uid: tuple(report.lines_for(uid)) for uid in report.certain}
    margin, *weakest = Margins(lines + [Listed(uid) for uid in certain]).weakest()
    masks = [mask for mask in greatest(known.possible) if not certain_in(mask, certain)]
    return Survey(name, "possible", sum(map(is_answer, lines)), certain, masks, margin,
                  tuple(weakest), first_more(hidden(lines), known), first_more(deaf(lines), known))


def is_right(told, wanted):
    """Whether a survey says what it has to; of several lines that show a UID one was chosen."""
    return told._replace(certain=set(told.certain)) == wanted._replace(
        certain=set(wanted.certain)) and all(
            told.certain[uid][0] in lines for uid, lines in wanted.certain.items())


# Its text.

def mask_words(mask):
    return f"{mask[0]} {mask_digits(*mask)}" if mask else "-"


def survey_lines(survey):
    """The lines of a survey, without the one that ends them."""
    yield f"vicinity-survey 1 {survey.name}"
    yield survey.field
    if survey.is_possible:
        yield f"answers {survey.answers}"
        yield from (f"certain {uid:016X} by line {lines[0]}"
                    for uid, lines in survey.certain.items())
        yield from (f"open {mask_words(mask)}" for mask in survey.open)
        yield f"margin {survey.margin}"
        yield f"weakest {mask_words(survey.weakest)}"
        yield f"hidden {mask_words(survey.hidden)}"
        yield f"deaf {mask_words(survey.deaf)}"


def sealed(lines):
    """Lines with the one that ends them."""
    text = "".join(f"{line}\n" for line in lines).encode()
    crc = int.from_bytes(with_crc(text)[-2:], "little")
    return text + b"end %d %04X\n" % (text.count(b"\n") + 1, crc)


def written(surveys):
    return b"".join(sealed(survey_lines(survey)) for survey in surveys)


# What is read of it.

def number(digits, most, least=0):
    """None where it is out of these bounds."""
    value = int(digits) if len(digits) < 8 else most + 1
    return value if least <= value <= most else None


def mask_read(length, digits):
    mask = number(length, UID_BITS), int(digits.replace(b"-", b"0"), 16)
    if mask[0] is None or mask_digits(*mask).encode() != digits or mask[1] >> mask[0]:
        return None
    return mask


class Reader:
    """Takes the lines of a text one after the other."""

    def __init__(self, text):
        *self.lines, self.rest = text.split(b"\n")
        self.at = self.start = 0

    def take(self, pattern, value):
        """What a line says, if it is as it has to be; else None, and it is still there."""
        match = re.fullmatch(pattern, self.lines[self.at]) if self.at < len(self.lines) else None
        found = value(*match.groups()) if match else None
        self.at += found is not None
        return found

    def must(self, *how):
        """What a line says, which has to be there."""
        found = self.take(*how)
        if found is None:
            raise Fault(self.at + 1)
        return found

    def each(self, pattern, value):
        """The values of any number of lines, which rise."""
        found = []
        while (one := self.take(pattern, lambda *parts: self.behind(found, value(*parts)))):
            found.append(one)
        return found

    def behind(self, found, one):
        """A value, if it is greater than those before it."""
        return one if one and (not found or found[-1][0] < one[0]) else None

    def survey(self):
        self.start = self.at
        name = self.must(rb"vicinity-survey 1 (.*)", self.name)
        field = self.must(rb"(possible|(?:impossible at|refused at) line .*)", self.field)
        said = self.possible() if field == "possible" else ()
        self.must(rb"end ([0-9]+ [0-9A-F]{4})", self.end)
        return Survey(name, field, *said)

    def name(self, name):
        try:
            return name.decode() if is_name(name.decode()) else None
        except UnicodeDecodeError:
            return None

    def field(self, field):
        match = re.fullmatch(rb"possible|impossible at line %s|refused at line %s: (\w+)"
                             % (NUMBER, NUMBER), field)
        if not match or match[3] and match[3].decode() not in log_reader.FAULTS:
            return None
        digits = match[1] or match[2]
        return field.decode() if not digits or number(digits, MAX_LINE, 1) else None

    def possible(self):
        """What the lines of a possible field say, in the order of a `Survey`."""
        answers = self.must(rb"answers " + NUMBER, self.number)
        certain = self.each(rb"certain (E0[0-9A-F]{14}) by line " + NUMBER, self.certain)
        masks = self.each(rb"open " + MASK, self.open)
        margin = self.must(rb"margin " + NUMBER, self.number)
        weakest = self.must(rb"weakest " + MASK, mask_read)
        more = [self.must(word + rb" (?:-|%s)" % MASK, self.mask_or_none)
                for word in (b"hidden", b"deaf")]
        return (answers, {uid: (line,) for uid, line in certain}, [mask for mask, in masks],
                margin, weakest, *(mask or None for mask in more))

    def number(self, digits):
        return number(digits, MAX_NUMBER)

    def open(self, length, digits):
        mask = mask_read(length, digits)
        return (mask,) * bool(mask)

    def certain(self, uid, line):
        return (int(uid, 16), int(line)) if number(line, MAX_LINE, 1) else None

    def mask_or_none(self, length, digits):
        """An empty one, where there is none."""
        return () if length is None else mask_read(length, digits)

    def end(self, said):
        """Whether a line's number and CRC are those of the survey that it ends."""
        lines = b"".join(line + b"\n" for line in self.lines[self.start:self.at])
        crc = int.from_bytes(with_crc(lines)[-2:], "little")
        return said == b"%d %04X" % (self.at - self.start + 1, crc) or None


def read(text):
    """The surveys of a text, or the number of its first wrong line."""
    reader, surveys = Reader(text), []
    try:
        while reader.at < len(reader.lines) or reader.rest:
            surveys.append(reader.survey())
    except Fault as fault:
        return fault.args[0]
    return surveys
