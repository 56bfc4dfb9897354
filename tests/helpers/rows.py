"""What the rows of tests/data/rows ask for, and what they have to be answered.

    check STATUS | LOG | LINES      the same for `explain`, `simulate`, `margin` and `report`, which
                                    begins as `check` does
    fill | LOG | LOG | LINE         what `simulate` makes of a log, and what `check` says of that
    frame STATUS | WORD | LINES     both lines of `frame`; `spell` makes the frame of each that
                                    isn't refused
    spell STATUS | WORDS | LINE
    request | WORD | LINE           one of them, without its first word; and `simulate` writes the
    reply | WORD | LINE             same frame

A log is the short names of its lines, as tests/data/rows/lines has them, or a text in quotation
marks, with Python's escapes: parts are joined by `+`, and `* N` repeats one. Lines are parted by `
/ `. The expected answers are worked out, never taken from the program.
"""
import functools

import pytest
from vicinity import Fault
from vicinity._native import AnswerStruct

from helpers.library import answer_to, findings_of, uids
from helpers.lines import NAMES, log_of, rows, text_of, unquoted

# Who is asked, by the names of their fixtures.
PROGRAMS = ("program", "commands", "arm")
LIBRARIES = ("library", "library_rattle")
MODULES = (*LIBRARIES, "wasm")
# The same, by the call that does what the program does.
BY_ONE_CALL = tuple(f"{name}_by_one_call" for name in MODULES)
FILES = ("verdicts", "texts", "populations", "reports", "margins", "simulations", "frames",
         "spelled")
# What the calls for C aren't asked for here: other tests ask for margins and frames in C.
NOT_OF_LIBRARY = ("margin", "frame", "spell", "request", "reply")


def all_rows(asked, but=()):
    """Each row that these can be asked for, but for those of some files, with the name of who is
    asked: its command, what is given, what is answered and its status."""
    for one in asked:
        for name in FILES:
            for place, line in rows(name) if name not in but else ():
                words, given, *answers = (cell.strip() for cell in line.split("|"))
                command, _, status = words.partition(" ")
                if one not in MODULES or command not in NOT_OF_LIBRARY:
                    row = command, given, answers, int(status) if status else None
                    yield pytest.param(one, *row, id=f"{one}-{name}:{place.rpartition(':')[2]}")


def answer_of(given):
    """The lines of an answer, which may be a log."""
    return unquoted(given) if given.startswith('"') else text_of(given.split(" / "))


class OfProgram:
    """Asks a program."""

    def __init__(self, program):
        self.program = program

    def said(self, *words, given=b""):
        """What it writes, also on standard error, and its status."""
        out, err, status = self.program.run(*words, given=given, name="vicinity")
        return out + err, status

    def begins(self, log):
        """The line of the answer to a log."""
        return self.said("check", given=log)[0]

    def row(self, command, given, answers, status):
        getattr(self, command)(given, answers, status)

    def check(self, given, answers, status):
        log, line = log_of(given), answer_of(answers[0])
        assert self.said("check", given=log) == (line, status)
        said, ended = self.said("report", given=log)
        assert (said[:said.find(b"\n") + 1], ended) == (line, status)

    def over_log(self, command, given, answers, status):
        assert self.said(command, given=log_of(given)) == (answer_of(answers[0]), status)

    explain = functools.partialmethod(over_log, "explain")
    simulate = functools.partialmethod(over_log, "simulate")
    report = functools.partialmethod(over_log, "report")
    margin = functools.partialmethod(over_log, "margin")

    def fill(self, given, answers, _):
        filled = log_of(answers[0])
        assert self.said("simulate", given=log_of(given)) == (filled, 0)
        assert self.begins(filled) == answer_of(answers[1])

    def frame(self, given, answers, status):
        word = unquoted(given).decode() if given.startswith('"') else given
        lines = answer_of(answers[0])
        assert self.said("frame", word) == (lines, status)
        for line in lines.decode().splitlines():
            if "refused" not in line:
                assert self.said("spell", *line.split()) == (word.upper().encode() + b"\n", 0)

    def spell(self, given, answers, status):
        assert self.said("spell", *given.split()) == (answer_of(answers[0]), status)

    def request(self, word, answers, _):
        self.is_read(0, word, answers[0], ["vicinity-log 1", f"T {word}"])

    def reply(self, word, answers, _):
        self.is_read(1, word, answers[0],
                     ["vicinity-log 1", NAMES["I1"], f"R {word}", f"U {answers[0].split()[-1]}"])

    def is_read(self, line, word, wanted, log):
        """A frame's reading; where it is read, `simulate` writes it so."""
        said = self.said("frame", word)[0].decode().splitlines()
        assert said[line].partition(" ")[2] == wanted
        if not wanted.startswith("refused"):
            asked = text_of(line for line in log if line[0] != "R")
            written = self.said("simulate", given=asked)[0].decode().splitlines()
            assert written[:len(log)] == log


class OfLibrary:
    """Asks the calls for C, for all but NOT_OF_LIBRARY."""

    # the numbers of faults, by whether they are of a frame, and their names in small letters
    faults = {(fault.name.startswith("FRAME_"),
               fault.name.removeprefix("FRAME_").replace("_", "").lower()): fault.value
              for fault in Fault}

    def __init__(self, library):
        self.library = library

    def begins(self, log):
        """The line of the answer to a log."""
        return self.library.told(AnswerStruct, "check", log).text

    def row(self, command, given, answers, status):
        getattr(self, command)(given, answers, status)

    def answered(self, line, log, status):
        """The answer of a line to a log."""
        fault = 0
        if status == 3:
            _, _, _, number, name = line.lower().split()
            line_of_log = log.split(b"\n")[int(number[:-1]) - 1:][:1]
            of_frame = line_of_log and line_of_log[0][:2] in (b"T ", b"R ", b"H ")
            fault = self.faults.get((bool(of_frame), name)) or self.faults[False, name]
        wanted = answer_to(line, fault)
        assert wanted.status == status
        return bytes(wanted)

    def check(self, given, answers, status):
        log = log_of(given)
        line, = answer_of(answers[0]).decode().splitlines()
        told = self.library.told(AnswerStruct, "check", log)
        assert bytes(told) == self.answered(line, log, status)

    def in_both_ways(self, name, elements, log, answer):
        """Has a call write these elements. The answer is that of `check` too, and with the list of
        the log removed and passed separately, also if the last line of what is left lacks its
        LF."""
        text, listed, rest = log.partition(b"U ")
        beside = uids([int(line, 16) for line in (listed + rest).split() if line != b"U"])
        cut = text if text.endswith(b"\n\n") else text.removesuffix(b"\n")
        assert bytes(self.library.into_each(elements, name, log)) == answer
        for given in text, cut:
            assert bytes(self.library.told(AnswerStruct, "check_listed", given, beside)) == answer

    def explain(self, given, answers, status):
        log = log_of(given)
        line, *shown = answer_of(answers[0]).decode().splitlines()
        found = [int(tag[2:], 16) for tag in shown[1:]]
        self.in_both_ways("explain", found, log, self.answered(line, log, status))

    def report(self, given, answers, status):
        log, lines = log_of(given), answers[0].split(" / ")
        self.in_both_ways("report", findings_of(lines), log, self.answered(lines[0], log, status))

    def fill(self, given, answers, _):
        assert self.library.into_each(log_of(answers[0]), "simulate", log_of(given)) == 0

    def simulate(self, given, answers, status):
        wanted = answer_of(answers[0])
        assert self.library.into_each(wanted, "simulate", log_of(given)) == status
