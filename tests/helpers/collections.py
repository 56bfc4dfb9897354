"""What a collection is, by docs/COLLECTIONS.md, COMMANDS.md and TABLES.md alone: what its files are
and why they are refused, which log is of which place, the state of each item, the answer, and what
the commands write of it.

It isn't fast: each log is asked for each UID."""
import re
from typing import NamedTuple

from helpers import log_reader, surveys, tables
from helpers.air import UID_BITS, Listed, greatest, lies_in, mask_digits
from helpers.reports import open_lines

MARK = b"\xef\xbb\xbf"
MOST_OPEN = 16
STATES = ("no tag", "returned", "in place", "misplaced", "there", "not provable", "away",
          "not counted", "missing")
FINDINGS = {"absent": "missing", "doubtful": "not provable", "misplaced": "misplaced",
            "returned": "returned", "not counted": "not counted"}


class Item(NamedTuple):
    line: int
    uid: int | None
    place: str | None
    away: bool
    cells: tuple = ()
    raw: bytes = b""


class Catalogue(NamedTuple):
    """`head` is line 1 with the mark of UTF-8, if it is there; `end` how the line ends."""
    items: list
    asks_for_places: bool = False
    head: bytes = b""
    columns: tuple = ()
    separator: str = ","
    end: bytes = b"\n"
    ended: bool = True


class Refused(Exception):
    """The line, the name of the file and the fault."""

    def __str__(self):
        return "refused at line %d of %s: %s" % self.args


class NoAnswer(Exception):
    """What standard error says behind the program's name."""


# Tables.

def catalogue_of(text, rows):
    """A catalogue by its text, and by the rows that `tables.read` finds in it."""
    lines = tables.lines_of(text)
    _, separator, names = tables.head(lines[0].decode())

    def cells(number):
        return tuple(tables.cells_of(lines[number - 1].decode(), separator))
    items = [Item(*row, cells(row[0]), lines[row[0] - 1]) for row in rows]
    first = text[:text.index(b"\n")]
    return Catalogue(items, "place" in names, MARK * text.startswith(MARK) + lines[0], cells(1),
                     separator, b"\r\n" if first.endswith(b"\r") else b"\n", text.endswith(b"\n"))


def list_of(name, text):
    """A list as a catalogue."""
    number, lines = log_reader.read(text)
    if isinstance(lines, str):
        raise Refused(number, name, lines)
    for number, line in enumerate(lines, 2):
        if not isinstance(line, Listed) and line[:1] not in ("", "#"):
            raise Refused(number, name, "NotListed")
    return Catalogue([Item(number, line.uid, None, False)
                      for number, line in enumerate(lines, 2) if isinstance(line, Listed)])


# Masks.

def carved(masks, uids):
    """Masks that are apart and have the UIDs of these masks, but for those of `uids`."""
    found = []
    for length, value in sorted(set(masks)):
        if not any(lies_in(value, *other) for other in found):
            found.append((length, value))
    return [part for mask in found for part in without(mask, uids)]


def without(mask, uids):
    """The greatest masks that have the UIDs of a mask but for these."""
    length, value = mask
    inside = [uid for uid in uids if lies_in(uid, length, value)]
    if not inside:
        return [mask]
    halves = [(length + 1, value), (length + 1, value + 2**length)] * (length < UID_BITS)
    return [part for half in halves for part in without(half, inside)]


# The collection.

def found_by(name):
    """By what a log is found, the first first."""
    base = re.split(r"[/\\]", name)[-1]
    stem, dot, _ = base.rpartition(".")
    return name, base, stem if dot and stem else base


class Collection:
    """A catalogue, the rows of a table of places or none, and what each log says. `keys` has by
    what name the place of each log was found, `states` the state of each item."""

    def __init__(self, catalogue, rows, logs):
        self.catalogue, self.rows, self.logs = catalogue, rows, logs
        places = {item.place: item.place for item in catalogue.items if item.place is not None}
        if rows is not None:
            places = {log: place for _, place, log in rows}
        asked = catalogue.asks_for_places
        self.keys = [next((name for name in found_by(log.name) if asked and name in places), None)
                     for log in logs]
        self.places = [None if key is None else places[key] for key in self.keys]
        self.everywhere = sorted({uid for log in logs for uid in log.certain})
        self.uids = {item.uid for item in catalogue.items} - {None}
        self.unexpected = [uid for uid in self.everywhere if uid not in self.uids]
        self.without_log = self.places_without_log() if asked else []
        self.states = [self.state(item) for item in catalogue.items]

    def check(self, name):
        """Refuses what can't be told apart, and places that nobody asks for."""
        for at, (log, key) in enumerate(zip(self.logs, self.keys)):
            if (log.name in [other.name for other in self.logs[:at]]
                    or key is not None and key in self.keys[:at]):
                raise Refused(1, log.name, "SameName")
        if self.rows is not None and not self.catalogue.asks_for_places:
            raise Refused(1, name, "Columns")

    def places_without_log(self):
        expected = [item.place for item in self.catalogue.items
                    if item.uid is not None and not item.away and item.place is not None]
        named = expected + [place for _, place, _ in self.rows or []]
        return [place for place in dict.fromkeys(named) if place not in self.places]

    def left_over(self, at):
        """Whether no place is known of a log, where places are asked for."""
        return self.catalogue.asks_for_places and self.places[at] is None

    # What the logs say of a UID.

    def certain_in(self, uid):
        """The logs in which it is certain, by their numbers."""
        return [at for at, log in enumerate(self.logs) if uid in log.certain]

    def may_be_in(self, uid):
        """The logs in which it is possible and not certain."""
        return [at for at, log in enumerate(self.logs) if uid is not None
                and uid not in log.certain and (not log.is_possible or any(
                    lies_in(uid, *mask) for mask in log.open))]

    def state(self, item):
        """The first state that applies, in the order of `STATES`."""
        certain = self.certain_in(item.uid)
        applies = (item.uid is None, item.away and certain,
                   item.place is not None and any(self.places[at] == item.place for at in certain),
                   item.place is not None and certain, certain, self.may_be_in(item.uid),
                   item.away, item.place in self.without_log, True)
        return STATES[[*map(bool, applies)].index(True)]

    def unsettled(self):
        """The greatest mask whose UIDs may be somewhere, are of no item and certain in no log."""
        masks = [mask for log in self.logs
                 for mask in (log.open if log.is_possible else [(0, 0)])]
        left = greatest(carved(masks, {*self.uids, *self.everywhere}))
        return left[0] if left else None

    def open(self, at):
        """What is left to ask for in a log."""
        return greatest(carved(self.logs[at].open, self.everywhere))

    # The answer.

    def of_state(self, state):
        """The UIDs of a state with their items, the smallest first."""
        found = [(item.uid, item) for item, one in zip(self.catalogue.items, self.states)
                 if one == state]
        return sorted(found, key=lambda one: one[0])

    def complete(self):
        return f"complete {self.states.count('in place') + self.states.count('there')}"

    def of_bad_log(self):
        """The answer and the status of the first log that isn't possible, if there is one."""
        for log in self.logs:
            if not log.is_possible:
                what, number, fault = re.fullmatch(r"(.*) at line (\d+)(.*)", log.field).groups()
                status = 2 if what == "impossible" else 3
                return f"{what} at line {number} of {log.name}{fault}", status
        return None

    def findings(self):
        """Each finding: its line in the answer, and all its lines."""
        yield from self.of_items("absent")
        for uid in self.unexpected:
            log = self.logs[self.certain_in(uid)[0]]
            line = f"unlisted {uid:016X}"
            yield line, [line, f"by line {log.certain[uid][0]} of {log.name}"]
        mask = self.unsettled()
        if mask:
            line = f"unsettled {surveys.mask_words(mask)}"
            yield line, [line, *(f"{told} in {log.name}" for at, log in enumerate(self.logs)
                                 for told in open_lines(self.open(at)))]
        for kind in ("doubtful", "misplaced", "returned", "not counted"):
            yield from self.of_items(kind)
        for place in self.without_log:
            yield (f"no log of {place}", [f"no log of {place}"])
        for at, log in enumerate(self.logs):
            if self.left_over(at):
                yield (f"left over {log.name}", [f"left over {log.name}"])

    def of_items(self, kind):
        """The findings of a kind that are of items, as `findings` has them."""
        for uid, item in self.of_state(FINDINGS[kind]):
            line = f"{kind} {uid:016X}"
            logs = self.certain_in(uid) or self.may_be_in(uid)
            where = f" in {self.logs[logs[0]].name}" if logs else ""
            to = f", belongs to {item.place}" if kind in ("misplaced", "not counted") else ""
            yield line, [line + where + to]

    def answer(self):
        """Its line and its status."""
        found = next(self.findings(), None)
        return self.of_bad_log() or ((found[0], 1) if found else (self.complete(), 0))

    # What is written.

    def lines(self):
        """What `reconcile` writes."""
        answer, status = self.answer()
        if status != 1:
            return [answer]
        return [line for _, lines in self.findings() for line in lines]

    def table(self):
        """What `collection` writes: the catalogue's lines, each with three cells behind it."""
        catalogue, separator = self.catalogue, self.catalogue.separator
        rows = [(catalogue.head, ["vicinity state", "vicinity certain in", "vicinity may be in"])]
        for item, state in zip(catalogue.items, self.states):
            rows.append((item.raw, self.three_cells(state, item.uid)))
        column = [tables.word(name) for name in catalogue.columns].index("uid")
        for uid in self.unexpected:
            cells = [f"?{uid:016X}" if at == column else "" for at in range(len(catalogue.columns))]
            rows.append((separator.join(cells).encode(), self.three_cells("unexpected", uid)))
        return b"".join(separator.encode().join(
            [front, *(quoted(cell, separator) for cell in cells)]) + catalogue.end
            for front, cells in rows)

    def three_cells(self, state, uid):
        return [state, *("; ".join(self.logs[at].name for at in logs)
                         for logs in (self.certain_in(uid), self.may_be_in(uid)))]

    def object(self):
        """What `json-collection` writes."""
        answer, status = self.answer()
        told = {"schema": 2, "status": status, "answer": answer}
        if status == 0 and self.logs:
            at = min(range(len(self.logs)), key=lambda at: self.logs[at].margin)
            told["margin"] = {"margin": self.logs[at].margin,
                              "weakest": mask_object(self.logs[at].weakest), "log": at}
        counts = {state: self.states.count(state) for state in STATES}
        return told | {
            "counts": counts | {"unexpected": len(self.unexpected)},
            "columns": list(self.catalogue.columns), "ended": self.catalogue.ended,
            "items": [self.item(*one) for one in zip(self.catalogue.items, self.states)],
            "unexpected": [self.found(uid) | {"line": self.logs[self.certain_in(uid)[0]]
                                              .certain[uid][0]} for uid in self.unexpected],
            "unsettled": mask_object(self.unsettled()), "without_log": self.without_log,
            "logs": [self.log(at, log) for at, log in enumerate(self.logs)]}

    def found(self, uid):
        return {"uid": f"{uid:016X}", "certain_in": self.certain_in(uid),
                "possible_in": self.may_be_in(uid)}

    def item(self, item, state):
        return {"line": item.line, "uid": None if item.uid is None else f"{item.uid:016X}",
                "state": state, "place": item.place, "away": item.away,
                "certain_in": self.certain_in(item.uid), "possible_in": self.may_be_in(item.uid),
                "cells": list(item.cells)}

    def log(self, at, log):
        told = {"name": log.name, "place": self.places[at], "left_over": self.left_over(at),
                "field": log.field}
        if not log.is_possible:
            return told
        masks = self.open(at)
        return told | {
            "answers": log.answers, "certain": len(log.certain),
            "shared": sum(len(self.certain_in(uid)) > 1 for uid in log.certain),
            "open": list(map(mask_object, masks[:MOST_OPEN])), "more": len(masks) > MOST_OPEN,
            "margin": log.margin, "weakest": mask_object(log.weakest),
            "hidden": mask_object(log.hidden), "deaf": mask_object(log.deaf)}


def mask_object(mask):
    return mask and {"mask_len": mask[0], "mask_value": mask_digits(*mask)}


def quoted(cell, separator):
    """A cell as it is written, in quotes where it has to be."""
    if separator in cell or '"' in cell or cell != tables.trimmed(cell):
        cell = '"%s"' % cell.replace('"', '""')
    return cell.encode()


def json_of(value):
    """A value as JSON: no spaces, keys in their order."""
    if isinstance(value, dict):
        return "{%s}" % ",".join(f"{json_of(key)}:{json_of(one)}" for key, one in value.items())
    if isinstance(value, list):
        return "[%s]" % ",".join(map(json_of, value))
    if isinstance(value, str):
        return '"%s"' % re.sub(r'[\0-\x1f"\\]', lambda it: "\\" + it[0] if it[0] in '"\\'
                               else "\\u%04X" % ord(it[0]), value)
    return {None: "null", True: "true", False: "false"}[value] if value is None or isinstance(
        value, bool) else str(value)


# Its files.

def kind_of(text):
    """What a file is, by how its text begins."""
    if text.startswith(b"vicinity-survey "):
        return "surveys"
    return "log" if not text or text.removeprefix(MARK).startswith(b"vicinity-") else "table"


def read_surveys(name, text):
    """The surveys of a file."""
    found = surveys.read(text)
    if isinstance(found, int):
        raise Refused(found, name, "Survey")
    return found


def gathered(files, survey):
    """The collection of some files, each with its name and its text."""
    catalogues, places, logs = [], [], []
    for name, text in files:
        kind = kind_of(text)
        if kind == "table":
            kind, *rest = tables.read(text)
            if kind == "refused":
                raise Refused(rest[0], name, rest[1])
            (catalogues if kind == "catalogue" else places).append((name, text, *rest))
        else:
            logs += read_surveys(name, text) if kind == "surveys" else [(name, text)]
    if len(catalogues) != 1 or len(places) > 1:
        raise NoAnswer("usage")
    (name, text, rows), = catalogues
    logs = [one if isinstance(one, surveys.Survey) else survey(*one) for one in logs]
    collection = Collection(catalogue_of(text, rows), places[0][2] if places else None, logs)
    collection.check(name)
    return collection


def by_list(name, text, files, survey):
    """Logs and a list; none is read behind one that ends the run."""
    catalogue, logs = list_of(name, text), []
    for name, text in files:
        is_surveys = kind_of(text) == "surveys"
        for log in read_surveys(name, text) if is_surveys else [survey(name, text)]:
            logs.append(log)
            if not log.is_possible:
                return Collection(catalogue, None, logs)
    return Collection(catalogue, None, logs)


# The commands.

def run(command, words, read, survey=surveys.of):
    """What a command writes on standard output and error, and its status. `read` has the text of a
    file, `survey` what a log says."""
    try:
        return written(command, words, read, survey)
    except Refused as refused:
        return f"{refused}\n".encode(), b"", 3
    except NoAnswer as why:
        return b"", f"vicinity: {why}\n".encode(), 4


def named(words):
    """The words, if there are some and each can be a name."""
    if not words or not all(map(surveys.is_name, words)):
        raise NoAnswer("usage")
    return words


def written(command, words, read, survey):
    """As `run`, but for what ends it."""
    if command == "reconcile":
        first = read((words or named(words))[0])
        if not first or first.startswith(b"vicinity-"):
            files = ((name, read(name)) for name in words[1:])
            return as_lines(by_list(words[0], first, files, survey))
    files = [(name, read(name)) for name in named(words)]
    if command == "survey":
        logs = [survey(*one) for one in files]
        return surveys.written(logs), b"", max(log.status for log in logs)
    collection = gathered(files, survey)
    if command == "reconcile":
        return as_lines(collection)
    text = collection.table() if command == "collection" else (
        json_of(collection.object()) + "\n").encode()
    return text, b"", collection.answer()[1]


def as_lines(collection):
    text = "".join(f"{line}\n" for line in collection.lines())
    return text.encode(), b"", collection.answer()[1]
