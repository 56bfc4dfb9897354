"""What a table is, by docs/TABLES.md alone: its items, its rows, or its first fault."""
import re
import string

MAX_LINES, MAX_LEN = 1_000_000, 16_384
LOWER = str.maketrans(string.ascii_uppercase, string.ascii_lowercase)


class Fault(Exception):
    """The first fault of a line."""


def is_uid(number):
    return number >> 56 == 0xE0


def uid_of(cell):
    """The UID that a cell spells, if any."""
    digits = re.sub(r"[ \t:-]", "", cell)
    if re.fullmatch("[0-9A-Fa-f]{16}", digits) and is_uid(int(digits, 16)):
        return int(digits, 16)
    return None


def uids_in(cell):
    """The UIDs that a cell has or spells."""
    runs = re.findall("(?<![0-9A-Fa-f])[0-9A-Fa-f]{16}(?![0-9A-Fa-f])", cell)
    uids = {int(run, 16) for run in runs if is_uid(int(run, 16))}
    return uids | ({uid_of(cell)} - {None})


def trimmed(cell):
    return cell.strip(" \t")


def word(cell):
    return trimmed(cell).translate(LOWER)


def cells_of(line, separator):
    """The cells of a line, None if a quote is wrong."""
    cells, rest = [], line
    while True:
        if rest.startswith('"'):
            closed = re.match(r'"((?:[^"]|"")*)"(?!")', rest)
            if not closed:
                return None
            cells.append(closed[1].replace('""', '"'))
            rest = rest[closed.end():]
            if rest and not rest.startswith(separator):
                return None
        else:
            cell = rest.split(separator, 1)[0]
            if '"' in cell:
                return None
            cells.append(cell)
            rest = rest[len(cell):]
        if not rest:
            return cells
        rest = rest[1:]


def columns_of(names):
    """`catalogue` or `places`, None if the names are those of neither."""
    count = [word(name) for name in names].count
    if count("uid") == 1 and count("place") <= 1 and count("away") <= 1:
        return "catalogue"
    if count("uid") == 0 and count("place") == 1 and count("log") == 1:
        return "places"
    return None


def head(line):
    """The kind of a table, its separator and the names of its columns, by its first line."""
    split = {separator: cells_of(line, separator) for separator in ",;\t"}
    if all(cells is None for cells in split.values()):
        raise Fault("Quote")
    for separator, cells in split.items():
        if cells is not None and columns_of(cells):
            break
    else:
        raise Fault("Columns")
    kind, names = columns_of(cells), [word(name) for name in cells]
    written = {"certain in", "may be in"}
    if any(name in written or name.startswith("vicinity ") for name in names):
        raise Fault("Result")
    if kind == "catalogue" and any(
            uids_in(cell) for cell, name in zip(cells, names) if name != "uid"):
        raise Fault("UidElsewhere")
    return kind, separator, names


def row(kind, names, cells, seen):
    """What a row says; `seen` has the UIDs or logs of the rows before."""
    if len(cells) != len(names):
        raise Fault("Cells")
    cell = dict(zip(names, cells))
    if kind == "places":
        if not trimmed(cell["place"]) or not trimmed(cell["log"]):
            raise Fault("Place")
        log = trimmed(cell["log"])
        if log in seen:
            raise Fault("DuplicateLog")
        seen.add(log)
        return trimmed(cell["place"]), log
    uid = uid_of(cell["uid"])
    if uid is None and word(cell["uid"]) != "none":
        raise Fault("Uid")
    if any(uids_in(other) for other, name in zip(cells, names) if name != "uid"):
        raise Fault("UidElsewhere")
    if uid in seen:
        raise Fault("DuplicateUid")
    if uid is not None:
        seen.add(uid)
    place, away = cell.get("place"), cell.get("away", "")
    if place is not None and not trimmed(place):
        raise Fault("Place")
    if word(away) not in ("", "away"):
        raise Fault("Away")
    if place is not None:
        place = None if word(place) == "any" else trimmed(place)
    return uid, place, word(away) == "away"


def lines_of(text):
    """The lines of a text, without their ends."""
    parts = text.removeprefix(b"\xef\xbb\xbf").split(b"\n")
    last = parts.pop()
    return [part.removesuffix(b"\r") for part in parts] + ([last] if last else [])


def plain(line):
    """A line as text."""
    if len(line) > MAX_LEN:
        raise Fault("LineTooLong")
    try:
        plain = line.decode()
    except UnicodeDecodeError:
        raise Fault("Utf8") from None
    if "\0" in plain or "\r" in plain:
        raise Fault("Utf8")
    return plain


def read(text):
    """(`catalogue` or `places`, its rows, each behind the number of its line), or
    (`refused`, line, fault)."""
    number, rows, seen, table = 1, [], set(), None
    try:
        for number, line in enumerate(lines_of(text), 1):
            if number > MAX_LINES:
                raise Fault("TooManyLines")
            line = plain(line)
            if table is None:
                table = kind, separator, names = head(line)
                continue
            cells = cells_of(line, separator)
            if cells is None:
                raise Fault("Quote")
            if any(trimmed(cell) for cell in cells):
                rows.append((number, *row(kind, names, cells, seen)))
        if table is None:
            raise Fault("Columns")
        if kind == "catalogue" and not rows:
            number += 1
            raise Fault("NoItems")
    except Fault as fault:
        return "refused", number, str(fault)
    return kind, rows


def hexed(text):
    return text.encode().hex().upper()


def line_of(table):
    """That, as crates/tables prints it."""
    if table[0] == "refused":
        return f"refused {table[1]} {table[2]}"
    if table[0] == "places":
        return " ".join(["places"] + [f"{number}:{hexed(place)}:{hexed(log)}"
                                      for number, place, log in table[1]])
    return " ".join(["catalogue"] + [
        f"{number}:{'none' if uid is None else f'{uid:016X}'}:"
        f"{'any' if place is None else hexed(place)}:{'away' if away else 'here'}"
        for number, uid, place, away in table[1]])


def behind_lengths(texts):
    """Texts as crates/tables reads them, each behind a line with its length."""
    return b"".join(b"%d\n%s" % (len(text), text) for text in texts)
