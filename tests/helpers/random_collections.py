"""Random collections: files of a catalogue, of places, of logs and of surveys, as people have them,
and as they shouldn't be. Most logs are those of a reader that asked to the end over tags that are
there, and most catalogues are nearly right."""
import re
from typing import NamedTuple

from helpers import surveys
from helpers.air import (FIELD_CYCLE, SILENT, Ask, Reply, StayQuiet, as_mask, lies_in,
                         slot_mask)
from helpers.collections import kind_of
from helpers.random_logs import eight_uids, log_text, outcome, request, weaker

NAMES = ["a.log", "b.log", "C5.log", "x/a.log", "x/C5", "y/a.txt", "b", "d\\b.log", ".c", "c.5.log",
         "Gr\u00f6\u00dfe.log", 'q"1".log', "e;f, g.log", " h.log", "i.log ", "\u66f8\u67b6 3.log"]
TITLES = ["x", "", '"a ""b"" c"', "\u00e9", "E004010000000", " y ", '"E0, 4"', "?", "=1"]
# Of so many texts of surveys changed ones are made.
SEEDS = 40
DIGITS = [b"%X" % digit for digit in range(16)]
DAMAGE = [b",", b";", b'"', b"\n", b"\r", b" ", b"0", b"E", b"-", b"\xc3", b"\0"]


class Case(NamedTuple):
    """Files by their names, and the names that a command is given."""
    files: dict
    words: list


# Logs.

def search(rng, version, uids, there):
    """The lines of a search, with what tags that are there answer."""
    quiet, lines = set(), []

    def ask(one):
        yield one
        for number in range(16 if one.sixteen else 1):
            answering = [uid for uid in sorted(there - quiet)
                         if lies_in(uid, *slot_mask(one, number))]
            yield outcome(rng, version, uids, answering, 0)

    def silence(uid):
        quiet.add(uid)
        return StayQuiet(uid)
    for _ in range(rng.randint(0, 3)):
        lines += ask(request(rng, uids))
        lines += [silence(line.uid) for line in lines[:] if isinstance(line, Reply)
                  and rng.random() < 0.7]
    for uid in sorted(there - quiet):
        lines += [Ask(False, *as_mask(uid)), Reply(uid, version == 3), silence(uid)]
    lines += [Ask(False, 0, 0), SILENT]
    if there and version > 1 and rng.random() < 0.5:
        uid = rng.choice(sorted(there))
        lines += [FIELD_CYCLE, Ask(False, *as_mask(uid)), Reply(uid, version == 3)]
    return lines


def spoiled(rng, version, uids, lines):
    """The same, cut off, or with a line that tells less or something else."""
    kind, at = rng.randrange(4), rng.randrange(len(lines))
    if kind == 0:
        return lines[:at]
    if kind == 1 and version == 3:
        return lines[:at] + [rng.choice([*weaker(lines[at])] or [lines[at]])] + lines[at + 1:]
    if kind == 2:
        return [StayQuiet(rng.choice(uids)), *lines]
    return lines + [Ask(False, 0, 0), rng.choice((SILENT, Reply(rng.choice(uids))))]


def reader_log(rng, uids, there, errors):
    """The text of the log of a search, now and then spoiled."""
    version = rng.randint(1, 3)
    lines = search(rng, version, uids, there)
    if rng.random() < errors:
        lines = spoiled(rng, version, uids, lines)
    text = log_text(version, lines)
    if rng.random() < errors / 8:
        text = rng.choice((b"", text[:rng.randrange(len(text))], b"\xef\xbb\xbf" + text,
                           text.replace(b"T", b"t", 1), text.replace(b"\n", b"\r\n")))
    return text


# Tables.

def uid_cell(rng, uid):
    """A UID as some spreadsheet has it."""
    digits = f"{uid:016X}"
    return rng.choice((digits, digits, digits, digits.lower(), f" {digits}", f'"{digits}"',
                       ":".join(digits[at:at + 2] for at in range(0, 16, 2))))


def text_cell(rng, cell, separator):
    """A cell, in quotes where it has to be and now and then where it hasn't."""
    if separator in cell or '"' in cell or rng.random() < 0.1:
        return '"%s"' % cell.replace('"', '""')
    return cell


def as_table(rng, names, rows):
    """The text of a table, in a form that some spreadsheet writes."""
    separator, end = rng.choice(",,;\t"), rng.choice(("\n", "\n", "\r\n"))
    order = rng.sample(range(len(names)), len(names))
    lines = [separator.join(rng.choice((names[at], names[at].upper())) for at in order)]
    for row in rows:
        cells = [row[at] if row[at].startswith('"') else text_cell(rng, row[at], separator)
                 for at in order]
        lines.append(separator.join(cells))
        lines += [separator * (len(names) - 1)] * (rng.random() < 0.05)
    return (rng.choice(("", "", "\ufeff")) + end.join(lines) + rng.choice((end, end, ""))).encode()


def damaged(rng, text):
    """The text with some bytes lost, doubled or instead of others."""
    at, size = rng.randrange(len(text)), rng.choice((1, 1, rng.randrange(30)))
    return text[:at] + rng.choice((b"", rng.choice(DAMAGE), text[at:at + size] * 2)) + text[
        at + size:]


def catalogue_of(rng, fields, place_of, errors):
    """The catalogue of what is in fields, with places of logs."""
    asks, lends = rng.random() < 0.6, rng.random() < 0.4
    names = ["uid", "title", *["place"] * asks, *["away"] * lends]
    rows = []
    for uid in sorted({uid for there in fields.values() for uid in there}):
        where = sorted(place_of[name] for name, there in fields.items() if uid in there)
        rows.append([uid_cell(rng, uid), rng.choice(where), ""])
    places = sorted(place_of.values()) or ["any"]
    for row in rows:
        if rng.random() < errors:
            row[1] = rng.choice((*places, "any", "nowhere"))
        if rng.random() < errors / 3:
            row[2] = rng.choice(("away", "Away", "away", "lent"))
    rows = [row for row in rows if rng.random() >= errors / 2]
    rows += [[rng.choice(("none", "None", uid_cell(rng, 0xE0 << 56 | rng.getrandbits(56)))),
              rng.choice((*places, "any", "nowhere")), rng.choice(("", "away"))]
             for _ in range(rng.choice((0, 0, 1, 2)) if errors else 0)]
    rng.shuffle(rows)
    rows = [[uid, rng.choice(TITLES), *[place] * asks, *[away] * lends]
            for uid, place, away in rows or [["none", "any", ""]]]
    return as_table(rng, names, rows)


def place_names(rng, names, errors):
    """The place of each log, and a table of them or none."""
    found = {name: re.split(r"[/\\]", name)[-1] for name in names}
    stems = {name: base.rpartition(".")[0].strip() or base.strip() for name, base in found.items()}
    if rng.random() < 0.5:
        return stems, None
    place_of = {name: rng.choice(("shelf 1", "shelf 2", "any thing", "R\u00f6")) for name in names}
    rows = [[place_of[name], rng.choice((name, found[name], stems[name])), "note"]
            for name in names if rng.random() >= errors / 3]
    rows += [["shelf 9", "none.log", ""]] * (rng.random() < errors)
    rng.shuffle(rows)
    return place_of, as_table(rng, ["place", "log", "note"], rows)


# Collections.

def case_of(rng):
    """Up to four logs, a catalogue `K` of what is in their fields and sometimes a table of places
    `P`; and words that mostly name each of them once."""
    uids, errors = eight_uids(rng), rng.choice((0, 0.1, 0.3, 0.6))
    names = rng.sample(NAMES[:6] if errors > 0.3 else NAMES, rng.choice((0, 1, 2, 3, 3, 4, 4)))
    fields = {name: {uid for uid in uids if rng.random() < 0.35} for name in names}
    place_of, places = place_names(rng, names, errors)
    files = {name: reader_log(rng, uids, there, errors) for name, there in fields.items()}
    words = rng.sample(names, len(names))
    if names and rng.random() < 0.3:
        words = put_together(rng, files, words, errors)
    files["K"] = catalogue_of(rng, fields, place_of, errors)
    words.insert(0 if rng.random() < 0.9 else len(words), "K")
    if places is not None and (b"place" in files["K"].lower() or rng.random() < errors / 3):
        files["P"] = places
        words.insert(rng.randint(1, len(words)), "P")
    if rng.random() < errors / 4:
        words.insert(rng.randint(1, len(words)), rng.choice((*words, "P", "no", "a\tb")))
    for name in "KP":
        if name in files and rng.random() < errors / 3:
            files[name] = damaged(rng, files[name])
    return Case(files, words)


def put_together(rng, files, names, errors):
    """Some of the logs as surveys in one file."""
    some = rng.sample(names, rng.randint(1, len(names)))
    text = surveys.written([surveys.of(name, files[name]) for name in some])
    files["all"] = spliced(rng, [text]) if rng.random() < errors / 2 else text
    rest = [name for name in names if name not in some]
    rest.insert(rng.randint(0, len(rest)), "all")
    return rest


def spliced(rng, texts):
    """A text of surveys with a byte, a line or a block changed, lost, doubled or moved, or two
    texts spliced."""
    text, kind = rng.choice(texts), rng.randrange(4)
    if kind == 3:
        other = rng.choice(texts)
        return text[:rng.randint(0, len(text))] + other[rng.randint(0, len(other)):]
    parts = text.splitlines(keepends=True) if kind == 1 else [
        text[at:at + 1] for at in range(len(text))]
    size = rng.randint(1, 80) if kind == 2 else 1
    at = rng.randrange(len(parts))
    block, rest = parts[at:at + size], parts[:at] + parts[at + size:]
    to = rng.randint(0, len(rest))
    new = bytes([rng.choice(b"0123456789ABCDEFabef -:\n\r\0\t") if rng.random() < 0.9
                 else rng.getrandbits(8)])
    if rng.random() < 0.7 and block[0] in DIGITS:
        new = rng.choice(DIGITS)
    return b"".join(rng.choice((rest, parts[:at] + block * 2 + parts[at + size:],
                                rest[:to] + block + rest[to:], parts[:at] + [new] + rest[at:])))


def sealed_anew(text):
    """A changed text, with its ends as they have to be for what is before them."""
    lines, found = [], b""
    for line in text.decode("latin-1").split("\n")[:-1]:
        if line.startswith("end "):
            body = b"".join(one.encode("latin-1") + b"\n" for one in lines)
            crc = int.from_bytes(surveys.with_crc(body)[-2:], "little")
            found += body + b"end %d %04X\n" % (len(lines) + 1, crc)
            lines = []
        else:
            lines.append(line)
    return found + b"".join(one.encode("latin-1") + b"\n" for one in lines)


def seed_texts(rng):
    """Texts of surveys of random logs."""
    for _ in range(SEEDS):
        logs = [(name, text) for name, text in case_of(rng).files.items()
                if kind_of(text) == "log"]
        yield surveys.written([surveys.of(*log) for log in logs])


def changed_texts(rng, number):
    """Of the changed ones some have their ends put right."""
    texts = [text for text in seed_texts(rng) if text]
    for _ in range(number):
        text = spliced(rng, texts)
        yield sealed_anew(text) if rng.random() < 0.7 else text
