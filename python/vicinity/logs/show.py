"""A log drawn as text for a terminal: the answer, how sure it is, what was found and what to
send, as its page says it, and a row for each round with a cell for each slot. It fits into a
terminal, and no request is broken over two lines."""
from itertools import islice
from textwrap import wrap
from typing import Iterable, Iterator, Mapping, NamedTuple, Sequence

from .._answers import FindingKind, Mask
from .._objects import UID_BITS, mask_of
from .._process import shown
from .._sentences import SENTENCES
from ..frames import read_request, uid_text
from .findings import CONFLICTS, MOST_LINES, WORDS, JudgedLog
from .headline import first, headline, lights
from .report import described
from .rows import READINGS, Row, Rows, Slot
from .words import count, ending, meaning, span

#: What replaces a sign outside ASCII.
ASCII = {ord("·"): ".", ord("╳"): "X", ord("⋮"): ":"}
#: By the status of an answer; green is a list of which nothing is in doubt.
ANSWER_COLOURS = ("1;34", "1;33", "1;31", "1;35")
GREEN = "1;32"
NAMED = "7"
#: How many lines a picture has at most, what is found, what to send where rounds take the rest, and
#: what signs mean; and how many tags are silenced in these lines.
MOST, MOST_FOUND, MOST_SENT, MOST_LEGEND, MOST_SILENCED = 24, 6, 6, 2, 3
NO_BREAK = "\u00a0"
#: The slots of a round, and how many columns each takes.
SLOTS, CELL = 16, 3
#: What the marks and signs of cells mean.
LEGEND = {"·": "no tag", "╳": "two or more", "?": "unreadable", "-": "nothing known",
          "+": "perhaps over others", "q": "silenced afterwards", "!": "the answer rests on it"}
#: Findings that a UID and a line say.
LISTED = FindingKind.ABSENT, FindingKind.UNLISTED, FindingKind.DOUBTFUL
REQUESTS = SENTENCES["requests"]
LEFT = "Left to ask: before the U lines if the field stayed on, else in a new log:"
MORE, OTHERS = "Causes, and what to do: python3 -m vicinity page LOG", "⋮  more"


class Look(NamedTuple):
    """What a terminal can show."""

    utf8: bool = True
    colour: bool = False
    columns: int = 80

    def painted(self, text: str, colour: str) -> str:
        return f"\033[{colour}m{text}\033[0m" if self.colour else text

    def wrapped(self, text: str, indent: str = "") -> list[str]:
        return wrap(text, max(self.columns, 20), subsequent_indent=indent, break_on_hyphens=False,
                    break_long_words=False)

    def joined(self, parts: Iterable[str], between: str) -> list[str]:
        """The parts in lines that are broken between them alone."""
        words = between.join(part.replace(" ", NO_BREAK) for part in parts)
        return [line.replace(NO_BREAK, " ") for line in self.wrapped(words)]


def show(log: JudgedLog, look: Look = Look()) -> Iterator[str]:
    """The lines of a picture: the page's headline and lights, the answer, findings, requests, and
    rounds with a legend."""
    # green only where the page is
    answer, is_sure = log.answer, log.answer.is_complete and _step(log) == "nothing"
    colour = GREEN if is_sure else ANSWER_COLOURS[answer.status]
    known = [f"{name}: {value}" for name, value in (*lights(log), ("Answer", answer.text))]
    head = [*(look.painted(line, colour) for line in look.wrapped(headline(log))),
            *look.joined(known, "; ")]
    findings, sent = _few(_findings(log, look), MOST_FOUND), list(islice(_sent(log, look), MOST))
    last = [MORE] * (answer.status > 0 and not log.rows.foreign)
    # between the parts are blank lines
    left = MOST - sum(len(part) + 1 for part in (head, findings, last) if part)
    rounds = list(_picture(log, look, left - min(len(sent), MOST_SENT) - 1))
    few = _few(sent, max(1, left - len(rounds) - 1))
    text = "\n\n".join("\n".join(it) for it in (head, findings, few, rounds, last) if it)
    yield from (text if look.utf8 else text.translate(ASCII)).split("\n")


def _step(log: JudgedLog) -> str:
    """What there is to do where a list is complete: nothing, if it stays so if replies were hidden
    and if the reader went deaf, too."""
    return first((not log.answer.count, "empty"), (not log.holds("captured"), "oneMore"),
                 (not log.holds("deaf"), "hears"), (True, "nothing"))


def _few(lines: Iterable[str], most: int) -> list[str]:
    """So many lines at most; the last one says that there are more."""
    these = list(islice(lines, most + 1))
    return these if len(these) <= most else [*these[:most - 1], OTHERS]


class Layout(NamedTuple):
    """How rows are drawn: those that are, by their indices; how many columns the numbers of lines
    take, and all that stands before the cells; and how many cells fit into a line."""

    drawn: Mapping[int, Row]
    labels: int
    width: int
    fits: int


def _layout(rows: Rows, named: set[int], look: Look, most: int) -> Layout:
    """The layout that takes so many lines at most: where the cells of a row don't fit into one
    line, each row takes more of them, and fewer rows are drawn."""
    for of_row in range(1, SLOTS + 1):
        chosen = _chosen(rows, named, max(1, (most - 1 - MOST_LEGEND) // of_row - 1))
        drawn = {index: rows.row(index) for index in chosen}
        labels = max([5, len(span(*rows.list_lines)),
                      *(len(span(row.line, row.end)) for row in drawn.values())])
        masks = max([5, *(len(str(row.request.mask)) + 1 for row in drawn.values()
                          if len(row.slots) > 1 and row.request)])
        width = labels + 2 + masks
        fits = max(1, (look.columns - width) // CELL)
        if fits * of_row >= SLOTS:
            break
    return Layout(drawn, labels, width, fits)


def _picture(log: JudgedLog, look: Look, most: int) -> Iterator[str]:
    """The rows that matter in so many lines."""
    rows = log.rows
    # without a list, no tag that is there is more than the others
    named = log.lines(MOST_LINES) if rows.listed or log.answer.status > 1 else set[int]()
    drawn, labels, width, fits = _layout(rows, named, look, most)

    def lines(head: str, cells: Sequence[str]) -> Iterator[str]:
        for start in range(0, len(cells) or 1, fits):
            yield f"{'' if start else head:<{width}}{''.join(cells[start:start + fits])}".rstrip()

    slots = max((len(row.slots) for row in drawn.values()), default=0)
    if slots:
        yield from lines(f"{'lines':>{labels}}  asked", [" the one slot"] if slots == 1 else
                         [f"{slot:>2X} " for slot in range(SLOTS)])
    # the first row is drawn where any is
    for (index, row), behind in zip(drawn.items(), [*drawn, len(rows.lines)][1:]):
        head = f"{span(row.line, row.end):>{labels}}{'!' if row.line in named else ' '} "
        if row.request is None:
            yield f"{head}field off and on"
        elif row.request.slots:
            yield from lines(f"{head}{row.request.mask} ", [
                look.painted(_cell(row, slot, named), READINGS[slot.letter][1]
                             + f";{NAMED}" * (slot.line in named)) for slot in row.slots])
        else:
            yield f"{head}Stay Quiet {uid_text(row.request.uid)}"
        if behind > index + 1:
            yield f"{'⋮':>{labels}}  {count(behind - index - 1, 'row')}"
    if rows.listed:
        yield f"{span(*rows.list_lines):>{labels}}  {rows.listed:,} listed"
    yield from look.joined(_legend(drawn.values(), named), ", ")[:MOST_LEGEND]


def _chosen(rows: Rows, named: set[int], most: int) -> list[int]:
    """The rows that are drawn: with a line for each gap between them they are so many at most.
    The last one is there, and the first; then those with a named line, and those at the ends."""
    total, chosen = len(rows.lines), set[int]()
    ends = (index for pair in zip(range(total - 1, -1, -1), range(total)) for index in pair)
    first = [*islice(ends, 2)]
    for index in [*first, *sorted({rows.place(line) for line in named}), *islice(ends, most)]:
        more = chosen | {index}
        gaps = sum(drawn and drawn - 1 not in more for drawn in more)
        if index >= 0 and len(more) + gaps <= most:
            chosen = more
    return sorted(chosen)


def _cell(row: Row, slot: Slot, named: set[int]) -> str:
    """What was read in a slot, of a UID two digits behind those of the asked mask where the round
    has other slots; and a mark: what the answer rests on, or what became of the tag."""
    sign = READINGS[slot.letter][0]
    if slot.uid is not None and row.request:
        behind = row.request.mask.length // 4 * 4
        sign = f"{slot.uid >> behind & 0xFF:02X}" if row.request.slots > 1 else uid_text(slot.uid)
    return f"{sign:>2}" + ("!" if slot.line in named else "q" if slot.uid in row.quiets
                           else "+" if slot.letter == "H" else " ")


def _legend(rows: Iterable[Row], named: set[int]) -> Iterator[str]:
    """What the signs and marks mean that are drawn, and the two digits of a UID."""
    cells = [(row, slot, _cell(row, slot, named)) for row in rows for slot in row.slots]
    drawn = "".join(cell for *_, cell in cells)
    yield from (f"{sign} {words}" for sign, words in LEGEND.items() if sign in drawn)
    for row, slot, cell in reversed(cells):
        if row.request and row.request.slots > 1 and slot.uid is not None:
            last = str(Mask(row.request.mask.length // 4 * 4 + 8, slot.uid))[2:]
            yield f"{cell[:2]} in row {row.request.mask}: a UID that ends in {last}"
            break


def _findings(log: JudgedLog, look: Look) -> Iterator[str]:
    """What `report` says, with what the lines of the log say that show it."""
    rows = log.rows
    if log.refused_line:
        yield f"line {log.refused_line}: " + (
            shown(rows.refused.removesuffix(b"\r"))[:look.columns // 2] or "(empty)")
        yield from look.wrapped(
            " ".join(rows.foreign[1:]) or rows.advice(log.answer.fault.word).fix)
    if log.answer.is_complete:
        yield from look.wrapped(SENTENCES["steps"][_step(log)][0])
    for finding, words in described(log, MOST_LINES):
        where, kind = f"line {finding.line}: " if finding.line else "", finding.kind
        if kind in LISTED and (rows.listed or kind is not FindingKind.UNLISTED):
            yield f"{where}{WORDS[kind]} {words}"
        elif kind in CONFLICTS:
            yield from look.wrapped(where + meaning(rows, finding.line), "  ")


def _sent(log: JudgedLog, look: Look) -> Iterator[str]:
    """What to send, as the page says it: what asks the open masks, those of silenced tags after a
    field cycle; else what shows whether replies were hidden, or the reader went deaf."""
    rows, left, certain = log.rows, log.object["open"], log.object["certain"]
    masks = [(mask_of(fields), fields["ask"]) for fields in left["masks"]]
    plain = [line for mask, lines in masks if mask not in log.quiet for line in lines]
    silenced = [line for mask, lines in masks if mask in log.quiet for line in lines]
    cut = rows.cut_short([mask for mask, _ in masks if mask not in log.quiet])
    is_shorter = cut and len(cut) < len(plain) and len(masks) == left["count"]
    yield from look.wrapped(LEFT) if plain else ()
    yield from _asking([rows.ask(mask, SLOTS) for mask in cut] if is_shorter else plain, look)
    if silenced and rows.has_cycles:
        yield from look.wrapped(REQUESTS["silenced"].format(count(len(silenced), "request")))
        yield from ["F", *_asking(silenced, look)]
    elif silenced:
        yield from look.wrapped(REQUESTS["newVersion"])
    elif left["count"] or log.answer.status > 1:
        return
    elif not log.settles("captured"):
        quiets = [rows.silence(int(uid, 16)) for uid in certain["uids"]]
        if quiets[MOST_SILENCED:]:
            quiets = [f"(a Stay Quiet to each of {certain['count']:,} tags)"]
        yield from [*look.wrapped(REQUESTS["hidden"]), *quiets, rows.ask(Mask(0, 0))]
    elif log.is_shaken("deaf") and certain["count"]:
        why = "" if rows.has_cycles else f" {REQUESTS['noCycles']}"
        yield from look.wrapped(REQUESTS["heard"] + why)
        heard = Mask(UID_BITS, int(certain["uids"][0][2:], 16))
        yield from ["F", rows.ask(heard)] if rows.has_cycles else ()


def _asking(lines: Iterable[str], look: Look) -> Iterator[str]:
    """Requests, each with what it asks."""
    for line in lines:
        mask = read_request(bytes.fromhex(line[2:])).mask
        uids = ending(mask) if mask.length else "all UIDs"
        yield from look.wrapped(f"{line}  asks {uids}", "  ")
