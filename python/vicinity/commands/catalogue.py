"""Which of some tables is the catalogue, and what may be wrong with it though it isn't refused."""
import codecs
import csv
import json
import re
import unicodedata
from contextlib import suppress
from typing import Iterable, Iterator, Sequence

from .._process import shown
from .._sentences import SENTENCES
from ..logs.words import count

#: The columns of a catalogue that has places, and names that look like that of the second.
UID, PLACE, NEARLY = "uid", "place", ("place", "places")
#: What separates cells, in the order in which it is tried.
SEPARATORS = ",;\t"
DOUBTS = SENTENCES["catalogues"]


def columns_of(table: bytes) -> Sequence[str]:
    """The cells of a catalogue's first line; none of a table that isn't one."""
    line = table.removeprefix(codecs.BOM_UTF8).partition(b"\n")[0].decode(errors="replace")
    with suppress(csv.Error):  # it is refused
        for separator in SEPARATORS:
            cells: list[str] = next(csv.reader([line.rstrip("\r")], delimiter=separator), [])
            if UID in map(_name, cells):
                return cells
    return []


def doubts(tables: Iterable[tuple[str, bytes]]) -> Iterator[str]:
    """What may be wrong with the catalogue among tables by their names: it may have been cut off in
    its last cell, or have places in a column that is called otherwise."""
    for name, table in tables:
        columns = columns_of(table)
        if columns and not table.endswith(b"\n"):
            lines = count(table.count(b"\n") + 1, "line")
            yield f"{shown(name)} has {lines}, {DOUBTS['cut']}"
        for number, column in enumerate(columns, 1) if PLACE not in map(_name, columns) else ():
            if re.sub(r"[\W_]+", "", unicodedata.normalize("NFKC", column)).lower() in NEARLY:
                yield f"{shown(name)}: {DOUBTS['noPlaces']} " + DOUBTS["meant"].format(
                    f"{number}, {json.dumps(column)},")


def _name(cell: str) -> str:
    """The name of a column, as the library compares it."""
    return cell.strip(" \t").lower()
