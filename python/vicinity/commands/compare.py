"""`compare`: what has changed between two answers of `collection --json`."""
import json
import os
from collections import defaultdict
from itertools import zip_longest
from typing import Any, Callable, Iterator, Mapping, NamedTuple

from .._collections import as_object
from .._objects import SCHEMA, Object
from .._process import Arguments, REFUSED, complain, read, shown, tell_terminal, write
from ..logs.headline import MAY_BE_HERE, READ_AGAIN, STILL_COMPLETE
from .summary import summary

#: The state of an item of the other answer alone.
GONE, UNEXPECTED = "not in the catalogue", "unexpected"
#: Columns whose cells aren't told beside a UID.
COLUMNS = "uid", "away"


class Item(NamedTuple):
    """An item of an answer, or a tag that the catalogue hasn't: its state, the logs in which it is
    certain, its place, and other cells that aren't blank, by their columns."""

    state: str = GONE
    logs: tuple[str, ...] = ()
    place: str = ""
    cells: Mapping[str, str] = {}


class Answer(NamedTuple):
    """An answer: what is said of all, of each log and each place; how sure each log is, by a number
    and in words; and its items. Those of a UID or, without one, with equal cells, are in their
    order."""

    statements: Mapping[str, str]
    sure: Mapping[str, tuple[int, str]]
    items: Mapping[str, list[Item]]


class Change(NamedTuple):
    uid: str
    old: Item
    new: Item


def compare(arguments: Arguments) -> int:
    """Writes what has changed, and returns 1 if anything has."""
    objects = [as_object(read(name)) for name in arguments.names]
    if None in objects:
        complain(f"{shown(arguments.names[objects.index(None)])} "
                 "isn't an answer as `collection --json` writes it")
        return REFUSED
    old, new = (_answer(fields, _names(objects)) for fields in objects if fields)
    statements = list(_statements(old, new))
    changes = sorted(_changes(old, new), key=lambda it: (it.new.state, it.old.state, it.uid))
    status = int(bool(statements or changes))
    if arguments.form == "json":
        write([json.dumps({"schema": SCHEMA, "status": status, "said": [
            {"of": what, "was": was or None, "is": now or None} for what, was, now in statements],
            "changes": list(map(_object, changes))}), "\n"])
    else:
        write([*(f"{shown(what)}: {shown(now or 'none')}, was {shown(was or 'none')}\n"
                 for what, was, now in statements), *map(_line, changes)])
        tell_terminal(f"{line}\n" for line in summary(
            (change.new.place or change.old.place, change.new.state) for change in changes))
    return status


def _names(objects: list[Any]) -> Callable[[str], str]:
    """How a log is named: without its folder, which is often named after the day, if that tells
    the logs of each answer apart."""
    is_short = all(len({os.path.basename(log["name"]) for log in logs}) == len(logs)
                   for logs in (fields["logs"] for fields in objects))
    return lambda name: os.path.basename(name) if is_short else name


def _answer(fields: Object, name_of: Callable[[str], str]) -> Answer:
    names = [name_of(log["name"]) for log in fields["logs"]]
    logs = dict(zip(names, fields["logs"]))
    statements = {"status": str(fields["status"]), "answer": fields["answer"],
                  "catalogue": "" if fields["ended"] else "its last row has no line end",
                  **{f"place {place}": "no log" for place in fields["without_log"]},
                  **{f"log {name}": _field(log) for name, log in logs.items()}}
    items: dict[str, list[Item]] = defaultdict(list)
    for item in [*fields["items"], *fields["unexpected"]]:
        cells = {column.strip(): cell.strip() for column, cell
                 in zip(fields["columns"], item.get("cells", ())) if cell.strip()}
        items[item["uid"] or "none " + json.dumps(cells)].append(Item(
            item.get("state", UNEXPECTED), tuple(names[log] for log in item["certain_in"]),
            item.get("place") or "", {column: cell for column, cell in cells.items()
                                      if column.lower() not in COLUMNS}))
    return Answer(statements, {f"log {name}, {what}": how for name, log in logs.items()
                               for what, how in _sure(log)}, items)


def _field(log: Object) -> str:
    """What is said of a log."""
    return "{field}{}{}".format(", not to its end" if log.get("open") else "",
                                ", left over" if log["left_over"] else "", **log)


def _sure(log: Object) -> Iterator[tuple[str, tuple[int, str]]]:
    """How sure it is that no other tag was in a field that was searched to its end."""
    if log["field"] == "possible" and not log["open"]:
        yield "margin", (log["margin"], str(log["margin"]))
        for _, reading, what in READ_AGAIN:
            holds = log[reading] is None
            yield what.lower(), (holds, STILL_COMPLETE if holds else MAY_BE_HERE)


def _statements(old: Answer, new: Answer) -> Iterator[tuple[str, str, str]]:
    """What has changed beside the items: of what, what was said and what is; and what a log is less
    sure of."""
    for what in {**old.statements, **new.statements}:
        was, now = old.statements.get(what, ""), new.statements.get(what, "")
        if was != now:
            yield what, was, now
    for what, (was_sure, was) in old.sure.items():
        is_sure, now = new.sure.get(what, (was_sure, was))
        if is_sure < was_sure:
            yield what, was, now


def _changes(old: Answer, new: Answer) -> Iterator[Change]:
    """Items in another state, or in logs of other names."""
    for key in {**old.items, **new.items}:
        for was, now in zip_longest(old.items.get(key, ()), new.items.get(key, ()),
                                    fillvalue=Item()):
            has_moved = was.logs and now.logs and not {*was.logs} & {*now.logs}
            if was.state != now.state or has_moved:
                yield Change(key.split(" ")[0], was, now)


def _line(change: Change) -> str:
    (was, was_in), (now, is_in) = (
        (item.state, f" in {' and '.join(map(shown, item.logs))}" if item.logs else "")
        for item in (change.old, change.new))
    cells = ", ".join((change.new.cells or change.old.cells).values())
    return f"{now} {change.uid}{is_in}, was {was}{was_in}{': ' if cells else ''}{shown(cells)}\n"


def _object(change: Change) -> dict[str, object]:
    old, new = change.old, change.new
    return {"uid": None if change.uid == "none" else change.uid, "was": old.state, "is": new.state,
            "was_in": old.logs, "is_in": new.logs, "columns": new.cells or old.cells}
