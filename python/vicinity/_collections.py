"""What many logs say of a catalogue: the object that the library writes, as types."""
import json
from contextlib import suppress
from dataclasses import dataclass
from typing import Any, Callable, Mapping, Optional

from ._answers import Mask
from ._native import BytesLike, T
from ._objects import SCHEMA, Fields, Object, mask_of
from ._run import Written, run


@dataclass(frozen=True)
class Found:
    """A tag that is there and that the catalogue hasn't. Logs go by their places, from 0.

    possible_in: without those in which it is certain
    line: the line of the first of these logs that shows it"""

    uid: int
    certain_in: tuple[int, ...]
    possible_in: tuple[int, ...]
    line: int


@dataclass(frozen=True)
class Item:
    """A row of the catalogue, and its state, named as in docs/COLLECTIONS.md."""

    line: int
    uid: Optional[int]
    state: str
    place: Optional[str]
    away: bool
    certain_in: tuple[int, ...]
    possible_in: tuple[int, ...]
    cells: tuple[str, ...]


@dataclass(frozen=True)
class Log:
    """What a log says of its field. One that contradicts itself or is refused says nothing,
    and has only the first four.

    field: the second line of its survey: `possible`, `impossible at line 5`, .."""

    name: str
    place: Optional[str]
    left_over: bool
    field: str
    answers: int = 0
    certain: int = 0
    shared: int = 0
    open: tuple[Mask, ...] = ()
    more: bool = False
    margin: int = 0
    weakest: Optional[Mask] = None
    hidden: Optional[Mask] = None
    deaf: Optional[Mask] = None


@dataclass(frozen=True)
class Least:
    """The least margin of the logs of a complete collection, and the first log that has it."""

    margin: int
    weakest: Mask
    log: int


@dataclass(frozen=True)
class Collection:
    """What logs say of a catalogue. It is true if that is complete.

    counts: how many items there are of each state, and tags that the catalogue hasn't
    ended: whether the catalogue ends by a line end: else it may have been cut"""

    status: int
    answer: str
    counts: Mapping[str, int]
    columns: tuple[str, ...]
    ended: bool
    items: tuple[Item, ...]
    unexpected: tuple[Found, ...]
    unsettled: Optional[Mask]
    without_log: tuple[str, ...]
    logs: tuple[Log, ...]
    margin: Optional[Least] = None

    @property
    def is_complete(self) -> bool:
        return self.status == 0

    def __bool__(self) -> bool:
        return self.is_complete

    def __str__(self) -> str:
        return self.answer


class CollectionRefused(ValueError):
    """A table, or a text of surveys, is refused: the text is the line that the program writes."""


def _mask_or_fields(fields: Object) -> Any:
    return mask_of(fields) if "mask_len" in fields else fields


def _made(kind: Callable[..., T], fields: Fields, **parts: Any) -> T:
    """A type of its fields, and of parts that are made already."""
    values = {key: int(value, 16) if key == "uid" and value else
              tuple(value) if isinstance(value, list) else value
              for key, value in fields.items() if key not in ("schema", *parts)}
    return kind(**values, **parts)


def _all(kind: Callable[..., T], objects: list[Any]) -> tuple[T, ...]:
    """Each object as its type, in its place, so that memory never has all of both."""
    for index, fields in enumerate(objects):
        objects[index] = _made(kind, fields)
    return tuple(objects)


def survey(text: BytesLike, name: str) -> Written:
    """What a log of this name says of its field: a text with a checksum, which stands for it in
    `collection`, also on another machine. The status is 2 or 3 if it is impossible or refused.
    Raises what `run` raises."""
    return run("survey", text, names=[name])


def collection(files: Mapping[str, BytesLike]) -> Collection:
    """What logs, or their surveys, say of a catalogue. `files` are texts by their names, in any
    order: the catalogue, a table of places or none, and logs and surveys, which the first bytes
    tell apart.

    Raises CollectionRefused if one of the tables or surveys is refused, and what `run` raises."""
    written = run("json-collection", *files.values(), names=list(files))
    if not written.text.startswith(b"{"):
        raise CollectionRefused(written.text.decode().rstrip("\n"))
    fields = json.loads(written.text, object_hook=_mask_or_fields)
    return _made(Collection, fields, items=_all(Item, fields["items"]),
                 unexpected=_all(Found, fields["unexpected"]), logs=_all(Log, fields["logs"]),
                 margin=_made(Least, fields["margin"]) if "margin" in fields else None)


def as_object(written: bytes) -> Optional[Object]:
    """The object of a collection, as it is written; None if this is none."""
    with suppress(ValueError, KeyError, TypeError, RecursionError):
        fields: Object = json.loads(written)
        if fields["schema"] == SCHEMA and {*Collection.__annotations__} - {"margin"} <= {*fields}:
            return fields
    return None
