"""The objects that the library writes as JSON, as docs/answers.schema.json describes them."""
import json
from typing import Any, Mapping, Optional, Union

from ._answers import Mask
from ._run import NO_ANSWER, run

#: The form of the objects.
SCHEMA = 2
#: The bits in which UIDs differ; the others are those of E0.
UID_BITS = 56
#: What `check` says of a log, of all that its object has.
OF_CHECK = ("status", "kind", "count", "uid", "mask_len", "mask_value", "line", "fault",
            "captured", "deaf", "margin", "weakest")
#: The kind of a complete list of which a greater margin is wanted, and its status.
SMALL, NOT_COMPLETE = "margin", 1

Object = dict[str, Any]
#: An object, or a part of one such as a mask, that is only read.
Fields = Mapping[str, Any]


def object_of(text: bytes) -> Object:
    """What the library says of a log. Raises what `run` raises."""
    log: Object = json.loads(run("json", text).text)
    return log


def of_file(name: str, fields: Union[Fields, str]) -> Object:
    """The object of a file: its fields, or why there is no answer."""
    if isinstance(fields, str):
        fields = {"status": NO_ANSWER, "kind": "no answer", "error": fields}
    return {"schema": SCHEMA, "file": name, **fields, **{"schema": SCHEMA}}


def mask_of(fields: Fields) -> Mask:
    """The mask that has these fields."""
    value = fields["mask_value"]
    return Mask(fields["mask_len"], 0 if value == "-" else int(value, 16))


def too_small(least: Optional[Fields], wanted: int, where: str = "") -> str:
    """The line of what is complete with a smaller margin than is wanted, by the object that has
    its least one. It hasn't the words of a complete answer anywhere."""
    if least is None:
        return f"{SMALL} unknown, {wanted} asked for"
    mask = "{mask_len} {mask_value}".format(**least["weakest"])
    return f"{SMALL} {least['margin']} below {wanted}{where}, weakest {mask}"
