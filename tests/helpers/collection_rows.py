"""The worked rows of collections, tests/data/collections/.

A row has the texts of files, one character a byte, or logs by the short names of their lines
(tests/data/rows/lines); the files that a command is given; and what each command writes, its
status, and what it says on standard error. `object` is what it writes as JSON. `lines` are its
lines, of some of which several are right. A text is a string, or parts, where `["x", 3]` is xxx.
"""
import json

import pytest

from helpers import collections
from helpers.lines import log_of
from helpers.program import TOP

FOLDER = TOP / "tests/data/collections"


def unpacked(parts):
    """The bytes of a text of a row."""
    parts = [parts] if isinstance(parts, str) else parts
    return b"".join(part.encode("latin-1") if isinstance(part, str)
                    else part[0].encode("latin-1") * part[1] for part in parts)


def rows():
    """Each command of each row: its files, their texts, and what it has to write."""
    for page in sorted(FOLDER.glob("*.json")):
        for row in json.loads(page.read_text()):
            for command, answer in row["answers"].items():
                yield pytest.param(command, row["files"], row, answer, marks=(
                    pytest.mark.slow if "slow" in row else ()),
                    id=f"{page.stem}: {row['name']}, {command}")


def files_of(row):
    return {**{name: unpacked(text) for name, text in row.get("texts", {}).items()},
            **{name: log_of(names) for name, names in row.get("logs", {}).items()}}


def choices(value):
    """Each value that is right, of one in which there are several."""
    if isinstance(value, dict) and list(value) == ["one of"]:
        return [one for each in value["one of"] for one in choices(each)]
    if isinstance(value, dict):
        found = [{}]
        for key, one in value.items():
            found = [{**before, key: choice} for before in found for choice in choices(one)]
        return found
    if isinstance(value, list):
        found = [[]]
        for one in value:
            found = [[*before, choice] for before in found for choice in choices(one)]
        return found
    return [value]


def is_right(answer, said):
    """Whether a command writes what it has to."""
    out, err, status = said
    if (err.decode(), status) != (answer.get("err", ""), answer["status"]):
        return False
    if "lines" in answer:
        lines = out.decode().splitlines(keepends=True)
        return len(lines) == len(answer["lines"]) and all(
            line.rstrip("\n") in ([right] if isinstance(right, str) else right)
            for line, right in zip(lines, answer["lines"]))
    if "object" in answer:
        return out.decode() in [f"{collections.json_of(one)}\n"
                                for one in choices(answer["object"])]
    return out == unpacked(answer.get("out", ""))


def reader(texts):
    """What has the text of each of these files, and of no other."""
    def read(name):
        if name not in texts:
            raise collections.NoAnswer(f"cannot open {name}")
        return texts[name]
    return read
