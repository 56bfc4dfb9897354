"""A page: the one file that web/ makes, with what it draws in it,
and plain text for whom no script draws it."""
import json
import re
import runpy
from hashlib import sha256
from html import escape
from pathlib import Path
from typing import Iterable, Iterator

from .._answers import Answer
from .._native import VERSION
from .._objects import Object, of_file
from ..logs.findings import JudgedLog
from ..logs.show import show

HERE = Path(__file__).resolve().parent
#: The page as a package has it, and what makes it in the repository.
MADE, BUILD = HERE / "page.html", HERE / "../../../web/build"


def document(title: str, pieces: Iterable[str], plain: Iterable[str]) -> Iterator[str]:
    """The page of an object, which comes as pieces of JSON, and of lines of text."""
    page = MADE.read_text("utf-8") if MADE.exists() else runpy.run_path(str(BUILD))["record"]()
    head, before, between, tail = re.split("{{title}}|{{plain}}|{{object}}", page)
    yield head + escape(title) + before
    yield from (f"{escape(line)}\n" for line in plain)
    yield between
    yield from (piece.replace("<", "\\u003c") for piece in pieces)
    yield tail


def of_log(text: bytes, name: str) -> tuple[Answer, Iterator[str]]:
    """The answer to a log, and the parts of its page."""
    log = JudgedLog(text)
    pieces = [json.dumps(page_object(name, log))]
    return log.answer, document(f"{log.answer}: {name}", pieces, show(log))


def page_object(name: str, log: JudgedLog) -> Object:
    """All that a page draws of a log: its object, and what only who opens it knows."""
    return {**of_file(name, log.object), "version": VERSION,
            "sha256": sha256(log.rows.text).hexdigest(),
            "text": log.rows.until_refused.decode("utf-8", "replace")}
