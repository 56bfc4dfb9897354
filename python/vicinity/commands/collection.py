"""`collection`: many logs against one catalogue. The library writes what it is; here a log is
surveyed as soon as it is read, so that none is kept."""
import codecs
import json
import os
from concurrent.futures import ThreadPoolExecutor
from functools import partial
from hashlib import sha256
from typing import Any, Iterable, Iterator, Mapping, Optional, Sequence

from .._native import VERSION, library
from .._objects import NOT_COMPLETE, Object, object_of, too_small
from .._process import (Arguments, NoAnswer, complain, names_of, read, read_log, shown,
                        tell_terminal, write)
from .._run import Written, run
from .._sentences import SENTENCES, advice
from ..pages.document import document, page_object
from ..logs.findings import JudgedLog
from ..logs.headline import MAY_BE_HERE, READ_AGAIN, STILL_COMPLETE
from ..logs.words import count, listing
from .catalogue import columns_of, doubts
from .summary import summary

#: How a log begins, unless it is a text of surveys, which begins so; an empty file is a log.
LOG, SURVEYS = (b"vicinity-", codecs.BOM_UTF8 + b"vicinity-"), b"vicinity-survey "
#: Which command of the program writes a form.
OBJECT = "json-collection"
WRITES = {"lines": "reconcile", "csv": "collection", "json": OBJECT, "page": OBJECT}
WANTED = ("these aren't the files of a collection: one catalogue, at most one table of places, and "
          "logs or surveys, with names in UTF-8 and without control characters")
NO_LOGS = "no log is given, so nothing is counted: did a pattern, or a list of names, find none?"
#: States in which nothing is to be done.
DONE = "in place", "there", "away", "no tag"
#: How much text of logs stands in a page, and how many logs a sentence names.
MOST_TEXT, MOST_NAMES = 4_000_000, 20

#: Names of files, each with its text; two may have one name.
Files = Sequence[tuple[str, bytes]]
#: Of a log that is drawn the UIDs that are on its own list and that it rules out, and its sum.
Denied = tuple[list[str], str]
#: When a file was changed, in milliseconds, as a page has it; nothing of what is no file.
Ages = Mapping[str, list[int]]


def collection(arguments: Arguments) -> int:
    """Writes what logs say of a catalogue, and returns the status."""
    library()
    form, wanted = arguments.form, arguments.margin
    names = names_of(arguments)
    ages, (files, logs) = _ages(names), _read(names, arguments.jobs, form == "page")
    written, answer = _written(WRITES[form], files), dict[str, Any]()
    is_measured, is_shown = wanted > 0 and written.status == 0, form == "lines" and os.isatty(2)
    if form == "page" or is_measured or is_shown:
        text = written.text if OBJECT == WRITES[form] else _written(OBJECT, files).text
        answer = json.loads(text) if text.startswith(b"{") else answer
    less = _less(answer, wanted) if is_measured else ""
    if less:
        answer.update(status=NOT_COMPLETE, wanted=wanted)
    if form == "page" and answer:
        write(_page(files, logs, ages, answer))
    elif form == "json" and less:
        write([json.dumps(answer, ensure_ascii=False, separators=(",", ":")), "\n"])
    else:
        write([f"{less}\n" if less and form == "lines" else written.text])
    if less and form == "csv":
        complain(less)
    tables = _tables(files)
    for doubt in [*doubts(tables), *([NO_LOGS] if len(tables) == len(files) else [])]:
        complain(doubt)
    tell_terminal(f"{note}\n" for note in _notes(written, answer, is_shown))
    return NOT_COMPLETE if less else written.status


def _read(names: Sequence[str], jobs: int, is_drawn: bool) -> tuple[Files, Mapping[str, Denied]]:
    """The texts of files, of logs their surveys; and what each log rules out of its own list, by
    its name, if a page is drawn. The library's calls run side by side."""
    with ThreadPoolExecutor(jobs) as pool:
        each = partial(_file, is_drawn)
        files = list(pool.map(each, names) if jobs > 1 else map(each, names))
    return [file for file, _ in files], {name: it for (name, _), it in files if it is not None}


def _file(is_drawn: bool, name: str) -> tuple[tuple[str, bytes], Optional[Denied]]:
    """A file with its text, of a log its survey; and what a log rules out of its own list."""
    try:
        text = read(name)
        if text.startswith(SURVEYS) or text and not text.startswith(LOG):
            return (name, text), None
        findings = object_of(text)["findings"] if is_drawn else []
        denied = [finding["uid"] for finding in findings if finding["kind"] == "absent"]
        return (name, _written("survey", [(name, text)]).text), (denied, sha256(text).hexdigest())
    except MemoryError:
        raise NoAnswer(f"out of memory: {shown(name)}") from None


def _written(command: str, files: Files) -> Written:
    """What the program writes of files. `reconcile` takes a catalogue that comes first, so the
    first table does; what else there is stays in its order, by which the first fault is told."""
    if command == "reconcile":
        tables = _tables(files)
        if not tables:
            raise NoAnswer(WANTED)
        files = [tables[0], *(file for file in files if file is not tables[0])]
    try:
        return run(command, *(text for _, text in files), names=[name for name, _ in files])
    except ValueError:
        raise NoAnswer(WANTED) from None


def _less(answer: Object, wanted: int) -> str:
    """The line of a complete collection whose margin is less than was wanted."""
    least = answer.get("margin")
    if least is not None and least["margin"] >= wanted:
        return ""
    where = f" in {shown(answer['logs'][least['log']]['name'])}" if least else ""
    return too_small(least, wanted, where)


def _page(files: Files, logs: Mapping[str, Denied], ages: Ages, found: Object) -> Iterator[str]:
    """One HTML file that draws the object, with when each log's file was changed, and the texts of
    logs, those first that have to be counted again. Some of the files are logs."""
    room, late = MOST_TEXT, [it for it, age in _ages(ages).items() if age != ages[it]]
    # of a log in a text of surveys the oldest of these texts may be the one that has it
    old = sorted(age for name, text in files if text.startswith(SURVEYS) and name not in logs
                 for age in ages.get(name, []))
    for log in sorted(found["logs"], key=lambda it: it["field"] == "possible" and not it["open"]):
        name, text, (denied, digest) = log["name"], b"", logs.get(log["name"], ([], ""))
        if digest and os.path.isfile(name):
            text = read_log(name)
            late += [name] * (sha256(text).hexdigest() != digest)
        log.update([("changed", age) for age in (ages.get(name, []) if digest else old[:1])],
                   denied=denied, **({"sha256": digest} if digest else {}))
        room -= len(text)
        if text and room >= 0:
            log["object"] = page_object(shown(os.path.basename(name)), JudgedLog(text))
    if late:
        raise NoAnswer(f"{shown(late[0])} has changed since it was read first")
    tables = _tables(files)
    name = shown(os.path.basename(next(name for name, text in tables if columns_of(text))))
    # of a table of places the page says which logs it names
    found.update(version=VERSION, file=name, files=[
        {"file": shown(os.path.basename(it)), "sha256": sha256(text).hexdigest(), **(
            {} if columns_of(text) else {"text": text.decode("utf-8-sig")})}
        for it, text in tables])
    lines = _written("reconcile", files).text.decode()
    answer = _less(found, found["wanted"]) if "wanted" in found else found["answer"]
    return document(f"{name}: {answer}", [json.dumps(found)], lines.splitlines())


def _ages(names: Iterable[str]) -> Ages:
    """When files were changed: once before they are read, and once more when all is."""
    return {it: [os.stat(it).st_mtime_ns // 1_000_000] for it in names if os.path.isfile(it)}


def _tables(files: Files) -> Files:
    return [file for file in files if not file[1].startswith(SURVEYS)]


def _notes(written: Written, answer: Object, is_shown: bool) -> Iterator[str]:
    """What a person has to know beside what is written: what the fault of a table means; of
    lines, what a complete answer is said of and how sure it is, or a summary."""
    if written.text.startswith(b"refused at") and not answer:
        yield " ".join(advice(written.text.decode().rpartition(": ")[2].rstrip("\n"), "tables"))
    if not is_shown or not answer:
        return
    if written.status == 0:
        yield SENTENCES["answers"]["holds"]
        yield from _sure(answer)
    logs, items = answer["logs"], answer["items"]
    yield from summary([
        *((item["place"] or "", item["state"]) for item in items if item["state"] not in DONE),
        *((logs[tag["certain_in"][0]]["name"], "unexpected") for tag in answer["unexpected"])])


def _sure(answer: Object) -> Iterator[str]:
    """How sure a complete answer is."""
    logs, least = answer["logs"], answer.get("margin")
    if least:
        slots, name = count(least["margin"], "slot"), shown(logs[least["log"]]["name"])
        yield ("Any other tag would have had to be missed in "
               f"{slots} or more, in the field of {name}.")
    for _, reading, name in READ_AGAIN:
        fields = [shown(log["name"]) for log in logs if log[reading]]
        others = [count(len(fields) - MOST_NAMES, "other log")] if fields[MOST_NAMES:] else []
        where = listing(fields[:MOST_NAMES] + others)
        yield f"{name}: {f'{MAY_BE_HERE}, in {where}' if fields else STILL_COMPLETE}"
