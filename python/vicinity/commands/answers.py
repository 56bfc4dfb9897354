"""`check` and `report`: what the program says, of many logs in one process."""
import json
from typing import Any, Mapping

from .._calls import check
from .._native import library
from .._objects import NOT_COMPLETE, OF_CHECK, SMALL, object_of, of_file, too_small
from .._process import Arguments, complain, names_of, shown, tried, write
from .._run import NO_ANSWER


def _judge(text: bytes, wanted: int, form: str) -> tuple[int, str, Mapping[str, Any]]:
    """The status of a text, its answer, and for JSON its fields. A complete list counts as
    not complete if its margin is less than was wanted."""
    if not wanted and form != "json":
        answer = check(text)
        return answer.status, answer.text, {}
    log = object_of(text)
    fields = {key: log[key] for key in OF_CHECK if key in log}
    if fields["status"] or fields["margin"] >= wanted:
        return fields["status"], log["answer"], fields
    fields.update(status=NOT_COMPLETE, kind=SMALL, wanted=wanted)
    return NOT_COMPLETE, too_small(fields, wanted), fields


def check_all(arguments: Arguments) -> int:
    """Writes a line for each file, and returns the worst status."""
    library()
    worst, form = 0, arguments.form
    for name in names_of(arguments):
        judged = tried(name, lambda text: _judge(text, arguments.margin, form))
        status, answer, fields = judged if isinstance(judged, tuple) else (
            complain(judged), "no answer", judged)
        worst = max(worst, status)
        write([{"json": json.dumps(of_file(name, fields)) + "\n",
                "tabs": f"{shown(name)}\t{status}\t{answer}\n",
                "lines": "" if status == NO_ANSWER else f"{shown(name)}: {answer}\n"}[form]])
    return worst


def report_all(arguments: Arguments) -> int:
    """Writes every finding of each file, and returns the worst status."""
    from ..logs.findings import JudgedLog  # loaded only for reports
    from ..logs.report import lines_of_report, object_of_report

    library()
    worst, is_json = 0, arguments.form == "json"
    for name in names_of(arguments):
        log = tried(name, JudgedLog)
        if isinstance(log, str):
            worst = complain(log)
            write([json.dumps(of_file(name, log)) + "\n"] if is_json else [])
            continue
        worst = max(worst, log.answer.status)
        write([json.dumps(object_of_report(name, log)) + "\n"] if is_json else
              lines_of_report(shown(name), log))
    return worst
