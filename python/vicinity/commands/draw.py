"""`show` and `page`: a log drawn for a terminal, or as one HTML file."""
import os
import shutil

from .._process import Arguments, has_colours, has_unicode, read_log, shown, write
from ..pages.document import of_log
from ..logs.findings import JudgedLog
from ..logs.show import Look, show


def draw(arguments: Arguments) -> int:
    """Draws a log for a terminal, and returns the status of its report."""
    log = JudgedLog(read_log(arguments.names[0]))
    look = Look(has_unicode() and not arguments.ascii, has_colours(),
                shutil.get_terminal_size().columns)
    write(f"{line}\n" for line in show(log, look))
    return log.answer.status


def page(arguments: Arguments) -> int:
    """Writes the page of a log, and returns the status of its report."""
    (name,) = arguments.names
    answer, parts = of_log(read_log(name),
                           "standard input" if name == "-" else shown(os.path.basename(name)))
    write(parts)
    return answer.status
