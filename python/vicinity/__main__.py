"""The commands of the package: `python3 -m vicinity --help` lists them,
and `COMMAND --help` explains one."""
import argparse
import os
import re
import sys
from contextlib import suppress
from importlib import import_module
from typing import Any, Callable, Mapping, NoReturn, Optional, Sequence

from . import __version__
from ._process import NoAnswer, run_command, shown, write

ABOUT = """\
Judges logs of inventories of ISO/IEC 15693 tags. Without a command, a LOG is checked:
%(prog)s LOG .. is %(prog)s check LOG ..  - is standard input; for a log with
the name of a command, write ./show and so on."""
STATUSES = """\
The exit status is the worst of all: 0 complete, 1 not complete, 2 impossible,
3 refused, 4 no answer. Standard error says why there is no answer; other logs
are still judged."""
COUNTED = """\
What a file is, its first bytes say. The exit status is that of the answer:
0 complete, 1 not complete, 2 a log is impossible, 3 a file is refused,
4 no answer."""
COMPARED = """\
The exit status: 0 nothing has changed, 1 something has, 3 a file is no such
answer, 4 no answer."""
WRITTEN = "The exit status: 0 it is written, 3 what is given is refused, 4 no answer."


class Once(argparse.Action):
    """An option that may be given once: of two values, one would be ignored."""

    def __call__(self, parser: argparse.ArgumentParser, arguments: argparse.Namespace, value: Any,
                 option: Optional[str] = None) -> None:
        given = vars(arguments).setdefault("given", set())
        if option in given - {None}:  # names have no option
            raise argparse.ArgumentError(self, "it is given twice")
        given.add(option)
        setattr(arguments, self.dest, value)


class Parser(argparse.ArgumentParser):
    """Reads the words of a command. Its options may be anywhere before `--`;
    what comes after is names."""

    def __init__(self, **settings: Any):
        super().__init__(**settings, allow_abbrev=False, formatter_class=Help)
        self.register("action", None, Once)

    def parse(self, words: Sequence[str]) -> argparse.Namespace:
        at = words.index("--") if "--" in words else len(words)
        arguments = self.parse_intermixed_args(words[:at])
        arguments.names = names = [*arguments.names, *words[at + 1:]]
        least, most = arguments.number
        if not least <= len(names) <= most:
            self.error("a word is missing" if len(names) < least
                       else f"a word too many: {names[most]}")
        return arguments

    def error(self, message: str) -> NoReturn:
        option = re.split("[ =]", message.removeprefix("unrecognized arguments: "))[0]
        hint = f": {GONE[option]}" if option in GONE else ""
        raise NoAnswer(f"{shown(message)}{hint}\n{self.format_usage().rstrip()}")

    def _print_message(self, message: str, file: Any = None) -> None:
        """Help and version, which argparse would write to sys.stdout."""
        write([message])


class Help(argparse.RawDescriptionHelpFormatter):
    """Help in which names stand as they are given."""

    def _format_args(self, action: argparse.Action, default_metavar: str) -> str:
        return str(action.metavar) if action.dest == "names" else \
            super()._format_args(action, default_metavar)


ANY = sys.maxsize
#: A log has fewer slots than this.
MOST_MARGIN = 999_999
#: What was a command here, and an option, and what is used instead.
GONE = {name: f"it is a command of the program: vicinity {name}"
        for name in ("explain", "frame", "margin", "simulate", "spell", "survey")}
GONE["reconcile"] = "use collection CATALOGUE [PLACES] LOG .., or vicinity reconcile for a list"
GONE["--tags"] = "join the tables first: see COLLECTIONS"
GONE["--column"] = GONE["--place"] = "columns have fixed names, uid and place: see TABLES"
GONE["--places"] = "a table with columns place and log stands behind the catalogue: see TABLES"
GONE["--surveys"] = "the text of a survey stands among the logs: see COLLECTIONS"
GONE["--encoding"] = GONE["--sep"] = "save the table as CSV UTF-8: see TABLES"


def parsers() -> tuple[Parser, Mapping[str, Parser]]:
    """The parser of the package, and those of its commands."""
    is_module = os.path.basename(sys.argv[0]) == "__main__.py"
    top = Parser(prog="python3 -m vicinity" if is_module else None, description=ABOUT,
                 epilog=STATUSES)
    top.add_argument("--version", action="version", version=__version__)
    commands = top.add_subparsers(metavar="COMMAND", parser_class=Parser)
    _add_answers(commands)
    _add(commands, "compare", "compare.compare",
         "what has changed between two answers of collection --json", "OLD NEW", 2, 2, COMPARED,
         lines="a line for each change", json="one object")
    show = _add(commands, "show", "draw.draw", "draws the rounds of a log for a terminal")
    show.add_argument("--ascii", action="store_true", help="only ASCII characters")
    _add(commands, "page", "draw.page", "draws a log as one HTML file")
    misread = _add(commands, "misread", "misread.misread", "what a reader that misses, hides or "
                   "mistakes replies would have written for a true log", ends=WRITTEN)
    for chance, what in (("capture", "one reply is read over the others of its slot"),
                         ("miss", "a reply isn't noticed"), ("noise", "noise covers a slot")):
        misread.add_argument(f"--{chance}", metavar="P", type=_chance, default=0.0,
                             help=f"the probability that {what}")
    misread.add_argument("--seed", metavar="N", type=int, default=0,
                         help="the seed of the random numbers")
    return top, commands.choices


def _add(commands: Any, name: str, function: str, what: str, names: str = "LOG", least: int = 1,
         most: int = 1, ends: str = STATUSES, **forms: str) -> Parser:
    """Adds a command, with the function that does it as MODULE.FUNCTION, and what it does for
    people. It takes so many names, ends with one of these statuses, and writes in one of these
    forms, of which the first is the default."""
    command: Parser = commands.add_parser(name, help=what, description=what, epilog=ends)
    command.set_defaults(function=function, number=(least, most), form=next(iter(forms), ""))
    command.add_argument("names", metavar=names, nargs="*")
    group = command.add_mutually_exclusive_group() if forms else command
    for form, text in forms.items():
        group.add_argument(f"--{form}", dest="form", action="store_const", const=form, help=text)
    return command


def _add_answers(commands: Any) -> None:
    """Adds the commands that answer many logs."""
    check = _add(commands, "check", "answers.check_all", "whether the list of each log is complete",
                 "[LOG ..]", 0, ANY, lines="FILE: answer", json="an object a line",
                 tabs="file, status and answer, separated by tabs")
    report = _add(commands, "report", "answers.report_all", "every finding of each log", "[LOG ..]",
                  0, ANY, lines="FILE:LINE: text, like a compiler",
                  json="an object a line, with the findings")
    collection = _add(commands, "collection", "collection.collection",
                      "compares many logs, or their surveys, with a catalogue", "FILE ..", 0, ANY,
                      COUNTED, lines="a line for each finding", csv="the catalogue, with the state "
                      "of each item", json="one object: the answer, each item and each log",
                      page="one HTML file")
    collection.add_argument("--jobs", metavar="N", type=_number(), default=1,
                            help="how many logs are surveyed at once")
    for command in (check, report, collection):
        command.add_argument("--logs-from", metavar="FILE", action="append", default=[],
                             help="a file that lists more logs, separated by NUL or line ends")
    for command in (check, collection):
        command.add_argument("--margin", metavar="K", type=_number(MOST_MARGIN), default=0,
                             help="a list is complete only if a tag that isn't on it would have "
                                  "had to be missed in K slots or more")


def _number(most: int = ANY) -> Callable[[str], int]:
    """What reads a number from 1."""
    def number(word: str) -> int:
        if word.isdecimal() and 0 < int(word) <= most:
            return int(word)
        raise argparse.ArgumentTypeError("a number from 1" + f" to {most:,}" * (most < ANY))
    return number


def _chance(word: str) -> float:
    with suppress(ValueError):
        if 0 <= float(word) <= 1:
            return float(word)
    raise argparse.ArgumentTypeError("a probability, from 0 to 1")


def main() -> int:
    """Does what the words ask for, and returns the status."""
    (top, commands), words = parsers(), sys.argv[1:]
    if not words or words[0] in ("-h", "--help", "--version"):
        top.parse_args(words)
        top.error("name a command or a log")
    if words[0] in GONE:
        raise NoAnswer(f"{words[0]} is no command here: {GONE[words[0]]}")
    name = words.pop(0) if words[0] in commands else "check"
    arguments = commands[name].parse(words)
    module, _, function = arguments.function.partition(".")
    return int(getattr(import_module(f"vicinity.commands.{module}"), function)(arguments))


def entry() -> int:
    """The command that is installed with the package."""
    return run_command(main)


if __name__ == "__main__":
    sys.exit(entry())
