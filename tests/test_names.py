"""The commands of the program are those of tests/data/commands.txt wherever they are written: what
the words of a command line ask for, the man page, of which ./install makes the completions, README
and COMMANDS, the header, and the languages over it."""
import re

import pytest

from helpers.names import NUMBERS, OPERANDS
from helpers.program import TOP

#: How many operands a command takes at least, and at most.
HOW_MANY = {"[FILE]": (0, 1), "EXPECTED [FILE ..]": (1, 9), "HEX": (1, 1), "WORD ..": (1, 9),
            "FILE ..": (1, 9)}
#: Where a name stands with its number, or where names stand in the order of their numbers.
NUMBERED = {
    "include/vicinity.h": r"VICINITY_COMMAND_(?P<name>\w+) = (?P<number>\d+)",
    "crates/vicinity_c/src/run.rt": r"(?P<number>\d+) => Some\(Command::(?P<name>\w+)\)",
    "bindings/rust/vicinity/src/run.rs": r"^    (?P<name>\w+) = (?P<number>\d+),$",
    "bindings/go/names.go": r"C\.VICINITY_COMMAND_(?P<name>\w+)",
    "python/vicinity/_native.py": (r"^COMMANDS = \(([^)]*)\)", r"\"(?P<name>[a-z-]+)\""),
    "web/judge/library.mjs": (r"^const COMMAND = Object.freeze\(\{([^}]*)\}",
                              r"\"?(?P<name>[a-z-]+)\"?: (?P<number>\d+)"),
    "commands/vicinity.c": (r"^\} COMMANDS\[\] = (.*?);", r"\{\"(?P<name>[a-z-]+)\", +[A-Z]+\}"),
}
#: What each command takes, as commands/vicinity.c says it.
TAKEN = {"[FILE]": "LOG", "HEX": "WORDS", "WORD ..": "WORDS"}


def source(name):
    return (TOP / name).read_text()


def on_man_page(operands):
    """As `Op Ar file` and `Ar file ...`."""
    return [re.sub(r"\[(.*)\]", r"Op Ar \1", part) if part[0] == "[" else "Ar " + part
            for part in re.findall(r"\[[^]]*\]|[a-z]+(?: \.\.\.)?",
                                   operands.lower().replace("..", "..."))]


@pytest.mark.parametrize("name", OPERANDS)
def test_what_words_ask_for(program, tmp_path, name):
    least, most = HOW_MANY[OPERANDS[name]]
    for count in range(4):
        said = program.run(name, *["nowhere"] * count, cwd=tmp_path)
        assert (said.err != b"vicinity: usage\n") == (least <= count <= most), count


def test_no_other_word_asks_for_anything():
    """The names in the code that reads the words."""
    code = source("crates/vic_words/src/commands.rt")
    named = set(re.findall(r"\"([a-z-]+)\"", code)) - {"vicinity", "file", "hex", "words"}
    assert named == set(OPERANDS)


def test_the_man_page():
    text = source("docs/vicinity.1")
    synopsis = re.search(r"^\.Sh SYNOPSIS\n(.*?)^\.Sh", text, re.M | re.S)[1]
    parts = {name: on_man_page(operands) for name, operands in OPERANDS.items()}
    assert sorted(synopsis.split(".Nm\n")[1:]) == sorted(
        f".Cm {name}\n" + "".join(f".{part}\n" for part in all_) for name, all_ in parts.items())
    assert sorted(re.findall(r"^\.It Cm (.*)$", text, re.M)) == sorted(
        " ".join([name, *all_]) for name, all_ in parts.items())


@pytest.mark.parametrize("page", ["README.md", "docs/COMMANDS.md"])
def test_pages(page):
    text = source(page)
    written = {*re.findall(r"`vicinity ([a-z-]+ \[FILE\]|[a-z-]+ [A-Z][^`]*)`", text)}
    assert written == {f"{name} {operands}" for name, operands in OPERANDS.items()}


def test_sections_of_commands():
    headings = re.findall(r"^## ([a-z, -]+)$", source("docs/COMMANDS.md"), re.M)
    assert sorted(re.split(r" and ", " and ".join(headings))) == sorted(OPERANDS)


@pytest.mark.parametrize("file", NUMBERED)
def test_names_and_numbers(file):
    text, pattern = source(file), NUMBERED[file]
    if isinstance(pattern, tuple):
        text, pattern = re.search(pattern[0], text, re.M | re.S)[1], pattern[1]
    found = {}
    for it in re.finditer(pattern, text, re.M):
        name = re.sub(r"(?<=[a-z])(?=[A-Z])", "-", it["name"]).replace("_", "-").lower()
        found[name] = int(it.groupdict().get("number") or len(found) + 1)
    assert found == NUMBERS


def test_what_the_commands_in_c_take():
    for name, operands in OPERANDS.items():
        taken = re.search(rf"\{{\"{name}\", +([A-Z]+)\}}", source("commands/vicinity.c"))[1]
        assert taken == TAKEN.get(operands, "FILES"), name
