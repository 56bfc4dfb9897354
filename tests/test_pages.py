"""Tries what README.md, docs/ and the front pages of folders show: `pytest tests/test_pages.py -k
COMMANDS.md`.

A fence (on a man page a literal display) in which a line begins with `$ ` is a session. Each such
line is run by sh with the built program as `vicinity`, in a folder that has the repository's
folders, and what follows it has to be all that it writes, on standard output and error. `<!-- needs
TOOL -->` before a fence names what a machine may lack: without it the fence is skipped, by that
name.

    $ cat NAME              shows a file: one of the repository, or one that the rest of the page's
    commands have $ echo $?               shows the status of the command before; where it is not
    shown, it has to be the answer's

What changes a file of a crate by `sed -i` is tried in tests/test_clone.py.

A fence in C is compiled with the library and run over an example: as it stands if it has a main,
else in a function that is given `text` and `text_len`, after the page's fences before it.

So has each row of a table of frames on docs/FRAMES.md to be what `vicinity frame` says, and each
row of CRCs what its rule gives; each row of masks on docs/AIR.md what its rule gives, and the UIDs
in it to answer in that slot; each limit on docs/COMMANDS.md to be the one that is found by trying.
A log stands in a session, where a command runs it; the table of answers in README.md has the
statuses; each text in a table of wrong texts gets the answer beside it; each file that a page links
to or names by its whole path has to be there; and a man page has to be shown without a warning,
where there is mandoc or groff. What a page says in its own words, outside of code, has none of
OLD_WORDS: words that only this project used so, which readers had to learn."""
import os
import re
import shutil
import subprocess
import sys

import pytest

from helpers.frames import hex_of, with_crc
from helpers.program import TOP, Program, needs

FOLDERS = ("crates", "examples", "include", "out", "python", "tools")
PAGES = ["README.md", "CHANGELOG.md", *sorted(str(page.relative_to(TOP)) for pattern in (
    "docs/*.md", "docs/*.[15]", "*/README.md", "crates/*/README.md") for page in TOP.glob(pattern))]
SECONDS = 600
FRAME_FAULT = re.compile(r"\| `([0-9A-F]+)` \| (request|reply) \| `(\w+)` \|")
FRAME = re.compile(r"\| `([0-9A-F]+)` \| "
                   r"(?:Inventory, (one|sixteen) slots?, (?:no mask|mask of (\d+) bits ([0-9A-F]+))"
                   r"|(Stay Quiet|reply of)[, ]+([0-9A-F]{16}))")
ANSWER = re.compile(r"\|(?: \d \|)? `([a-z]+) [^|]*\|.*\| (\d) \|$")
LINK = re.compile(r"\]\(([^)#:]*)(?:#([^)]*))?\)")
PATH = re.compile(r"`((?:crates|debian|docs|examples|include|python|release|commands|tests|tools"
                  r"|\.ci|vic\w+)/[\w./{,}-]+)`")
NEEDS = re.compile(r"<!-- needs ([\w.-]+) -->")
CRC = re.compile(r"\| (none|`[0-9A-F ]+`|the digits `(\d+)` in ASCII) \| ([0-9A-F]{4}) \| "
                 r"([0-9A-F]{4})(?:, sent as `(.*)`)? \|")
MASK = re.compile(r"\| (one|sixteen) slots?, (?:no mask|mask \((\d+), ([0-9A-F]+)\)) \| (\d+) \| "
                  r"\((\d+), ([0-9A-F]+)\) \| (.*) \|")

WRONG_TEXT = re.compile(r"\| [^|]* \| `([^`|]*\\[^`|]*)` \| `(refused at [^`|]*)` \|")
OLD_WORDS = re.compile(r"\b([Ww]hole|could have given|tells? against|[Nn]obody|[Rr]ooms?|"
                       r"[Gg]rowths?|strangers?|[Dd]ear(er|est)?|"
                       r"wrong bod(y|ies)|[Mm]end(s|ed|ing)?|[Mm]akers?|[Hh]eadline|statements of "
                       r"std|gives|[Rr]esponses?)\b")
# The standard's and a chip's own words, and a page that quotes the comments of definitions.
THEIR_WORDS = {"docs/GLOSSARY.md": r"response", "docs/READERS.md": r"response",
               "docs/HEADLINE.md": r".*"}


def own_words(text):
    """The lines of a page, without fences, displays, indented code, code in a line and what links
    lead to."""
    text = re.sub(r"^(```|\.Bd -literal).*?^(```|\.Ed)$", lambda it: "\n" * it[0].count("\n"), text,
                  flags=re.M | re.S)
    return re.sub(r"`[^`\n]*`|^    .*$|\]\([^)]*\)", "", text, flags=re.M).split("\n")


def fences(text):
    """Each fence of a page, or literal display of a man page: the number of its first line, its
    language, what it needs and its lines."""
    first, language, need, held = None, "", "", []
    for number, line in enumerate(text.split("\n"), 1):
        if first is None and re.match(r"```|\.Bd -literal", line):
            first, language, held = number + 1, line[3:] if line.startswith("```") else "", []
        elif first is not None and (line == "```" or line == ".Ed"):
            yield first, language, need, held
            first, need = None, ""
        elif first is not None:
            held.append(line.replace("\\-", "-").replace("\\e", "\\"))
        elif NEEDS.match(line):
            need = NEEDS.match(line)[1]


def inventory(sixteen, length, value):
    """An Inventory request by its slots and its mask, by the table of docs/FRAMES.md."""
    head = bytes([0x06 if sixteen else 0x26, 0x01, length])
    return hex_of(head + value.to_bytes((length + 7) // 8, "little"))


def steps(first, lines):
    """The commands of a session, each with its line's number and with what it shows."""
    found = []
    for number, line in enumerate(lines, first):
        if line.startswith("$ "):
            found.append((number, line[2:], []))
        elif found:
            found[-1][2].append(line + "\n")
    return [(number, command, "".join(shown)) for number, command, shown in found]


def missing(path):
    """The files of a path, as `vic_log/src/{line,read}.rt`, that aren't there; `crates/` and
    `.antt` may be left out."""
    start, names, end = re.fullmatch(r"([^{]*)(?:\{(.*)\})?(.*)", path).groups()
    for name in (names or "").split(","):
        file = start + name + end
        places = [TOP / top / (file + kind) for top in ("", "crates") for kind in ("", ".antt")]
        if not any(it.exists() for it in places):
            yield file


def anchors(path):
    """What links may name on a page: its headings, in small letters, with dashes for spaces."""
    headings = re.findall(r"^#+ (.*)$", path.read_text(), re.M)
    return {re.sub(r"[^\w -]", "", heading.lower()).replace(" ", "-") for heading in headings}


def statuses():
    """The status of each answer, by its first word, as the table of README.md has them."""
    rows = [ANSWER.match(line) for line in (TOP / "README.md").read_text().split("\n")]
    return {"vicinity-log": 0, "vicinity:": 4, **{row[1]: int(row[2]) for row in rows if row}}


@pytest.fixture(params=PAGES)
def page(request):
    """Each page."""
    return request.param


def text_of(page):
    return (TOP / page).read_text()


def lines_of(page):
    """The lines of a page, each with its place."""
    return [(f"{page}:{number}: {line}", line)
            for number, line in enumerate(text_of(page).split("\n"), 1)]


class Shell:
    """Runs commands in a folder that has the repository's folders, with the built program as
    `vicinity` and the Python that runs the tests as `python3`. What differs from what has to be is
    noted."""

    def __init__(self, folder, program, release):
        self.folder, self.release, self.wrong, self.right = folder, release, [], 0
        for name in FOLDERS:
            (folder / name).symlink_to(TOP / name)
        tools = folder.parent / f"{folder.name}-tools"
        tools.mkdir()
        (tools / "vicinity").symlink_to(program.words[0])
        (tools / "python3").symlink_to(sys.executable)
        self.shell = Program("sh", "-c", PATH=f"{tools}{os.pathsep}{os.environ['PATH']}",
                             PYTHONPATH=str(TOP / "python"),
                             LIBVICINITY=str(release / "libvicinity.so"))
        self.statuses = statuses()

    def run(self, command):
        said = self.shell.run(command, cwd=self.folder, stderr=subprocess.STDOUT, timeout=SECONDS)
        return said.out.decode("utf-8", "backslashreplace"), said.status

    def status_of(self, shown):
        """The status of an answer; none where the lines are no answer."""
        if shown.startswith("request "):
            return 3 if all(" refused " in line for line in shown.splitlines()) else 0
        return self.statuses.get(re.split(r"\s", shown + " ")[0])

    def note(self, name, wanted, got):
        if wanted == got:
            self.right += 1
        else:
            self.wrong.append((name, wanted, got))

    def show_file(self, place, name, shown, unused):
        path = self.folder / name
        if path.exists():
            self.note(place, shown, path.read_text())
        else:
            unused[name] = place
            path.write_text(shown)

    def session(self, page, first, lines, unused):
        status = None
        for number, command, shown in steps(first, lines):
            place = f"{page}:{number}: {command}"
            if command == "echo $?":
                self.note(place, shown, f"{status}\n")
            elif re.fullmatch(r"cat [\w./-]+", command):
                self.show_file(place, command[4:], shown, unused)
            else:
                for name in command.split():
                    unused.pop(name, None)
                got, status = self.run(command)
                self.note(place, shown, got)
                if self.status_of(shown) is not None:
                    self.note(place + ": status", self.status_of(shown), status)

    def frame(self, place, word, line, wanted):
        got, _ = self.run("vicinity frame " + word)
        self.note(place, wanted, re.fullmatch(wanted, got.split("\n")[line]) and wanted)

    def frame_row(self, place, row):
        fault, read = FRAME_FAULT.match(row), FRAME.match(row)
        if fault:
            word, asked, name = fault.groups()
            self.frame(place, word, asked == "reply", r"\w+ refused " + name)
        elif read:
            word, slots, length, value, kind, uid = read.groups()
            inventory = "request inventory link . slots %s mask %s 0*%s" % (
                {"one": 1, "sixteen": 16}.get(slots), length or 0, value or "-")
            other = {"Stay Quiet": "request stay-quiet link . uid %s",
                     "reply of": "response flags 00 dsfid 00 uid %s"}
            self.frame(place, word, kind == "reply of", other[kind] % uid if kind else inventory)

    def is_read(self, content, asked):
        """Whether a frame is read as the request or the response that it is asked for."""
        got, _ = self.run("vicinity frame " + hex_of(content))
        return any(line.startswith(asked) and " refused " not in line for line in got.split("\n"))

    def crc_row(self, place, row):
        name, digits, held, crc, sent = row.groups()
        content = bytes.fromhex(name.strip("`")) if name[0] == "`" else (digits or "").encode()
        found = int.from_bytes(with_crc(content)[-2:], "little")
        self.note(place, (int(held, 16), int(crc, 16)), (found ^ 0xFFFF, found))
        if sent:
            self.note(place, sent.replace(" ", ""), hex_of(content)[-4:])

    def mask_row(self, place, row):
        """The mask of a slot by the rule, and the UIDs in a row by what `simulate` gives."""
        slots, length, value, slot, bits, wanted, holds = row.groups()
        length, value, slot = int(length or 0), int(value or "0", 16), int(slot)
        sixteen = slots == "sixteen"
        mask = (length + 4, value + (slot << length)) if sixteen else (length, value)
        self.note(place, mask, (int(bits), int(wanted, 16)))
        self.note(place, "alone" in holds or holds == "no UID", mask[0] > 54)
        for uid in re.findall(r"E0[0-9A-F]{14}", holds):
            log = "vicinity-log 1\\nT %s\\nU %s\\n" % (inventory(sixteen, length, value), uid)
            got, _ = self.run("printf '%s' | vicinity simulate" % log)
            replies = [at for at, line in enumerate(got.split("\n")[2:]) if line.startswith("R")]
            self.note(place + uid, [slot], replies)

    def limits(self):
        """Each limit by the words of its row, found by trying."""
        def answer(command):
            return self.run(command)[0]

        def most(accepted, start, end):
            return max(it for it in range(start, end) if accepted(it))

        lines = [it for it in (999_999, 1_000_000, 1_000_001) if "TooManyLines" not in
                 answer("(echo vicinity-log 1; yes '' | head -n %d) | vicinity check" % (it - 1))]
        line = most(lambda it: "LineTooLong" not in
                    answer("(echo vicinity-log 1; printf '#%%0%dd\\n' 0) | vicinity check"
                           % (it - 1)), 100, 150)
        word = most(lambda it: "LineTooLong" not in
                    answer("vicinity frame $(printf '%%0%dd' 0)" % it), 100, 150)
        masks = [most(lambda it: self.is_read(bytes([flags, 1, it]) + bytes((it + 7) // 8),
                                              "request"), 0, 80)
                 for flags in (0x26, 0x06)]
        requests = [it for it in range(4, 20) if it > 4 and any(
            self.is_read(bytes([0x26, 1, 8 * (it - 5) - less]) + bytes(it - 5), "request")
            for less in ((0, 7) if it > 5 else (0,)))]
        quiets = [it for it in range(4, 20) if self.is_read(b"\x22\x02" + bytes(it - 4), "request")]
        replies = [it for it in range(4, 20) if self.is_read(bytes(it - 3) + b"\xe0", "response")]
        log = "vicinity-log 1\\nT 2202A1000000000104E0662A\\nT 260100F60A\\nS\\n"
        widest = int(answer("printf '%s' | vicinity check" % log).split()[1])
        sizes = sorted({*requests, *quiets})
        return {"lines of a log": [max(lines)],
                "bytes of a line": [line] if line == word else [line, word],
                "mask length, one slot": masks, "mask length in": [widest],
                "bytes of a request": [min(sizes), max(sizes), *replies]}

    def c_fence(self, place, lines, before):
        """Compiles a fence in C and runs it over an example."""
        if any(line.startswith("int main(") for line in lines):
            source = "\n".join(lines)
        else:
            before.extend(lines)
            source = """#include "vicinity.h"
#include <inttypes.h>
#include <stdio.h>
#include <stdlib.h>
#include <string.h>
static void shown(const uint8_t *text, size_t text_len) {
%s
}
int main(int argc, char **argv) {
    static uint8_t text[1 << 16];
    FILE *file = fopen(argv[argc - 1], "rb");
    shown(text, fread(text, 1, sizeof text, file));
    return 0;
}""" % "\n".join(before)
        (self.folder / "fence.c").write_text(source + "\n")
        said, status = self.run("cc -Wall -Wextra -Werror -Wno-empty-body -Iinclude fence.c "
                                "%s/libvicinity.a -o fence "
                                "&& ./fence examples/unfinished-count.log >fence.out"
                                % self.release)
        self.note(place, ("", 0), (said, status))


@pytest.fixture
def shell(program, release, tmp_path):
    """Fails at the end if something differs."""
    made = Shell(tmp_path, program, release)
    yield made
    assert not made.wrong


def test_sessions(shell, page):
    """Also fences in C and logs: what a fence shows may be of use to those behind it."""
    unused, c_lines, lacking = {}, [], []
    for first, language, need, lines in fences(text_of(page)):
        if need and not shutil.which(need):
            lacking.append(f"{page}:{first}: there is no {need}")
        elif language == "c":
            shell.c_fence(f"{page}:{first}: C", lines, c_lines)
        elif any(line.startswith("$ ") for line in lines):
            shell.session(page, first, lines, unused)
        elif any(line.startswith("vicinity-log ") for line in lines):
            shell.note(f"{page}:{first}: a log", "a command that runs it", "none")
    for place in unused.values():
        shell.note(place, "a command that runs it", "none")
    if lacking and not shell.wrong:
        pytest.skip("; ".join(lacking))


def test_words(page):
    theirs = re.compile(THEIR_WORDS.get(page, "(?!)"))
    assert not [f"{number}: {it[0]}" for number, line in enumerate(own_words(text_of(page)), 1)
                for it in OLD_WORDS.finditer(line) if not theirs.fullmatch(it[0])]


def test_links(page):
    def is_found(name, anchor):
        path = TOP / os.path.dirname(page) / name if name else TOP / page
        return path.exists() and (not anchor or anchor in anchors(path))
    assert not [f"{place} {name}#{anchor}" for place, line in lines_of(page)
                for name, anchor in LINK.findall(line)
                if not is_found(name, anchor)]


def test_paths(page):
    assert not [(place, name) for place, line in lines_of(page) for path in PATH.findall(line)
                for name in missing(path)]


def test_texts_that_are_refused(shell, page):
    for place, line in lines_of(page):
        if row := WRONG_TEXT.match(line):
            shell.note(place, row[2] + "\n", shell.run(f"printf '{row[1]}' | vicinity check")[0])


def test_statuses_of_answers(page):
    known = statuses()
    assert not [place for place, line in lines_of(page) if (row := ANSWER.match(line))
                and known.get(row[1]) != int(row[2])]


def test_what_sed_makes_of_a_log_without_its_header(program):
    """As VERDICTS tries a log in which each reply may hide others: it is refused, as it was."""
    script = re.search(r"^\$ sed '(.*)' shelf\.log", text_of("docs/VERDICTS.md"), re.M)[1]
    without = b"# line 9000 and what follows\nT 260100F60A\nS\n"
    said = program.run("margin", given=Program("sed", script).run(given=without).out)
    assert said.out.startswith(b"refused at line 1: Header\n")


def test_frames_and_crcs(shell):
    for place, line in lines_of("docs/FRAMES.md"):
        shell.frame_row(place, line)
        if CRC.match(line):
            shell.crc_row(place, CRC.match(line))
    assert shell.right > 20


def test_masks(shell):
    for place, line in lines_of("docs/AIR.md"):
        if MASK.match(line):
            shell.mask_row(place, MASK.match(line))
    assert shell.right > 10


def test_limits(shell):
    """The rows of the table below the heading Limits."""
    found, text = shell.limits(), text_of("docs/COMMANDS.md")
    rows = [row.split("|")[1:3] for row in text[text.index("\n## Limits\n"):].split("\n")
            if row.startswith("| ")][1:]
    for words, cell in rows:
        wanted = [int(it.replace(",", "")) for it in re.findall(r"\d[\d,]*\d|\d", cell)]
        shell.note(words.strip(), [wanted],
                   [limit for begins, limit in found.items() if words.strip().startswith(begins)])
    assert len(rows) >= len(found)


@pytest.mark.parametrize("name", [page for page in PAGES if not page.endswith(".md")])
@pytest.mark.parametrize("tool", ["mandoc -T lint", "groff -ww -mandoc -T utf8 -z"])
def test_man_pages(name, tool):
    """Shown without a warning. Which other pages there are, only an installed one can know."""
    needs(tool.split()[0])
    said = Program(*tool.split()).run(name, stderr=subprocess.STDOUT)
    assert not [line for line in said.out.splitlines()
                if b"referenced manual not found" not in line]


def test_what_is_decided_outside_of_the_proof_is_named():
    """Beside what is proved: each part that works something out by itself, and what."""
    page = text_of("docs/PROOFS.md")
    part, = re.findall(r"### What is decided outside of the proof\n(.*?)\n#", page, re.S)
    for what in ("Python", "JavaScript", "C++", "Go", "Rust", "`--margin K`", "notes", "`compare`",
                 "sentences", "causes", "requests", "`bindings/`"):
        assert what in part


def test_the_man_page_has_the_lines_of_other_pages():
    """The answers to a log of README, and those of a margin and of standard error of COMMANDS."""
    def table(page, heading):
        return text_of(page).partition(f"\n## {heading}\n")[2].partition("\n## ")[0]

    of_a_log = re.findall(r"^\| `([^`]*)` \|.*\| \d \|$", table("README.md", "Answers"), re.M)
    others = [form for heading in ("margin", "Standard error")
              for row in table("docs/COMMANDS.md", heading).split("\n") if row.startswith("| `")
              for form in re.findall(r"`([^`]*)`", row.split("|")[1]) if not form.endswith("-")]
    items = re.findall(r"^\.It (?!Cm |\d)(.*)$", text_of("docs/vicinity.1"), re.M)
    assert sorted(item.replace("Ar ", "").replace(" :", ":").lower() for item in items) == sorted(
        form.lower() for form in of_a_log + others)
