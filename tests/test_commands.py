"""Asks the commands in C, also those for ARM, what the proved program is asked: they have to write
the same and to end alike.

They are asked with words of every kind, with streams that are closed, full or no text, about texts
as long as a log can be and texts that come in pieces. Each allocation of theirs is refused in turn.
Random texts are in test_each_way.py."""
import os
import random
import resource
import subprocess
import time
from pathlib import Path

import pytest

from helpers.air import TOP_BYTE, UID_BITS
from helpers.air import Listed as Claimed
from helpers.lines import log_of
from helpers.memory import WANT, refused, shim
from helpers.names import NUMBERS
from helpers.program import TOP, linked
from helpers.random_logs import log_text
from helpers.runs import SPELLED

PAIRS = ("commands", "arm")
COMMANDS = "check", "explain", "report", "margin", "simulate"  # those over a text
HEADER = b"vicinity-log 1\r\n"
LONG_LINE = b"#" * 128 + b"\r\n"
LOGS = sorted(map(str, TOP.glob("examples/*.log")))
SEEDS = [Path(log).read_bytes() for log in LOGS]
NO_UTF8 = (b"\xff", b"a\x80", b"\xc0\xaf", b"\xc3", b"\xe0\x9f\xbf", b"\xed\xa0\x80",
           b"\xf0\x8f\xbf\xbf",
           b"\xf4\x90\x80\x80", b"\xf8\x88\x80\x80\x80")
UTF8 = b"\xc3\xa9", b"\xef\xbf\xbf", b"\xf0\x9f\x98\x80", b"\xf4\x8f\xbf\xbf"


@pytest.fixture(scope="session", params=PAIRS)
def pair(request, program):
    """Both programs."""
    return program, request.getfixturevalue(request.param)


@pytest.fixture
def ask(pair):
    """Asks both the same."""
    proved, other = pair

    def both(words, given=b"", **how):
        said, wanted = (one.run(*words, given=given, name="vicinity", **how)
                        for one in (other, proved))
        assert said == wanted, words
    return both


OPERANDS = ([], [""], ["-"], ["-x"], ["--x"], ["--"], ["--", "-"], ["--", "-x"], ["--", "--"],
            ["x", "--"], ["x", "y"], ["x", "y\tz"], ["x", "y\nz"], ["x\ny"], ["x", b"\xff"],
            ["--", "x", "--"], ["x", "-y"], ["--help"], ["-h"], ["x", "--help"], ["--", "--help"],
            ["26"], ["0" * 128], ["0" * 129], *([name] for name in (*NO_UTF8, *UTF8)))


@pytest.mark.parametrize("command", NUMBERS)
def test_words_after_a_command(ask, command):
    for operand in OPERANDS:
        ask([command, *operand])


def test_words_that_are_no_command(ask):
    for words in ([], [""], ["--"], ["--", "check"], ["Check"], ["help"], ["--help"], ["-h"],
                  ["--version"], ["-V"], ["-"], *([name] for name in (*NO_UTF8, *UTF8))):
        ask(words)


def test_files_that_are_no_text(ask, tmp_path):
    nothing = tmp_path / "nothing"
    nothing.touch()
    expected, = written(tmp_path, "expected", [log_of("UA UB")])
    for file in str(tmp_path), str(nothing), f"{nothing}/x", f"{nothing}{'x' * 300}", "/dev/null":
        for command in NUMBERS:
            ask([command, file])
        ask(["reconcile", expected, LOGS[-1], file])


@pytest.mark.parametrize("words", [
    ["check", "--", "LOG"], ["explain", "LOG"], ["check", "FOLDER"], ["check"], ["frame", "26"],
    ["spell", "x"], ["x"],
    ["reconcile", "LIST", "LOG"], ["reconcile", "/dev/stdin", "LOG"]], ids=" ".join)
def test_streams(ask, tmp_path, words):
    """That are closed, or full."""
    expected, = written(tmp_path, "expected", [log_of("UA UB")])
    named = {"LOG": LOGS[-1], "FOLDER": str(tmp_path), "LIST": expected}
    words = [named.get(word, word) for word in words]
    for stream in 0, 1, 2:
        ask(words, stdin=subprocess.DEVNULL, preexec_fn=lambda: os.close(stream))  # noqa: B023
    with open("/dev/full", "wb") as full:
        ask(words, stdout=full)
    ours, theirs = os.pipe()
    os.close(ours)
    ask(words, stdout=theirs)
    os.close(theirs)


def test_a_text_in_pieces(pair):
    """Of a few bytes."""
    text, answers = SEEDS[-1], []
    for one in pair:
        with subprocess.Popen([*one.words, "explain"], stdin=subprocess.PIPE,
                              stdout=subprocess.PIPE) as asked:
            for at in range(0, len(text), 50):
                asked.stdin.write(text[at:at + 50])
                asked.stdin.flush()
                time.sleep(0.002)
            answers.append(asked.communicate()[0])
    assert answers[0] == answers[1] != b""


@pytest.mark.slow
@pytest.mark.parametrize(("command", "text"), [
    ("check", lambda: HEADER + LONG_LINE * 999_999),
    ("check", lambda: HEADER + LONG_LINE * 1_000_000),
    ("check", lambda: HEADER + LONG_LINE * 999_998 + b"#" + LONG_LINE),
    ("check", lambda: HEADER + b"#" * 140_000_000),
    ("simulate", lambda: HEADER + b"T 060100CD09\n" * 58_823 + b"U E0040100000000A1\n")],
    ids=["the longest", "too many lines", "a line too long", "one long line",
         "the longest that is filled"])
def test_long_texts(ask, command, text):
    ask([command], text())


@pytest.mark.parametrize("pair", ["commands"], indirect=True)
def test_beginnings_of_a_log(ask):
    for end in range(len(SEEDS[0]) + 1):
        for command in "explain", "report":
            ask([command], SEEDS[0][:end])


@pytest.mark.parametrize("pair", ["commands"], indirect=True)
def test_many_tags_that_may_be_in_the_last_of_many_logs(ask, tmp_path):
    """No log is looked through for each tag: within seconds of a processor."""
    tags = random.Random(14).sample(range(1 << UID_BITS), 100_000)
    texts = [log_text(3, (Claimed(TOP_BYTE | tag) for tag in tags)), log_of("I1 S"), log_of("")]
    expected, silent, unasked = written(tmp_path, "log", texts)
    ask(["reconcile", expected, *[silent] * 1000, unasked],
        preexec_fn=lambda: resource.setrlimit(resource.RLIMIT_CPU, (4, 4)))


def written(folder, name, texts):
    """The names of the files of some texts."""
    files = [(folder / f"{name}{index}", text) for index, text in enumerate(texts)]
    for file, text in files:
        file.write_bytes(text)
    return [str(file) for file, _ in files]


REFUSED = [*([command, log] for command in COMMANDS for log in LOGS), ["reconcile"],
           ["frame", "260100F60A"],
           ["spell", *SPELLED[0]]]


@pytest.fixture(scope="session", params=PAIRS)
def refusing(request, release, tmp_path_factory):
    """The commands as they are released, and tests/c/refuse.c, built for their machine."""
    folder = tmp_path_factory.mktemp("refuse")
    compiler = {"commands": "cc", "arm": "aarch64-linux-gnu-gcc"}[request.param]
    if request.param == "arm":
        other = request.getfixturevalue("arm")
    else:
        other = linked(release, folder / "vicinity", "-std=c99", "-O2", *TOP.glob("commands/*.c"))
    return other, shim("refuse", folder, compiler)


@pytest.mark.parametrize("words", REFUSED, ids=lambda words: " ".join(map(os.path.basename, words)))
def test_each_allocation_is_refused(refusing, tmp_path, words):
    """It says so and writes nothing else; `reconcile` may go on without what only saves it time."""
    right = set()
    if words == ["reconcile"]:
        logs = "UA UZ UB", "I1 C MA RA", "QA I1 RB", "M55 C QZ QY I1 S"
        words = [*words, *written(tmp_path, "log", map(log_of, logs))]
        right = {refusing[0].run(*words)}
    assert set(refused(*refusing, *words)) - right == {WANT}
