"""Has each read and each write of the program's commands fail in turn, and asks what went out.

A few lines of C (tests/c/devices.c) stand between the program and the C library: each call of it
reads or writes one byte, and one fails. Then standard input doesn't end."""
import subprocess

import pytest

from helpers.lines import log_of
from helpers.memory import shim
from helpers.program import TOP

READ_FAULT, WRITE_FAULT = b"vicinity: read failed\n", b"vicinity: write failed\n"
# Commands over a log, which stands on standard input, and over words.
LOGS = (("check", "I1 RA UA"), ("explain", "I1 RA"), ("report", "I1 S UA"),
        ("report", "I1 RA QA I1 RA"), ("report", "V3 I1 S I1 HA"), ("margin", "I1 RA UA"),
        ("json", "I1 RA UA"), ("json", "I1 S I1 RA"),
        ("simulate", "V3 I1 QA I1 UA UB"), ("simulate", "I16 UA UB"))
WORDS = ("frame 260100F60A", "frame 26", "spell request inventory link 2 slots 1 mask 0 -",
         "spell request inventory")
# What is expected, and logs.
RECONCILED = ("UA UB", "I1 RA", "I1 C MA RA")
READ = log_of("I16 S RA RB S13 UA UB")
COMMANDS = ("check", "explain", "report", "margin", "simulate")
# A text with a fault that no further byte can change, one of nothing, one that isn't a list alone,
# and the log of a contradiction.
FAULTY, EMPTY = "vicinity-log 9\n", "vicinity-log 1\n"
NO_LIST = "vicinity-log 1\nT 260100F60A\nS\n"
IMPOSSIBLE = log_of("I1 S I1 RA").decode()
# What writes without end, and the refusal of it.
ENDLESS = (("tr '\\0' '#' </dev/zero", "line 1: LineTooLong"), ("yes ''", "line 1: Header"),
           ("echo vicinity-log 9; tr '\\0' ' ' </dev/zero", "line 1: Header"),
           ("echo vicinity-log 1; tr '\\0' '\\r' </dev/zero", "line 2: LineTooLong"),
           ("echo vicinity-log 1; yes ''", "line 1000001: TooManyLines"))


@pytest.fixture(scope="session")
def run(program, tmp_path_factory):
    """Runs the program: a byte a call where READ, WRITE or STUCK is given."""
    devices = shim("devices", tmp_path_factory.mktemp("devices"))

    def run_by_bytes(words, given=b"", cwd=None, **environment):
        if environment:
            environment["LD_PRELOAD"] = devices
        return program.run(*words.split(), given=given, env=environment, cwd=cwd or TOP)
    return run_by_bytes


def writes(run, words, given=b""):
    """Each write fails in turn, or takes nothing: what went out before stays."""
    said = run(words, given)
    assert run(words, given, WRITE="0") == said
    assert said.out
    for number in range(1, len(said.out) + 1):
        wanted = said.out[:number - 1], WRITE_FAULT, 4
        assert run(words, given, WRITE=str(number)) == wanted, f"write {number}"
        assert run(words, given, WRITE=str(number), STUCK="1") == wanted, f"write {number}, stuck"


@pytest.mark.parametrize("command", [*COMMANDS, "json"])
def test_each_read_fails(run, command):
    """The one that would tell the end too. Without that the answer is the same by bytes."""
    assert run(command, READ, READ="0") == run(command, READ)
    for number in range(1, len(READ) + 2):
        assert run(command, READ, READ=str(number)) == (b"", READ_FAULT, 4), f"read {number}"


@pytest.mark.parametrize("command", COMMANDS)
def test_what_no_further_byte_can_change_is_answered_before_it_is_read(run, command):
    header = b"vicinity-log 9\n"
    assert run(command, header + b"S\n",
               READ=str(len(header) + 1)) == (b"refused at line 1: Header\n", b"", 3)


@pytest.mark.parametrize(("command", "names"), LOGS)
def test_each_write_over_a_log_fails(run, command, names):
    writes(run, command, log_of(names))


@pytest.mark.parametrize("words", WORDS)
def test_each_write_over_words_fails(run, words):
    writes(run, words)


@pytest.fixture(params=["reconcile", "survey"])
def over_files(request, tmp_path):
    """Words of a command over several files, and how many reads of a byte that takes: each byte,
    and the end of each."""
    texts = [log_of(names) for names in RECONCILED]
    for number, text in enumerate(texts):
        (tmp_path / str(number)).write_bytes(text)
    names = [str(tmp_path / str(number)) for number in range(len(texts))]
    return " ".join([request.param, *names]), sum(len(text) + 1 for text in texts)


def test_each_read_of_several_files_fails(run, over_files):
    words, reads = over_files
    assert run(words, READ="0") == run(words)
    for number in range(1, reads + 1):
        assert run(words, READ=str(number)) == (b"", READ_FAULT, 4), f"read {number}"


@pytest.mark.parametrize(("texts", "line", "status"), [
    ([FAULTY, EMPTY], "refused at line 1 of 0: Header", 3),
    ([NO_LIST, EMPTY], "refused at line 2 of 0: NotListed", 3),
    ([EMPTY, FAULTY, EMPTY], "refused at line 1 of 1: Header", 3),
    ([EMPTY, IMPOSSIBLE, EMPTY], "impossible at line 5 of 1", 2)])
def test_all_files_are_read_before_the_text_that_ends_the_run_is_named(
        run, tmp_path, texts, line, status):
    """The read behind their ends would fail; so does the last one, which tells the last's end."""
    for number, text in enumerate(texts):
        (tmp_path / str(number)).write_text(text)
    words = " ".join(["reconcile", *map(str, range(len(texts)))])
    reads = sum(len(text) + 1 for text in texts)
    assert run(words, cwd=tmp_path, READ=str(reads + 1)) == (f"{line}\n".encode(), b"", status)
    assert run(words, cwd=tmp_path, READ=str(reads)) == (b"", READ_FAULT, 4)


def test_each_write_over_several_files_fails(run, over_files):
    writes(run, over_files[0])


@pytest.mark.parametrize(("source", "refusal"), ENDLESS)
def test_input_that_does_not_end(program, source, refusal):
    done = subprocess.run(["sh", "-c", f"({source}) 2>/dev/null | {program.words[0]} check"],
                          capture_output=True, check=False)
    assert (done.stdout, done.stderr) == (f"refused at {refusal}\n".encode(), b"")
