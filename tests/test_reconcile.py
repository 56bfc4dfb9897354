"""Reconciles logs with lists of what is expected, by the program and the commands in C: the rows of
tests/data/rows/reconciliations, and files that fail."""
import resource
import subprocess

import pytest

from helpers.frames import hex_of
from helpers.lines import log_of, reconciled_rows
from helpers.rows import PROGRAMS

# The names of the logs, in their order.
LOGS = "abc"
# Of so many UIDs and logs the program takes a second or two of a processor, and ten or more if it
# asks each log for each UID.
UIDS, TIMES, MOST = range(0xE004010000000000, 0xE004010000000000 + 200_000), 4_000, 6


@pytest.fixture
def reconcile(one, tmp_path):
    """Runs `reconcile` in a folder of a list, a log and a folder."""
    for name, text in (("EXPECTED", "UA"), ("a", "I1 RA")):
        (tmp_path / name).write_bytes(log_of(text))
    (tmp_path / "folder").mkdir()

    def run(*words, **how):
        return one.run("reconcile", *words, cwd=tmp_path, stdin=subprocess.DEVNULL, **how)
    return run


@pytest.fixture(params=(*PROGRAMS, "windows"))
def one(request):
    """Each program."""
    return request.getfixturevalue(request.param)


@pytest.mark.parametrize(("expected", "logs", "lines", "status"), [
    pytest.param(*row, id=place) for place, *row in reconciled_rows()])
def test_row(reconcile, tmp_path, expected, logs, lines, status):
    for name, text in zip(("EXPECTED", *LOGS), (expected, *logs)):
        (tmp_path / name).write_bytes(text)
    wanted = "".join(f"{line}\n" for line in lines).encode()
    assert reconcile("EXPECTED", *LOGS[:len(logs)]) == (wanted, b"", status)


def test_the_last_of_many_logs(reconcile, tmp_path):
    """The others are complete."""
    (tmp_path / "b").write_bytes(log_of("I1 RB"))
    said = b"unlisted E0040100000000B2\nby line 3 of b\n"
    assert reconcile("EXPECTED", *"a" * 100, "b") == (said, b"", 1)


@pytest.mark.parametrize(("words", "said"), [
    (["EXPECTED", "a", "none"], "cannot open none"), (["none", "a"], "cannot open none"),
    (["EXPECTED", "folder"], "read failed")], ids=repr)
def test_what_ends_without_an_answer(reconcile, words, said):
    assert reconcile(*words) == (b"", f"vicinity: {said}\n".encode(), 4)


@pytest.mark.parametrize(("behind", "said"), [
    ("none", "cannot open none"), ("folder", "read failed"), ("b", None)])
@pytest.mark.parametrize(("expected", "log", "lines", "status"), [
    ("I1 S", "I1 RA", "refused at line 2 of EXPECTED: NotListed", 3),
    ("UA UA", "I1 RA", "refused at line 3 of EXPECTED: DuplicateListed", 3),
    ("UA", '"vicinity-log 1\\nT 260100F60B\\n"', "refused at line 2 of a: Crc", 3),
    ("UA", "I1 S I1 RA", "impossible at line 5 of a", 2)])
def test_what_is_behind_the_end(reconcile, tmp_path, expected, log, lines, status, behind, said):
    """All files are read before anything is said; then the text that ends the run is named."""
    for name, text in (("EXPECTED", expected), ("a", log), ("b", "I1 RA I1 S")):
        (tmp_path / name).write_bytes(log_of(text))
    unread = (b"", f"vicinity: {said}\n".encode(), 4)
    wanted = unread if said else (f"{lines}\n".encode(), b"", status)
    assert reconcile("EXPECTED", "a", behind) == wanted


@pytest.mark.parametrize(("before", "said"), [
    ("none", "cannot open none"), ("folder", "read failed")])
@pytest.mark.parametrize("log", ['"vicinity-log 1\\nT 260100F60B\\n"', "I1 S I1 RA"])
def test_what_is_before_a_text_that_would_end_the_run(reconcile, tmp_path, before, said, log):
    (tmp_path / "a").write_bytes(log_of(log))
    for words in ([before, "a"], ["EXPECTED", before, "a"]):
        assert reconcile(*words) == (b"", f"vicinity: {said}\n".encode(), 4)


A, B = "E0040100000000A1", "E0040100000000B2"
BOTH = "HA QA I1 HB QB I1 S"


@pytest.mark.parametrize(("table", "logs", "lines", "status"), [
    (f"uid,place\n{A},a\n{B},b\n", {"a.log": "I1 RA", "b.log": "I1 RB"}, "complete 2", 0),
    (f"uid,place\n{A},a\n{B},b\n", {"a.log": "I1 RB", "b.log": "I1 RA"},
     f"misplaced {A} in b.log, belongs to a\nmisplaced {B} in a.log, belongs to b", 1),
    (f"uid,place\n{A},a\n{B},b\n", {"a.log": "QA I1 S", "b.log": f"V3 I1 {BOTH}"},
     f"misplaced {A} in b.log, belongs to a", 1),
    (f"uid,place\n{A},a\n{B},b\n", {"a.log": "I1 RA"},
     f"not counted {B}, belongs to b\nno log of b", 1),
    (f"uid,place\n{A},a\n", {"a.log": "I1 RA", "b.log": "I1 S"}, "left over b.log", 1),
    (f"uid,away\n{A},\n{B},away\n", {"a": f"V3 I1 {BOTH}"}, f"returned {B} in a", 1),
    (f"uid,away\n{A},\n{B},away\n", {"a": "QB I1 RA"}, f"doubtful {B} in a", 1),
    (f"uid\n{A}\n", {"a": "I1 RA", "b": "I1 RB"}, f"unlisted {B}\nby line 3 of b", 1),
    (f"uid,away\n{A},no\n", {"a": "I1 RA"}, "refused at line 2 of EXPECTED: Away", 3),
    (f"uid\n{A}\n", {"x/a": "I1 RA", "a": "I1 S I1 RA"}, "impossible at line 5 of a", 2)])
def test_against_a_catalogue(program, tmp_path, table, logs, lines, status):
    (tmp_path / "x").mkdir()
    (tmp_path / "EXPECTED").write_text(table)
    for name, names in logs.items():
        (tmp_path / name).write_bytes(log_of(names))
    found = program.run("reconcile", "EXPECTED", *logs, cwd=tmp_path)
    assert found == (f"{lines}\n".encode(), b"", status)


def test_surveys_beside_a_list(program, tmp_path):
    """They stand for their logs, also where they were cut; what is no text of surveys is a log."""
    for name, text in (("EXPECTED", "UA UB"), ("a", "I1 RA"), ("b", "I1 RB")):
        (tmp_path / name).write_bytes(log_of(text))
    text = program.run("survey", "a", "b", cwd=tmp_path).out
    (tmp_path / "all").write_bytes(text)
    (tmp_path / "cut").write_bytes(text[:-1])
    (tmp_path / "table").write_text("uid\n")
    last = text.count(b"\n")
    for name, said, status in (("all", "complete 2", 0),
                               ("cut", f"refused at line {last} of cut: Survey", 3),
                               ("table", "refused at line 1 of table: Header", 3)):
        found = program.run("reconcile", "EXPECTED", name, cwd=tmp_path)
        assert found == (f"{said}\n".encode(), b"", status)


def test_a_name_that_no_log_has(program, tmp_path):
    """It could be taken for another line."""
    for name, text in (("EXPECTED", "UA"), ("a\nb", "I1 RA")):
        (tmp_path / name).write_bytes(log_of(text))
    assert program.run("reconcile", "EXPECTED", "a\nb", cwd=tmp_path) == (
        b"", b"vicinity: usage\n", 4)


def test_a_full_disk(reconcile):
    with open("/dev/full", "wb") as full:
        assert reconcile("EXPECTED", "a", stdout=full) == (b"", b"vicinity: write failed\n", 4)


@pytest.mark.parametrize(("catalogue", "said"), [
    (None, (b"", b"vicinity: cannot open catalogue.csv\n", 4)),
    ("E0040100000000A1,Of a winter\n",
     (b"refused at line 1 of catalogue.csv: Columns\n", b"", 3))])
def test_a_catalogue_without_names_of_columns(program, tmp_path, catalogue, said):
    """Or none. Of an empty one this shelf would be complete."""
    (tmp_path / "a").write_bytes(log_of("I1 S"))
    if catalogue:
        (tmp_path / "catalogue.csv").write_text(catalogue)
    assert program.run("collection", "catalogue.csv", "a", cwd=tmp_path) == said


def frame_line(letter, *body):
    return f"{letter} {hex_of(body)}\n"


def uid_lines(uids):
    return "".join(f"U {uid:016X}\n" for uid in uids)


def asked_alone(uid):
    """A request for this UID alone, and its reply."""
    low, *_ = parts = uid.to_bytes(8, "little")
    return frame_line("T", 0x26, 1, 56, *parts[:7]) + frame_line("R", 0, 0, low, *parts[1:])


@pytest.fixture
def of_many(program, tmp_path):
    """What the program writes of the list of UIDs and of logs, within these seconds."""
    def said(names, **texts):
        for name, text in {"list": uid_lines(UIDS), **texts}.items():
            (tmp_path / name).write_text(f"vicinity-log 1\n{text}")
        found = program.run("reconcile", "list", *names, cwd=tmp_path, preexec_fn=lambda: (
            resource.setrlimit(resource.RLIMIT_CPU, (MOST, MOST))))
        assert (found.err, found.status) == (b"", 1)
        return found.out.decode().splitlines()
    return said


def test_many_uids_that_may_be_in_the_last_of_many_logs(of_many):
    """200 tags that aren't expected may be in each of the others: they were silenced first."""
    silenced = [0xE0040200 << 32 | low << 16 for low in range(200)]
    quiet = "".join(frame_line("T", 0x22, 2, *uid.to_bytes(8, "little")) for uid in silenced)
    names = [*["quiet"] * TIMES, "unasked"]
    lines = of_many(names, quiet=f"{quiet}T 260100F60A\nS\n", unasked="")
    assert lines[-len(UIDS):] == [f"doubtful {uid:016X} in unasked" for uid in UIDS]


def test_many_logs_that_leave_open_what_another_shows(of_many):
    """The UIDs have consecutive numbers. So of the masks of 17 bits each of the 2^17 holds one, and
    of those of 18 bits those do whose bits are a number below 200,000: 16 others are named."""
    lines = of_many(["heard", *["unasked"] * TIMES], unasked="",
                    heard="".join(map(asked_alone, UIDS)))
    free = [f"open 18 {low:06X} in unasked" for low in range(200_000, 200_016)]
    assert lines[0] == "unsettled 18 030D40"
    assert lines[-17 * TIMES:] == [*free, "more open in unasked"] * TIMES
