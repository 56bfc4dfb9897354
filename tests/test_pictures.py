"""Tries the pictures: what `python3 -m vicinity show` writes of worked logs is what was drawn by
hand (tests/data/pictures), and the page that `python3 -m vicinity page` writes is opened in a
browser. It says the answer, everybody can read it, nothing of a log or of its name is markup, a
long session is printed on few sheets, nothing is fetched, and the console is silent.

`pytest tests/test_pictures.py --write` writes README's picture of a page anew, docs/page.png, which
isn't compared."""
import json
import os
import random
import re
import shutil
import subprocess
import sys
from pathlib import Path

import pytest

from helpers import random_logs
from helpers.lines import biglog
from helpers.program import TOP, needs
from helpers.records import drawn_in
from helpers.screen import Screen

DRAWN = TOP / "tests/data/pictures"
FOLDERS = (TOP / "examples", DRAWN)
STATUS = {"complete": 0, "absent": 1, "unsettled": 1, "impossible": 2}
NAMES = ("contradiction", "noise", "second-version", "shelf", "unfinished-count", "whole-shelf",
         "woke")
# How the headlines of their pages begin.
HEADLINES = {
    "contradiction": "This count can't be used. The log contradicts itself: tag ..A1B0 "
                     "answered in line 6, but not in line 4",
    "noise": "This count can't be used. The log contradicts itself: in line 3 two or more tags "
             "answered, but 2 other lines leave at most one.",
    "second-version": "Not finished: no tag is proved to be here, but some may be. The log has",
    "shelf": "Not finished: 1 didn't answer, 1 tag here isn't listed and 1 isn't proved; 1 of 3 "
             "listed tags is proved to be here.",
    "unfinished-count": "Not finished: all 2 listed tags are here; others may be too.",
    "whole-shelf": "All 4 listed tags are here, and no others",
    "woke": "This count can't be used. The log contradicts itself: tag ..00A1 was silenced in "
            "line 4, but answered in line 6",
}
# What a terminal has.
MOST_LINES, MOST_COLUMNS = 24, 80
# How large the picture of a session may be, in bytes, a page beside the text of the log, which
# stands in it; and what a picture may take: of a session of 100,000 lines and of one of 1,000,000
# in seconds of a processor, and in kilobytes. By themselves they take at most 2 and 5 s; beside the
# gate a processor is up to twice as slow.
BYTES, TIMES, PEAK = 2_000_000, {100_000: 4, 1_000_000: 10}, 200_000
SHEETS = 5
RANDOM_LOGS = 300


def file_of(name):
    """Where a worked log is."""
    return next(file for folder in FOLDERS if (file := folder / f"{name}.log").exists())


def drawn(name):
    return (DRAWN / f"{name}.txt").read_text(encoding="utf-8")


def sentence_in(picture):
    """The headline, lights and answer of a picture, as one line."""
    return " ".join(picture.split("\n\n")[0].splitlines())


@pytest.fixture(scope="session")
def run(release):
    """Runs `python3 -m vicinity`."""
    def run_in(*words, columns=80, before=(), **more):
        environment = dict(os.environ, PYTHONPATH=str(TOP / "python"), COLUMNS=str(columns),
                           LIBVICINITY=str(release / "libvicinity.so"))
        return subprocess.run([*before, sys.executable, "-m", "vicinity", *words], env=environment,
                              capture_output=True, check=False, cwd=TOP, **more)
    return run_in


@pytest.mark.parametrize("name", NAMES)
def test_show(run, name):
    done, wanted = run("show", file_of(name)), drawn(name)
    assert (done.stdout.decode(), done.stderr) == (wanted, b"")
    assert done.returncode == STATUS[re.search("Answer: ([a-z]+)", wanted)[1]]


@pytest.mark.parametrize("name", NAMES)
def test_show_in_ascii(run, name):
    ascii_wanted = drawn(name).translate({ord("·"): ".", ord("╳"): "X", ord("⋮"): ":"})
    assert run("show", "--ascii", file_of(name)).stdout.decode() == ascii_wanted


@pytest.mark.parametrize("columns", [50, 60])
@pytest.mark.parametrize("name", NAMES)
def test_show_in_few_columns(run, name, columns):
    picture = run("show", file_of(name), columns=columns).stdout.decode()
    assert not [line for line in picture.splitlines()
                if len(line) > columns and not re.search(r"[0-9A-F]{10}|asks|LOG$", line)]
    assert sentence_in(picture) == sentence_in(drawn(name))


@pytest.mark.parametrize("name", NAMES)
def test_show_says_what_the_page_says(name):
    """Its headline; of a contradiction the page says more."""
    page = HEADLINES[name].partition("The log contradicts itself: ")[0]
    assert sentence_in(drawn(name)).startswith(page)


@pytest.mark.parametrize("name", NAMES)
def test_show_fits_into_a_terminal(name):
    lines = drawn(name).splitlines()
    assert len(lines) <= MOST_LINES and max(map(len, lines)) <= MOST_COLUMNS


REFUSED = b"vicinity-log 1\nT 260100F60A\nS\nS <b>late</b>\x1b[31m\n"


def test_show_in_fifty_columns(run):
    assert run("show", file_of("whole-shelf"), columns=50).stdout.decode() == drawn("narrow")


def test_show_of_a_refused_text(run):
    assert run("show", "-", input=REFUSED).stdout.decode() == drawn("refused")


@pytest.mark.parametrize("words", [["show"], ["page", "nowhere.log"], ["report"]], ids=" ".join)
def test_without_a_file(run, words):
    assert run(*words).returncode == 4


ALL, EVEN, ODD = "T 260100F60A", "T 26010100137B", "T 260101019A6A"
HEARD, SILENCED = {"A1": "R 0000A1000000000104E06745", "B2": "R 0000B2000000000104E0CF94"}, {
    "A1": "T 2202A1000000000104E0662A", "B2": "T 2202B2000000000104E0CEFB"}
A1, B2 = HEARD["A1"], HEARD["B2"]
# Contradictions of each form: the lines after the header, and those that can't all be true.
FORMS = {
    "a lost reply": ((ALL, "S", ALL, A1), [3, 5]),
    "a second reader": ((ALL, A1, SILENCED["A1"], "F", ALL, "S"), [3, 7]),
    "a hidden reply": ((ALL, A1, SILENCED["A1"], ALL, B2), [3, 6]),
    "a lost reply of a collision": ((ALL, "C", EVEN, "S", ODD, A1, SILENCED["A1"], SILENCED["B2"]),
                                    [3, 5, 7]),
    "a tag that left": ((SILENCED["B2"], ALL, "C", EVEN, "S", ODD, A1), [4, 6, 8]),
    "a garbled slot": ((SILENCED["B2"], ALL, "S", ALL, "D"), [4, 6]),
    "a reply to another request": ((EVEN, A1), [3]),
    "a collision of one": (("T 260138A1000000000104618F", "C"), [3]),
    "slots that don't adjoin": ((EVEN, "C", "T 060100CD09", *"S" * 16), [3, *range(5, 20, 2)]),
    "slots that adjoin": ((ALL, "C", "T 060100CD09", *"S" * 16), [3, *range(5, 21)]),
}
# What is said of them, by how many they are.
SENTENCES = {1: "line {} can't be true.", 2: "lines {} and {} can't both be true.",
             3: "lines {}, {} and {} can't all be true.",
             9: "9 lines from 3 to 19 can't all be true.",
             17: "17 lines from 3 to 20 can't all be true."}


@pytest.mark.parametrize("form", FORMS)
def test_what_is_said_of_a_contradiction(run, form):
    lines, wanted = FORMS[form]
    text = "".join(f"{line}\n" for line in ("vicinity-log 2", *lines)).encode()
    picture = run("show", "-", input=text).stdout.decode()
    sentence = SENTENCES[len(wanted)].format(*wanted)
    assert sentence_in(picture).startswith(
        f"This count can't be used. The log contradicts itself: {sentence}")
    named = [int(it) for it in re.findall(r"\nline (\d+): ", picture)]
    assert named == (wanted if len(wanted) < 4 else wanted[:5])
    assert picture.count("python3 -m vicinity page LOG") == 1
    assert len(picture.splitlines()) <= MOST_LINES
    told = run("report", "-", input=text).stdout.decode()
    assert [int(it) for it in re.findall(r":(\d+): conflict", told)] == wanted


def test_report_as_lines(run):
    """With the values of docs/VERDICTS.md and of the pictures drawn by hand."""
    lines = run("report", "--lines", file_of("shelf"), file_of("contradiction"),
                file_of("whole-shelf"))
    told = [line.partition(".log:")[2] for line in lines.stdout.decode().splitlines()]
    assert (lines.returncode, told) == (2, drawn("reports").splitlines())
    shelf = file_of("shelf")
    assert run("report", shelf).stdout == run("report", "--lines", shelf).stdout


def test_report_as_json(run):
    done = run("report", file_of("shelf"), "--json", "nowhere.log", file_of("woke"))
    objects = [json.loads(line) for line in done.stdout.splitlines()]
    assert done.returncode == 4
    told = [(it["status"], it["kind"]) for it in objects]
    assert told == [(1, "absent"), (4, "no answer"), (2, "impossible")]
    assert objects[0]["findings"] == [
        {"kind": "absent", "uid": "E0040100000000B2", "line": 8, "overlooked": 1},
        {"kind": "unlisted", "uid": "E0040100000000D4", "line": 10},
        {"kind": "doubtful", "uid": "E0040100000000E5"}]
    left = [(it["mask_len"], it["mask_value"]) for it in objects[0]["open"]["masks"]]
    assert left == [(4, "0E"), (4, "0F"), (56, "040100000000E5")]
    assert objects[0]["sentence"].startswith(HEADLINES["shelf"])
    assert objects[2]["findings"] == [{"kind": "silenced by", "line": 4},
                                      {"kind": "conflict", "line": 6}]
    assert [it["line"] for it in objects[0]["notes"]] == [3, 5]


def test_random_pictures(vicinity):
    """Every log has a picture: random ones, possible and impossible, each with a sentence and what
    was found."""
    from vicinity.pages import document
    from vicinity.logs import findings, headline, report, show

    rng, kinds = random.Random(1), set()
    for _ in range(RANDOM_LOGS):
        version = rng.randint(1, 3)
        _, lines = random_logs.random_log(rng, version)
        text = random_logs.log_text(version, lines)
        found = findings.JudgedLog(text)
        kinds.add(found.answer.kind.word)
        parts = [headline.headline(found), *show.show(found),
                 *report.lines_of_report("log", found)]
        told = json.loads(json.dumps(report.object_of_report("log", found)))
        absent = [it["uid"] for it in told["findings"] if it["kind"] == "absent"]
        wanted = [vicinity.uid_text(it.uid) for it in found.of(vicinity.FindingKind.ABSENT)]
        assert absent == wanted, text
        json.dumps(document.page_object("log", found))
        assert all(parts[:2]), text
        for columns in 80, rng.randint(40, 100):
            picture = list(show.show(found, show.Look(columns=columns)))
            assert columns != 80 or (len(picture) <= MOST_LINES
                                     and max(map(len, picture)) <= MOST_COLUMNS), text
            # no request is broken: it is a frame with its CRC
            for request in re.findall(r"^T ([0-9A-F]*)", "\n".join(picture), re.M):
                vicinity.read_request(bytes.fromhex(request))
    assert kinds >= {"complete", "impossible", "unsettled", "unlisted"}


def half_of(text):
    return text[:len(text) // 2].rpartition(b"\n")[0]


def absent(number):
    """A list of so many tags, none of which answered."""
    listed = "".join(f"U {0xE004 << 48 | tag:016X}\n" for tag in range(number))
    return b"vicinity-log 1\nT 260100F60A\nS\n" + listed.encode()


# One tag is silenced, and all is silent, time after time.
OPEN = b"vicinity-log 1\nT 260108B08019\nR 0000B0A10000000104E0EBE5\nT 2202B0A10000000104E0EA8A\n"
# Long texts by their names, and how many lines they have.
LONG = {"a search": (lambda _: biglog("session", 11_500), 100_000),
        "a search cut in half": (lambda _: half_of(biglog("session", 11_500)), 100_000),
        "all of a list absent": (lambda _: absent(99_997), 100_000),
        "a long search": (Path.read_bytes, 1_000_000),
        "many open rounds": (lambda _: OPEN + b"T 260100F60A\nS\n" * 499_997, 1_000_000)}


@pytest.mark.slow
@pytest.mark.parametrize("form", ["show", "page"])
@pytest.mark.parametrize("name", LONG)
def test_long_pictures(run, million, tmp_path, name, form):
    """Their size, time and memory are bounded."""
    needs("time")
    make, lines = LONG[name]
    text, took = make(million), tmp_path / "took"
    done = run(form, "-", input=text, before=["time", "-q", "-f", "%U %S %M", "-o", took])
    seconds, more, peak = map(float, took.read_text().split())
    assert done.returncode in (0, 1)
    assert len(done.stdout) < BYTES + 2 * len(text) * (form == "page")
    assert seconds + more < TIMES[lines]
    assert peak < PEAK
    if form == "show":
        assert max(map(len, done.stdout.decode().splitlines())) <= 80
        assert bool(re.search(rb"[\d,]+ rows\n", done.stdout)) == (text.count(b"\nT ") > 1000)


@pytest.fixture
def opened(vicinity, run, browser, tmp_path):
    """Opens the page of a text, and tries what each page has to keep."""
    one = Screen(browser)

    def open_page(name, text):
        (tmp_path / f"{name}.log").write_bytes(text)
        written = run("page", tmp_path / f"{name}.log").stdout
        (tmp_path / "page.html").write_bytes(written)
        one.open(tmp_path / "page.html")
        one.until("header h1", "")
        told, plain = drawn_in(written.decode())
        assert plain == run("show", tmp_path / f"{name}.log").stdout.decode()
        assert told["answer"] == str(vicinity.check(text))
        assert f"vicinity {told['version']}: {told['answer']}" in "".join(one.texts(".record"))
        assert bool(one.texts(".banner.yes")) == (
            told["kind"] == "complete" and told["count"] > 0 and told["deaf"]["holds"])
        one.is_readable()
        assert 0 < one.sheets() <= SHEETS
        return one
    yield open_page
    one.end()


@pytest.mark.parametrize("name", NAMES)
def test_page(opened, name):
    (heading,) = opened(name, file_of(name).read_bytes()).texts("h1")
    assert heading.startswith(HEADLINES[name])


def test_page_of_a_refused_text(opened):
    page = opened("<b>&amp;'\"", REFUSED)
    assert "S <b>late</b>" in page.said()
    assert page.texts("b") == ["vicinity"]


@pytest.mark.parametrize(("text", "name"), [
    (REFUSED, "The text"), (REFUSED + b"S\n", "The text"),
    (b"uid,title\nE004,Emma\n", "The text"), (b"PK\x03\x04\0\n\0", "")])
def test_what_a_page_has_of_a_refused_text(opened, text, name):
    """A spreadsheet isn't shown."""
    assert "".join(opened("text", text).texts("aside:not([hidden]) label")) == name


def long_conflict(vicinity):
    """A collision of all tags, and silent rounds that leave no tag: 737 lines that contradict each
    other."""
    write, mask = vicinity.write_inventory, vicinity.Mask
    masks = [mask(8, low | high << 4) for low in (0, 1) for high in range(16)]
    masks += [mask(4, low) for low in range(2, 16)]
    rounds = b"".join(b"T " + write(2, 16,
                                    it).hex().upper().encode() + b"\n" + b"S\n" * 16
                      for it in masks)
    return b"vicinity-log 1\nT 260100F60A\nC\n" + rounds


@pytest.fixture(scope="module")
def sessions(vicinity):
    """Longer sessions, by their names."""
    whole = biglog("session", 1200)
    lines = whole.split(b"\n")
    heard = [number for number, line in enumerate(lines) if line.startswith(b"R")]
    return {"whole": whole, "half": b"\n".join(lines[:5000]) + b"\n",
            "lost": b"\n".join([*lines[:heard[600]], b"S", *lines[heard[600] + 1:]]),
            "unlisted": b"\n".join(line for line in lines if not line.startswith(b"U")),
            "woke": biglog("session-late", 1200), "empty": b"vicinity-log 1\nT 260100F60A\nS\n",
            "conflict": long_conflict(vicinity)}


@pytest.mark.parametrize("name", ["whole", "half", "lost", "unlisted", "woke", "empty", "conflict"])
def test_page_of_a_longer_session(opened, sessions, name):
    page = opened(name, sessions[name])
    if name == "conflict":
        page.until("summary", "The 737 lines that can't all be true")
        page.press(".reader details > summary")
        page.wait(lambda: len(page.texts(".reader details .to-line")) == 737)
        assert len(page.texts(".rounds td.named")) == 737


COLLECTION = TOP / "examples/collection"
SHELVES = sorted(COLLECTION.glob("shelf-*.log"))


@pytest.fixture
def reconciled(run, browser, tmp_path):
    """Opens the page of logs against the catalogue of the example."""
    one = Screen(browser)

    def open_page(*logs):
        words = "collection", "--page", *sorted(COLLECTION.glob("*.csv"))
        (tmp_path / "page.html").write_bytes(run(*words, *logs).stdout)
        one.open(tmp_path / "page.html")
        one.until("header h1", "")
        one.is_readable()
        return one
    yield open_page
    one.end()


def test_page_of_a_collection(reconciled):
    page = reconciled(*SHELVES)
    assert page.texts("h1") == [
        "1 item missing if the reader of A heard to the end (Walden, of A), 1 in the wrong place "
        "(The Time Machine, on A, belongs to B) and 1 not known yet; count C again."]
    assert page.texts(".lights dd") == ["2 of 3 logs", "9 of 12 items", "the answer may be wrong"]
    groups = ["Count again (1 log)", "At the shelves (2)", "Not known yet (1)",
              "Here (9 items)", "Searched to the end (2 logs)", "What this takes for granted (10)"]
    assert page.texts("details > summary h2") == groups
    assert page.texts(".items tbody tr")[:2] == [
        "missing: look for it\nWalden\nE00401502B91C435",
        "take to B\nThe Time Machine\nE00401504477EB73"]
    assert page.texts(".logs summary")[0] == (
        "C (shelf-c.log): 3 tags; not finished")


def test_page_of_a_collection_with_an_older_log(reconciled, tmp_path):
    """By the times of the files, as where they are dropped."""
    *logs, old = [Path(shutil.copy(it, tmp_path)) for it in SHELVES]
    os.utime(old, (1_600_000_000, 1_600_000_000))
    page = reconciled(*logs, old)
    (words,) = page.texts(".doubts b")
    assert re.match(r"The log of C is older than the others: its file is of 13 Sept? 2020", words)
    assert re.search(r"3 logs of 13 Sept? 2020, \d\d:26 to ", page.texts(".banner p")[1])
    assert page.texts(".doubts button") == []


def test_page_of_a_collection_that_is_not_sure_enough(run, browser, tmp_path):
    """Shelf A alone, of which more misses were wanted than its log bears."""
    uids = [line[2:] for line in SHELVES[0].read_bytes().splitlines() if line[:1] == b"U"]
    (tmp_path / "expected.csv").write_bytes(b"\n".join([b"uid", *uids, b""]))
    words = "collection", "--page", tmp_path / "expected.csv", SHELVES[0]
    missed = "a tag would have had to be missed in 2 slots"
    page = Screen(browser)
    for most, status, headline in (
            ("2", 0, "All 4 expected items are here, and no others, if the reader of shelf-a.log "
             "heard to the end."),
            ("3", 1, f"Not sure enough: {missed}, and 3 or more were asked for.")):
        done = run(*words, "--margin", most)
        (tmp_path / "page.html").write_bytes(done.stdout)
        page.open(tmp_path / "page.html")
        page.until("header h1", headline)
        assert (done.returncode, bool(page.texts(".banner.read"))) == (status, status == 0)
        where = ("in the field of shelf-a.log; that is enough for UIDs ending in an even digit, "
                 "for example.")
        assert f"To go unnoticed, {missed} {where}" in page.texts("details li")
        ask_more = "Count again, with readers that ask all once more at the end."
        assert (ask_more in page.texts(".steps")) == (status == 1)
        page.is_readable()
    page.end()


def test_a_log_of_a_collection_is_drawn_when_it_is_opened(reconciled):
    page = reconciled(*SHELVES)
    assert page.texts(".rounds") == []
    page.press(".logs summary")
    page.until(".logs h3", "Not finished: all 3 listed tags are here; others may be too.")
    page.press('.logs td[data-line="5"]')
    chosen = page.run("const it = document.querySelector('.logs textarea');"
                      "return it.value.slice(it.selectionStart, it.selectionEnd)")
    assert chosen == SHELVES[2].read_text().splitlines()[4]
    assert page.texts(".logs h4")[0] == "At the shelf" and page.texts(".logs h1, .logs h2") == []


def test_a_broken_log_comes_first(reconciled, tmp_path):
    (tmp_path / "none.log").write_bytes(b"vicinity-log 1\nX\n")
    page = reconciled(*SHELVES, TOP / "examples/contradiction.log", tmp_path / "none.log")
    assert page.texts("details > summary h2")[0] == "Count again (3 logs)"
    assert [it.split(":")[0] for it in page.texts(".log")[:3]] == [
        "contradiction.log", "none.log", "C (shelf-c.log)"]
    assert page.texts(".banner.yes") == []


def test_the_page_of_a_log_without_a_script(run):
    """Its text is that of `show`, so nobody needs a browser."""
    written = run("page", file_of("shelf")).stdout.decode()
    assert drawn_in(written)[1] == drawn("shelf")


def test_picture_of_a_page(pytestconfig, run, browser, tmp_path):
    """What a browser shows of a page first; --write puts it on README."""
    (tmp_path / "page.html").write_bytes(run("page", "examples/unfinished-count.log").stdout)
    page = Screen(browser)
    page.open(tmp_path / "page.html")
    page.until("header h1", "others may be too")
    picture = page.picture(1000, ".rounds")
    assert picture.startswith(b"\x89PNG")
    if pytestconfig.getoption("--write"):
        (TOP / "docs/page.png").write_bytes(picture)
    page.end()
