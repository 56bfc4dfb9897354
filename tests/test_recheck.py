"""tools/recheck, which says a second time whether a list is complete: what the library answers, of
random and of changed logs. The logs are the same each time; `pytest tests/test_recheck.py --logs
100000` takes others, as tests/test_oracle.py does. Planted faults, each wrong in one rule, have to
be found."""
import collections
import itertools
import random
import time
import types

import pytest

from biglog import ask, claim, low, new_tags, silence
from helpers.air import COLLISION, GARBLED, SILENT, UNKNOWN, Reply, is_slot
from helpers.fuzz import changed_log
from helpers.lines import biglog, log_of, rows, text_of
from helpers.program import TOP, Program
from helpers.random_logs import log_text, random_log

NUMBER, SEED = 20000, 15693
# In how many parts the logs are; the first one alone is quick.
PARTS = 10
# How many of a thousand logs are complete at least, as they are made or as they are altered, and as
# many not.
LEAST_SHARE = 20
SECONDS, TAGS = 60, 135_000
FILE = TOP / "tools/recheck"
SOURCE = FILE.read_text()


def recheck(source):
    """What a text of tools/recheck says of a log."""
    module = types.ModuleType("recheck")
    exec(compile(source, FILE, "exec"), module.__dict__)
    return lambda text: module.answer(text.decode("latin-1"))[0]


def altered(rng, version, lines):
    """A log with a round, or another line without its slots, dropped, said twice or swapped with
    another; or with another outcome for a slot."""
    parts = []
    for line in lines:
        parts = [*parts[:-1], [*parts[-1], line]] if is_slot(line) else [*parts, [line]]
    at, other, what = rng.randrange(len(parts)), rng.randrange(len(parts)), rng.randrange(6)
    if what == 0:
        del parts[at]
    elif what == 1:
        parts.insert(other, parts[at])
    elif what == 2:
        parts[at], parts[other] = parts[other], parts[at]
    elif len(parts[at]) > 1:
        outcomes = [SILENT, COLLISION, *[GARBLED] * (version > 1), *[UNKNOWN] * (version > 2)]
        outcomes += [line for line in lines if isinstance(line, Reply)]
        parts[at][rng.randrange(1, len(parts[at]))] = rng.choice(outcomes)
    return [line for part in parts for line in part]


def random_logs(check, number, seed):
    """Random logs of each version, with the library's answer, and whether it is one that was
    complete before something in it was altered. Of some logs bytes are changed."""
    rng, complete, seeds = random.Random(seed), None, []
    for _ in range(number):
        version, turn = rng.randint(1, 3), rng.random()
        is_altered = bool(complete) and turn < 0.4
        if is_altered:
            version, lines = complete[0], altered(rng, *complete)
        else:
            lines = random_log(rng, version)[1]
        text = log_text(version, lines)
        seeds = [*seeds[-9:], text]
        text = changed_log(rng, seeds) if turn > 0.9 else text
        answer = check(text)
        if answer.kind.name == "COMPLETE" and text == seeds[-1] and lines:
            complete = version, lines
        if answer.kind.name != "REFUSED":
            yield text, wanted(answer.text), is_altered


def wanted(line):
    """What has to be said where the program says this line."""
    return line if line.startswith("complete ") else "not complete"


def worked_logs():
    """The logs of the rows, each with what has to be said: their answers were worked out by
    hand."""
    for _, row in rows("verdicts"):
        _, given, line = (cell.strip() for cell in row.split("|"))
        if not line.startswith("refused "):
            yield log_of(given), wanted(line)


@pytest.mark.parametrize("part", [0, *(pytest.param(part, marks=pytest.mark.slow)
                                       for part in range(1, PARTS))])
def test_it_says_what_the_library_says(vicinity, logs, part):
    number, seed = logs
    said, seen = recheck(SOURCE), collections.Counter()
    for text, answer, is_altered in random_logs(vicinity.check, number, f"{seed} {part}"):
        assert said(text) == answer, f"seed {seed}:\n{text.decode()}"
        seen[is_altered, answer.split()[0]] += 1
    if number >= NUMBER // PARTS:
        assert min(seen[kind] for kind in itertools.product((False, True), ("complete", "not"))
                   ) * 1000 > LEAST_SHARE * number


def test_it_says_what_was_worked_out():
    said = recheck(SOURCE)
    told = [(text, said(text)) for text, _ in worked_logs()]
    assert told == list(worked_logs()) and len(told) > 80


FAULTS = {
    "the slot's number stands in the lowest bits of the mask": ("(k << data[2])", "k"),
    "the first byte of a mask is its highest": ('data[3:-2], "little"', 'data[3:-2], "big"'),
    "each request has one slot": ("4 * (not data[0] & 32)", "0"),
    "the bits of a UID aren't read backwards": ('value:064b}"[::-1]', 'value:064b}"'),
    "a Stay Quiet leaves listed tags Ready": ("self.skip.setdefault(tag, tag + 1)", "pass"),
    "a Stay Quiet leaves others Ready": ("elif uid >> 56 == 0xE0:", "elif False:"),
    "a UID without E0 is a tag": ("elif uid >> 56 == 0xE0:", "else:"),
    "listed tags stay Quiet over F": ("field.skip.clear()", "pass"),
    "others stay Quiet over F": ("field.cycles.append(now)", "pass"),
    "others that are Quiet are ruled out": ("> ready_at", "> 0"),
    "a collision may be of one tag": ("len(tags) >= 2", "len(tags) >= 1"),
    "a collision forces two of three tags": ("len(found) < 3", "len(found) < 2"),
    "a garbled slot says nothing": ("len(tags) >= 1", "True"),
    "an unknown slot is silent": ('"N": lambda tags, uid: True', '"N": lambda tags, uid: not tags'),
    "a captured reply says that no other tag answered": ("uid in tags", "tags == [uid]"),
    "a lone reply says nothing of others": ("tags == [uid]", "uid in tags"),
    "a captured reply may be of any UID": (
        "max(first, positions(64, uid)[0])", "positions(64, uid)[0]"),
    "a mask after a gap is looked at": ("if first <= reached:", "if True:"),
    "what others a Stay Quiet names doesn't matter": (
        " and field.ruled_out == set(field.silenced)", ""),
    "a listed tag that isn't forced is listed rightly": ("forced == uids and ", ""),
}


@pytest.fixture(scope="module")
def answered(vicinity):
    """Logs, and what has to be said of each: those of the rows, and of the first part."""
    return [*worked_logs(), *(log[:2] for log in random_logs(
        vicinity.check, NUMBER // PARTS, f"{SEED} 0"))]


@pytest.mark.parametrize("fault", FAULTS)
def test_a_planted_fault_is_found(answered, fault):
    old, new = FAULTS[fault]
    assert SOURCE.count(old) == 1
    said = recheck(SOURCE.replace(old, new))
    assert any(said(text) != answer for text, answer in answered)


def collisions():
    """Listed tags are silenced one by one, or a thousand after a field cycle, and after each the
    others collide, in one slot and in nested masks."""
    uids = sorted(new_tags(random.Random(SEED), TAGS), key=lambda uid: f"{uid:064b}"[::-1])
    yield "vicinity-log 2"
    for turn, uid in enumerate(uids[:-2]):
        yield from [silence(uid), ask((0, 0)), "C", ask(low(uids[-1], turn % 10)), "C"]
        if turn % 1000 == 999:
            yield from ["F", *map(silence, uids[turn % 2:1000])]
    yield from map(claim, uids)


@pytest.mark.slow
@pytest.mark.parametrize("shape, size, answer", [
    ("session", 115_600, "complete 115600"), ("captured", 110_000, "complete 110000"),
    ("closed-cycles", 300_000, "complete 0"), ("nest-coll", 900_000, "not complete"),
    ("collisions", 0, "not complete")])
def test_a_million_lines_take_less_than_a_minute(vicinity, shape, size, answer):
    text = biglog(shape, size) if size else text_of(collisions())
    assert 900_000 < text.count(b"\n") <= 1_000_000
    assert wanted(vicinity.check(text).text) == answer
    start = time.process_time()
    assert recheck(SOURCE)(text) == answer
    assert time.process_time() - start < SECONDS


@pytest.mark.parametrize("change, said, status", [
    (("", ""), b"complete 4\n", 0), (("\nU ", "\n#U "), b"not complete\n", 1),
    (("vicinity-log", "log"), b"not a log\n", 3), (("\nT ", "\nX "), b"not a log\n", 3)])
def test_what_it_prints(tmp_path, change, said, status):
    log = tmp_path / "log"
    log.write_text((TOP / "examples/whole-shelf.log").read_text().replace(*change))
    assert Program(FILE).run(log) == (said, b"", status)


@pytest.mark.parametrize("words", [["/nowhere/log"], []])
def test_without_a_file_it_says_nothing(words):
    out, err, status = Program(FILE).run(*words)
    assert (out, err.count(b"\n"), status) == (b"", 1, 4)


def test_it_can_be_read_in_ten_minutes():
    assert SOURCE.count("\n") <= 120
