"""Counts in random logs how often UIDs were overlooked (helpers/margins.py), and asks the program
and the library for the same; the object of a log has the number of an absent UID. Of small logs the
margins are also found by trying: how many slots have to be unknown for a UID to be possible.

The logs are the same each time; `pytest tests/test_margins.py --logs 100000` takes others, as
tests/test_oracle.py does. Wrong counts, each wrong in one rule, have to be found."""
import ctypes
import itertools
import json
import random

import pytest
from vicinity._native import AnswerStruct, WeakestStruct

from helpers.air import UNKNOWN, is_slot
from helpers.margins import WRONG, Margins
from helpers.oracle import Judge
from helpers.random_logs import eight_uids, log_text, random_log, rounds

NUMBER, SEED = 3000, 15693
# In how many parts the logs are judged; the first one alone is quick.
PARTS = 20
SMALL, MOST_SLOTS = 60, 8
PLANTED = 2000


@pytest.fixture
def overlooked(program):
    """How often each of these UIDs was overlooked in a possible log, by its object with these UIDs
    as its list: where one may be there it isn't absent, and was overlooked in no slot."""
    def of(text, uids):
        lines = [line for line in text.splitlines() if not line.startswith(b"U")]
        lines += [b"U %016X" % uid for uid in dict.fromkeys(uids)]
        found = json.loads(program.run("json", given=b"\n".join(lines)).out)["findings"]
        absent = {int(it["uid"], 16): it["overlooked"] for it in found if it["kind"] == "absent"}
        return [absent.get(uid, 0) for uid in uids]
    return of


@pytest.mark.parametrize("part", [0, *(pytest.param(part, marks=pytest.mark.slow)
                                       for part in range(1, PARTS))])
def test_random_logs(program, library, overlooked, logs, part):
    number, seed = logs
    rng = random.Random(f"{seed} {part}")
    for _ in range(number):
        version = rng.randint(1, 3)
        uids, lines = random_log(rng, version)
        text, told, weakest = log_text(version, lines), AnswerStruct(), WeakestStruct()
        library.call("margin", text, ctypes.byref(told), ctypes.byref(weakest))
        margins, uids = Margins(lines), [*uids, *eight_uids(rng)]
        said = program.run("margin", given=text).out.decode().splitlines()
        assert said == margins.said(told.text.decode().rstrip("\n"), lines), text.decode()
        if told.status < 2:
            assert overlooked(text, uids) == list(map(margins.of, uids)), text.decode()
            found = weakest.margin, weakest.mask_len, weakest.mask_value
            assert found == margins.weakest(), text.decode()


def by_trying(uids, lines):
    """For each UID, how many slots have to be unknown at least, so that some of the populations of
    these UIDs that could have produced the log has it."""
    least, slots = {}, [at for at, line in enumerate(lines) if is_slot(line)]
    for number in range(len(slots) + 1):
        for chosen in itertools.combinations(slots, number):
            judge = Judge(uids)
            weaker = [UNKNOWN if at in chosen else line for at, line in enumerate(lines)]
            for uid in judge.known(judge.judge(weaker).populations)[0]:
                least.setdefault(uid, number)
    return [least.get(uid) for uid in uids]


def small_logs(seed):
    """Logs of few slots that some of eight UIDs could have produced, with these UIDs."""
    rng = random.Random(f"{seed} small")
    while True:
        uids = eight_uids(rng)
        lines = list(rounds(rng, 3, uids, ()))
        if (0 < sum(map(is_slot, lines)) <= MOST_SLOTS
                and not Judge(uids).judge(lines).impossible):
            yield uids, lines


def test_a_margin_is_exact(overlooked, logs):
    for uids, lines in itertools.islice(small_logs(logs[1]), SMALL):
        text, least = log_text(3, lines), by_trying(uids, lines)
        assert overlooked(text, uids) == least == list(map(Margins(lines).of, uids)), text


@pytest.mark.parametrize("rule", WRONG)
def test_a_wrong_count_is_found(rule):
    rng = random.Random(SEED)
    versions = (rng.randint(1, 3) for _ in range(PLANTED))
    logs = (random_log(rng, version)[1] for version in versions)
    assert any(found(WRONG[rule], lines) != found(Margins, lines) for lines in logs)


def found(margins, lines):
    return margins(lines).weakest(), margins(lines).readings(lines)
