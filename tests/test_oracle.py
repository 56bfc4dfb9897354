"""Judges random logs by brute force (helpers/oracle.py), and asks the library and the program for
the same.

The logs are the same each time; `pytest tests/test_oracle.py --logs 100000` judges others, of a new
seed, which is printed, or of `--seed`. Wrong judges and wrong reports are put in the library's
place, each wrong in one rule, and have to be found. One log with a great many borders is judged by
arithmetic."""
import collections
import json
import random

import pytest
from vicinity._native import AnswerStruct

from helpers import oracle, reports
from helpers.air import SILENT, TOP_BYTE, Ask, Listed, Reply
from helpers.claims import claims
from helpers.library import STATUSES, answer_to
from helpers.oracle import Case
from helpers.program import TOP, Program
from helpers.random_logs import contradicted, log_text, random_log

NUMBER, SEED = 20000, 15693
# In how many parts the logs are judged; the last of four has logs of version 3.
PARTS = 20
# How many logs a wrong judge is given to be found, and how many of a thousand must have each
# verdict.
PLANTED = 8000
LEAST_SHARE = 20
# The page is asked for as many as so many of these parts have, and what it claims beyond the
# library's answer.
PAGE_PARTS, CLAIMS = 3, 3
KINDS = ("complete", "absent", "unlisted", "unsettled", "doubtful", "impossible")
ROOM = 64
# Of the log with many borders: each mask of so many bits is asked in sixteen slots, all of them so
# often. Each time this gives 48 borders a mask: before each slot's keys, and around its UID.
ASKED_BITS, TIMES = 10, 50
HEADER = b"vicinity-log 1\n"


@pytest.fixture
def answer(library):
    """The line of `vicinity_check`, and the population of `vicinity_explain`."""
    def ask(text):
        told = library.told(AnswerStruct, "check", text)
        again, needed, room = library.into(ROOM, "explain", text)
        line = told.text.decode().rstrip("\n")
        assert bytes(told) == bytes(again) == bytes(answer_to(line))
        return line, room[:needed]
    return ask


@pytest.fixture
def report(program):
    """The lines of `vicinity report`, which ends with the status of the first."""
    def ask(text):
        out, err, status = program.run("report", given=text)
        told = out.decode().splitlines()
        assert (err, status) == (b"", STATUSES.get(told[0].split()[0], 1))
        return told
    return ask


@pytest.mark.slow
@pytest.mark.parametrize("part", range(PARTS))
def test_random_logs(answer, report, logs, part):
    number, seed = logs
    rng, seen = random.Random(f"{seed} {part}"), collections.Counter()
    for _ in range(number):
        version = 3 if part % 4 == 3 else rng.randint(1, 2)
        case = Case(version, *random_log(rng, version))
        seen[case.answer.split()[0]] += 1
        wrong = case.wrong_answer(*answer(case.text)) or case.wrong_report(report(case.text))
        assert not wrong, f"seed {seed}:\n{case.text.decode()}"
    if number >= NUMBER // PARTS:
        assert not [kind for kind in KINDS if seen[kind] * 1000 < LEAST_SHARE * number]


def found(is_found):
    """Whether something wrong is found in as many logs as it is given."""
    rng = random.Random(SEED)
    versions = (rng.randint(1, 3) for _ in range(PLANTED))
    return any(is_found(Case(version, *random_log(rng, version))) for version in versions)


@pytest.mark.parametrize("rule", oracle.WRONG)
def test_a_wrong_judge_is_found(rule):
    kind = oracle.WRONG[rule]
    assert found(lambda case: case.uids
                 and case.wrong_answer(*kind(case.uids).answer(case.lines)))


@pytest.mark.parametrize("rule", reports.WRONG)
def test_a_wrong_report_is_found(rule):
    kind = reports.WRONG[rule]
    assert found(lambda case: case.wrong_report(kind(case.lines, case.known).given()))


@pytest.mark.slow
def test_what_the_page_adds(wasm_module, logs):
    """Each claim that it makes beyond the library's answer is so; of other logs it isn't."""
    number, seed = logs
    rng, node = random.Random(seed), Program("node", TOP / "tests/wasm/told.mjs", wasm_module)
    versions = (rng.randint(1, 3) for _ in range(PAGE_PARTS * number))
    cases = [Case(version, *random_log(rng, version)) for version in versions]
    cases += [Case(version, [], lines) for version, lines in map(contradicted, [rng] * number)]
    given, seen = b"".join(b"%d\n%s" % (len(it.text), it.text) for it in cases), set()
    for case, line in zip(cases, node.told(given=given).splitlines(), strict=True):
        told = json.loads(line)
        for name, (is_made, is_so) in claims(case, told).items():
            assert is_so or not is_made, f"{name}: {told['headline']}\n{case.text.decode()}"
            seen |= {(name, "made")} if is_made else set()
            seen |= {(name, "not so")} if not is_so else set()
    assert number < NUMBER // PARTS or len(seen) == 2 * CLAIMS


@pytest.mark.slow
def test_two_million_borders(program):
    """Each UID is heard alone in its slot, time after time, which rules out all others."""
    uids = [TOP_BYTE | 1 << 40 | low for low in range(16 << ASKED_BITS)]
    once = [line for low in range(1 << ASKED_BITS)
            for line in [Ask(True, ASKED_BITS, low), *map(Reply, uids[low::1 << ASKED_BITS])]]

    def text(lines):
        return log_text(1, lines).removeprefix(HEADER)

    slots = HEADER + text(once) * (TIMES - 1) + text(once[:-1])

    def answer(last, listed):
        return program.run("check", given=slots + text([last, *map(Listed, listed)]))

    count, lines = len(uids), 1 + TIMES * len(once)
    assert answer(once[-1], uids) == (f"complete {count}\n".encode(), b"", 0)
    assert answer(once[-1], uids[:-1]) == (f"unlisted {uids[-1]:016X}\n".encode(), b"", 1)
    assert answer(SILENT, uids) == (f"impossible at line {lines}\n".encode(), b"", 2)
