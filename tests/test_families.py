"""Reconciles random logs with random lists by brute force (helpers/families.py), and asks the
program and the Python package for the same.

The cases are the same each time, or others with `--logs NUMBER` and `--seed`, as those of
test_oracle.py. Wrong reconcilers are put in the program's place, each wrong in one rule, and have
to be found."""
import collections
import random

import pytest

from helpers.air import Listed
from helpers.families import NAMES, WRONG, Families, case_of
from helpers.library import STATUSES
from helpers.random_logs import log_text

NUMBER, SEED = 5000, 15693
# In how many parts the cases are asked.
PARTS = 10
PLANTED = 1500
KINDS = ("complete", "absent", "unlisted", "unsettled", "doubtful", "impossible")


def same(told, wanted):
    """Whether the lines are those, whatever line shows an unlisted UID."""
    return [" ".join(["by line ?", *line.split()[3:]]) if line.startswith("by line ") else line
            for line in told] == wanted


@pytest.fixture
def answer(program, vicinity, tmp_path, monkeypatch):
    """The lines of the program, which ends with the status of the first, and of the package."""
    monkeypatch.chdir(tmp_path)

    def ask(expected, texts):
        texts = [log_text(1, map(Listed, expected)), *texts]
        names = ["EXPECTED", *NAMES][:len(texts)]
        for name, text in zip(names, texts):
            (tmp_path / name).write_bytes(text)
        out, err, status = program.run("reconcile", *names, cwd=tmp_path)
        told = out.decode().splitlines()
        assert (err, status) == (b"", STATUSES.get(told[0].split()[0], 1))
        assert vicinity.run("reconcile", *texts, names=names) == (out, status)
        return told
    return ask


def cases_of(number, seed, part):
    """The cases of a part, each with its seed."""
    for index in range(part, number * PARTS, PARTS):
        yield f"{seed} {index}", *case_of(random.Random(f"{seed} {index}"))


@pytest.mark.slow
@pytest.mark.parametrize("part", range(PARTS))
def test_random_logs(answer, logs, part):
    number, seen = logs[0], collections.Counter()
    for seed, uids, expected, given in cases_of(*logs, part):
        texts = [log_text(version, lines) for version, lines in given]
        wanted = Families(uids, expected, given).answer()
        assert same(answer(expected, texts), wanted), seed
        seen.update(line.split()[0] for line in wanted)
    if number >= NUMBER // PARTS:
        assert not [kind for kind in KINDS if not seen[kind]]


@pytest.mark.parametrize("rule", WRONG)
def test_a_wrong_reconciler_is_found(rule):
    for index in range(PLANTED):
        uids, expected, logs = case_of(random.Random(f"{SEED} {index}"))
        right = Families(uids, expected, logs).answer()
        if not same(right, WRONG[rule](uids, expected, logs).answer()):
            return
    pytest.fail("it is not found")
