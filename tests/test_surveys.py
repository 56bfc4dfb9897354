"""What `vicinity survey` writes: the worked rows of tests/data/collections/; and of random logs,
which have to be surveyed as by the model (helpers/surveys.py)."""
import random
import subprocess

import pytest

from helpers import surveys
from helpers.collection_rows import files_of, is_right, rows
from helpers.random_collections import case_of, kind_of
from helpers.random_logs import log_text, random_log

# How many random collections and other random logs are surveyed, in how many parts.
NUMBER, PARTS, SEED = 1500, 5, 15699


@pytest.fixture
def survey(program, tmp_path):
    """What the program writes of files, in a folder that has these alone."""
    def said(names, texts):
        for name, text in texts.items():
            (tmp_path / name).parent.mkdir(parents=True, exist_ok=True)
            (tmp_path / name).write_bytes(text)
        return program.run("survey", *names, cwd=tmp_path, stdin=subprocess.DEVNULL)
    return said


@pytest.mark.parametrize(("command", "files", "row", "answer"),
                         [row for row in rows() if row.values[0] == "survey"])
def test_row(survey, command, files, row, answer):
    assert is_right(answer, said := survey(files, files_of(row))), said


def logs_of(rng):
    """Some logs by their names: those of a random collection, or one of another kind."""
    version = rng.randint(1, 3)
    if rng.random() < 0.2:
        return {"a.log": log_text(version, random_log(rng, version)[1])}
    files = case_of(rng).files
    return {name: text for name, text in files.items() if kind_of(text) == "log"}


@pytest.mark.slow
@pytest.mark.parametrize("part", range(PARTS))
def test_random_logs(survey, logs, part):
    number, seed = logs
    for index in range(number):
        texts = logs_of(random.Random(f"{seed} {part} {index}"))
        if texts:
            out, err, status = survey(texts, texts)
            told, wanted = surveys.read(out), [surveys.of(*log) for log in texts.items()]
            assert surveys.written(told) == out
            assert all(map(surveys.is_right, told, wanted)) and len(told) == len(wanted), texts
            assert (err, status) == (b"", max(one.status for one in wanted))
