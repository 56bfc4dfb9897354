"""The model of collections (helpers/collections.py, surveys.py), which was written from the pages,
asked for the worked rows of tests/data/collections/. What is wrong in one rule is found by them."""
import random

import pytest

from helpers import collections, surveys
from helpers.collection_rows import files_of, is_right, reader, rows
from helpers.random_collections import changed_texts
from helpers.wrong_collections import WRONG, reads_without_an_end

# How many texts of surveys are changed, in how many parts; at least one in so many is one again.
CHANGED, PARTS, ONE_IN, SEED = 20_000, 5, 50, 15699


@pytest.mark.parametrize(("command", "files", "row", "answer"), rows())
def test_the_pages_say_the_same(command, files, row, answer):
    """The model, which is written from the pages."""
    said = collections.run(command, files, reader(files_of(row)))
    assert is_right(answer, said), said


@pytest.mark.parametrize("part", range(PARTS))
def test_the_model_reads_surveys_exactly(part):
    """What is read of a text is written as this text."""
    read = 0
    for text in changed_texts(random.Random(f"{SEED} {part}"), CHANGED // PARTS):
        found = surveys.read(text)
        if isinstance(found, list):
            read += 1
            assert surveys.written(found) == text
        else:
            assert 1 <= found <= text.count(b"\n") + 1
    assert read > CHANGED // PARTS // ONE_IN


def is_found(monkeypatch, where, name, wrong):
    """Whether some row isn't answered as it has to be, with something wrong in a module."""
    monkeypatch.setattr(where, name, wrong)
    quick = (row.values for row in rows() if not row.marks)
    return any(not is_right(answer, collections.run(command, files, reader(files_of(row))))
               for command, files, row, answer in quick)


@pytest.mark.parametrize("rule", WRONG)
def test_a_wrong_collection_is_found(monkeypatch, rule):
    assert is_found(monkeypatch, collections, "Collection", WRONG[rule])


def test_who_reads_surveys_that_were_cut_is_found(monkeypatch):
    assert is_found(monkeypatch, collections, "read_surveys", lambda name, text: (
        found if isinstance(found := reads_without_an_end(text), list) else []))


def test_who_writes_a_quote_as_it_is_is_found(monkeypatch):
    assert is_found(monkeypatch, collections, "quoted", lambda cell, separator: cell.encode())
