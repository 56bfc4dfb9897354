"""Compares docs/HEADLINE.md with the sources, and tries what `make definitions` writes; `pytest
tests/test_headline.py --write` writes the first anew. helpers/headline.py says how they are made.

Every definition that is reached from a clause that is quoted has to be quoted, and each word that
is used to be explained."""
import re

import pytest

from helpers.headline import DEFINITIONS, HEADLINE, Pages, words_of
from helpers.program import MAKE, TOP, told
from helpers.statements import load, reach


@pytest.fixture(scope="session")
def files():
    return load()


@pytest.fixture(scope="session")
def pages(files):
    return Pages(files)


@pytest.fixture(scope="session")
def reached(files, pages):
    definitions, lost = reach(files, pages.clauses)
    return definitions, words_of(files, pages.clauses, definitions), lost


def test_each_line_quotes_something_once(pages):
    assert len(pages.quoted) > len(pages.clauses) > 0
    assert not pages.faults


def test_each_definition_that_is_reached_is_there(reached):
    assert not reached[2]


def test_each_definition_that_is_reached_is_quoted(pages, reached):
    assert not [f"{name} of {file.name}"
                for file, name in reached[0] if (file, name) not in pages.quoted]


def test_each_word_that_is_used_is_explained(pages, reached):
    assert sorted(pages.explained) == sorted(reached[1])


def test_the_page_is_what_the_sentences_and_the_sources_make(kept, pages, reached):
    kept(TOP / HEADLINE, pages.texts(reached[1])[HEADLINE])


def test_the_definitions_are_made_on_demand(pages, reached):
    """With links that lead somewhere."""
    told(*MAKE, "definitions")
    text = (TOP / DEFINITIONS).read_text()
    assert text == pages.texts(reached[1])[DEFINITIONS]
    links = re.findall(r"\]\(([^)#]+)\)", text)
    assert links and all((TOP / DEFINITIONS).parent.joinpath(link).exists() for link in links)
