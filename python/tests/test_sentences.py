"""What is said of faults and answers: each fault has a sentence, and names no part that lacks."""
import os
import re

import pytest
from cases import TOP
from vicinity import Fault
from vicinity._sentences import SENTENCES, advice, numbered

NOT_OF_TABLES = {"SameName", "Survey", "turned", "unnamed", "utf16"}


def faults_of_tables():
    with open(os.path.join(TOP, "docs/TABLES.md"), encoding="utf-8") as page:
        return set(re.findall(r"^\| `(\w+)` \|", page.read(), re.MULTILINE))


@pytest.mark.parametrize("fault", [fault for fault in Fault if fault])
def test_each_fault_of_a_log(fault):
    said = advice(fault.word)
    assert said != advice("") and fault.wrong
    assert not re.search("[{}]", said.wrong + said.fix)


def test_a_reply_has_sentences_of_its_own():
    assert Fault.FRAME_NOT_VICINITY.wrong == advice("NotVicinity", "replies").wrong
    assert advice("NotVicinity", "replies") != advice("NotVicinity")
    assert advice("ErrorFlag", "replies") == advice("ErrorFlag")


def test_each_fault_of_a_table():
    assert set(SENTENCES["tables"]) == faults_of_tables() | NOT_OF_TABLES


def test_a_number():
    assert [numbered("noOthers", number) for number in (1, 2)] == [
        ", and no other.", ", and no others."]
    assert numbered("absent", 1) == "1 didn't answer"
    assert numbered("allListed", 2000) == "All 2,000 listed tags are here"
