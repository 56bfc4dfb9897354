"""What the object of a log tells to ask for its open masks: nothing that ended in a collision."""
import json

import pytest

import biglog
from helpers.lines import text_of

ALL = (0, 0)
ROUND = [biglog.ask(ALL, 16), *["C"] * 16]


def slots_of(mask):
    """The masks of the sixteen slots of a mask."""
    length, value = mask
    return [(length + 4, value | number << length) for number in range(16)]


CASES = [
    ("nothing was asked", [], [(ALL, [(ALL, 16)])]),
    ("a reader that stopped", [biglog.ask((1, 0)), "S"], [((1, 1), [((1, 1), 1)])]),
    ("a collision in one slot", [biglog.ask((1, 0)), "S", biglog.ask((1, 1)), "C"],
     [((1, 1), [((1, 1), 16)])]),
    ("a collision in a slot of sixteen",
     [biglog.ask(ALL, 16), *["S"] * 3, "C", *["S"] * 12], [((4, 3), [((4, 3), 16)])]),
    ("collisions in all of sixteen slots", ROUND,
     [(ALL, [(mask, 16) for mask in slots_of(ALL)])]),
    ("collisions in the slots of a slot", [*ROUND, biglog.ask((4, 0), 16), *["C"] * 16],
     [(ALL, [(mask, 16) for mask in slots_of((4, 0)) + slots_of(ALL)[1:]])]),
    ("a collision in the last slot, behind garbled ones",
     [biglog.ask((1, 0)), "S", biglog.ask((1, 1), 16), *["D"] * 15, "C"],
     [((1, 1), [*((mask, 1) for mask in slots_of((1, 1))[:15]), (slots_of((1, 1))[15], 16)])]),
]


@pytest.mark.parametrize(("lines", "asked"), [case[1:] for case in CASES],
                         ids=[case[0] for case in CASES])
def test_no_collision_is_asked_again(program, lines, asked):
    version = 2 if "D" in lines else 1
    said = program.run("json", given=text_of([f"vicinity-log {version}", *lines]))
    masks = json.loads(said.out)["open"]["masks"]
    assert [((it["mask_len"], int(it["mask_value"].replace("-", "0"), 16)), it["ask"])
            for it in masks] == [
        (mask, [biglog.ask(*request) for request in requests]) for mask, requests in asked]
