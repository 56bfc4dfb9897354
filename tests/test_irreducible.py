"""Leaves out each line of the conflicts of random impossible logs.

`report` names the lines that no tags fit together. A log of these lines alone, each asked by its
mask, with the Stay Quiets and the field cycles as they were, has to be impossible, and possible
without any one of them. `--logs NUMBER` says how many impossible logs there are."""
import random

import pytest

from helpers.air import COLLISION, FIELD_CYCLE, SILENT, Ask, StayQuiet, slots_of
from helpers.random_logs import contradicted, log_text

NUMBER, PARTS = 1000, 8


@pytest.fixture
def asked(program):
    """The lines that the program writes of a log."""
    def ask(command, version, lines):
        return program.run(command, given=log_text(version, lines)).out.decode().splitlines()
    return ask


def log_of_slots(lines, kept):
    """A log of some slots of another one, each asked by its mask, where the same tags are Quiet."""
    left = []
    for number, line in enumerate(lines, 2):
        if isinstance(line, StayQuiet) or line == FIELD_CYCLE:
            left.append(line)
        elif number in kept:
            left += [Ask(False, *kept[number].mask), line]
    return left


@pytest.mark.slow
@pytest.mark.parametrize("part", range(PARTS))
def test_no_line_of_a_conflict_can_be_left_out(asked, pytestconfig, part):
    def is_impossible(kept):
        return asked("check", 3, log_of_slots(lines, kept))[0].startswith("impossible")

    rng, left = random.Random(f"56 {part}"), (pytestconfig.getoption("--logs") or NUMBER) // PARTS
    while left:
        version, lines = contradicted(rng)
        first, *rest = asked("report", version, lines)
        if not first.startswith("impossible"):
            continue
        left -= 1
        numbers = [int(line.split()[-1]) for line in rest if line.startswith("by line ")]
        kept = {slot.number: slot for slot in slots_of(lines) if slot.number in numbers}
        text = log_text(version, lines).decode()
        assert numbers and numbers == sorted(kept) and is_impossible(kept), text
        for number in numbers:
            without = {line: slot for line, slot in kept.items() if line != number}
            assert not is_impossible(without), f"{number} of {text}"


def test_no_line_of_a_large_conflict_can_be_left_out(asked):
    """Of a collision of all tags, after which each mask of 19 bits is silent, the first one twice:
    a conflict has the collision, each mask once and the last line, and without any one of them two
    tags are left."""
    bits, lines = 15, [Ask(False, 0, 0), COLLISION, Ask(False, 19, 0), SILENT]
    for value in range(2**bits):
        lines += [Ask(True, bits, value)] + [SILENT] * 16
    first, *rest = asked("report", 2, lines)
    numbers = [int(line.removeprefix("by line ")) for line in rest]
    kept = set(numbers)
    slots = [slot for slot in slots_of(lines) if slot.number in kept]
    assert first == f"impossible at line {len(lines) + 1}"
    assert numbers == [slot.number for slot in slots] and numbers[0] == 3
    assert len(numbers) == len({slot.mask for slot in slots}) == 2**19 + 1
