"""Asks the program for the words of random frames, and for the frames of these words: as many
requests as replies, with masks of every length. `frame` has to write the words, and `spell` the
frame. That they are inverse is proved; what the words are stands in definitions. `--logs NUMBER`
says how many there are."""
import random

from helpers.frames import inventory, reply, stay_quiet

NUMBER = 600
KINDS = inventory, stay_quiet, reply, reply


def test_random_frames(program, pytestconfig):
    rng = random.Random(15693)
    for index in range(pytestconfig.getoption("--logs") or NUMBER):
        frame, line, _ = KINDS[index % len(KINDS)](rng)
        said = program.run("frame", frame)
        assert line in said.out.decode().splitlines() and said.status == 0
        assert program.run("spell", *line.split()) == (f"{frame}\n".encode(), b"", 0)
