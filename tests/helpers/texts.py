"""Texts about which each kind of library is asked for every number (tests/c/answers.c)."""
import random

from helpers.fuzz import changed_log
from helpers.lines import log_of, rows
from helpers.program import TOP

CHANGED = 1000
WORKED = ("verdicts", "texts", "populations")


def texts():
    """The worked logs, changed ones, and each beginning of the first."""
    seeds, rng = [log.read_bytes() for log in sorted(TOP.glob("examples/*.log"))], random.Random(11)
    worked = [log_of(line.split("|")[1].strip()) for name in WORKED for _, line in rows(name)
              if line.startswith(("check", "explain"))]
    beginnings = [seeds[0][:end] for end in range(len(seeds[0]))]
    return seeds + worked + [changed_log(rng, seeds) for _ in range(CHANGED)] + beginnings
