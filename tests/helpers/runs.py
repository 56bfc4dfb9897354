"""Random runs of each command of the program: over texts as people have them, and damaged ones."""
import random
from typing import NamedTuple

from helpers import families, random_collections
from helpers.air import Listed
from helpers.fuzz import changed_log
from helpers.names import OPERANDS
from helpers.program import TOP
from helpers.random_logs import log_text, random_log

COMMANDS = [*OPERANDS]
SEEDS = [log.read_bytes() for log in sorted(TOP.glob("examples/*.log"))]
OUTCOMES = tuple(letter.encode() for letter in "SCDNRH")
SPELLED = [line.split() for line in (
    "request inventory link 2 slots 1 mask 8 A1", "request inventory link 2 slots 16 mask 4 01",
    "request inventory link 2 slots 1 mask 0 -",
    "request inventory link 2 slots 16 mask 60 0000000000000000",
    "request stay-quiet link 2 uid E0040100000000A1",
    "response flags 00 dsfid 00 uid E0040100000000A1")]
PUT_IN = ["", " 2", "2 ", *"""request response inventory link slots mask uid 0 1 2 3 4 16 -1 +2 02
    - 00 A1 a1 1F 61 64 65 x 256 4294967298 18446744073709551615 18446744073709551616
    E0040100000000A1 D0040100000000A1 e0040100000000A1""".split()]
# What isn't in a name of a file on every system.
NOWHERE = set('\\"')


class Run(NamedTuple):
    """The words after a command, its files by their names, and its standard input."""
    words: list
    files: dict = {}
    given: bytes = b""


def random_run(rng, command):
    """A run of a command."""
    if OPERANDS[command] == "[FILE]":
        text = random_text(rng)
        if command == "simulate" and rng.randrange(4):
            text = b"\n".join(line for line in text.split(b"\n") if line[:1] not in OUTCOMES)
        return Run(["log"], {"log": text}) if rng.randrange(2) else Run([], given=text)
    if command in ("frame", "spell"):
        return Run(words_of(rng, command))
    return over_files(rng, command)


def random_text(rng):
    """The text of a log: a true one, a random one, or a damaged one."""
    if not rng.randrange(4):
        return changed_log(rng, SEEDS)
    version = rng.randint(1, 3)
    text = log_text(version, random_log(rng, version)[1])
    return random_collections.spliced(rng, [text]) if not rng.randrange(3) else text


def words_of(rng, command):
    """A frame, or the words of one, of which some are changed."""
    if command == "spell":
        words, put_in = list(rng.choice(SPELLED)), PUT_IN
    else:
        lines = log_text(1, random_log(rng, 1)[1]).decode().split()
        words = list(rng.choice([word for word in lines if len(word) > 8]))
        put_in = list("0123456789ABCDEFabcdef ")
    for _ in range(rng.randrange(3)):
        words[rng.randrange(len(words))] = rng.choice(put_in)
    if not rng.randrange(8):
        del words[-rng.randrange(1, 4):]
    return words if command == "spell" else ["".join(words)]


def over_files(rng, command):
    """A list and logs; or a collection, of which `survey` has the logs."""
    if command == "reconcile" and rng.randrange(2):
        _, expected, logs = families.case_of(rng)
        texts = [log_text(1, map(Listed, expected)), *(log_text(*log) for log in logs)]
        long = "x" * rng.choice((0, 0, 200))
        files = {f"{long}{name}": text for name, text in zip(("list", *families.NAMES), texts)}
        words = [*files]
    else:
        files, words = collection(rng)
        logs = [word for word in words if random_collections.kind_of(files[word]) == "log"]
        words = logs if command == "survey" and logs and rng.randrange(8) else words
    if not rng.randrange(3):
        name = rng.choice([name for name in files if files[name]])
        files[name] = random_collections.spliced(rng, [files[name]])
    return Run(words, files)


def collection(rng):
    """A collection, each of whose words is a file on every system."""
    while True:
        files, words = random_collections.case_of(rng)
        if not any(NOWHERE & {*name} or name.endswith(" ") for name in files):
            return {**dict.fromkeys(words, b""), **files}, words


def runs_of(number, seed):
    """As many runs, each behind its command."""
    for index in range(number):
        command = COMMANDS[index % len(COMMANDS)]
        yield command, random_run(random.Random(f"{seed} {index}"), command)
