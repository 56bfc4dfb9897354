"""Refuses each allocation in turn, and sees how that is answered.

A few lines of C (tests/c/refuse.c) come between a built program and the C library, and refuse the
allocation with one number. A run in which none is refused shows how many there are; each is then
refused in a run of its own: those of the program's commands on some logs, and those of
crates/growths, which makes each call that takes memory and that no command makes. By the number of
sets of open UIDs that are made it is seen that no log is judged more than once; where a reply isn't
borne out none is made, so of such a log this says nothing."""
import random
import resource

import pytest

from biglog import BITS, SHAPES, ask, low, new_tags, version_of
from helpers import random_logs
from helpers.lines import biglog, log_lines, log_of, rows, text_of
from helpers.memory import WANT, counted, refused, shim
from helpers.program import TOP, program_of

EXAMPLE = (TOP / "examples/unfinished-count.log").read_bytes()
# The logs, by the short names of their lines, on which each allocation of a command is refused: of
# each verdict, of each kind of conflict, and two to fill in.
JUDGED = ("I16 S RA RB S13 UA UB", "I1 C MA RA QA I1 RB UA UB",
          "I16 S C S14 I16M1 S10 RA RB1 S4 UA UB1", "I1 RA", "I1 S UA",
          "QA I1 S", "QA I1 S UA", "M55 C QZ QY I1 S", "MB RA", "I1 RA QA I1 RA", "I1 S I1 RA",
          "I1 RA I1 S",
          "I16 S C S14 I16M1 S10 RA S S4 UA", "V2 QZ I1 S F I1 D", "V3 I16 N HA S14 QA I1 HB UA UB")
ASKED = ("I16 UA UB", "I1 QA I1 UA UB")
# Commands over words and over a log.
OVER_WORDS = ("spell request inventory link 2 slots 1 mask 0 -", "frame 260100F60A")
# What is expected, and logs, on which each allocation of `reconcile`, and of `survey`, is refused:
# with each kind of finding, and without.
RECONCILED = (("UA UB", "I1 RA", "I1 RB"), ("UA UB", "I1 RA", "I1 S"), ("UA", "I1 RA", "I1 RB"),
              ("UB", "QA I1 RB", "I1 S"),
              ("UA UB", "QA I1 RB", "I1 S"), ("UA", "I1 C MA RA"), ("UA", "I1 S I1 RA"),
              ("UA", "I1 RA"))
# How many sizes of memory the commands run in, and the steps, in bytes, by which the least one is
# looked for: where a frame is answered, or want of memory is. In less the system doesn't load the
# program.
SIZES, STEP, ANSWERED = 10, 256 * 1024, (0, 4)
# How many silent rounds of two lines stand around a contradiction, each of another tag, and how
# many of their lines behind a late one.
ROUNDS, LAST_LINES = 3000, 200
# How many random impossible logs are judged, in how many parts. How many lines, or the like, the
# shapes have that were made to hurt.
IMPOSSIBLE, PARTS = 2000, 5
HOSTILE = ("quiet-polls", "quiet-answers", "nest-singles-late", "nest-scattered-late",
           "nest-unmet-late", "eight-replies",
           "eight-replies-late", "replies-listed", "all-heard-hidden", "all-silent", "sixteen-late",
           "listed-scattered", "session-late", "one-slot", "captured", "captured-turns")
HOSTILE_SIZE = 500
# The calls of crates/growths, in their order: what it writes when nothing is refused.
CALLS = [line.rpartition(" ")[0]
         for line in (TOP / "crates/growths/stdout").read_text().splitlines()]
PLANTED = ["planted answer", "planted idleness"]


@pytest.fixture(scope="session")
def refuse(tmp_path_factory):
    """The lines of C, built."""
    return shim("refuse", tmp_path_factory.mktemp("growths"))


@pytest.fixture(scope="session")
def growths(pytestconfig):
    """The calls."""
    return program_of(pytestconfig, "growths")


def wrong_calls(answer, names):
    """Whether a run of the calls in which one allocation was refused isn't right; the calls that
    gave something else than the right answer or want of memory, or wrote; and the one that was
    refused."""
    words = dict(line.rpartition(" ")[::2] for line in answer.out.decode().splitlines())
    memory = [call for call, word in words.items() if word == "memory"]
    other = [call for call, word in words.items() if word not in ("right", "memory")]
    is_right = (answer.err, answer.status, list(words), len(memory)) == (b"", 0, names, 1)
    return not is_right or bool(other), other, memory[0] if memory else None


def test_each_allocation_of_the_calls_is_refused(growths, refuse):
    """One call answers `memory`: it was refused memory, and gave the right answer when it was
    called again. All others are right, and each is refused memory once at least."""
    seen = set()
    for number, answer in enumerate(refused(growths, refuse), 1):
        is_wrong, _, call = wrong_calls(answer, CALLS)
        assert not is_wrong, f"refusal {number}: {answer}"
        seen.add(call)
    assert seen == set(CALLS)


def test_calls_that_are_wrong_are_found(growths, refuse):
    """One answers, one takes no memory."""
    found = [wrong_calls(answer, PLANTED) for answer in refused(growths, refuse, given=b"planted")]
    assert any(is_wrong and PLANTED[0] in other for is_wrong, other, _ in found)
    assert not any(call == PLANTED[1] for *_, call in found)


def is_refused(program, refuse, *words, given=b""):
    """Each allocation of a command is refused: want of memory is all that it writes, or what it
    writes otherwise."""
    whole = program.run(*words, given=given)
    answers = list(refused(program, refuse, *words, given=given))
    assert not [answer for answer in answers if answer not in (WANT, whole)]
    assert WANT in answers


OVER_A_LOG = [(command, log) for command in ("check", "explain", "report", "margin", "json")
              for log in ("example", *JUDGED)]
OVER_A_LOG += [("simulate", log) for log in ("example", *ASKED)]


@pytest.mark.parametrize(("command", "log"), OVER_A_LOG)
def test_each_allocation_over_a_log_is_refused(program, refuse, tmp_path, command, log):
    text = EXAMPLE if log == "example" else log_of(log)
    if (command, log) == ("simulate", "example"):
        text = b"".join(line for line in EXAMPLE.splitlines(keepends=True) if line[:1] in b"vTU")
    (tmp_path / "log").write_bytes(text)
    is_refused(program, refuse, command, str(tmp_path / "log"))


@pytest.mark.parametrize("command", ["reconcile", "survey"])
@pytest.mark.parametrize("logs", RECONCILED, ids=" | ".join)
def test_each_allocation_over_many_logs_is_refused(program, refuse, tmp_path, logs, command):
    names = [str(tmp_path / str(number)) for number in range(len(logs))]
    for name, log in zip(names, logs):
        with open(name, "wb") as file:
            file.write(log_of(log))
    is_refused(program, refuse, command, *names)


@pytest.mark.parametrize("words", OVER_WORDS)
def test_each_allocation_over_words_is_refused(program, refuse, words):
    is_refused(program, refuse, *words.split())


def hostile(name):
    lines = SHAPES[name](random.Random(1), HOSTILE_SIZE)
    return "".join(f"{line}\n" for line in [f"vicinity-log {version_of(name)}", *lines])


def judged(growths, refuse, text):
    """Whether a log is impossible, and from which line on. It isn't judged twice."""
    times, _, answer = counted(growths, refuse, given=text.encode())
    # where the replies aren't borne out no set is made
    fewest = 0 if answer.startswith("impossible") else 1
    assert fewest <= times <= 1, f"{answer} judged {times} times:\n{text[:2000]}"
    return answer


@pytest.mark.parametrize("name", HOSTILE)
def test_a_log_made_to_hurt_is_judged_once(growths, refuse, name):
    judged(growths, refuse, hostile(name))


@pytest.mark.parametrize("part", range(PARTS))
def test_random_logs_are_judged_once(growths, refuse, part):
    rng, left = random.Random(f"7 {part}"), IMPOSSIBLE // PARTS
    while left:
        text = random_logs.log_text(*random_logs.contradicted(rng)).decode()
        left -= judged(growths, refuse, text).startswith("impossible")


@pytest.fixture(scope="session")
def silent():
    """The lines of many silent rounds, each of another tag."""
    return [line for uid in new_tags(random.Random(7), ROUNDS)
            for line in (ask(low(uid, BITS)), "S")]


CONTRADICTIONS = [pytest.param(*line.split("|")[1:], id=name.removeprefix("tests/data/rows/"))
                  for name, line in rows("verdicts") if line[:7] == "check 2"]


@pytest.mark.parametrize("before", [0, ROUNDS, 2 * ROUNDS - LAST_LINES])
@pytest.mark.parametrize(("given", "answer"), CONTRADICTIONS)
def test_the_first_impossible_line_is_found_at_once(growths, refuse, silent, given, answer, before):
    """As soon as the log is judged, wherever it stands among many lines. Without it the log is
    possible."""
    number = int(answer.split()[-1])
    header, *lines = log_lines(given)[:number]
    first, behind = [header] + silent[:before], silent[before:]
    assert not judged(growths, refuse,
                      text_of(first + lines[:-1] + behind).decode()).startswith("impossible")
    found = judged(growths, refuse, text_of(first + lines + behind).decode())
    assert found == f"impossible at line {before + number}\n"


@pytest.mark.parametrize("command", ["check", "explain", "report", "margin", "simulate"])
def test_little_memory(program, tmp_path, command):
    """From far too little to enough, the answer is the same, or that there is too little."""
    log = tmp_path / "log"
    log.write_bytes(biglog("sim-session" if command == "simulate" else "session-cut", 10_000))

    def run(space, *words):
        limit = space and (lambda: resource.setrlimit(resource.RLIMIT_AS, (space, space)))
        return program.run(*words, env={}, preexec_fn=limit)

    least = STEP
    while run(least, "frame", "260100F60A").status not in ANSWERED:
        least += STEP
    whole = run(None, command, log)
    answers = [run(least + least * size // 2, command, log) for size in range(SIZES)]
    assert not [answer for answer in answers if answer not in (WANT, whole)]
    assert (answers[0], answers[-1]) == (WANT, whole)
