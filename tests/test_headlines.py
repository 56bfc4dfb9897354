"""What the page says of random logs and collections, by its modules under node: no headline, nor a
light of a log, says more than the object that it is said of (helpers/headlines.py)."""
import base64
import json
import random
import re
from collections import Counter

from helpers import random_collections
from helpers.air import Ask, Listed, Reply
from helpers.headlines import collection_says_too_much, each_says_too_much, log_says_too_much
from helpers.program import TOP, Program
from helpers.random_logs import contradicted, eight_uids, log_text, random_log

NUMBER, PARTS, SEED = 600, 1, 15701
# How many of the logs are as a reader writes them that asks true questions.
TRUE_SHARE = 0.7


def listed(rng, uids, there):
    """What a reader claims of what is there, mostly all of it."""
    forgotten, made_up = rng.choice(((0, 0), (0, 0), (0.2, 0), (0, 0.2), (1, 0)))
    return [Listed(uid) for uid in uids
            if (rng.random() >= forgotten if uid in there else rng.random() < made_up)]


def log_of(rng):
    """A log, and how many UIDs it lists: that of a search that is true, to its end or broken off,
    or any."""
    version, uids = rng.randint(1, 3), eight_uids(rng)
    if rng.random() < TRUE_SHARE:
        there = {uid for uid in uids if rng.random() < rng.choice((0, 0.3, 0.8))}
        lines = random_collections.search(rng, version, uids, there)
        lines = lines[:rng.choice((len(lines), rng.randint(0, len(lines))))]
        lines += listed(rng, uids, there)
    elif rng.random() < 0.8:
        lines = random_log(rng, version)[1]
    else:
        version, lines = contradicted(rng)
    return log_text(version, lines), sum(isinstance(line, Listed) for line in lines)


def collection_of(rng):
    """The files of a collection; some are small, and complete as long as no reply was hidden."""
    if rng.random() < 0.2:
        uids = dict(zip("ab", eight_uids(rng)))
        rows = "".join(f"{uid:016X},{name}\n" for name, uid in uids.items())
        return [("K", f"uid,place\n{rows}".encode()), *(
            (name, log_text(1, [Ask(False, 0, 0), Reply(uid)])) for name, uid in uids.items())]
    while True:
        case = random_collections.case_of(rng)
        if len({*case.words} & {*case.files}) > 1 and {*case.words} <= {*case.files}:
            return [(name, case.files[name]) for name in dict.fromkeys(case.words)]


def said_of(module, cases, is_each=False):
    """What the page says of logs and collections, each a list of names and texts, or of several
    logs without a catalogue."""
    coded = [[(name, base64.b64encode(text).decode()) for name, text in files] for files in cases]
    given = "\n".join(json.dumps({"each": files} if is_each else files) for files in coded)
    node = Program("node", TOP / "tests/wasm/headlines.mjs", module)
    return map(json.loads, node.told(given=given.encode()).splitlines())


def test_no_headline_of_a_log_says_more_than_its_object(wasm_module, logs):
    number, seed = logs
    cases = [log_of(random.Random(f"{seed} {at}")) for at in range(number)]
    seen = Counter()
    for (text, count), said in zip(cases, said_of(wasm_module, [[("log", text)] for text, _ in
                                                                cases]), strict=True):
        why = log_says_too_much(said, count)
        assert not why, f"{said['headline']!r} {said.get('lights')}: {why}\n{text.decode()}"
        seen[said["object"]["kind"]] += 1
        seen[said["look"]] += 1
    assert seen.keys() >= {"complete", "absent", "unlisted", "unsettled", "doubtful", "impossible",
                           "yes", "read", "no"}


def test_no_headline_of_several_logs_says_more_than_their_objects(wasm_module, logs):
    """It counts as complete only those of which nothing is left open, as green is."""
    number, seed = logs
    rng, seen = random.Random(f"{seed} each"), Counter()
    cases = [[log_of(rng) for _ in range(rng.randint(2, 4))] for _ in range(number // 2)]
    given = [[(str(at), text) for at, (text, _) in enumerate(case)] for case in cases]
    for case, said in zip(cases, said_of(wasm_module, given, True), strict=True):
        why = each_says_too_much(said, [count for _, count in case])
        assert not why, f"{said['headline']!r}: {why}\n{[text.decode() for text, _ in case]}"
        complete = sum(it["kind"] == "complete" for it in said["objects"])
        seen[f"{complete} complete", re.sub("^.*show", "", said["headline"])] += 1
    # also some that are complete, and of which others may be there
    assert {("2 complete", ": 1 of 3."), ("1 complete", ": 0 of 2.")} <= seen.keys()


def test_no_headline_of_a_collection_says_more_than_its_object(wasm_module, logs):
    number, seed = logs
    cases = [collection_of(random.Random(f"{seed} {at}")) for at in range(number // 2)]
    seen = Counter()
    for files, said in zip(cases, said_of(wasm_module, cases), strict=True):
        seen["refused" if "error" in said else str(said["object"]["status"])] += 1
        if "error" not in said and said["object"]["logs"]:
            why = collection_says_too_much(said)
            assert not why, f"{said['headline']!r}: {why}\n{said['object']}\n{files}"
    assert seen.keys() >= {"0", "1", "2", "refused"}
