"""What the program writes of collections: the worked rows of tests/data/collections/; random ones,
and changed texts of surveys, which it has to answer as the model does (helpers/collections.py),
byte by byte; and small ones, of which each family of populations is tried."""
import json
import random
import shutil
import subprocess
from collections import Counter

import pytest

from helpers import collections, surveys
from helpers.collection_rows import files_of, is_right, reader, rows
from helpers.random_collections import case_of, changed_texts, seed_texts
from helpers.worlds import is_complete, place_of, world_of

# How many random collections there are, and how many changed texts of surveys, in how many parts.
NUMBER, CHANGED, PARTS, SEED = 2000, 20_000, 5, 15699
COMMANDS = "collection", "json-collection"


@pytest.fixture
def run(program, tmp_path):
    """What a command of the program writes in a folder that has these files alone."""
    def said(command, words, texts):
        return Asked(program, tmp_path / "asked", texts).run(command, *words)
    return said


@pytest.mark.parametrize(("command", "files", "row", "answer"),
                         [row for row in rows() if row.values[0] in COMMANDS])
def test_row(run, command, files, row, answer):
    said = run(command, files, files_of(row))
    assert is_right(answer, said), said


class Asked:
    """The program, over the files of one random collection."""

    def __init__(self, program, folder, texts):
        self.program, self.folder, self.texts, self.surveys = program, folder, texts, {}
        folder.mkdir()
        for name, text in texts.items():
            self.put(name, text)

    def put(self, name, text):
        (self.folder / name).parent.mkdir(parents=True, exist_ok=True)
        (self.folder / name).write_bytes(text)

    def run(self, command, *words):
        return self.program.run(command, *words, cwd=self.folder, stdin=subprocess.DEVNULL)

    def survey(self, name, text):
        """What the program says of a log, which the model has to say as well; where several lines
        show a UID, the program has chosen one."""
        if name not in self.surveys:
            self.put(name, text)
            out, err, status = self.run("survey", name)
            found, wanted = surveys.read(out), surveys.of(name, text)
            assert isinstance(found, list) and surveys.written(found) == out, out
            told, = found
            assert (err, status) == (b"", wanted.status)
            assert surveys.is_right(told, wanted), text
            self.surveys[name] = told
        return self.surveys[name]

    def told(self, command, words):
        """What a command writes, which is what the model says."""
        said = self.run(command, *words)
        wanted = collections.run(command, words, reader(self.texts), self.survey)
        assert said == wanted, (command, words, self.texts)
        return said


def answer_in(text):
    """The line of the answer in an object."""
    return json.loads(text)["answer"].encode()


def asked_of(program, folder, seed, part, number):
    """Random collections, each with the words of its files."""
    for index in range(number):
        case = case_of(random.Random(f"{seed} {part} {index}"))
        yield Asked(program, folder / str(index), case.files), case.words


@pytest.mark.slow
@pytest.mark.parametrize("part", range(PARTS))
def test_random_collections(program, tmp_path, logs, part):
    number, seed = logs
    seen = set()
    for asked, words in asked_of(program, tmp_path, seed, part, number):
        for command in COMMANDS:
            out, err, _ = asked.told(command, words)
        seen.add(answer_in(out).split()[0] if out.startswith(b"{") else (out or err).split()[0])
        shutil.rmtree(asked.folder)
    if number >= NUMBER // PARTS:
        assert seen >= {b"complete", b"absent", b"unlisted", b"unsettled", b"misplaced",
                        b"impossible", b"refused", b"vicinity:"}


@pytest.mark.slow
@pytest.mark.parametrize("part", range(PARTS))
def test_random_logs_surveyed_alone(program, tmp_path, logs, part):
    """And their texts put together, in this order and in another."""
    number, seed = logs
    compared = 0
    for asked, words in asked_of(program, tmp_path, f"{seed} alone", part, number):
        names = [word for word in words if word in asked.texts
                 and collections.kind_of(asked.texts[word]) == "log"]
        tables = [word for word in words if word not in names and word != "all"]
        texts = [asked.run("survey", name).out for name in names]
        if names:
            assert asked.run("survey", *names).out == b"".join(texts)
        asked.put("together", b"".join(texts))
        asked.put("turned", b"".join(texts[::-1]))
        one, same, other = (asked.run("json-collection", *tables, *more) for more in (
            names, ["together"] * bool(names), ["turned"] * bool(names)))
        assert one == same
        if other.out.startswith(b"{") and one.out.startswith(b"{"):
            compared += 1
            one, other = json.loads(one.out), json.loads(other.out)
            for key in ("status", "counts", "unsettled", "without_log", "columns"):
                assert one[key] == other[key] or key == "status" and {2, 3} >= {
                    one[key], other[key]}
            assert [item["state"] for item in one["items"]] == [
                item["state"] for item in other["items"]]
        shutil.rmtree(asked.folder)
    assert compared > number // 3


@pytest.mark.slow
@pytest.mark.parametrize("part", range(PARTS))
def test_changed_texts_of_surveys(program, tmp_path, logs, part):
    """They are refused, or say exactly what is in them."""
    rng = random.Random(f"{logs[1]} {part}")
    uids = {uid for text in seed_texts(rng) for log in surveys.read(text) for uid in log.certain}
    catalogue = b"uid,place\n" + b"".join(
        b"%016X,%s\n" % (uid, rng.choice((b"a", b"any", b"b"))) for uid in sorted(uids)[::9])
    asked = Asked(program, tmp_path / "asked", {"K": catalogue})
    for number, text in enumerate(changed_texts(rng, CHANGED // PARTS)):
        asked.texts["all"] = text
        asked.put("all", text)
        asked.told(COMMANDS[number % 2], ["K", "all"])


@pytest.mark.parametrize("seed", range(60))
def test_a_catalogue_of_uids_alone_says_what_its_list_does(program, tmp_path, seed):
    case = case_of(random.Random(f"list {seed}"))
    names = [name for name, text in case.files.items() if collections.kind_of(text) == "log"]
    uids = sorted({uid for name in names for uid in surveys.of(name, case.files[name]).certain})
    uids = uids[seed % 3:] or [0xE004010000000000]
    asked = Asked(program, tmp_path / "asked", case.files)
    asked.put("list", b"vicinity-log 1\n" + b"".join(b"U %016X\n" % uid for uid in uids))
    asked.put("table", b"uid\n" + b"".join(b"%016X\n" % uid for uid in uids))
    said = asked.run("reconcile", "list", *names)
    told = asked.run("json-collection", "table", *names)
    if told.out.startswith(b"{"):
        assert said.out.splitlines()[0] == answer_in(told.out)
        assert said.status == told.status
    else:
        assert told.status in (3, 4)  # names that a list accepts


@pytest.mark.slow
@pytest.mark.parametrize("part", range(PARTS))
def test_complete_by_trying_all_families(program, tmp_path, logs, part):
    """It is said where all that it says is so, and each place has a log and each log a place."""
    number, seed = logs
    said = Counter()
    for index in range(number // 2):
        world = world_of(random.Random(f"{seed} {part} family {index}"))
        asked = Asked(program, tmp_path / str(index), world.case.files)
        answer = answer_in(asked.run("json-collection", *world.case.words).out).split()[0]
        places = {place for _, place, away in world.items if place and not away}
        named = {place for _, place, _ in world.items}
        logs_of = {place_of(name) for name in world.lines}
        assert (answer == b"complete") == (
            is_complete(world) and places <= logs_of <= named), (world.case, answer)
        said[answer] += 1
        shutil.rmtree(asked.folder)
    assert said[b"complete"] > number // 20
