"""Asks for random and damaged texts, by every command of the program, in each way in which it is
done: the same bytes and the same status as by the proved program."""
import pickle
from collections import defaultdict

import pytest

from helpers.runs import COMMANDS, runs_of
from helpers.shims import ByJavaScript, ByPython

# How many runs there are, in how many parts.
NUMBER, PARTS, SEED = 3000, 2, 15700
WAYS = ("library_by_one_call", "library_rattle_by_one_call", "wasm_by_one_call", "commands", "arm",
        "windows", "by_python", "by_javascript")
# The statuses of a command that answers a log, or many.
ANSWERS = {0, 1, 2, 3}
STATUSES = {**dict.fromkeys(COMMANDS, ANSWERS), **dict.fromkeys(("simulate", "frame", "spell"),
                                                                {0, 3}), "survey": {0, 2, 3}}


def put(folder, files):
    for name, text in files.items():
        (folder / name).parent.mkdir(parents=True, exist_ok=True)
        (folder / name).write_bytes(text)


@pytest.fixture(params=range(PARTS))
def runs(request, once, program, logs):
    """Runs, each with what the program says."""
    number, seed = logs

    def make(folder):
        made = []
        for command, run in runs_of(number, f"{seed} {request.param}"):
            put(folder, run.files)
            made.append((command, run, program.run(command, *run.words, given=run.given,
                                                   cwd=folder)))
        (folder / "runs").write_bytes(pickle.dumps(made))
    made = once(f"runs-{seed}-{number}-{request.param}", make)
    return pickle.loads((made / "runs").read_bytes())


@pytest.fixture
def by_python(vicinity):
    return ByPython()


@pytest.fixture
def by_javascript(wasm_module):
    one = ByJavaScript(wasm_module)
    with one.node:
        yield one
        one.node.stdin.close()


@pytest.mark.slow
@pytest.mark.parametrize("way", WAYS)
def test_each_way_writes_the_same(request, way, runs, tmp_path):
    asked = request.getfixturevalue(way)
    for command, run, said in runs:
        put(tmp_path, run.files)
        assert asked.run(command, *run.words, given=run.given, cwd=tmp_path) == said, (command, run)


def test_every_status_is_seen(runs):
    """The runs are of each kind."""
    seen = defaultdict(set)
    for command, _, said in runs:
        seen[command].add(said.status)
    for command in COMMANDS:
        assert seen[command] >= STATUSES[command], command
