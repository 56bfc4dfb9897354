"""The library for 64-bit ARM, under an emulator: the examples in C, every number that it returns on
worked, changed and large texts, texts and buffers that end where memory ends, and each allocation
refused in turn. The library for x86-64 is what it is compared with. The commands are asked in
test_rows.py and test_commands.py, the Python package in test_wheels.py."""
import re

import pytest

from helpers.lines import biglog
from helpers.program import TOP, Program, linked, told

LOGS = sorted(TOP.glob("examples/*.log"))
COMMANDS = "check", "explain", "report", "margin", "simulate"
# A search for so many tags has over 100,000 lines.
TAGS, LEAST = 12_000, 100_000


@pytest.fixture(scope="session")
def both(release, arm_release, tmp_path_factory):
    """Builds a program in C for ARM, and for this machine."""
    folder = tmp_path_factory.mktemp("arm")

    def build(source, *words):
        there = linked(arm_release, folder / "there", "-static", "-O2", source, *words,
                       compiler="aarch64-linux-gnu-gcc")
        here = linked(release, folder / "here", "-O2", source, *words)
        return Program("qemu-aarch64-static", *there.words), here
    return build


@pytest.fixture(scope="session")
def large(tmp_path_factory):
    """A log of over 100,000 lines."""
    log = tmp_path_factory.mktemp("large") / "large.log"
    log.write_bytes(biglog("session", TAGS))
    assert log.read_bytes().count(b"\n") > LEAST
    return log


@pytest.mark.parametrize("command", COMMANDS)
def test_the_released_program(arm, program, command):
    """Rows are asked of the same commands, but all in one process."""
    for log in LOGS:
        assert arm.program.run(command, log) == program.run(command, log)


@pytest.mark.parametrize("log", [*LOGS, "large"], ids=lambda log: getattr(log, "name", log))
def test_the_example_answers_as_the_program(both, program, request, log):
    log = request.getfixturevalue("large") if log == "large" else log
    assert both("examples/c/check.c")[0].run(log) == program.run("check", log)


def test_the_reader_loop_answers_as_here(both):
    there, here = (one.run("40") for one in both("examples/c/reader_loop.c"))
    assert there == here and there.status == 0


def test_the_example_in_go(arm_release, program, tmp_path):
    """Built as the README of the bindings says."""
    told("go", "build", "-buildvcs=false", "-o", tmp_path / "check", cwd=TOP / "examples/go",
         CGO_ENABLED="1", GOARCH="arm64", CC="aarch64-linux-gnu-gcc",
         CGO_CFLAGS=f"-I{arm_release}", CGO_LDFLAGS=f"-L{arm_release} -static")
    check = Program("qemu-aarch64-static", tmp_path / "check")
    for log in LOGS:
        assert check.run(log)[::2] == program.run("check", log)[::2]


@pytest.mark.slow
def test_each_number_is_the_one_of_here(both, texts, answered):
    assert both("tests/c/answers.c")[0].run(given=texts) == (answered, b"", 0)


@pytest.mark.slow
def test_nothing_is_read_or_written_past_its_end(both):
    assert both("tests/c/guard.c")[0].run(*LOGS).status == 0


@pytest.mark.slow
def test_each_allocation_is_refused(both):
    wrapped = "-Wl,--wrap=malloc,--wrap=realloc,--wrap=free"
    assert both("tests/c/calls_refused.c", wrapped)[0].run(*LOGS).status == 0


@pytest.mark.slow
@pytest.mark.parametrize("command", COMMANDS)
def test_the_commands_on_a_large_log(arm, program, large, command):
    text = large.read_bytes()
    if command == "simulate":
        text = re.sub(rb"^[SCRD].*\n", b"", text, flags=re.M)
    assert arm.run(command, given=text) == program.run(command, given=text)
