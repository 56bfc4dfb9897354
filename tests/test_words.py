"""What the words of the command line ask for, and the ends without an answer. The commands in C are
asked the same as the program in test_commands.py."""
import json
import os

import pytest

from helpers.lines import log_of

LOG, EMPTY = log_of("V3 I1 HA I1 RA UA"), log_of("V3")
READ = (b"complete 1\n", b"", 0)
MEASURED = (b"complete 1\nmargin 1\nweakest 1 00\nhidden 1 00\ndeaf 1 00\n", b"", 0)
USAGE = (b"", b"vicinity: usage\n", 4)
UNREAD, UNWRITTEN = (b"", b"vicinity: read failed\n", 4), (b"", b"vicinity: write failed\n", 4)


@pytest.fixture(scope="session")
def file(tmp_path_factory):
    name = tmp_path_factory.mktemp("words") / "a.txt"
    name.write_bytes(LOG)
    return str(name)


@pytest.mark.parametrize("command", ["check", "explain", "report"])
def test_a_log_is_read_from_a_file_or_standard_input(program, file, command):
    assert program.run(command, given=LOG) == READ
    assert program.run(command, file, given=EMPTY) == READ


def test_margin_reads_a_file_or_standard_input(program, file):
    assert program.run("margin", given=LOG) == MEASURED
    assert program.run("margin", file, given=EMPTY) == MEASURED


def test_json_reads_a_file_or_standard_input(program, file):
    for said in program.run("json", given=LOG), program.run("json", file, given=EMPTY):
        assert (json.loads(said.out)["answer"], said.err, said.status) == ("complete 1", b"", 0)


def test_simulate_reads_a_file_or_standard_input(program, file):
    assert program.run("simulate", given=EMPTY) == (EMPTY, b"", 0)
    assert program.run("simulate", file) == (b"refused at line 3: OutcomeGiven\n", b"", 3)


def test_two_dashes_end_the_options(program, file):
    assert program.run("check", "--", file, given=EMPTY) == READ
    assert program.run("spell", "-x", "--", "--help") == (b"refused Words\n", b"", 3)


def test_frame_and_spell_end_with_their_status(program):
    assert program.run("frame", "26").status == 3
    assert program.run("spell", "request inventory link 2 slots 1 mask 0 -").status == 3


@pytest.mark.parametrize("words", [
    [], ["help"], ["list"], ["json", "-x"],
    ["survey", "--"], ["survey", "-x"], ["survey", ""], ["survey", "a\tb"],
    ["survey", "a", "b\nc"], ["survey", b"\xff"],
    ["check", "-x"], ["frame", "--"], ["spell", "--"], ["check", b"\xff"],
    ["spell", b"\xed\xa0\x80"]], ids=repr)
def test_words_that_are_no_command(program, words):
    """How many operands each takes: test_names.py."""
    assert program.run(*words) == USAGE


def test_another_name_of_the_program(program):
    assert program.run(name="check") == USAGE


def test_a_name_that_names_no_file(program):
    assert program.run("check", "") == (b"", b"vicinity: cannot open \n", 4)


def test_a_folder_is_not_read(program):
    assert program.run("check", ".") == UNREAD


def test_a_full_device(program):
    with open("/dev/full", "wb") as full:
        assert program.run("check", given=LOG, stdout=full) == UNWRITTEN


def test_closed_streams(program):
    assert program.run("check", given=LOG, stdout=None, preexec_fn=lambda: os.close(1)) == UNWRITTEN
    assert program.run("check", stdin=None, preexec_fn=lambda: os.close(0)) == UNREAD
