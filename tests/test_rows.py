"""Asks for the rows of tests/data/rows, and for damaged logs: the program, the calls for C by both
compilers, the commands in C, those for ARM and for Windows, and the module for WebAssembly.
`pytest tests -k 'row and verdicts:17'` asks for one row."""
import pytest

from helpers.lines import log_of
from helpers.rows import BY_ONE_CALL, MODULES, PROGRAMS, all_rows

EVERYBODY = (*PROGRAMS, "windows", *BY_ONE_CALL, *MODULES)
COMPLETE = "I16 S RA RB S13 UA UB"
# A log that is impossible from its second tag in a round on; and how it begins, which is possible.
IMPOSSIBLE, POSSIBLE = "I16 S C S14 I16M1 S10 RA S S4 UA", "I16 S C S14 I16M1 S10 RA S4"


@pytest.mark.parametrize(("asked", "command", "given", "answers", "status"), all_rows(EVERYBODY),
                         indirect=["asked"])
def test_row(asked, command, given, answers, status):
    asked.row(command, given, answers, status)


@pytest.mark.parametrize("asked", EVERYBODY, indirect=True)
def test_beginnings_of_a_complete_log(asked):
    """Nothing shorter is complete, but for the last LF."""
    log = log_of(COMPLETE)
    lengths = [length for length in range(len(log) + 1)
               if asked.begins(log[:length]).startswith(b"complete")]
    assert lengths == [len(log) - 1, len(log)]


@pytest.mark.parametrize("asked", EVERYBODY, indirect=True)
def test_beginnings_of_an_impossible_log(asked):
    """It is impossible or refused from its impossible line on, and not impossible before."""
    log, possible = log_of(IMPOSSIBLE), len(log_of(POSSIBLE))
    kinds = [asked.begins(log[:length]).split()[0] for length in range(len(log) + 1)]
    assert b"impossible" not in kinds[:possible + 1]
    assert set(kinds[possible + 1:]) == {b"impossible", b"refused"}
