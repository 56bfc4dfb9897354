"""Asks for what the program writes by one call of the library: of both compilers, and as
WebAssembly. The rows of one log are asked in test_rows.py."""
import pytest

from helpers.library import COMMANDS, SIZE, U32, OneCall, run_arguments
from helpers.lines import log_of, reconciled_rows


@pytest.mark.parametrize(("expected", "logs", "lines", "status"), [
    pytest.param(*row, id=place) for place, *row in reconciled_rows()])
def test_row_of_many_logs_by_one_call(library_of, tmp_path, expected, logs, lines, status):
    names = ["EXPECTED", *"abc"[:len(logs)]]
    for name, text in zip(names, (expected, *logs)):
        (tmp_path / name).write_bytes(text)
    wanted = "".join(f"{line}\n" for line in lines).encode()
    assert OneCall(library_of).run("reconcile", *names, cwd=tmp_path) == (wanted, b"", status)


LOG, LISTS = log_of("I1 RA UA"), log_of("UA")


@pytest.mark.parametrize(("command", "texts"), [
    *((command, texts) for command in COMMANDS[:5] for texts in ([], [LOG, LOG])),
    ("reconcile", []), ("frame", []), ("frame", [b"26", b"01"]), ("spell", []),
    *((command, [word]) for command in ("frame", "spell")
      for word in (b"\xff", b"2\xc3", b"\xed\xa0\x80")),
    ("spell", [b"request", b"\x80"])])
def test_what_a_command_does_not_take(library_of, command, texts):
    """The line that the program writes to standard error, in buffers of every size."""
    assert library_of.into_each(b"vicinity: usage\n", "run", *run_arguments(command, texts)) == 4


FAR = (1 << 64) - 1


@pytest.mark.parametrize(("number", "names", "lengths"), [
    *((number, b"a\nb\n", [len(LISTS), len(LOG)]) for number in (0, 13, 1 << 31, (1 << 32) - 1)),
    *((6, names, [len(LISTS), len(LOG)]) for names in (
        b"", b"\n", b"a\n", b"a\nb", b"a\nb\nc\n", b"a\nb\n\n", b"a\n\xff\n", b"\xc3\n\xa9\n")),
    *((6, b"a\nb\n", lengths) for lengths in (
        [], [len(LISTS)], [len(LISTS), len(LOG) - 1], [len(LISTS), len(LOG) + 1],
        [len(LISTS), len(LOG), 0], [FAR, len(LISTS) + len(LOG) + 1],
        [len(LISTS) + len(LOG) + 2, FAR - 1]))])
def test_what_does_not_go_together(library_of, number, names, lengths):
    """No command has the number, the names aren't as many as the texts, or the lengths don't add up
    to what is there, also where their sum would wrap around. Nothing is written."""
    given = U32(number), names, LISTS + LOG, (SIZE * len(lengths))(*lengths)
    status, needed, room = library_of.into(64, "run", *given)
    assert (status, needed, bytes(room)) == (4, 0, b"\7" * 64)


@pytest.mark.parametrize(("command", "texts", "names", "written", "status"), [
    ("check", [LOG], None, b"complete 1\n", 0),
    ("check", [LOG + b"\0"], None, b"refused at line 5: UnknownEntry\n", 3),
    ("check", [b""], None, b"refused at line 1: Header\n", 3),
    ("frame", [b""], None, b"request refused Short\nresponse refused Length\n", 3),
    ("frame", [b"26\x0001"], None, b"refused Hex\n", 3),
    ("spell", [b"", b"\0\n"], None, b"refused Words\n", 3),
    ("reconcile", [LISTS], [b"a"], b"absent E0040100000000A1\n", 1),
    ("reconcile", [LISTS, LOG], [b"a", b"a"], b"complete 1\n", 0),
    ("reconcile", [LISTS, LOG], [b"", b""], b"vicinity: usage\n", 4),
    ("reconcile", [LOG, b""], [b"a \0\r", b"b"], b"vicinity: usage\n", 4),
    ("reconcile", [LOG, b""], [b"a b", b"b"], b"refused at line 2 of a b: NotListed\n", 3),
    ("reconcile", [LISTS, LOG, b"", b""], ["a", "b", "\u00e9", "d"],
     "refused at line 1 of \u00e9: Header\n".encode(), 3)])
def test_what_a_command_writes(library_of, command, texts, names, written, status):
    """In buffers of every size. A NUL, and a text of no bytes, are as any other."""
    names = names and [name if isinstance(name, bytes) else name.encode() for name in names]
    assert library_of.into_each(written, "run", *run_arguments(command, texts, names)) == status
