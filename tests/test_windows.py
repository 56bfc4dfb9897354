"""The library and the commands for Windows, under wine. tests/test_rows.py and
tests/test_reconcile.py ask them for the rows of tests/data/rows. Nothing here says how Windows
itself behaves."""
import pty
import re

import pytest

from helpers.library import CALLS
from helpers.lines import log_of
from helpers.program import MAKE, TOP, Program, told

CC = ("x86_64-w64-mingw32-gcc", "-O2", "-Wall", "-Wextra", "-Werror",
      "-D__USE_MINGW_ANSI_STDIO=1", f"-I{TOP}/include")
LOGS = sorted(str(log) for log in (TOP / "examples").glob("*.log"))
LOG, EMPTY = log_of("I1 RA UA"), log_of("")
READ = (b"complete 1\n", b"", 0)
UID_B = 0xE0040100000000B2
NAMES = ("shelf 3.log", "Größe.log", "полка.log", "日本の棚.log", "😀.log")
# The table of what a DLL exports.
EXPORTED = re.compile(r"^\t\[ *\d+\] (?:\+base\[ *\d+\] +[0-9a-f]+ )?(vicinity_\w+)", re.M)


@pytest.fixture(scope="module")
def released(wine, windows_release):
    """The commands as they are released, a start for each run."""
    return Program(*wine.words, windows_release / "vicinity.exe")


@pytest.fixture(scope="module")
def built(windows_release, wine, tmp_path_factory):
    """Builds a C program for Windows beside the DLL, and gives what runs it."""
    folder = tmp_path_factory.mktemp("windows")
    (folder / "vicinity.dll").write_bytes((windows_release / "vicinity.dll").read_bytes())

    def build(name, *words):
        made = folder / f"{name}.exe"
        told(*CC, "tests/c/binary.c", f"tests/c/{name}.c", *words, "-o", made)
        return Program(*wine.words, made)
    return build


@pytest.mark.slow
def test_the_same_bytes_come_out_again(windows_release, tmp_path):
    told(*MAKE, "windows", f"windows={tmp_path}", f"objects={tmp_path}")
    for name in "vicinity.dll", "vicinity.exe", "libvicinity.dll.a":
        assert (tmp_path / name).read_bytes() == (windows_release / name).read_bytes()


def test_every_number_by_the_dll(built, windows_release, texts, answered):
    answers = built("answers", windows_release / "libvicinity.dll.a")
    said = answers.run(given=texts)
    assert (said.status, said.err) == (0, b"")
    assert said.out == answered


def test_each_growth_is_refused(built, windows_release):
    refused = built("calls_refused", "-Wl,--wrap=malloc,--wrap=realloc,--wrap=free",
                    TOP / "release/heap.c", TOP / "out/module/windows.o")
    said = refused.run(*LOGS)
    assert (said.status, said.err) == (0, b"")
    assert b"growths refused, no answer each" in said.out


@pytest.mark.parametrize("name", NAMES)
def test_a_file_by_its_name(released, tmp_path, name):
    (tmp_path / name).write_bytes(LOG)
    assert released.run("check", name, given=EMPTY, cwd=tmp_path) == READ
    refused = f"refused at line 2 of {name}: NotListed\n".encode()
    assert released.run("reconcile", name, name, cwd=tmp_path).out == refused
    unread = f"vicinity: cannot open no {name}\n".encode()
    assert released.run("check", f"no {name}", cwd=tmp_path) == (b"", unread, 4)


def test_bytes_are_read_as_they_are(released, tmp_path):
    """Lines that end with CR LF, and a byte 26, which ends a text for some programs of Windows."""
    (tmp_path / "log").write_bytes(LOG.replace(b"\n", b"\r\n"))
    assert released.run("check", "log", cwd=tmp_path) == READ
    assert released.run("check", given=LOG.replace(b"\n", b"\r\n")) == READ
    (tmp_path / "log").write_bytes(LOG + b"\x1a\n")
    refused = (b"refused at line 5: UnknownEntry\n", b"", 3)
    assert released.run("check", "log", cwd=tmp_path) == refused
    assert released.run("check", given=LOG + b"\x1a\n") == refused


def test_the_example_reads_bytes_too(wine, windows_release, tmp_path):
    """It is linked with the DLL itself. What comes before the byte 26 is complete."""
    (tmp_path / "vicinity.dll").write_bytes((windows_release / "vicinity.dll").read_bytes())
    told(*CC, "examples/c/check.c", tmp_path / "vicinity.dll", "-o", tmp_path / "check.exe")
    said = Program(*wine.words, tmp_path / "check.exe").run(given=LOG + b"\x1a\n")
    assert said == (b"refused at line 5: UnknownEntry\r\n", b"", 3)


def test_a_folder_is_not_read(released):
    assert released.run("check", ".") == (b"", b"vicinity: read failed\n", 4)


def test_a_full_disk(released, tmp_path):
    (tmp_path / "log").write_bytes(LOG)
    for words in ["check"], ["check", "log"], ["frame", "260100F60A"]:
        with open("/dev/full", "wb") as full:
            said = released.run(*words, given=LOG, stdout=full, cwd=tmp_path)
        assert said == (b"", b"vicinity: write failed\n", 4)


def test_a_console_keeps_its_code_page(built, windows_release):
    _, console = pty.openpty()
    streams = dict.fromkeys(("stdin", "stdout", "stderr"), console)
    assert built("code_page").run(cwd=windows_release, **streams).status == 0


def test_a_pattern_stands_for_its_files(released, tmp_path):
    """Not for those, as of old logs, that it fits only by the short names they have there."""
    (tmp_path / "list").write_bytes(log_of("UA UB"))
    for name, log in ("a.log", "I1 RA"), ("b.log_old", "I1 RB"):
        (tmp_path / name).write_bytes(log_of(log))
    for pattern in "*.log", "?.log", ".\\*.LOG":
        said = released.run("reconcile", "list", pattern, cwd=tmp_path)
        assert said == (f"absent {UID_B:X}\n".encode(), b"", 1)
    said = released.run("reconcile", "list", "*.log*", cwd=tmp_path)
    assert said == (b"complete 2\n", b"", 0)
    unread = b"vicinity: cannot open *.txt\n"
    assert released.run("reconcile", "list", "*.txt", cwd=tmp_path) == (b"", unread, 4)


def test_a_session_of_a_million_lines(released, program, million):
    for command in "check", "explain", "report":
        words = {"cwd": million.parent}
        assert released.run(command, "log", **words) == program.run(command, "log", **words)


def test_the_dll_exports_each_call_and_needs_what_each_windows_has(windows_release):
    said = told("x86_64-w64-mingw32-objdump", "-p", windows_release / "vicinity.dll")
    assert sorted(EXPORTED.findall(said)) == sorted(CALLS)
    assert set(re.findall(r"DLL Name: (.*)", said)) == {"KERNEL32.dll", "msvcrt.dll"}
