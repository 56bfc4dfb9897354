"""The library for C by both of the kit's compilers: its header, what both answer, texts and buffers
that end where memory ends, and each allocation refused in turn. The commands in C, over one of
them, are asked what the program is (test_commands.py); the calls one by one are in test_calls.py,
programs in other languages in test_bindings.py."""
import re

import pytest
from vicinity._native import AnswerStruct

from helpers.library import CALLS, uids
from helpers.program import STRICT, TOP, Program, linked, needs, told
from helpers.texts import texts

LOGS = sorted(TOP.glob("examples/*.log"))
# More elements than a call finds.
MANY = 1 << 12


@pytest.mark.parametrize("standard", ["c89", "c99", "c11", "c++98", "c++17"])
def test_the_header_is_c_and_cpp_of_each_standard(standard):
    language = "c++" if standard.startswith("c++") else "c"
    told("cc", "-x", language, f"-std={standard}", *STRICT, "-fsyntax-only", "-include",
         "include/vicinity.h", "/dev/null")


# The calls whose result is a status, each with its parameters.
RETURNING = re.findall(r"^enum vicinity_status (vicinity_\w+)\(([^;]*)\);",
                       (TOP / "include/vicinity.h").read_text(), re.M)


def test_what_judges_returns_a_status():
    """All that write an answer, and those that write what the program does instead."""
    written = [name for name, given in RETURNING if "*answer" not in given]
    assert written == ["vicinity_simulate", "vicinity_run"]
    header = (TOP / "include/vicinity.h").read_text()
    declared = re.findall(r"^[a-z].*\bvicinity_\w+\(([^;{]*)\);", header, re.M)
    assert len(declared) == len(CALLS)
    assert sum("*answer" in given for given in declared) == len(RETURNING) - len(written)


@pytest.mark.parametrize("compiler", ["gcc", "g++", "clang++"])
@pytest.mark.parametrize(("compared", "warned"), [
    ("VICINITY_COMPLETE", True), ("VICINITY_REFUSED", True), ("VICINITY_FINDING_ABSENT", True),
    ("VICINITY_STATUS_COMPLETE", False), ("VICINITY_STATUS_DONE", False)])
def test_a_status_that_is_compared_with_a_kind_is_warned_of(tmp_path, compiler, compared, warned):
    """By -Wall: complete is 1 as a kind, and 0 as a status."""
    needs(compiler)
    source = tmp_path / f"compared.{'cpp' if '++' in compiler else 'c'}"
    lines = ['#include "vicinity.h"']
    for name, given in RETURNING:
        words = ", ".join(re.findall(r"(\w+)(?:,|$)", given))
        lines.append(f"int {name}_is({given}) {{ return {name}({words}) == {compared}; }}\n")
    source.write_text("\n".join(lines))
    said = Program(compiler, "-Wall", "-Iinclude", "-fsyntax-only", source).run()
    assert said.status == 0
    assert said.err.count(b"[-Wenum-compare]") == len(RETURNING) * warned
    assert warned or said.err == b""


def test_complete_is_the_kind_and_not_the_status(release, tmp_path):
    (tmp_path / "complete.c").write_text("""#include "vicinity.h"
int main(void)
{
    static const char log[] = "vicinity-log 1\\nT 260100F60A\\nS\\n";
    struct vicinity_answer answer = {0};
    if (vicinity_is_complete(&answer)) /* no answer, though its status is 0 */
        return 1;
    vicinity_check((const uint8_t *)log, sizeof log - 1, &answer);
    if (!vicinity_is_complete(&answer))
        return 2;
    vicinity_check((const uint8_t *)log, sizeof log - 3, &answer); /* unsettled */
    return vicinity_is_complete(&answer) ? 3 : 0;
}
""")
    complete = linked(release, tmp_path / "complete", tmp_path / "complete.c")
    assert complete.run() == (b"", b"", 0)


def test_the_sizes_on_the_pages(release):
    """Within a twentieth."""
    page = (TOP / "docs/PERFORMANCE.md").read_text()
    sizes, = re.findall(r"`libvicinity.a` has about (\d+) KB, `libvicinity.so` (\d+) KB", page)
    for name, size in zip(("libvicinity.a", "libvicinity.so"), map(int, sizes)):
        assert size == pytest.approx((release / name).stat().st_size / 1000, rel=0.05)


@pytest.mark.slow
def test_both_compilers_make_the_same_of_every_text(library, library_rattle):
    """Each number of each call, about worked logs, their beginnings and changed ones."""
    listed = uids([0xE0040100000000B2, 0xE0040100000000A1])

    def said(one, text):
        for name in "explain", "report", "simulate":
            told, needed, room = one.into(MANY, name, text)
            yield name, told if name == "simulate" else bytes(told), needed, bytes(room)
        for name, given in ("check", []), ("check_listed", [listed]):
            yield bytes(one.told(AnswerStruct, name, text, *given))

    assert library.path.read_bytes() != library_rattle.path.read_bytes()
    for text in texts():
        assert list(said(library, text)) == list(said(library_rattle, text)), text


def test_nothing_is_read_or_written_past_its_end(native, tmp_path):
    guard = linked(native.path.parent, tmp_path / "guard", "tests/c/guard.c")
    assert guard.run(*LOGS).status == 0


def test_each_allocation_is_refused(native, tmp_path):
    wrapped = "-Wl,--wrap=malloc,--wrap=realloc,--wrap=free"
    refused = linked(native.path.parent, tmp_path / "refused", "tests/c/calls_refused.c", wrapped)
    assert refused.run(*LOGS).status == 0


def test_the_archive_with_another_c_library(native, program, tmp_path):
    commands = linked(native.path.parent, tmp_path / "vicinity", "-std=c99", "-static",
                      *TOP.glob("commands/*.c"), compiler="musl-gcc")
    for log in LOGS:
        assert commands.run("report", log) == program.run("report", log)
