"""The rows of tests/data/rows through the binding for each language: what its `run` writes is what
the program has to write, byte by byte, with its status."""
import pytest

from helpers.lines import log_of, rows
from helpers.program import Program
from helpers.rows import FILES, OfProgram
from helpers.shims import USAGE, ByJavaScript, ByProgram, ByPython, make_shim
from test_bindings import TOOLS, go_environment, rust_environment

LANGUAGES = "cpp", "go", "rust", "python", "javascript"


@pytest.fixture(scope="session")
def shim(request, once):
    """The program by the binding for a language."""
    if request.param == "python":
        request.getfixturevalue("vicinity")
        return ByPython()
    if request.param == "javascript":
        one = ByJavaScript(request.getfixturevalue("wasm_module"))
        request.addfinalizer(one.node.kill)
        return one
    library = request.getfixturevalue("release")
    made = once(f"shim-{request.param}", lambda folder: make_shim(
        request.param, library, folder, {**TOOLS, **go_environment(library)},
        {**TOOLS, **rust_environment(library, once)}))
    return ByProgram(Program(made / "run"))


@pytest.mark.parametrize("name", FILES)
@pytest.mark.parametrize("shim", LANGUAGES, indirect=True)
def test_rows_by_a_binding(shim, name):
    asked = OfProgram(shim)
    for place, line in rows(name):
        words, given, *answers = (cell.strip() for cell in line.split("|"))
        command, _, status = words.partition(" ")
        try:
            asked.row(command, given, answers, int(status) if status else None)
        except AssertionError as error:
            error.add_note(place)
            raise


@pytest.mark.parametrize("shim", LANGUAGES, indirect=True)
def test_files_by_a_binding(shim, tmp_path):
    """Their names come into the answer; texts that aren't what a command takes have none."""
    (tmp_path / "list").write_bytes(log_of("UA UB"))
    (tmp_path / "day é").write_bytes(log_of("I1 RA"))
    (tmp_path / "night").write_bytes(log_of("I1 RA I1 S"))
    said = shim.run("reconcile", "list", "day é", "night", cwd=tmp_path)
    assert said == (b"impossible at line 5 of night\n", b"", 2)
    assert shim.run("reconcile", "list", "day é", cwd=tmp_path)[::2] == (
        b"absent E0040100000000B2\n", 1)
    assert shim.run("check", "list", "day é", cwd=tmp_path) == USAGE
