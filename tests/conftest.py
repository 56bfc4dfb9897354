"""What the tests share: the program, the library for C, the commands in C, and the same for other
machines.

Each is built when a test first asks for it, unless it is there and is newer than the code. A test
that asks for what this machine can't build or run is skipped, and says what tests/setup would
install.
"""
import contextlib
import fcntl
import os
import random
import sys

import pytest

pytest.register_assert_rewrite("helpers")
# what tests import leaves nothing in the repository
sys.dont_write_bytecode = True
os.environ["PYTHONDONTWRITEBYTECODE"] = "1"

from helpers.chips import OVER_A_CHIP, loop_with  # noqa: E402
from helpers.library import Library, OneCall  # noqa: E402
from helpers.lines import biglog  # noqa: E402
from helpers.program import (  # noqa: E402
    MAKE, TOP, Commands, Program, build, linked, many, needs, program_of)
from helpers.rows import LIBRARIES, MODULES, OfLibrary, OfProgram  # noqa: E402
from helpers.tables import behind_lengths  # noqa: E402
from helpers.texts import texts as all_texts  # noqa: E402
from helpers.wasm import WasmLibrary  # noqa: E402
from helpers.wine import wine_in  # noqa: E402

OUT = TOP / "out"
# For each text there are so many lines of answers at least.
ANSWERS = 19
ARM = ("qemu-aarch64-static", "-L", "/usr/aarch64-linux-gnu")
# How many tests a process has before it at most.
MOST_BEFORE = 4


def pytest_addoption(parser):
    parser.addoption("--write", action="store_true",
                     help="write what is compared with the sources anew")
    parser.addoption("--logs", type=int, help="how many random logs are judged, of a new seed")
    parser.addoption("--seed", type=int, help="the seed of these random logs")


@pytest.hookimpl(trylast=True)
def pytest_collection_modifyitems(config, items):
    """Processes that share the tests begin with those that take long, so that none ends with one
    alone."""
    if hasattr(config, "workerinput"):
        items.sort(key=lambda item: item.get_closest_marker("slow") is None)


@pytest.hookimpl(optionalhook=True)
def pytest_xdist_make_scheduler(config, log):
    """Each process has few tests before it, so that the next ones are for whoever is free."""
    class FewAtOnce(pytest.importorskip("xdist.scheduler").LoadScheduling):
        def _send_tests(self, node, num):
            super()._send_tests(node, min(num, MOST_BEFORE - len(self.node2pending[node])))
    return FewAtOnce(config, log)


def pytest_terminal_summary(terminalreporter):
    """Ends with the line that ./test counts by."""
    def number(*kinds):
        return sum(len(terminalreporter.stats.get(kind, [])) for kind in kinds)
    skipped = number("skipped")
    terminalreporter.write_line(f"{number('passed')} passed, {number('failed', 'error')} failed"
                                + (f", {skipped} skipped" if skipped else ""))


@pytest.fixture
def logs(request, pytestconfig):
    """How many random logs a part of a module's test has, of its NUMBER, and their seed."""
    module = request.module
    number, seed = pytestconfig.getoption("--logs"), pytestconfig.getoption("--seed")
    if seed is None:
        seed = module.SEED if number is None else random.randrange(10**9)
    return (number or module.NUMBER) // module.PARTS, seed


@pytest.fixture
def kept(pytestconfig):
    """Compares a file with what it has to be; with --write it is written anew."""
    def compare(file, text):
        if pytestconfig.getoption("--write"):
            file.write_text(text)
        # the lines that differ, each once
        assert [line for line in file.read_text().splitlines()
                if line not in text.splitlines()] == []
        assert file.read_text() == text
    return compare


@pytest.fixture(scope="session")
def program(pytestconfig):
    """The proved program: `program.run("check", given=b"..")` gives what it wrote, and its
    status."""
    return program_of(pytestconfig, "vicinity")


@pytest.fixture(scope="session")
def release(pytestconfig):
    """The folder with the program, libvicinity.so, libvicinity.a and vicinity.h, as they are
    released."""
    build(pytestconfig, *MAKE, "release")
    return OUT / "release"


@pytest.fixture(scope="session")
def library(release):
    """The calls for C, as they are released: `library.check(text, ..)`; `library.path` is its
    file."""
    return Library(release / "libvicinity.so")


@pytest.fixture(scope="session")
def library_rattle(pytestconfig):
    """The same, made by the kit's other compiler."""
    build(pytestconfig, *MAKE, "release", "BACKEND=rattle")
    return Library(OUT / "release-rattle/libvicinity.so")


@pytest.fixture(scope="session")
def library_by_one_call(library):
    """The program, by the library's call that does what it does."""
    return OneCall(library)


@pytest.fixture(scope="session")
def library_rattle_by_one_call(library_rattle):
    return OneCall(library_rattle)


@pytest.fixture(scope="session")
def wasm_by_one_call(wasm):
    return OneCall(wasm)


@pytest.fixture(scope="session", params=LIBRARIES)
def native(request):
    """The library by each compiler."""
    return request.getfixturevalue(request.param)


@pytest.fixture(scope="session", params=MODULES)
def library_of(request):
    """The library by each compiler, and as WebAssembly."""
    return request.getfixturevalue(request.param)


@pytest.fixture(scope="session")
def vicinity(release):
    """The Python package over the library as it is released."""
    os.environ["LIBVICINITY"] = str(release / "libvicinity.so")
    import vicinity as package
    return package


@pytest.fixture(scope="session")
def once(tmp_path_factory):
    """Makes something in a folder of this name, once for all processes of a run."""
    top = tmp_path_factory.getbasetemp()
    top = top.parent if "PYTEST_XDIST_WORKER" in os.environ else top

    def make_in(name, make):
        folder = top / name
        with open(top / f"{name}.lock", "w") as lock:
            fcntl.flock(lock, fcntl.LOCK_EX)
            if not folder.exists():
                new = tmp_path_factory.mktemp(name)  # nothing of a try that failed is in it
                make(new)
                new.rename(folder)
        return folder
    return make_in


@pytest.fixture(scope="session")
def read_tables(pytestconfig):
    """What crates/tables prints of texts, a line each."""
    program = program_of(pytestconfig, "tables")
    return lambda texts: program.told(given=behind_lengths(texts)).splitlines()


@pytest.fixture(scope="session")
def million(once):
    """The file of a session of 115,600 tags, which has a million lines."""
    return once("million", lambda folder: (folder / "log").write_bytes(
        biglog("session", 115_600))) / "log"


@pytest.fixture(scope="session")
def running(tmp_path_factory):
    """Runs commands that were made in a folder, all in one process, by what starts them."""
    with contextlib.ExitStack() as at_end:
        def run(made, program, *words):
            one = Commands(Program(*words, made), program, tmp_path_factory.mktemp("many"))
            at_end.enter_context(one.process)
            return one
        yield run


@pytest.fixture(scope="session")
def commands(release, once, running):
    """The commands in C, with a look at each access to memory, and at what is left of it."""
    watched = ("-fsanitize=address,undefined", "-fno-sanitize-recover=all")

    def make(folder):
        linked(release, folder / "vicinity", "-std=c99", "-O2", *TOP.glob("commands/*.c"), *watched)
        many(folder, ["cc", *watched], release / "libvicinity.a")
    made = once("commands", make)
    return running(made / "many", Program(made / "vicinity"))


@pytest.fixture(scope="session")
def loop_over_a_chip(release, once):
    """The example of a reader's loop in C, over a chip that a test simulates."""
    made = once("loop", lambda folder: loop_with(release, folder, OVER_A_CHIP))
    return Program(made / "loop")


@pytest.fixture(scope="session")
def arm_release(pytestconfig):
    """The folder of what is released for 64-bit ARM."""
    needs("aarch64-linux-gnu-gcc", "/usr/aarch64-linux-gnu/include/stdio.h", "qemu-aarch64-static")
    build(pytestconfig, *MAKE, "release", "TARGET=arm64")
    return OUT / "release-arm64"


@pytest.fixture(scope="session")
def arm(arm_release, once, running):
    """The commands in C for 64-bit ARM, under an emulator."""
    made = once("arm", lambda folder: many(folder, ["aarch64-linux-gnu-gcc"],
                                           arm_release / "libvicinity.a"))
    return running(made / "many", Program(*ARM, arm_release / "vicinity"), *ARM)


@pytest.fixture(scope="session")
def wasm_module(pytestconfig):
    """The file of the library as WebAssembly."""
    needs("wasm-opt", "node")
    build(pytestconfig, *MAKE, "wasm")
    return OUT / "wasm/vicinity.wasm"


@pytest.fixture(scope="session")
def wasm(wasm_module):
    """The calls of the library as WebAssembly, which node makes."""
    library = WasmLibrary(wasm_module)
    with library.module.node:
        yield library


@pytest.fixture(scope="session")
def windows_release(pytestconfig):
    """The folder of what is released for Windows."""
    needs("x86_64-w64-mingw32-gcc")
    build(pytestconfig, *MAKE, "windows")
    return OUT / "windows"


@pytest.fixture(scope="session")
def wine():
    """What starts a program for Windows."""
    needs("wine", "wineserver", "setarch")
    OUT.mkdir(exist_ok=True)
    with wine_in(OUT / "wine") as started:
        yield started


@pytest.fixture(scope="session")
def windows(wine, windows_release, once, running):
    """The commands in C for Windows."""
    made = once("windows", lambda folder: many(
        folder, ["x86_64-w64-mingw32-gcc", "-D__USE_MINGW_ANSI_STDIO=1"],
        "targets/windows/start.c", "release/heap.c", OUT / "module/windows.o",
        renamed=["-Dopen=open_utf8"]))
    return running(made / "many.exe", Program(*wine.words, windows_release / "vicinity.exe"),
                   *wine.words)


@pytest.fixture(scope="session")
def texts():
    """The texts of helpers/texts.py, each after its length, for tests/c/answers.c."""
    return b"".join(b"%d\n%s" % (len(text), text) for text in all_texts())


@pytest.fixture(scope="session")
def answers(release, tmp_path_factory):
    """tests/c/answers.c over the library for C."""
    return linked(release, tmp_path_factory.mktemp("answers") / "answers", "-O2",
                  "tests/c/answers.c")


@pytest.fixture(scope="session")
def answered(answers, texts):
    """What the library for C answers to these texts, with every number."""
    out, _, status = answers.run(given=texts)
    assert status == 0 and out.count(b"\n") >= ANSWERS * len(all_texts())
    return out


@pytest.fixture(scope="session")
def browser():
    """A browser without a window."""
    needs("chromium", "chromedriver", "/usr/lib/python3/dist-packages/selenium")
    from helpers.webdriver import Browser
    one = Browser()
    yield one
    one.close()


@pytest.fixture(scope="session")
def asked(request):
    """Who is asked for rows: the fixture of the name that a test is parametrised with."""
    one = request.getfixturevalue(request.param)
    return OfLibrary(one) if isinstance(one, Library) else OfProgram(one)
