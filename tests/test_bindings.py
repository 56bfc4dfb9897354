"""Programs over the library in C, C++, Go, Rust and Python: they answer as the program does, and no
text that isn't a list of UIDs, and no log that says nothing, gives a wrong `complete`."""
import hashlib
import os
import platform
import pty
import re
import resource
import shutil
import signal
import subprocess
import sys
import tty

import pytest

from helpers.chips import loop_with
from helpers.frames import hex_of
from helpers.memory import shim
from helpers.program import STRICT, TOP, Program, compiled, linked, told
from helpers.rows import LIBRARIES

# Debian's compilers first: what they take, newer ones take too
TOOLS = {"PATH": "/usr/bin:" + os.environ["PATH"], "GOFLAGS": "-buildvcs=false"}
PYTHON = {"PYTHONPATH": str(TOP / "python")}
CPP = ("-std=c++11", "-Ibindings/cpp")
# On a busy machine Dask's processes may be slow to find each other.
PATIENT = {f"DASK_DISTRIBUTED__COMM__TIMEOUTS__{it}": "600s" for it in ("CONNECT", "TCP")}


def made(*words, **environment):
    """What a tool writes."""
    return told(*words, **TOOLS, **environment)


def go_environment(folder):
    """With a sum of the archive, without which go takes what it linked with another one as made."""
    made_of = hashlib.sha256((folder / "libvicinity.a").read_bytes()).hexdigest()
    return {"CGO_CFLAGS": f"-I{folder} -DMADE_OF={made_of}", "CGO_LDFLAGS": f"-L{folder}"}


def rust_environment(library, once):
    target = once(f"rust-{library.name}", lambda _: None)
    return {"VICINITY_LIB": str(library), "RUSTFLAGS": "-D warnings",
            "CARGO_TARGET_DIR": str(target)}


@pytest.fixture(scope="session")
def rust_target(release, once):
    return rust_environment(release, once)


@pytest.fixture(scope="session")
def example(request, once):
    """An example in a language over a library."""
    def build(folder, language, library, name):
        source, program = TOP / "examples" / language, folder / "program"
        if language == "c":
            linked(library, program, source / f"{name}.c")
        elif language == "cpp":
            linked(library, program, *CPP, source / f"{name}.cpp", compiler="g++")
        elif language == "go":
            made("go", "build", "-o", program, cwd=source, **go_environment(library))
        else:
            environment = rust_environment(library, once)
            made("cargo", "build", "--offline", "--locked", cwd=source, **environment)
            shutil.copy(f"{environment['CARGO_TARGET_DIR']}/debug/vicinity-check", program)

    def of(language, library, name="check"):
        path = request.getfixturevalue(library).path
        if language == "python":
            return Program(sys.executable, TOP / f"examples/python/{name}.py",
                           LIBVICINITY=str(path), **PYTHON)
        return Program(once(f"{language}-{library}-{name}", lambda folder: build(
            folder, language, path.parent, name)) / "program")
    return of


@pytest.fixture(scope="session")
def in_python(release):
    """Debian's Python, which has Dask, with the package over the library."""
    return Program("/usr/bin/python3", LIBVICINITY=str(release / "libvicinity.so.2"), **PYTHON,
                   **PATIENT)


@pytest.mark.parametrize("log", sorted(TOP.glob("examples/*.log")), ids=lambda log: log.name)
@pytest.mark.parametrize("by", LIBRARIES)
@pytest.mark.parametrize("language", ["c", "cpp", "go", "rust", "python"])
def test_an_example_answers_as_the_program(program, example, language, by, log):
    given, wanted = example(language, by).run(log), program.run("check", log)
    assert (given.out, given.status) == (wanted.out, wanted.status)


@pytest.mark.parametrize("log", sorted(TOP.glob("examples/*.log")), ids=lambda log: log.name)
@pytest.mark.parametrize("by", LIBRARIES)
@pytest.mark.parametrize("language", ["cpp", "go", "rust"])
def test_an_example_shows_why(program, example, language, by, log):
    """What it writes on standard error: the tags of `explain`, the margin of a complete list."""
    shown = program.run("explain", log).out.splitlines()[2:]
    shown += program.run("margin", log).out.splitlines()[1:]
    assert example(language, by).run(log).err.splitlines() == shown


@pytest.mark.parametrize("language", ["c", "cpp", "go", "rust", "python"])
def test_an_example_that_cannot_read_has_no_answer(example, language):
    for file in TOP, TOP / "nowhere":
        assert example(language, LIBRARIES[0]).run(file)[::2] == (b"", 4)


@pytest.mark.parametrize("language", ["c", "cpp", "go", "rust"])
def test_an_example_of_which_standard_input_breaks_off_has_no_answer(example, language):
    """What came before the error is a log whose list is complete."""
    given, terminal = pty.openpty()
    tty.setraw(terminal)
    os.write(terminal, (TOP / "examples/whole-shelf.log").read_bytes())
    os.close(terminal)
    with open(given, "rb") as broken:
        assert example(language, LIBRARIES[0]).run(stdin=broken)[::2] == (b"", 4)


@pytest.mark.parametrize("language", ["c", "python"])
def test_an_example_of_one_log_takes_no_more(example, language):
    """In the other languages further files are logs to reconcile."""
    check, whole = example(language, LIBRARIES[0]), TOP / "examples/whole-shelf.log"
    for second in TOP / "examples/unfinished-count.log", whole, TOP / "nowhere", "":
        out, err, status = check.run(whole, second)
        assert (out, status) == (b"", 4) and re.fullmatch(rb"usage: check.*\n", err)


@pytest.mark.parametrize("language", ["c", "cpp", "go", "rust", "python"])
def test_an_example_that_cannot_write_has_no_answer(example, language, tmp_path):
    """Nor a refusal; but it needs no standard error."""
    check, whole = example(language, LIBRARIES[0]), TOP / "examples/whole-shelf.log"
    refused = tmp_path / "refused.log"
    refused.write_bytes(b"uid\n")
    with open("/dev/full", "wb") as full:
        for log in whole, refused:
            _, err, status = check.run(log, stdout=full)
            assert err and status == 4
        assert check.run(whole, stdout=full, stderr=full).status
        assert check.run(whole, stderr=full)[::2] == (b"complete 4\n", 0)
    # standard output is closed, which Rust's std takes for success
    if language != "rust":
        assert check.run(whole, preexec_fn=lambda: os.close(1)).status == 4


@pytest.mark.parametrize("language", ["c", "cpp", "go", "rust"])
def test_an_example_that_is_refused_memory_has_no_answer(example, language, tmp_path):
    """An allocation of C, each in turn: those of the library, and of the program where it is in C
    or C++."""
    check, whole = example(language, LIBRARIES[0]), TOP / "examples/whole-shelf.log"
    refuse, statuses = shim("refuse", tmp_path), set()
    for number in range(1, 80):
        said = check.run(whole, env={**os.environ, "LD_PRELOAD": refuse, "REFUSED": str(number)})
        assert (said.out, said.status) in ((b"complete 4\n", 0), (b"", 4)) or (
            language == "rust" and (said.out, said.status) == (b"", -signal.SIGABRT))
        statuses.add(said.status)
    assert 4 in statuses


def test_the_example_in_go_that_is_refused_memory_by_go_has_no_answer(example, tmp_path):
    """Go itself would end it with the status of an impossible log."""
    (tmp_path / "large.log").touch()
    os.truncate(tmp_path / "large.log", 20 << 30)
    out, err, status = example("go", LIBRARIES[0]).run(
        tmp_path / "large.log",
        preexec_fn=lambda: resource.setrlimit(resource.RLIMIT_AS, (4 << 30, 4 << 30)))
    assert (out, status) == (b"", 4) and b"out of memory" in err


@pytest.mark.parametrize("by", LIBRARIES)
@pytest.mark.parametrize("language", ["c", "python"])
def test_a_reader_loop(example, language, by):
    """It finds a large field by a few calls of the checker alone, asks on for a margin, and takes
    nothing but numbers."""
    loop, margin = example(language, by, "reader_loop"), ["--margin"] * (language == "python")
    assert re.fullmatch(rb"complete 4000 .* [1-9] calls of the checker\n", loop.run("4000").out)
    rounds = [int(re.match(rb"complete 40 after (\d+) rounds", loop.run("40", *margin, k).out)[1])
              for k in "19"]
    assert rounds[0] < rounds[1]
    for word in "abc", "-1", "5x", "":
        assert loop.run(word)[::2] == (b"", 4)


@pytest.mark.parametrize("language", ["c", "python"])
def test_a_reader_loop_that_cannot_write_has_no_answer(example, language):
    loop = example(language, LIBRARIES[0], "reader_loop")
    with open("/dev/full", "wb") as full:
        assert loop.run("3", stdout=full).status == 4
    assert loop.run("3", preexec_fn=lambda: os.close(1)).status == 4


def test_a_reader_loop_that_is_refused_memory_has_no_answer(example, tmp_path):
    loop, refuse = example("c", LIBRARIES[0], "reader_loop"), shim("refuse", tmp_path)
    for number in "2", "9":
        said = loop.run("3", env={**os.environ, "LD_PRELOAD": refuse, "REFUSED": number})
        assert said == (b"", b"vicinity: out of memory\n", 4)


@pytest.mark.parametrize("language", ["c", "python"])
def test_a_reader_loop_that_does_not_reach_its_margin(example, language):
    """Its limit of rounds comes first, though the list is complete."""
    loop, margin = example(language, LIBRARIES[0], "reader_loop"), ["--margin"] * (language != "c")
    out, err, status = loop.run("3", *margin, "20000")
    assert (out[:27], status) == (b"complete 3 after 130 rounds", 1)
    assert re.fullmatch(rb"stopped at the limit of 130 rounds, with margin 12\d\n", err)


@pytest.mark.parametrize("language", ["c", "python"])
def test_a_reader_loop_in_an_empty_field(example, language):
    """It says that a deaf reader would say the same."""
    out, err, status = example(language, LIBRARIES[0], "reader_loop").run("0")
    assert (out[:11], status) == (b"complete 0 ", 0)
    assert err.startswith(b"no tag was heard: a deaf reader writes the same log, unless")


def with_lines(release, tmp_path, lines, before):
    """reader_loop.c, with these lines before one of its own."""
    return loop_with(release, tmp_path, {before: lines})


def broken_off(release, tmp_path, lines):
    """It, with these lines where its chip would fill the slots of an Inventory."""
    return with_lines(release, tmp_path, lines,
                      "    for (uint32_t k = 0; k < request.slots; k++) {\n")


def test_a_reader_loop_finds_tags_that_an_earlier_session_silenced(release, tmp_path):
    """All tags are Ready when its log begins."""
    loop = with_lines(release, tmp_path, "        field[i].quiet = 1,\n",
                      "        field[i].uid = UINT64_C(0xE0)")
    out, _, status = loop.run("3")
    assert (out[:11], status) == (b"complete 3 ", 0)


def test_a_reader_loop_whose_chip_hears_that_no_other_tag_answered(release, tmp_path):
    loop = with_lines(release, tmp_path, """    if (held.letter == 'H')
        held.letter = 'R';
""", "    return held;\n")
    out, _, status = loop.run("40")
    assert (out[:12], status) == (b"complete 40 ", 0)


@pytest.mark.parametrize(("rounds", "said", "margin"), [
    (1, b"unsettled 5 04", 0), (2, b"unsettled 56 9E3779B97F4A7C", 0), (6, b"complete 3", 3),
    (8, b"complete 3", 5)])
def test_a_reader_loop_whose_chip_stops_hears_no_silence(release, tmp_path, rounds, said, margin):
    """From some round on no slot is reached, and the margin rises no more. If it has been reached,
    no tag is heard after that."""
    loop = broken_off(release, tmp_path, f"    if (rounds >= {rounds})\n        return 0;\n")
    out, err, status = loop.run("3", "5")
    assert re.match(said + rb" after 1\d\d rounds in log 1, \d calls", out) and status == 1
    assert err.endswith(b"with margin %d\n" % margin)


@pytest.mark.parametrize("slots", [2, 16, 1 << 31])
def test_a_reader_loop_whose_chip_tells_of_too_many_slots_ends(release, tmp_path, slots):
    """All of them are silent, in a round of one slot."""
    loop = broken_off(release, tmp_path, f"""    if (request.slots == 1) {{
        for (uint32_t k = 0; k < SLOTS; k++)
            held[k].letter = 'S';
        return {slots}u;
    }}
""")
    assert loop.run("3")[::2] == (b"", -signal.SIGABRT)


@pytest.mark.parametrize("seed", "123")
def test_a_reader_loop_in_a_field_that_misbehaves(example, seed):
    """One tag was silenced before it was heard; strong replies hide others, and there is noise."""
    loop = example("python", LIBRARIES[0], "reader_loop")
    said = loop.run("30", "--capture", "0.3", "--noise", "0.1", "--seed", seed)
    assert (said.out[:12], said.status) == (b"complete 30 ", 0)


# ---- logs in which all tags were asked

A, B = "E0040100000000A1", "E0040100000000B2"
# none answered; A alone did; first none, then A
SILENT = "vicinity-log 1\nT 260100F60A\nS\n"
HEARD = "vicinity-log 1\nT 260100F60A\nR 0000A1000000000104E06745\n"
IMPOSSIBLE = SILENT + HEARD.partition("\n")[2]
LISTS = {
    "plain": (f"vicinity-log 1\nU {A}\n", (f"absent {A}", 1)),
    "cr_lf": (f"vicinity-log 1\r\nU {A}\r\n", (f"absent {A}", 1)),
    "comment_among_uids": (f"vicinity-log 1\nU {B}\n# shelf 3\nU {A}\n", (f"absent {A}", 1)),
    "csv": (f"uid,title\n{A},Of a winter\n", ("refused at line 1: Header", 3)),
    "empty": ("", ("refused at line 1: Header", 3)),
    "log": (HEARD + f"U {A}\n", ("refused at line 2: NotListed", 3)),
}
# A list and logs, and what an example writes of them.
MANY = {
    "all": (f"vicinity-log 1\r\nU {A}\r\nU {B}\r\n", [HEARD, HEARD, "B"], b"complete 2\n", 0),
    "absent": (f"vicinity-log 1\nU {B}\nU {A}\n", ["B"], f"absent {A}\n".encode(), 1),
    "impossible": ("vicinity-log 1\n", [SILENT, IMPOSSIBLE], b"impossible at line 5 of b\n", 2),
    "refused": ("vicinity-log 1\n", [SILENT, ""], b"refused at line 1 of b: Header\n", 3),
}


@pytest.fixture
def texts(tmp_path):
    """Writes texts, and returns their files."""
    def write(**texts):
        for name, text in texts.items():
            (tmp_path / name).write_bytes(text.encode())
        return [tmp_path / name for name in texts]
    return write


def answered(said):
    """The answer's line, in which a file may be named, and the status."""
    return re.sub(r" (?:of|in) [^:]*", "", said.out.decode().split("\n")[0]), said.status


def heard(uid):
    """A log in which all were asked, and this tag answered."""
    return f"vicinity-log 1\nT 260100F60A\nR {hex_of(bytes(2) + bytes.fromhex(uid)[::-1])}\n"


@pytest.mark.parametrize("name", MANY)
@pytest.mark.parametrize("by", LIBRARIES)
@pytest.mark.parametrize("language", ["cpp", "go", "rust"])
def test_an_example_over_many_logs(example, language, by, name, texts, tmp_path):
    """It writes what the program does: the list and the logs go through `run`."""
    expected, logs, wanted, status = MANY[name]
    logs = [heard(B) if log == "B" else log for log in logs]
    texts(list=expected, **dict(zip("abc", logs)))
    told = example(language, by).run("list", *"abc"[:len(logs)], cwd=tmp_path)
    assert told == (wanted, b"", status)


@pytest.mark.parametrize("language", ["cpp", "go", "rust"])
def test_an_example_of_a_log_that_is_not_there(example, language, texts):
    files = texts(list="vicinity-log 1\n")
    assert example(language, LIBRARIES[0]).run(*files, files[0].parent / "nowhere")[::2] == (b"", 4)


@pytest.mark.parametrize("language", ["cpp", "go", "rust"])
def test_an_example_of_a_name_that_is_not_utf_8(example, language, texts, tmp_path):
    """No answer could name that log."""
    texts(list="vicinity-log 1\n")
    name = os.fsdecode(b"x\xff.log")
    (tmp_path / name).write_text(heard(B))
    assert example(language, LIBRARIES[0]).run("list", name, cwd=tmp_path)[::2] == (b"", 4)


# ---- the libraries' own tests

def test_go_library(release):
    place = {"cwd": TOP / "bindings/go", **go_environment(release)}
    made("go", "vet", "./...", **place)
    assert made("gofmt", "-l", TOP / "bindings/go", TOP / "examples/go") == ""
    assert "ok" in made("go", "test", "-count=1", "./...", **place)


def test_rust_library(rust_target):
    said = made("cargo", "test", "--offline", "--locked", cwd=TOP / "bindings/rust",
                **rust_target)
    assert sum(map(int, re.findall(r"test result: ok. (\d+) passed; 0 failed", said))) >= 8


@pytest.mark.parametrize("standard", ("c++11", "c++14", "c++17", "c++20"))
def test_cpp_header(standard, release):
    made("g++", *CPP, f"-std={standard}", *STRICT, f"-I{release}", "-fsyntax-only", "-include",
         "vicinity.hpp", "-x", "c++", "/dev/null")


@pytest.mark.parametrize("header", ("vicinity.h", "vicinity.hpp"))
def test_cpp_header_after_those_of_qt(header):
    """They have macros: that of the field `slots`, which stays, would take it from its struct."""
    made("g++", *CPP, *STRICT, "-Iinclude", "-Dslots=", "-Dsignals=public", "-Demit=",
         "-fsyntax-only", "-include", header, "-x", "c++", "/dev/null")


@pytest.mark.parametrize("standard", ("c++11", "c++17"))
def test_cpp_library(standard, release, tmp_path):
    tests = linked(release, tmp_path / "test", *CPP, f"-std={standard}",
                   "-fsanitize=address,undefined", "-fno-sanitize-recover=all",
                   "bindings/cpp/test.cpp", compiler="g++")
    assert tests.told().endswith(" passed\n")


# ---- what the READMEs show, tried in a folder of its own

def fence(language, page):
    """The first fence of a language on a page."""
    return re.search(rf"```{language}\n(.*?)```", page.read_text(), re.S)[1]


def test_readme_of_cpp(release, tmp_path):
    (tmp_path / "check.cpp").write_text(fence("cpp", TOP / "bindings/cpp/README.md"))
    check = linked(release, tmp_path / "check", *CPP, tmp_path / "check.cpp", compiler="c++")
    assert check.told() == "complete 0\n"


def test_readme_of_go(release, tmp_path):
    page = TOP / "bindings/go/README.md"
    module = fence("text", page).replace("/usr/share/doc/libvicinity-dev", str(TOP))
    (tmp_path / "go.mod").write_text(f"module first\n\ngo 1.19\n\n{module}")
    (tmp_path / "main.go").write_text(
        'package main\n\nimport (\n"fmt"\n\n"vicinity/v2"\n)\n\nfunc main() {\n'
        + fence("go", page) + "}\n")
    said = made("go", "run", ".", cwd=tmp_path, **go_environment(release))
    assert said == "complete 0 <nil>\n1\n"


def test_readme_of_rust(rust_target, tmp_path):
    page = TOP / "bindings/rust/README.md"
    dependency = fence("toml", page).replace("/usr/share/doc/libvicinity-dev", str(TOP))
    (tmp_path / "src").mkdir()
    (tmp_path / "Cargo.toml").write_text('[package]\nname = "first"\nversion = "0.1.0"\n'
                                         f'edition = "2021"\n\n[dependencies]\n{dependency}')
    (tmp_path / "src/main.rs").write_text("fn main() -> Result<(), vicinity::OutOfMemory> {\n"
                                          + fence("rust", page) + "Ok(())\n}\n")
    assert made("cargo", "run", "--offline", cwd=tmp_path, **rust_target) == "complete 0\n"


# ---- Python

@pytest.fixture(scope="session")
def fleet(in_python):
    def run(*words):
        return in_python.run(TOP / "examples/python/fleet.py", "2", *words)
    return run


TABLE = f"uid,title\n{A},Emma\n{B},Kim\n"
HEAD = b"uid,title,vicinity state,vicinity certain in,vicinity may be in\n"


def table_of(*cells):
    """What is written of the two items, by the last three cells of each."""
    return HEAD + b"".join(f"{uid},{title},{these}\n".encode()
                           for (uid, title), these in zip(((A, "Emma"), (B, "Kim")), cells))


def test_logs_of_a_fleet(fleet, texts, vicinity):
    """A survey of a log, too, stands for it."""
    table, one, again, other, silent = files = texts(
        table=TABLE, one=HEARD, again=HEARD, other=heard(B), silent=SILENT)
    assert fleet(*files) == (table_of(f"there,{one}; {again},", f"there,{other},"), b"", 0)
    again.write_bytes(vicinity.survey(again.read_bytes(), str(again)).text)
    assert fleet(*files)[::2] == (table_of(f"there,{one}; {again},", f"there,{other},"), 0)


def test_logs_of_a_fleet_that_say_nothing(fleet, texts):
    table, bad = texts(table=TABLE, bad=IMPOSSIBLE)
    assert fleet(table, bad) == (
        table_of(f"not provable,,{bad}", f"not provable,,{bad}"), b"", 2)


def test_files_of_a_fleet_that_are_refused(fleet, texts):
    table, log = texts(table="uid\nx\n", log=SILENT)
    assert fleet(table, log) == (f"refused at line 2 of {table}: Uid\n".encode(), b"", 3)
    assert fleet(log)[::2] == (b"", 4)
    out, err, status = fleet(*texts(table=TABLE), log, log.parent / "nowhere")
    assert (out, b"nowhere" in err, status) == (b"", True, 4)


@pytest.mark.parametrize("scheduler", ["0", "", "shelf", "-1"])
def test_fleet_without_workers(in_python, texts, scheduler):
    """There is no answer; a status of 1 would be one."""
    words = texts(table=TABLE, silent=SILENT)
    said = in_python.run(TOP / "examples/python/fleet.py", scheduler, *words)
    assert said[::2] == (b"", 4)


@pytest.mark.parametrize("redirected", [">/dev/full", ">&-"])
@pytest.mark.parametrize("table", [TABLE, "uid\nx\n"])
def test_answer_of_a_fleet_that_cannot_be_written(in_python, texts, table, redirected):
    words = [*in_python.words, TOP / "examples/python/fleet.py", "1",
             *texts(table=table, silent=SILENT)]
    said = subprocess.run(["sh", "-c", f'"$@" {redirected}', "sh", *words],
                          env={**os.environ, **in_python.environment})
    assert said.returncode == 4


@pytest.mark.parametrize("words", [[], ["1", "nowhere", "nowhere"]])
def test_reason_of_a_fleet_that_cannot_be_written(in_python, words):
    with open("/dev/full", "wb") as full:
        said = in_python.run(TOP / "examples/python/fleet.py", *words, stderr=full)
    assert said[::2] == (b"", 4)


# A fleet in which the log of this name ends the process that reads it: always, or once.
KILLING = """
import os, signal, sys
with open({fleet!r}) as file:
    exec(file.read().partition("if __name__")[0])
surveyed_before = surveyed


def surveyed(names):
    for name in names:
        if name.endswith("always") or name.endswith("once") and not os.path.exists(name + ".ended"):
            open(name + ".ended", "w").close()
            os.kill(os.getpid(), signal.SIGKILL)
    return surveyed_before(names)


if __name__ == "__main__":
    BATCH, SHARE = 2, 1
    sys.exit(main(sys.argv[1], sys.argv[2:]))
"""


@pytest.fixture
def killing_fleet(in_python, tmp_path):
    fleet = str(TOP / "examples/python/fleet.py")
    (tmp_path / "killing.py").write_text(KILLING.format(fleet=fleet))

    def run(*words):
        return in_python.run(tmp_path / "killing.py", "2", *words)
    return run


def test_worker_that_is_killed(killing_fleet, texts):
    """Its batch is read by another."""
    files = texts(table=TABLE, once=HEARD, other=heard(B), silent=SILENT, more=SILENT, last=SILENT)
    assert killing_fleet(*files)[::2] == (table_of(f"there,{files[1]},", f"there,{files[2]},"), 0)
    assert (files[1].parent / "once.ended").exists()


def test_log_that_kills_its_worker(killing_fleet, texts):
    """It is named, it alone, and the answer isn't complete: anything may be in its field."""
    table, one, always, *others = files = texts(
        table=TABLE, one=HEARD, always=HEARD, other=SILENT, silent=SILENT, more=SILENT)
    out, err, status = killing_fleet(*files)
    assert (out, status) == (table_of(f"there,{one},{always}", f"not provable,,{always}"), 3)
    assert [line for line in err.decode().splitlines() if "set aside" in line] == [
        f"{always}: set aside, since it ended the process that read it"]


def test_fleet_listens_on_the_loopback_alone(in_python, texts, tmp_path):
    """While it waits for the end of a log, each of its sockets that listens is of 127.0.0.1."""
    files = texts(table=TABLE, one=HEARD)
    os.mkfifo(tmp_path / "endless")
    words = [*in_python.words, TOP / "examples/python/fleet.py", "2", *files, tmp_path / "endless"]
    with subprocess.Popen(words, env={**os.environ, **in_python.environment},
                          stdout=subprocess.PIPE, start_new_session=True) as going:
        with open(tmp_path / "endless", "wb") as log:  # a worker has opened it
            found = listening(going.pid)
            log.write(b"vicinity-log 1\n")
        assert (going.communicate()[0].startswith(HEAD), going.returncode) == (True, 1)
    assert len(found) >= 3 and {place.rpartition(":")[0] for place in found} == {"127.0.0.1"}


def listening(session):
    """The places at which the processes of a session listen."""
    group = {int(word) for word in made("ps", "-o", "pid=", "-s", session).split()}
    lines = made("ss", "-Hltnp").splitlines()
    return [line.split()[3] for line in lines
            if group & {int(pid) for pid in re.findall(r"pid=(\d+)", line)}]


# ---- the library itself

@pytest.fixture(params=("shared", "static"))
def check(request, release, tmp_path):
    """A program that is linked with the shared library or with the archive."""
    how = {"shared": [f"-L{release}", "-lvicinity", f"-Wl,-rpath,{release}"],
           "static": [release / "libvicinity.a"]}
    return compiled(tmp_path / "check", f"-I{release}", "examples/c/check.c", *how[request.param])


@pytest.mark.skipif(platform.machine() != "x86_64", reason="the level of x86-64 processors")
@pytest.mark.parametrize(("processor", "status", "said"), (
    ("qemu64", 127, "CPU ISA level is lower than required"), ("Nehalem", 0, "complete 4")))
def test_processor(check, processor, status, said):
    """One below x86-64-v2 gets a sentence of the loader, not a signal."""
    emulated = Program("qemu-x86_64-static", "-cpu", processor, *check.words)
    out, err, ended = emulated.run("examples/whole-shelf.log")
    assert (ended, said in (out + err).decode()) == (status, True)


def test_library_that_is_too_old(release, tmp_path):
    """What needs a call of a later release is told the version that the library lacks, before it
    runs. A library whose calls have an older version stands for one of before."""
    exported = (TOP / "release/exports.map").read_text()
    (tmp_path / "old.map").write_text(exported.replace("VICINITY_2 {", "VICINITY_1 {"))
    check = compiled(tmp_path / "check", f"-I{release}", "examples/c/check.c", f"-L{release}",
                     "-lvicinity")
    made("cc", "-shared", "-o", tmp_path / "libvicinity.so.2", "-Wl,-soname,libvicinity.so.2",
         "-Wl,--whole-archive", release / "libvicinity.a", "-Wl,--no-whole-archive",
         f"-Wl,--version-script={tmp_path / 'old.map'}")
    for place, status, answered, why in (
            (release, 0, b"complete 4\n", b""),
            (tmp_path, 1, b"", b"version `VICINITY_2' not found")):
        ran = Program(*check.words, LD_LIBRARY_PATH=str(place))
        out, err, ended = ran.run("examples/whole-shelf.log")
        assert (ended, out) == (status, answered) and why in err
