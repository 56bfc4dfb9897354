"""Wheels of the Python package: the same bytes twice, their licences, and how they work on each
Python of this machine, in a fresh environment without a network. No Python for Windows is here: its
wheel is looked into and installed, and not run."""
import glob
import os
import re
import tarfile
import time
import zipfile

import backend
import pytest

from helpers.program import TOP, Program, needs, told

TAGS = {"amd64": "manylinux2014_x86_64", "arm64": "manylinux2014_aarch64", "windows": "win_amd64"}
LICENSES = ("LICENSE-APACHE", "LICENSE-MIT")
LEAST = 9
# where tests/setup unpacks a Python for 64-bit ARM
ARM = "/usr/local/lib/arm64"


def pythons():
    """Each Python of this machine from 3.9 on."""
    own = glob.glob(os.path.expanduser("~/.pyenv/versions/*/bin"))
    paths = (path for folder in ("/usr/bin", "/usr/local/bin", *own)
             for path in glob.glob(f"{folder}/python3.*"))
    versions = {path: re.search(r"/python3\.(\d+)$", path) for path in map(os.path.realpath, paths)}
    return sorted(path for path, number in versions.items() if number and int(number[1]) >= LEAST)


def made(library, target, folder):
    told(TOP / "release/wheel", library, target, folder)
    return next(folder.glob("*.whl"))


@pytest.fixture(scope="session", params=["amd64", "windows"])
def kind(request):
    """A kind of machine, the library for it, and where that stands in its wheel."""
    if request.param == "amd64":
        return "amd64", request.getfixturevalue("release") / "libvicinity.so", backend.LIBRARY
    return "windows", request.getfixturevalue("windows_release") / "vicinity.dll", backend.DLL


@pytest.fixture(scope="session")
def wheel(kind, tmp_path_factory):
    target, library, _ = kind
    return made(library, target, tmp_path_factory.mktemp("wheel"))


@pytest.fixture
def another_day(monkeypatch):
    """Another time, and other rights of new files."""
    monkeypatch.setattr(time, "time", lambda: 1_000_000_000.0)
    monkeypatch.setattr(time, "localtime", time.gmtime)
    umask = os.umask(0o077)
    yield
    os.umask(umask)


def test_the_same_bytes_twice(wheel, kind, tmp_path, another_day):
    target, library, _ = kind
    again = backend.build_wheel_with(str(tmp_path), library, TAGS[target])
    assert again == wheel.name and again.endswith(f"-py3-none-{TAGS[target]}.whl")
    assert (tmp_path / again).read_bytes() == wheel.read_bytes()


@pytest.fixture
def sdist(tmp_path):
    (tmp_path / "sdist").mkdir()
    return tmp_path / "sdist" / backend.build_sdist(str(tmp_path / "sdist"))


def test_the_same_bytes_of_a_source_distribution(sdist, tmp_path, another_day):
    file = tmp_path / backend.build_sdist(str(tmp_path))
    assert file.read_bytes() == sdist.read_bytes()
    with tarfile.open(file) as archive:
        names = {name.partition("/")[2] for name in archive.getnames()}
    assert {*LICENSES, "README.md", "PKG-INFO", "vicinity/commands/collection.py",
            backend.PAGE} <= names


def test_what_is_in_it(wheel, kind):
    """The modules, the page, the licences and the library, and no other one."""
    target, library, place = kind
    with zipfile.ZipFile(wheel) as archive:
        files = {it.filename: archive.read(it) for it in archive.infolist()}
    about = next(name for name in files if name.endswith("/RECORD")).rpartition("/")[0]
    for name in LICENSES:
        assert files[f"{about}/{name}"] == (TOP / name).read_bytes()
    listed = {line.partition(",")[0] for line in files[f"{about}/RECORD"].decode().splitlines()}
    assert listed == set(files)
    assert f"\nTag: py3-none-{TAGS[target]}\n" in files[f"{about}/WHEEL"].decode()
    sources = TOP / "python"
    assert {str(path.relative_to(sources)) for path in sources.glob("vicinity/**/*.py")} <= listed
    assert files[backend.PAGE].startswith(b"<!doctype html>")
    assert files[place] == library.read_bytes()
    assert not {backend.LIBRARY, backend.DLL} - {place} & listed


@pytest.mark.parametrize("kind", ["windows"], indirect=True)
def test_pip_installs_it_for_windows(wheel, kind, tmp_path):
    """As this machine's pip does it for another one, and for no other."""
    words = ["/usr/bin/python3", "-m", "pip", "install", "--no-index", "--only-binary", ":all:"]
    for platform, status in (TAGS["windows"], 0), ("win32", 1):
        said = Program(*words).run("--target", tmp_path / platform, "--platform", platform, wheel)
        assert said.status == status, said.err
    _, library, place = kind
    assert (tmp_path / TAGS["windows"] / place).read_bytes() == library.read_bytes()


@pytest.mark.slow
def test_it_works_on_arm(arm_release, tmp_path):
    """The wheel for 64-bit ARM, installed by the pip of this machine, and run by a Python for ARM
    under an emulator."""
    needs("qemu-aarch64-static", f"{ARM}/usr/bin/python3")
    found = made(arm_release / "libvicinity.so", "arm64", tmp_path)
    there = tmp_path / "there"
    told("/usr/bin/python3", "-m", "pip", "install", "--no-index", "--target", there,
         "--platform", TAGS["arm64"], "--only-binary", ":all:", found)
    installed = there / backend.LIBRARY
    assert installed.read_bytes() == (arm_release / "libvicinity.so").read_bytes()

    python = Program("qemu-aarch64-static", "-L", ARM, f"{ARM}/usr/bin/python3", LIBVICINITY="",
                     PYTHONPATH=f"{there}:python/tests:tests")
    said = python.told("-c", "import os, vicinity; print(os.uname().machine, vicinity.check(b''))")
    assert said == "aarch64 refused at line 1: Header\n"
    said = python.run("-m", "unittest", "test_vicinity.Frames", "test_vicinity.Calls")
    assert said.err.endswith(b"\nOK\n"), said.err
    is_answered(python, "-m", "vicinity")


@pytest.mark.parametrize(("built", "name", "target", "why"), [
    ("release", "libvicinity.so", "arm64", "isn't for arm64"),
    ("windows_release", "vicinity.exe", "windows", "isn't a DLL"),
    ("windows_release", "libvicinity.dll.a", "windows", "isn't a DLL")])
def test_what_is_no_library_for_that_machine_is_refused(request, tmp_path, built, name, target,
                                                        why):
    """Also a program, and an import library."""
    said = Program(TOP / "release/wheel").run(request.getfixturevalue(built) / name, target,
                                              tmp_path)
    assert (said.status, why in said.err.decode(), [*tmp_path.iterdir()]) == (1, True, [])


def is_answered(program, *words):
    """What the commands of an installed wheel answer to the example logs."""
    out, err, status = program.run(*words, "--tabs", *sorted(TOP.glob("examples/*.log")))
    answers = [line.split("\t")[1:] for line in out.decode().splitlines()]
    assert (answers, err, status) == (
        [["2", "impossible at line 6"], ["1", "unsettled 7 61"], ["0", "complete 4"]], b"", 2)
    out, err, status = program.run(
        *words, "collection", "--csv", *sorted(TOP.glob("examples/collection/*")))
    assert (out.count(b",in place,"), err, status) == (9, b"", 1)


@pytest.mark.slow
@pytest.mark.parametrize("kind", ["amd64"], indirect=True)
@pytest.mark.parametrize("python", pythons())
def test_it_works(wheel, python, tmp_path):
    alone = {"LIBVICINITY": "", "PYTHONPATH": "", "cwd": tmp_path}
    told(python, "-m", "venv", "there", **alone)
    there = tmp_path / "there/bin"
    told(there / "pip", "install", "--no-index", wheel, **alone)
    logs = Program(there / "vicinity-logs", LIBVICINITY="", PYTHONPATH="")
    is_answered(logs)
    for command in ("check", "report", "collection", "compare", "show", "page", "misread"):
        assert logs.told(command, "--help").startswith(f"usage: vicinity-logs {command}")
    assert logs.told("page", "examples/whole-shelf.log")
    said = told(there / "python", "-c", "import vicinity as it; print(it.__file__, it.check(b''))",
                **alone)
    assert said.endswith("refused at line 1: Header\n") and str(tmp_path) in said


def glibc_of(file):
    versions = re.findall(rb"\0GLIBC_(\d+)\.(\d+)", file.read_bytes())
    return max((int(one), int(other)) for one, other in versions)


def test_the_versions_of_glibc_that_a_page_names(release, arm_release):
    page = (TOP / "docs/RUNNING.md").read_text()
    said = re.search(r"The program needs glibc (\d+\.\d+) .*; the library (\d+\.\d+), "
                     r"and the wheel 2\.17 \(on 64-bit ARM both (\d+\.\d+)\)", page)
    files = (release / "vicinity", release / "libvicinity.so", arm_release / "libvicinity.so")
    assert said.groups() == tuple("{}.{}".format(*glibc_of(file)) for file in files)
