"""The Debian packages: what they have, and that they are the same again; installed, upgraded and
purged in a root of their own; and those in dist/."""
import os
import re
import shutil
import subprocess
from email.utils import parsedate_to_datetime
from pathlib import Path
from tempfile import TemporaryDirectory

import pytest

from helpers.library import CALLS
from helpers.program import TOP, Program, compiled, needs, told
from helpers.rows import OfProgram, all_rows
from helpers.trees import copy

LOG = TOP / "examples/whole-shelf.log"
COMPLETE = (b"complete 4\n", b"", 0)
VERSION = (TOP / "VERSION").read_text().strip()
KINDS = {"vicinity": "foreign", "libvicinity2": "same", "libvicinity-dev": "same",
         "python3-vicinity": "no"}
# The library's package in the last release, whose number is that of its interface.
RELEASED = {deb.name.partition("_")[0] for deb in TOP.glob("dist/libvicinity[0-9]*_amd64.deb")}
FOR_USERS = "LOG_FORMAT VERDICTS COLLECTIONS READERS COMMANDS AIR FRAMES GLOSSARY RUNNING".split()
FOR_DEVELOPERS = "WORKING ARCHITECTURE PROOFS HEADLINE DECISIONS".split()
LINK = re.compile(r"\]\(([^#): ]+)[#)]")
TARGETS = ["amd64", "arm64"]
#: What is kept of building.
BUILT = ("out/release crates/vicinity/out/vicinity crates/vicinity/out/rlib/*.sum"
         " crates/vicinity_c/out/*/libvicinity_c.a")
#: What the packages and their tests need of a machine.
NEEDED = ("coreutils", "dash", "diffutils", "dpkg", "findutils", "gcc", "grep", "libc-bin",
          "libc6-dev", "pkg-config", "python3", "sed")
DEPENDS = ("apt-cache", "depends", "--recurse", "--installed", "--no-recommends", "--no-suggests",
           "--no-conflicts", "--no-breaks", "--no-replaces", "--no-enhances")


@pytest.fixture(scope="session")
def packages(request, once):
    """The folder of the packages for a kind of machine, with what they have in `unpacked`."""
    def of(target):
        def make(folder):
            subprocess.run([TOP / "release/dist", folder, target], check=True)
            for deb in folder.glob("*.deb"):
                told("dpkg-deb", "-x", deb, folder / "unpacked")
        needs("dpkg-buildpackage", "dh", "dh_python3")
        request.getfixturevalue("release" if target == "amd64" else "arm_release")
        return once(f"packages-{target}", make)
    return of


@pytest.mark.parametrize(("page", "folder"), [("README.md", "."), ("docs/RUNNING.md", "dist")])
def test_the_command_that_installs_them(page, folder):
    """In a plain sh its words are the packages in dist/, each once."""
    words = re.search(r"apt install ([^`\n]*)", (TOP / page).read_text())[1]
    named = told("sh", "-c", f"printf '%s\\n' {words}", cwd=TOP / folder).split()
    packages = "vicinity", *RELEASED, "python3-vicinity"
    assert [re.match(r".*/([^/_]*)_", name)[1] for name in named] == list(packages)
    assert all((TOP / folder / name).is_file() for name in named)


@pytest.mark.slow  # the packages are made for it, and taken by all others
@pytest.mark.parametrize("target", TARGETS)
def test_names_and_fields(packages, target):
    """They have the version, which between two releases is none that was released."""
    named = {told("dpkg-deb", "-f", deb, "Package").strip(): deb
             for deb in packages(target).glob("*.deb")}
    assert sorted(named) == sorted(KINDS)
    for name, deb in named.items():
        machine = "all" if name.startswith("python3") else target
        assert deb.name == f"{name}_{VERSION}-1_{machine}.deb"
        assert told("dpkg-deb", "-f", deb, "Multi-Arch").strip() == KINDS[name]
        # as release/packaged unpacks it
        assert b"data.tar.gz  " in deb.read_bytes()


def test_symbols(packages):
    """Each call stands beside the first version that has it, or one before a release to come."""
    deb, = packages("amd64").glob("libvicinity2_*.deb")
    symbols = told("dpkg-deb", "-I", deb, "symbols")
    listed = dict(re.findall(r"^ (vicinity_\w+)@VICINITY_\S+ (.*)$", symbols, re.M))
    assert sorted(listed) == sorted(CALLS)
    assert set(listed.values()) == {"2.0.0~"}


def test_the_changes_of_the_packages():
    """Are those of CHANGELOG.md, with their dates, and above them what VERSION says is to come. The
    newest one with a date is that of dist/."""
    entries = re.findall(r"^vicinity \((.*)-1\) (\w+);(?:.*\n)*? -- .*>  (.*)$",
                         (TOP / "debian/changelog").read_text(), re.M)
    dates = [parsedate_to_datetime(date) for *_, date in entries]
    said = [(version, str(date.date())) for (version, _, _), date in zip(entries, dates)]
    headings = re.findall(r"^## (.*)$", (TOP / "CHANGELOG.md").read_text(), re.M)
    is_between = VERSION.endswith("~dev")
    dated = [tuple(heading.split(", ")) for heading in headings[is_between:]]
    assert headings[:is_between] == ["Unreleased"] * is_between and said[-len(dated):] == dated
    assert f"vicinity_{dated[0][0]}-1_amd64.deb" in (TOP / "dist/SHA256SUMS").read_text()
    assert len(said) == len(dated) + is_between and said[0][0] == VERSION
    assert (entries[0][1] == "UNRELEASED") == is_between
    assert dates == sorted(set(dates), reverse=True)


def test_made_elsewhere_they_are_the_same(packages):
    """In another folder, on another file system where there is one, and for a user with other
    habits."""
    made = [*packages("amd64").glob("*.deb")]
    with TemporaryDirectory(dir="/dev/shm" if os.access("/dev/shm", os.W_OK) else None) as folder:
        clone = Path(folder) / "clone"
        clone.mkdir()
        copy(clone)
        subprocess.run(f"tar -c {BUILT} | tar -xC {clone}", shell=True, cwd=TOP, check=True)
        for name in "python", "examples", "docs":
            told("chmod", "-R", "go-rwx", clone / name)
        told("touch", "-d", "2000-01-01", clone / "CHANGELOG.md", *clone.glob("debian/*.*"))
        subprocess.run(["dpkg-buildpackage", "-b", "-us", "-uc"], cwd=clone, umask=0o077,
                       env={**os.environ, "TZ": "Asia/Tokyo", "LC_ALL": "C.UTF-8"}, check=True)
        assert not [deb for deb in made
                    if deb.read_bytes() != (Path(folder) / deb.name).read_bytes()]


@pytest.mark.parametrize("target", TARGETS)
def test_lintian_has_nothing_to_say(packages, target):
    said = told("lintian", "--allow-root", "--display-info", "--hide-overrides",
                *packages(target).glob("*.deb"))
    assert not said


def test_no_link_leads_nowhere(packages):
    doc = packages("amd64") / "unpacked/usr/share/doc"
    assert not [(page.name, link) for page in doc.rglob("*.md")
                for link in LINK.findall(page.read_text()) if not (page.parent / link).exists()]


def test_pages_for_users_and_for_nobody_else(packages):
    doc = packages("amd64") / "unpacked/usr/share/doc"
    assert not [page for page in FOR_USERS if not (doc / f"vicinity/docs/{page}.md").stat().st_size]
    assert not [page for page in doc.rglob("*.md") if page.stem in FOR_DEVELOPERS]


def test_the_packages_for_arm(arm, packages, tmp_path):
    usr, emulator = packages("arm64") / "unpacked/usr", arm.words[:-1]
    assert Program(*emulator, usr / "bin/vicinity").run("check", LOG) == COMPLETE
    library = usr / "lib/aarch64-linux-gnu"
    compiled(tmp_path / "shared", f"-I{usr}/include", "examples/c/check.c", f"-L{library}",
             "-lvicinity", compiler="aarch64-linux-gnu-gcc")
    assert Program(*emulator, "-E", f"LD_LIBRARY_PATH={library}",
                   tmp_path / "shared").run(LOG) == COMPLETE


@pytest.fixture
def cell(tmp_path):
    """A root with those packages of this machine that ours and their tests need."""
    needs("apt-cache", "chroot")
    if os.getuid():
        pytest.skip("only root may chroot")
    for name in "bin", "lib", "lib64", "sbin":
        (tmp_path / "usr" / name).mkdir(parents=True)
        (tmp_path / name).symlink_to(f"usr/{name}")
    names = set(re.findall(r"^\w.*", told(*DEPENDS, *NEEDED), re.M))
    lists = [str(file) for file in Path("/var/lib/dpkg/info").iterdir()
             if file.suffix == ".list" or file.name == "format"]
    subprocess.run("tar -C / --no-recursion --ignore-failed-read -T - -c |"
                   " tar --keep-directory-symlink -x", shell=True, cwd=tmp_path, check=True,
                   input=told("dpkg-query", "-L", *names) + "\n".join(lists), text=True,
                   stderr=subprocess.DEVNULL)
    for name in "dev", "tmp", "var/lib/dpkg/updates", "var/log":
        (tmp_path / name).mkdir(parents=True, exist_ok=True)
    (tmp_path / "dev/null").touch()
    (tmp_path / "var/lib/dpkg/status").write_text(told("dpkg-query", "-s", *names))
    yield tmp_path
    shutil.rmtree(tmp_path)


def test_installed_upgraded_tested_and_purged(cell, packages):
    """From the packages of the last release; the tests are those of debian/tests."""
    def run(*words):
        environment = {"PATH": "/usr/sbin:/usr/bin", "AUTOPKGTEST_TMP": "/tmp"}
        Program("chroot", cell).told(*map(str, words), env=environment)

    def install(debs):
        for deb in debs:
            shutil.copy(deb, cell / "tmp")
        run("dpkg", "--install", *(f"/tmp/{deb.name}" for deb in debs))

    def others():
        """All that is there, but what Python has compiled of its own."""
        return sorted(file for place in ("etc", "usr") for file in (cell / place).rglob("*")
                      if "__pycache__" not in file.parts or "vicinity" in file.parts)
    before = others()
    install([*TOP.glob("dist/*_amd64.deb"), *TOP.glob("dist/*_all.deb")])
    run("python3", "-m", "vicinity", "/usr/share/doc/vicinity/examples/whole-shelf.log")
    install([*packages("amd64").glob("*.deb")])
    shutil.copytree(TOP / "debian/tests", cell / "tmp/tests")
    for test in re.findall("^Tests: (.*)", (TOP / "debian/tests/control").read_text(), re.M):
        run(f"/tmp/tests/{test}")
    assert [*cell.glob("usr/lib/python3/dist-packages/vicinity/**/*.pyc")]
    run("dpkg", "--purge", *KINDS, *RELEASED - KINDS.keys())
    assert others() == before


# The packages of the last release.

def test_the_sums_of_dist():
    told("sha256sum", "--quiet", "-c", "SHA256SUMS", cwd=TOP / "dist")


#: The files of rows that the next release answers otherwise than the last one does.
ANSWERED_ANEW: "tuple[str, ...]" = ()


@pytest.fixture(scope="session")
def packaged():
    """The program of the last release. Where it answers otherwise than the other rows say, it is
    time for release/dist --release."""
    return OfProgram(Program(told(TOP / "release/packaged").strip()))


@pytest.mark.parametrize(("asked", "command", "given", "answers", "status"),
                         all_rows(["packaged"], but=ANSWERED_ANEW))
def test_row_of_the_packaged_program(packaged, asked, command, given, answers, status):
    packaged.row(command, given, answers, status)


def test_a_release_answers_all_rows():
    assert "~dev" in VERSION or not ANSWERED_ANEW


def test_the_packages_of_the_release_are_made_again():
    """As long as the sources and the tools are those of the release."""
    needs("rt", "gcc", "ld", "dpkg-deb", "objdump")
    said = Program(TOP / "release/dist").run("--check")
    # else they are of other sources, or by other tools; 2 is also the status of a make that fails
    assert said.status == 0 or said.out.endswith(b"by other tools\n"), said


def test_a_version_that_is_released_is_that_of_dist():
    """Packages of changed sources have another version: the next one, with ~dev."""
    now, released = told(TOP / "release/sources"), (TOP / "dist/SOURCES").read_text()
    # the last line says by which tools
    assert "~dev" in VERSION or now.splitlines()[:-1] == released.splitlines()[:-1]
