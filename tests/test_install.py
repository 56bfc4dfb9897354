"""What ./install puts, under scratch folders: the program, the library, man pages and completions
there, and how it is taken away again."""
import os
import re
import shutil
import sys

import pytest

from helpers.library import CALLS
from helpers.names import OPERANDS
from helpers.program import TOP, Program, compiled, linked, needs, told
from helpers.trees import copy, tree

VERSION = (TOP / "VERSION").read_text().strip().removesuffix("~dev")
LOG = TOP / "examples/whole-shelf.log"
COMPLETE = (b"complete 4\n", b"", 0)
EXAMPLES = sorted(TOP.glob("examples/c/*.c"))
COMMANDS = sorted(OPERANDS)


def install(*words):
    return Program(TOP / "install").run("--prefix", "/usr", *words).status


@pytest.fixture(scope="session")
def root(release, tmp_path_factory):
    """A root in which it is installed under /usr, for all tests that change nothing there."""
    made = tmp_path_factory.mktemp("install") / "root"
    assert release and install("--destdir", made) == 0
    return made


@pytest.fixture(scope="session")
def pages(root):
    """The man pages."""
    return sorted(root.glob("usr/share/man/man[135]/*"))


def test_the_program(root):
    assert Program(root / "usr/bin/vicinity").run("check", LOG) == COMPLETE


def test_the_list_of_files(root):
    listed = (root / "usr/share/vicinity/files").read_text().splitlines()
    usr = root / "usr"
    there = [str(file.relative_to(usr)) for file in usr.rglob("*") if file.is_symlink()
             or file.is_file()]
    assert sorted(name for name in listed if not name.endswith("/")) == sorted(there)


def test_every_user_can_read_all(root):
    assert not [file for file in root.rglob("*") if not file.is_symlink()
                and not file.stat().st_mode & 4]


def test_installed_again_it_is_the_same(root):
    before = tree(root)
    assert install("--destdir", root) == 0
    assert tree(root) == before


@pytest.fixture
def pkg_config(root):
    """What pkg-config says of the installed library."""
    return lambda *words: told(
        "pkg-config", *words, "vicinity", PKG_CONFIG_LIBDIR=f"{root}/usr/lib/pkgconfig",
        PKG_CONFIG_SYSROOT_DIR=str(root), PKG_CONFIG_ALLOW_SYSTEM_CFLAGS="1",
        PKG_CONFIG_ALLOW_SYSTEM_LIBS="1").split()


def test_pkg_config_knows_the_version(pkg_config):
    assert pkg_config("--modversion") == [VERSION]


def test_pkg_config_knows_any_prefix(release, tmp_path):
    assert release and install("--prefix", "/opt/R&D|x", "--destdir", tmp_path) == 0
    known = tmp_path / "opt/R&D|x/lib/pkgconfig/vicinity.pc"
    assert known.read_text().splitlines()[:2] == ["prefix=/opt/R&D|x", "libdir=${prefix}/lib"]


@pytest.mark.parametrize("source", EXAMPLES, ids=lambda source: source.stem)
def test_an_example_with_the_shared_object_and_with_the_archive(root, pkg_config, tmp_path, source):
    compiled(tmp_path / "shared", source, *pkg_config("--cflags", "--libs"))
    static = linked(root / "usr/lib", tmp_path / "static", source, *pkg_config("--cflags"))
    if source.stem == "check":
        assert static.run(LOG) == COMPLETE
        assert Program(tmp_path / "shared", LD_LIBRARY_PATH=f"{root}/usr/lib").run(LOG) == COMPLETE


def test_a_program_finds_the_library_after_ldconfig(root, pkg_config, tmp_path):
    """In a root of its own, in a folder that the loader doesn't search by itself."""
    needs("ldconfig", "ldd", "chroot")
    if os.getuid():
        pytest.skip("only root may chroot")
    cell = tmp_path / "cell"
    shutil.copytree(root, cell, symlinks=True)
    compiled(cell / "check", "examples/c/check.c", *pkg_config("--cflags", "--libs"))
    for file in re.findall(r"(?<!\S)/[^ ]+", told("ldd", "/bin/true")):
        (cell / file[1:]).parent.mkdir(parents=True, exist_ok=True)
        shutil.copy(file, cell / file[1:])
    (cell / "opt").mkdir()
    (cell / "etc").mkdir()
    (cell / "usr/lib").rename(cell / "opt/lib")
    (cell / "etc/ld.so.conf").write_text("/opt/lib\n")
    shutil.copy(LOG, cell / "log")
    chroot = Program("chroot", cell, "/check")
    assert chroot.run("/log").status == 127
    told("ldconfig", "-r", cell)
    assert chroot.run("/log") == COMPLETE


@pytest.mark.parametrize("call", CALLS)
def test_a_man_page_of_each_call(root, call):
    assert (root / f"usr/share/man/man3/{call}.3").exists()


def test_man_pages_have_no_faults(pages):
    needs("mandoc")
    said = Program("mandoc", "-T", "lint", *pages).run().out.decode()
    assert not [line for line in said.splitlines() if "referenced manual not found" not in line]
    assert len(pages) > len(CALLS)


def test_man_pages_refer_to_manuals_that_are_there(root, pages):
    asked = {match for page in pages
             for match in re.findall(r"^\.Xr ([^ ]+) ([135])", page.read_text(), re.M)}
    assert not [it for it in asked
                if not (root / "usr/share/man/man{1}/{0}.{1}".format(*it)).exists()]


def test_the_version_stands_on_each_man_page(pages):
    assert not [page.name for page in pages if f"version {VERSION}" not in page.read_text()]


def test_man_finds_the_pages(root, pages):
    for page in pages:
        name, _, section = page.name.rpartition(".")
        told("man", "-M", root / "usr/share/man", "-P", "cat", section, name)


# Completions, which are made of the man page.

BASH = """source "$0"; compopt() { :; }; COMP_WORDS=(vicinity "$@"); COMP_CWORD=$#; _vicinity
printf '%s\\n' "${COMPREPLY[@]}" """
ZSH = """compadd() { print -l $@ }; _files() { print file }
complete_it() { local script=$1; shift; local CURRENT=$(($# + 1)); local words=(vicinity "$@")
source $script }; complete_it "$0" "$@" """


def test_completion_for_bash(root):
    script = root / "usr/share/bash-completion/completions/vicinity"
    assert sorted(told("bash", "-c", BASH, script, "").split()) == COMMANDS
    begun = str(LOG).removesuffix(".log")
    assert told("bash", "-c", BASH, script, "check", begun).split() == [str(LOG)]


def test_completion_for_zsh(root):
    script = root / "usr/share/zsh/site-functions/_vicinity"
    told("zsh", "-n", script)
    for words, offered in (([""], COMMANDS), (["check", ""], ["file"]), (["frame", ""], [])):
        assert sorted(told("zsh", "-fc", ZSH, script, *words).split()) == offered


def test_completion_for_fish(root):
    script = root / "usr/share/fish/vendor_completions.d/vicinity.fish"
    begun = str(LOG).removesuffix(".log")
    for words, offered in (("", COMMANDS), (f"check {begun}", [str(LOG)]), ("frame ", [])):
        said = told("fish", "--no-config", "-c", 'source $argv[1]; complete -C "vicinity $argv[2]"',
                    script, words)
        assert sorted(said.split()) == offered


# What fails, and removal.

@pytest.mark.parametrize("name", ["usr/bin/vicinity", "usr/share/man", "usr/lib/libvicinity.so"])
def test_a_file_of_another_stays(release, tmp_path, name):
    """And nothing else is put there."""
    (tmp_path / name).parent.mkdir(parents=True)
    (tmp_path / name).write_text("of another\n")
    before = tree(tmp_path)
    assert release and install("--destdir", tmp_path) == 1
    assert tree(tmp_path) == before


def test_a_disk_that_is_full_at_the_end(release, tmp_path):
    """All is there then, and can be taken away: the list is only not written anew."""
    (tmp_path / "awk").write_text(f"#!/bin/sh\n/usr/bin/awk \"$@\" && mkdir {tmp_path}/once\n")
    (tmp_path / "awk").chmod(0o755)
    root = ["--destdir", tmp_path / "root", "--prefix", "/usr"]
    full = Program(TOP / "install", PATH=f"{tmp_path}:{os.environ['PATH']}")
    assert release and full.run(*root).status == 0
    assert not [*(tmp_path / "root").rglob("*.vicinity-new")]
    assert install("--remove", *root[:2]) == 0 and not [*(tmp_path / "root").iterdir()]


def test_a_signal_while_files_are_put(release, tmp_path):
    """All are put: old ones beside new ones would be of two versions."""
    (tmp_path / "mv").write_text(f"#!/bin/sh\nkill -TERM $PPID\nexec {shutil.which('mv')} \"$@\"\n")
    (tmp_path / "mv").chmod(0o755)
    interrupted = Program(TOP / "install", PATH=f"{tmp_path}:{os.environ['PATH']}")
    whole, other = tmp_path / "whole", tmp_path / "other"
    assert release and install("--destdir", whole) == 0
    assert interrupted.run("--prefix", "/usr", "--destdir", other).status == 0
    assert tree(whole) == tree(other)


def test_removed_beside_other_files(release, tmp_path):
    (tmp_path / "usr/share").mkdir(parents=True)
    (tmp_path / "usr/share/notes").write_text("mine\n")
    before = tree(tmp_path)
    assert release and install("--destdir", tmp_path) == 0
    assert install("--remove", "--destdir", tmp_path) == 0
    assert tree(tmp_path) == before


def test_nothing_is_left(release, tmp_path):
    assert release and install("--destdir", tmp_path) == 0
    assert install("--remove", "--destdir", tmp_path) == 0
    assert not [*tmp_path.iterdir()]
    assert install("--remove", "--destdir", tmp_path) == 1


def test_a_prefix_of_ones_own(release, tmp_path):
    own = tmp_path / "own"
    assert release and install("--prefix", own) == 0
    flags = told("pkg-config", "--cflags", "--libs", "vicinity",
                 PKG_CONFIG_PATH=f"{own}/lib/pkgconfig").split()
    check = compiled(tmp_path / "check", "examples/c/check.c", f"-Wl,-rpath,{own}/lib", *flags)
    assert check.run(LOG) == COMPLETE
    assert install("--remove", "--prefix", own) == 0
    assert not own.exists()


# The Python package, over the installed library.

def test_pip_installs_the_package(root, tmp_path):
    """Without a network, and leaves nothing behind."""
    needs("/usr/share/doc/python3-pip")
    clone = tmp_path / "clone"
    copy(clone, "python", "web")
    before = tree(clone)
    told(sys.executable, "-m", "pip", "install", "-q", "--no-index", "--target",
         tmp_path / "site", clone / "python", PIP_ROOT_USER_ACTION="ignore")
    assert tree(clone) == before
    assert (tmp_path / "site/vicinity/py.typed").exists()
    python = Program(sys.executable, LIBVICINITY=f"{root}/usr/lib/libvicinity.so",
                     PYTHONPATH=str(tmp_path / "site"))
    assert python.run("examples/python/check.py", LOG) == COMPLETE
