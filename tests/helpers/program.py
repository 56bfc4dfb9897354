"""A program, and what it says."""
import fcntl
import os
import shutil
import subprocess
from pathlib import Path
from typing import NamedTuple

import pytest

TOP = Path(__file__).resolve().parent.parent.parent
MAKE = "make", "-sj2", "-C", TOP
STRICT = ("-Wall", "-Wextra", "-Wpedantic", "-Wshadow", "-Werror")


class Said(NamedTuple):
    """What a program wrote on standard output and error, and its status."""
    out: bytes
    err: bytes
    status: int


class Program:
    """A program, by the words that start it, of which an emulator may be the first, and what it
    finds in its environment."""

    def __init__(self, *words, **environment):
        self.words, self.environment = [str(word) for word in words], environment

    def run(self, *words, given=b"", name=None, **how):
        """Runs it at the top of the repository. `name` is the name by which it is started; `how`
        has more for subprocess.run, as other streams."""
        first, *more = self.words
        streams = {"stdout": subprocess.PIPE, "stderr": subprocess.PIPE, "cwd": TOP,
                   "env": {**os.environ, **self.environment} if self.environment else None, **how}
        if "stdin" not in how:
            streams["input"] = given
        done = subprocess.run([name or first, *more, *words], executable=first, check=False,
                              **streams)
        return Said(done.stdout or b"", done.stderr or b"", done.returncode)

    def told(self, *words, **how):
        """The text that it writes, with status 0."""
        said = self.run(*words, **how)
        assert said.status == 0, said.err.decode()
        return said.out.decode()


class Commands:
    """The commands in C, all runs in one process (tests/c/many.c): a start takes long. A run with
    streams or an environment of its own is a start of `program`."""

    def __init__(self, many, program, folder):
        self.program, self.words, self.folder = program, program.words, folder
        for name in "in", "out", "err":
            (folder / name).touch()
        self.process = subprocess.Popen([*many.words, folder], stdin=subprocess.PIPE,
                                        stdout=subprocess.PIPE, stderr=subprocess.DEVNULL)

    def run(self, *words, given=b"", name="vicinity", cwd=TOP, **how):
        if how and how != {"stdin": subprocess.DEVNULL}:
            return self.program.run(*words, given=given, cwd=cwd, **how)
        (self.folder / "in").write_bytes(given)
        run = [f"-{os.fsencode(word).hex()}".encode() for word in (cwd, name, *words)]
        self.process.stdin.write(b" ".join(run) + b"\n")
        self.process.stdin.flush()
        status = self.process.stdout.readline()
        out, err = ((self.folder / name).read_bytes() for name in ("out", "err"))
        assert status, f"it has ended: {err.decode()}"
        return Said(out, err, int(status))


def many(folder, compiler, *words, renamed=()):
    """Makes the commands in C to be run many times in one process."""
    told(*compiler, f"-I{TOP}/include", "-O2", "-c", "-Dmain=vicinity_main", *renamed,
         *TOP.glob("commands/*.c"), cwd=folder)
    told(*compiler, "-O2", "tests/c/many.c", *folder.glob("*.o"), *words, "-o", folder / "many")


def told(*words, cwd=TOP, **environment):
    """What a tool writes, which finds nothing wrong. Without the tool the test is skipped."""
    needs(str(words[0]))
    return Program(*words, **environment).told(cwd=cwd)


def compiled(made, *words, compiler="cc"):
    """A program in C or C++."""
    told(compiler, *STRICT, *words, "-o", made)
    return Program(made)


def linked(folder, made, *words, compiler="cc"):
    """The same, with the archive of the library in a folder."""
    return compiled(made, f"-I{folder}", *words, folder / "libvicinity.a", compiler=compiler)


def build(config, *command):
    """Runs what builds something, one at a time; what it says is shown at once."""
    (TOP / "out").mkdir(exist_ok=True)
    capture = config.pluginmanager.getplugin("capturemanager")
    with open(TOP / "out/lock", "w") as lock, capture.global_and_fixture_disabled():
        fcntl.flock(lock, fcntl.LOCK_EX)
        subprocess.run([str(word) for word in command], cwd=TOP, check=True)


def program_of(config, crate):
    """The proved program of a crate."""
    build(config, *MAKE, crate)
    return Program(TOP / f"crates/{crate}/out/{crate}")


def needs(*tools):
    """Skips a test for which a tool, or a file, isn't there."""
    for tool in tools:
        if not (os.path.exists(tool) if tool.startswith("/") else shutil.which(tool)):
            pytest.skip(f"there is no {tool}: tests/setup installs it")
