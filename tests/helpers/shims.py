"""The program as each binding does it: `run` of a language, over files that are read here or by a
program of tests/shims, whose first word is the number of the command."""
import base64
import json
import os
import shutil
import subprocess

import vicinity
from vicinity._native import COMMANDS

from helpers.program import TOP, Said, linked, told

SHIMS = TOP / "tests/shims"
USAGE = Said(b"", b"vicinity: usage\n", 4)


def named_texts(command, words, given, cwd):
    """The names of the texts that a command is asked for, and the texts."""
    names = [os.fsdecode(word) for word in words]
    if command in ("frame", "spell"):
        return [""] * len(names), [name.encode() for name in names]
    return names or [""], [(cwd / name).read_bytes() for name in names] or [given]


class ByProgram:
    """A program that is made over a binding."""

    def __init__(self, program):
        self.program = program

    def run(self, command, *words, name="vicinity", **how):
        assert name == "vicinity"
        return self.program.run(str(1 + COMMANDS.index(command)), *words, **how)


class ByPython:
    """The package, in this process."""

    def run(self, command, *words, given=b"", name="vicinity", cwd=TOP):
        assert name == "vicinity"
        names, texts = named_texts(command, words, given, cwd)
        try:
            text, status = vicinity.run(command, *texts, names=names)
        except ValueError:
            return USAGE
        return Said(text, b"", status)


class ByJavaScript:
    """The module for WebAssembly by web/judge/library.mjs, in one process of node."""

    def __init__(self, module):
        self.node = subprocess.Popen(["node", SHIMS / "run.mjs", module], stdin=subprocess.PIPE,
                                     stdout=subprocess.PIPE)

    def run(self, command, *words, given=b"", name="vicinity", cwd=TOP):
        assert name == "vicinity"
        names, texts = named_texts(command, words, given, cwd)
        asked = {"command": command, "texts": [
            {"name": one, "text": base64.b64encode(text).decode()}
            for one, text in zip(names, texts)]}
        self.node.stdin.write(json.dumps(asked).encode() + b"\n")
        self.node.stdin.flush()
        answer = json.loads(self.node.stdout.readline())
        if answer["status"] == 4:
            assert answer["why"] == "RangeError"
            return USAGE
        return Said(base64.b64decode(answer["written"]), b"", answer["status"])


def make_shim(language, library, folder, go, rust):
    """Makes the program over a binding, with the archive of the library in a folder."""
    made, source = folder / "run", SHIMS / language
    if language == "cpp":
        linked(library, made, "-std=c++11", "-Ibindings/cpp", SHIMS / "run.cpp", compiler="g++")
    elif language == "go":
        told("go", "build", "-o", made, cwd=source, **go)
    else:
        told("cargo", "build", "--offline", "--locked", cwd=source, **rust)
        shutil.copy(f"{rust['CARGO_TARGET_DIR']}/debug/run", made)
