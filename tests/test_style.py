"""The style of scripts and Python, and the types of Python and of the page's modules, by Debian's
tools: shellcheck, flake8, mypy and tsc, as setup.cfg and web/ have it."""
import os
import re

import pytest

from helpers.program import TOP, Program, needs

SKIPPED = ("out", "dist", ".git", "crates", "data")


def files():
    """The files of the repository that a person has written, each with its first line."""
    for place, folders, names in os.walk(TOP):
        folders[:] = sorted(name for name in folders if name not in SKIPPED)
        for name in sorted(names):
            if not name.endswith(".png"):
                with open(os.path.join(place, name), "rb") as file:
                    yield os.path.relpath(file.name, TOP), file.readline()


SHELL = [name for name, first in files()
         if first.startswith((b"#!/bin/sh", b"#!/bin/bash", b"#!/usr/bin/env bash"))]
PYTHON = [name for name, first in files()
          if name.endswith(".py") or first.startswith(b"#!/usr/bin/env python3")]


MYPY = "mypy", "--cache-dir", "/dev/null"
CHECKS = [("shellcheck", "-x", *SHELL), ("flake8", *PYTHON),
          (*MYPY, "--strict", "python/vicinity"), (*MYPY, "--platform", "win32", "python/vicinity"),
          ("tsc", "-p", "web"),
          (*MYPY, "--strict", "examples/python/check.py", "examples/python/reader_loop.py"),
          # Dask has no types
          pytest.param((*MYPY, "--strict", "--allow-untyped-calls", "--ignore-missing-imports",
                        "examples/python/fleet.py"), marks=pytest.mark.slow),
          (*MYPY, "tests", "tools/biglog.py", "tools/measure.py", "tools/recheck")]


@pytest.mark.parametrize("words", CHECKS, ids=lambda words: f"{words[0]}-{words[-1]}")
def test_a_tool_finds_nothing(words):
    needs(words[0])
    said = Program(*words).run()
    assert not said.status, said.out.decode()


def test_lines_of_code_and_definitions_end_by_column_100():
    longer = re.compile(r' *(ghost use|use|import|b?")')
    files = [file for file in TOP.glob("crates/*/s*/**/*")
             if file.suffix in (".rt", ".antt")]
    assert len(files) > 300
    assert not [f"{file.relative_to(TOP)}:{number}" for file in files
                for number, line in enumerate(file.read_text().splitlines(), 1)
                if len(line) > 100 and not longer.match(line)]


def test_each_kind_of_script_is_found():
    assert "test" in SHELL and "tests/setup" in SHELL and "tests/mutants" in PYTHON
    assert len(PYTHON) > 50
