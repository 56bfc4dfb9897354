"""Refuses each allocation of a program in turn (tests/c/refuse.c)."""
import re

from helpers.program import Said, compiled

WANT = Said(b"", b"vicinity: out of memory\n", 4)


def shim(name, folder, compiler="cc"):
    """A file of tests/c, to be loaded before the C library by LD_PRELOAD."""
    made = folder / f"{name}.so"
    compiled(made, "-shared", "-fPIC", f"tests/c/{name}.c", compiler=compiler)
    return str(made)


def counted(program, refuse, *words, given=b""):
    """How many sets for judging are made in a run, and how many allocations there are; and what is
    written."""
    said = program.run(*words, given=given, env={"LD_PRELOAD": refuse, "COUNTED": "1"})
    telling, grown = re.search(rb"(\d+) telling of (\d+) grown\n$", said.err).groups()
    return int(telling), int(grown), said.out.decode()


def refused(program, refuse, *words, given=b""):
    """What is written in each run in which an allocation is refused."""
    _, grown, _ = counted(program, refuse, *words, given=given)
    for number in range(1, grown + 1):
        yield program.run(*words, given=given, env={"LD_PRELOAD": refuse, "REFUSED": str(number)})
