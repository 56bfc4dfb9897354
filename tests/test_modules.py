"""Holds that no two modules of a crate use each other, also not by way of others; that a layer of
the page uses those below it alone, and the front page of web/ lists its modules."""
import graphlib
import re

import pytest

from helpers.program import TOP

CRATES = TOP / "crates"
USE = re.compile(r"\bcrate::(\w+)")


def module_of(file, src):
    """The module of a file: what stands in a folder belongs to the module of the folder."""
    return file.relative_to(src).parts[0].removesuffix(".rt")


def uses_of(crate):
    """The modules of a crate, each with those that it names."""
    src = crate / "src"
    uses = {}
    for file in src.rglob("*.rt"):
        if file.name not in ("lib.rt", "main.rt"):
            uses.setdefault(module_of(file, src), set()).update(USE.findall(file.read_text()))
    return {module: (names & uses.keys()) - {module} for module, names in uses.items()}


def way_back(uses):
    """The modules on a way from a module to itself, none where there is none."""
    try:
        graphlib.TopologicalSorter(uses).prepare()
    except graphlib.CycleError as cycle:
        return cycle.args[1]
    return []


@pytest.mark.parametrize("crate", sorted(CRATES.iterdir()), ids=lambda crate: crate.name)
def test_no_two_modules_use_each_other(crate):
    assert not way_back(uses_of(crate))


def test_a_way_back_is_found():
    assert sorted(way_back({"a": {"b"}, "b": {"c"}, "c": {"a"}})) == ["a", "a", "b", "c"]
    assert not way_back({"a": {"b", "c"}, "b": {"c"}, "c": {"d"}})


def test_the_front_page_of_web_names_each_module():
    table = (TOP / "web/README.md").read_text().partition("|---|")[2]
    named = re.findall(r"`((?:\w+/)?\w+)`", table)
    assert sorted(named) == sorted(str(file.relative_to(TOP / "web").with_suffix(""))
                                   for file in (TOP / "web").rglob("*.mjs"))


def test_a_layer_of_the_page_uses_those_below_it():
    layers = ["judge", "say", "draw", "web"]
    for file in (TOP / "web").rglob("*.mjs"):
        used = re.findall(r'^import .*? from "(.*?)";$', file.read_text(), re.M | re.S)
        mine = layers.index(file.parent.name)
        of = [layers.index((file.parent / it).resolve().parent.name) for it in used]
        assert max(of, default=0) <= mine, file
