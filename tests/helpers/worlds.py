"""Small collections, of which every family of populations can be tried: random ones, and whether
one is complete."""
import itertools
from typing import NamedTuple

from helpers.oracle import Judge
from helpers.random_collections import Case, as_table, search, spoiled
from helpers.random_logs import eight_uids, log_text, opening


class World(NamedTuple):
    """Eight UIDs, of which all tags are, the lines of each log, and the items: of each its UID or
    none, its place or none, and whether it is away."""
    uids: list
    lines: dict
    items: list
    case: Case


def world_of(rng):
    """Up to three logs of the same eight UIDs, and a catalogue that is mostly right."""
    uids, errors = eight_uids(rng), rng.choice((0, 0, 0.1, 0.3))
    names = rng.sample(["a.log", "b.log", "x/c.log"], rng.randint(1, 3))
    lines, files, there = {}, {}, {}
    for name in names:
        there[name] = {uid for uid in uids if rng.random() < 0.4}
        version = rng.randint(1, 3)
        lines[name] = opening(rng, version, uids)[0] + search(rng, version, uids, there[name])
        if rng.random() < errors:
            lines[name] = spoiled(rng, version, uids, lines[name])
        files[name] = log_text(version, lines[name])
    items = [item_of(rng, uid, [name for name in names if uid in there[name]], names, errors)
             for uid in uids if rng.random() < errors / 3 or any(uid in it for it in there.values())
             and rng.random() >= errors / 3]
    rows = [[f"{uid:016X}", place or "any", "away" if away else ""] for uid, place, away in items]
    files["K"] = as_table(rng, ["uid", "place", "away"], rows or [["none", "any", ""]])
    return World(uids, lines, items, Case(files, ["K", *names]))


def place_of(name):
    """The place of a log: its letter, which is before `.log`."""
    return name[-5]


def item_of(rng, uid, where, names, errors):
    """An item whose tag is in the fields of `where`, some of the logs of these names: mostly of one
    of their places, and mostly away if there are none."""
    name = rng.choice(names if rng.random() < errors or not where else where)
    place = rng.choice((*[place_of(name)] * 3, None))
    return uid, place, rng.random() < (errors / 2 if where else 0.8)


def families_of(world):
    """What tags are in each field, in each family of populations that could have produced the
    logs; none if a log is impossible."""
    judge = Judge(world.uids)
    each = [judge.judge(lines).populations for lines in world.lines.values()]
    for family in itertools.product(*each):
        yield dict(zip(world.lines, (
            {uid for uid in world.uids if judge.bits[uid] & there} for there in family)))


def is_complete(world):
    """Whether a collection is as `complete` says, by all families."""
    wanted = {uid for uid, _, away in world.items if not away}
    tried = 0
    for tried, fields in enumerate(families_of(world), 1):
        if set().union(*fields.values()) != wanted:
            return False
        for uid, place, away in world.items:
            logs = [name for name in fields if place in (None, place_of(name))]
            if not away and not any(uid in fields[name] for name in logs):
                return False
    return tried > 0
