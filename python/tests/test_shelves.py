"""A collection of 40 shelves and 2,000 items, of which it is known what was planted in it:
a log that contradicts itself, misplaced and missing items, tags that aren't in the catalogue,
rows without a tag.

The logs are made here: a field of tags is asked, and each answer noted, without the package.
What is wanted follows from what was planted, once with the log that contradicts itself and once
with another in its place. The UID of an item ends in its number."""
import json
import os

from cases import Command, frame, within

ITEMS, EACH = 2000, 50
SHELVES = [f"S{number:02}" for number in range(1, 41)]
BROKEN = "S17"
#: What is planted; items go by their numbers in the catalogue. 0 to 49 belong to the first shelf.
UNTAGGED = range(7, ITEMS, 100)
MISSING = (110, 455, 1013)
#: On which shelves these stand. One of them belongs to the shelf whose log is broken.
MISPLACED = {3: "S02", 220: "S40", 820: "S05", 1205: "S01", 1999: "S18"}
UNEXPECTED = {0xE0040199000000A1: "S09", 0xE0040199000000B7: "S30"}
SPLIT = 4


def reply(uid):
    return b"R " + frame(b"\0\0" + uid.to_bytes(8, "little")) + b"\n"


def round_over(field, length, value, lines):
    """Asks the UIDs that end in some bits in sixteen slots, and those of each collision again."""
    mask = value.to_bytes((length + 7) // 8, "little")
    lines.append(b"T " + frame(bytes([0x06, 0x01, length]) + mask) + b"\n")
    collided = []
    for slot in range(16):
        ending = value | slot << length
        answering = [uid for uid in field if uid % (1 << length + SPLIT) == ending]
        lines.append(b"S\n" if not answering else
                     reply(answering[0]) if len(answering) == 1 else b"C\n")
        if len(answering) > 1:
            collided.append((answering, length + SPLIT, ending))
    for there, longer, ending in collided:
        round_over(there, longer, ending, lines)


def belongs(item):
    return SHELVES[item // EACH]


class Shelves:
    """The UIDs of the tags of items, and the tags on each shelf."""

    def __init__(self):
        self.uids = {item: int(f"E00401500000{item:04}", 16)
                     for item in range(ITEMS) if item not in UNTAGGED}
        self.fields = {shelf: [uid for uid, where in UNEXPECTED.items() if where == shelf]
                       for shelf in SHELVES}
        for item in self.uids.keys() - set(MISSING):
            self.fields[MISPLACED.get(item, belongs(item))].append(self.uids[item])

    def log(self, shelf, is_broken=False):
        """The log of a shelf. At the end of a broken one all tags are asked, and none answers."""
        lines = [b"vicinity-log 1\n"]
        round_over(self.fields[shelf], 0, 0, lines)
        return b"".join(lines + [b"T 260100F60A\n", b"S\n"] * is_broken)

    def rows(self):
        """The cells of each item: its barcode, title, UID and place."""
        for item in range(ITEMS):
            uid = f"{self.uids[item]:016X}" if item in self.uids else "none"
            yield [f"B{item:05}", f"Title {item}", uid, belongs(item)]


def state_of(item, is_broken):
    """The state of an item, and the shelf in whose log its tag is certain."""
    if item in UNTAGGED:
        return "no tag", ""
    where = MISPLACED.get(item, belongs(item))
    if item in MISSING or is_broken and where == BROKEN:
        return "not provable" if is_broken else "missing", ""
    return "in place" if where == belongs(item) else "misplaced", where


class Collection(Command):
    def setUp(self):
        super().setUp()
        self.addCleanup(os.chdir, os.getcwd())
        os.chdir(self.folder)
        self.shelves = Shelves()
        self.logs = [f"{shelf}.log" for shelf in SHELVES]
        for shelf in SHELVES:
            self.write(f"{shelf}.log", self.shelves.log(shelf, shelf == BROKEN))
        self.rows = list(self.shelves.rows())
        self.catalogue("".join(",".join(row) + "\n" for row in [
            ["Barcode", "Title", "UID", "Place"], *self.rows]))

    def states(self):
        """Whether the log of one shelf is broken, with the status; then it is counted again."""
        yield True, 2
        self.write(f"{BROKEN}.log", self.shelves.log(BROKEN))
        yield False, 1

    def ask(self, *options):
        return within("collection", *options, "catalogue.csv", *self.logs)

    def table(self, is_broken):
        """What is wanted. In the field of the broken log anything may be."""
        found = [["Barcode", "Title", "UID", "Place", *(f"vicinity {it}" for it in (
            "state", "certain in", "may be in"))]]
        for item, row in enumerate(self.rows):
            state, where = state_of(item, is_broken)
            found.append([*row, state, f"{where}.log" if where else "",
                          f"{BROKEN}.log" if is_broken and state != "no tag" else ""])
        found += [["", "", f"?{uid:016X}", "", "unexpected", f"{where}.log",
                   f"{BROKEN}.log" * is_broken] for uid, where in sorted(UNEXPECTED.items())]
        return "".join(",".join(row) + "\n" for row in found).encode()

    def test_what_is_planted(self):
        self.assertEqual((len(UNTAGGED), len(MISSING), len(MISPLACED), len(self.logs)),
                         (20, 3, 5, 40))
        self.assertEqual((len(self.shelves.uids), sum(map(len, self.shelves.fields.values()))),
                         (1980, 1979))

    def test_csv(self):
        for is_broken, status in self.states():
            for jobs in "13":
                self.assertEqual(self.ask("--csv", "--jobs", jobs),
                                 (self.table(is_broken), b"", status))

    def test_json(self):
        for is_broken, status in self.states():
            said, errors, ended = self.ask("--json")
            told = json.loads(said)
            self.assertEqual((errors, ended, told["status"]), (b"", status, status))
            states = [(it["state"], [told["logs"][log]["name"] for log in it["certain_in"]])
                      for it in told["items"]]
            self.assertEqual(states, [(state, [f"{where}.log"] if where else []) for state, where
                                      in (state_of(item, is_broken) for item in range(ITEMS))])

    def test_what_has_changed_since(self):
        """One item was moved, one is gone, one is back, and of one shelf no tag was asked."""
        list(self.states())  # so the broken log is counted again
        self.write("old.json", self.ask("--json")[0])
        fields, uids = self.shelves.fields, self.shelves.uids
        fields["S02"] = [uid for uid in fields["S02"] if uid not in (uids[60], uids[61])]
        fields["S03"] += uids[60], uids[110]
        for shelf in ("S02", "S03"):
            self.write(f"{shelf}.log", self.shelves.log(shelf))
        self.write("S39.log", b"vicinity-log 1\n")
        self.write("new.json", self.ask("--json")[0])
        self.assertEqual(within("compare", "old.json", "old.json"), (b"", b"", 0))
        said, errors, status = within("compare", "old.json", "new.json")
        self.assertEqual((errors, status), (b"", 1))
        was = "was in place in"
        self.assertEqual(said.decode(), "".join([
            "answer: unlisted E0040199000000A1, was absent E004015000000110\n",
            "log S39.log: possible, not to its end, was possible\n",
            "in place E004015000000110 in S03.log, was missing: B00110, Title 110, S03\n",
            f"misplaced E004015000000060 in S03.log, {was} S02.log: B00060, Title 60, S02\n",
            f"not provable E004015000000061, {was} S02.log: B00061, Title 61, S02\n",
            *(f"not provable E00401500000{item}, {was} S39.log: B0{item}, Title {item}, S39\n"
              for item in range(1900, 1950) if item != 1907),
            "not provable E004015000000455, was missing: B00455, Title 455, S10\n",
            "not provable E004015000001013, was missing: B01013, Title 1013, S21\n"]))
