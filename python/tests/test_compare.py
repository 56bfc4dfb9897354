"""What has changed between two answers of `collection --json`."""
import json

from cases import (ALL, CAPTURED_A, COLLECTION, HEARD_A, HEARD_B, SHELVES, SILENCE_A, Command, log,
                   on_a_terminal, third, within)

CATALOGUE = b"uid,title,place\nE0040100000000A1,Emma,a\nnone,Map,a\n"


class Compare(Command):
    def answer(self, name, catalogue=CATALOGUE, a=ALL + HEARD_A, is_cut=False, **logs):
        """A file with the answer to a catalogue and to logs of the places a and others."""
        words = [self.write("catalogue.csv", catalogue), *(
            self.write(f"{place}.log", lines if lines.startswith(b"vicinity-") else log(lines))
            for place, lines in {"a": a, **logs}.items())]
        said, errors, _ = within("collection", "--json", *words)
        self.assertEqual(b"has no line end" in errors, is_cut)
        return self.write(name, said)

    def changes(self, old, new):
        said, errors, status = within("compare", old, new)
        self.assertEqual((errors, status), (b"", int(bool(said))))
        return said.decode().splitlines()

    def test_nothing(self):
        self.assertEqual(self.changes(self.answer("old"), self.answer("new")), [])

    def test_each_change_of_a_state(self):
        """From there to misplaced, too, and to and from what nobody expects."""
        old = self.answer("old", CATALOGUE.replace(b"Emma,a", b"Emma,any"))
        new = self.answer("new", CATALOGUE.replace(b"Emma,a", b"Emma,c"), c=ALL + b"S\n")
        self.assertEqual(self.changes(old, new), [
            "status: 1, was 0", "answer: misplaced E0040100000000A1, was complete 1",
            "log c.log: possible, was none",
            "misplaced E0040100000000A1 in a.log, was there in a.log: Emma, c"])
        gone = self.answer("gone", CATALOGUE.replace(b"E0040100000000A1", b"E0040100000000B2"))
        self.assertEqual(self.changes(self.answer("old"), gone), [
            "status: 1, was 0", "answer: absent E0040100000000B2, was complete 1",
            "missing E0040100000000B2, was not in the catalogue: Emma, a",
            "unexpected E0040100000000A1 in a.log, was in place in a.log: Emma, a"])

    def test_a_catalogue_that_was_cut(self):
        """In its last cell, so that nothing else differs."""
        whole = b"uid,place,title\nE0040100000000A1,a,Emma\n"
        old, new = self.answer("old", whole), self.answer("new", whole[:-1], is_cut=True)
        self.assertEqual(self.changes(old, new),
                         ["catalogue: its last row has no line end, was none"])
        self.assertEqual(self.changes(new, old),
                         ["catalogue: none, was its last row has no line end"])

    def test_items_without_a_tag(self):
        old, new = self.answer("old"), self.answer("new", CATALOGUE + b"none,Map,a\nnone,Box,a\n")
        self.assertEqual(self.changes(old, new), [
            "no tag none, was not in the catalogue: Map, a",
            "no tag none, was not in the catalogue: Box, a"])
        self.assertEqual(self.changes(new, old), [
            "not in the catalogue none, was no tag: Map, a",
            "not in the catalogue none, was no tag: Box, a"])

    def test_logs_and_places(self):
        old = self.answer("old", CATALOGUE + b"E0040100000000B2,Kim,b\n", b=ALL + HEARD_B)
        new = self.answer("new", CATALOGUE + b"E0040100000000B2,Kim,b\n")
        self.assertEqual(self.changes(old, new), [
            "status: 1, was 0", "answer: not counted E0040100000000B2, was complete 2",
            "log b.log: none, was possible", "place b: no log, was none",
            "not counted E0040100000000B2, was in place in b.log: Kim, b"])
        broken = self.answer("new", a=ALL + b"S\n" + ALL + b"C\n")
        self.assertEqual(self.changes(self.answer("old"), broken), [
            "status: 2, was 0", f"answer: impossible at line 5 of {self.folder}/a.log, "
            "was complete 1", "log a.log: impossible at line 5, was possible",
            "not provable E0040100000000A1, was in place in a.log: Emma, a"])
        half = self.answer("new", a=b"T 260104012214\n" + HEARD_A)
        self.assertEqual(self.changes(self.answer("old"), half), [
            "status: 1, was 0", "answer: unsettled 1 00, was complete 1",
            "log a.log: possible, not to its end, was possible"])
        left = self.answer("new", z=ALL + b"S\n")
        self.assertEqual(self.changes(self.answer("old"), left), [
            "status: 1, was 0", f"answer: left over {self.folder}/z.log, was complete 1",
            "log z.log: possible, left over, was none"])

    def test_folders_are_named_after_the_day(self):
        """They count only where the names of logs alone don't tell them apart."""
        words = "collection", "--json", self.write("K", b"uid\nE0040100000000A1\n")

        def answer(name, *logs):
            return self.write(name, within(*words, *logs)[0])

        monday, tuesday = self.write("monday.log", log(ALL + HEARD_A)), f"{self.folder}/x/"
        self.write_in("x", "monday.log", log(ALL + HEARD_A))
        old, new = answer("old", monday), answer("new", f"{tuesday}monday.log")
        self.assertEqual(self.changes(old, new), [])

    def test_items_that_have_moved(self):
        words = "collection", "--json", self.write("K", b"uid,title\nE0040100000000A1,Emma\n")
        a, b = (self.write(name, log(ALL + lines)) for name, lines in (
            ("a.log", HEARD_A), ("b.log", b"S\n")))
        old = self.write("old", within(*words, a, b)[0])
        self.write("a.log", log(ALL + b"S\n"))
        self.write("b.log", log(ALL + HEARD_A))
        new = self.write("new", within(*words, a, b)[0])
        line = "there E0040100000000A1 in b.log, was there in a.log: Emma"
        hidden = "log b.log, if replies were hidden: others may be here, was still complete"
        self.assertEqual(self.changes(old, new), [hidden, line])
        self.write("a.log", log(ALL + HEARD_A))
        both = self.write("both", within(*words, a, b)[0])
        self.assertEqual((self.changes(old, both), self.changes(both, new)), ([hidden], []))

    def test_what_is_less_sure(self):
        """Of a log that was searched to its end: a margin that is less, and another reading by
        which others may be there. What is surer now isn't told."""
        silence = SILENCE_A + ALL + b"S\n"
        heard = b"F\nT 260138A1000000000104618F\n" + CAPTURED_A
        sure, twice, deaf, alone = (
            self.answer(name, a=third(lines)) for name, lines in (
                ("sure", ALL + CAPTURED_A + silence + heard),
                ("twice", ALL + CAPTURED_A + silence + ALL + b"S\n" + heard),
                ("deaf", ALL + CAPTURED_A + silence), ("alone", ALL + HEARD_A)))
        margin = "log a.log, margin: 1, was 2"
        went_deaf = "log a.log, if the reader went deaf: others may be here, was still complete"
        hidden = "log a.log, if replies were hidden: others may be here, was still complete"
        for old, new, wanted in (
                (twice, sure, [margin]), (sure, deaf, [went_deaf]), (deaf, alone, [hidden]),
                (twice, alone, [margin, hidden, went_deaf])):
            self.assertEqual(self.changes(old, new), wanted)
            self.assertEqual(self.changes(new, old), [])
        # of a log that isn't read to its end, or contradicts itself, that is told alone
        for lines in (b"T 260104012214\n" + HEARD_A, ALL + b"S\n" + ALL + b"C\n"):
            said = self.changes(twice, self.answer("new", a=third(lines)))
            self.assertEqual([line for line in said if line.startswith("log a.log, ")], [])

    def test_as_json(self):
        old, new = self.answer("old"), self.answer("new", a=ALL + b"S\n")
        said, errors, status = within("compare", "--json", old, new)
        self.assertEqual((json.loads(said), errors, status), ({
            "schema": 2, "status": 1, "said": [
                {"of": "status", "was": "0", "is": "1"},
                {"of": "answer", "was": "complete 1", "is": "absent E0040100000000A1"}],
            "changes": [{"uid": "E0040100000000A1", "was": "in place", "is": "missing",
                         "was_in": ["a.log"], "is_in": [],
                         "columns": {"title": "Emma", "place": "a"}}]}, b"", 1))

    def test_a_summary_in_a_terminal(self):
        """By state, and by place."""
        files = [f"{COLLECTION}/{name}.csv" for name in ("catalogue", "places")]
        old = self.write("old", within("collection", "--json", *files, *SHELVES)[0])
        new = self.write("new", within("collection", "--json", *files, *SHELVES[:2])[0])
        told, said = on_a_terminal("compare", old, new, streams=["stderr"])
        self.assertIn(b"in place in shelf-c.log: Jane Eyre, C\n", said)
        self.assertEqual(told.decode(), "in all: 4 not counted\r\nC: 4 not counted\r\n")

    def test_files_that_are_no_answers(self):
        good = self.answer("good")
        with open(good, "rb") as file:
            told = json.loads(file.read())
        changed = [{**told, "schema": 1}, *(
            {key: it for key, it in told.items() if key != lacking}
            for lacking in ("items", "logs", "answer", "columns"))]
        for content in (b"", b"[]", b"{}", b"[" * 100_000,
                        *(json.dumps(it).encode() for it in changed)):
            bad = self.write("bad", content)
            for names in ([good, bad], [bad, good]):
                self.assertEqual(within("compare", *names), (
                    b"", f"vicinity: {bad} isn't an answer as `collection --json` writes it\n"
                    .encode(), 3))
        self.assertEqual(within("compare", good)[2], 4)
        self.assertEqual(within("compare", good, "/nowhere"), (
            b"", b"vicinity: cannot read /nowhere: No such file or directory\n", 4))
