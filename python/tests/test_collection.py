"""Many logs against one catalogue: the call, and what `python3 -m vicinity collection` writes."""
import dataclasses
import json
import os
import re
from hashlib import sha256
from pathlib import Path
from unittest import mock

import vicinity
from cases import (A, ALL, B, COLLECTION, HEARD_A, HEARD_B, LIST_A, LIST_B, NOTHING, SHELVES,
                   SILENCE_A, SILENCE_B, Command, command, least, log, on_a_terminal, third,
                   within)
from helpers import collection_rows
from helpers.records import drawn_in
from vicinity import Mask
from vicinity._sentences import SENTENCES
from vicinity.commands import collection

FORMS = ([], ["--csv"], ["--json"], ["--page"])
TABLES = [os.path.join(COLLECTION, f"{name}.csv") for name in ("catalogue", "places")]


def contents(*names):
    return {os.path.basename(name): Path(name).read_bytes() for name in names}


class Calls(Command):
    def test_the_example(self):
        found = vicinity.collection(contents(*TABLES, *SHELVES))
        self.assertEqual((str(found), found.status, bool(found)), (
            "absent E00401502B91C435", 1, False))
        self.assertEqual((found.counts["in place"], found.columns, found.ended, found.margin),
                         (9, ("uid", "title", "place"), True, None))
        item = found.items[6]
        self.assertEqual(item, vicinity.Item(
            8, 0xE00401504477EB73, "misplaced", "B", False, (0,), (),
            ("E00401504477EB73", "The Time Machine", "B")))
        with self.assertRaises(dataclasses.FrozenInstanceError):
            item.state = "in place"
        shelf = found.logs[2]
        self.assertEqual((shelf.name, shelf.place, shelf.field, shelf.certain, shelf.open),
                         ("shelf-c.log", "C", "possible", 3, (Mask(4, 0xE), Mask(4, 0xF))))
        self.assertEqual((shelf.hidden, shelf.deaf, found.logs[0].hidden),
                         (Mask(5, 1), Mask(4, 0xB), None))

    def test_what_is_complete(self):
        files = {"K": b"uid\nE0040100000000A1\nnone\n", "a": log(ALL + HEARD_A)}
        found = vicinity.collection(files)
        self.assertEqual((str(found), bool(found), found.is_complete), ("complete 1", True, True))
        self.assertEqual(found.margin, vicinity.Least(1, Mask(1, 0), 0))
        self.assertEqual([it.uid for it in found.items], [A, None])

    def test_what_is_not_expected(self):
        found = vicinity.collection({"K": b"uid\nnone\n", "a": log(ALL + HEARD_B), "b": log(b"")})
        self.assertEqual(found.unexpected, (vicinity.Found(B, (0,), (1,), 3),))
        self.assertEqual((found.unsettled, found.logs[1].open[:1]), (Mask(1, 1), (Mask(1, 1),)))

    def test_surveys_stand_for_logs(self):
        said = vicinity.survey(log(ALL + HEARD_A), "a.log")
        self.assertEqual((said.text.splitlines()[:2], said.status),
                         ([b"vicinity-survey 1 a.log", b"possible"], 0))
        broken = vicinity.survey(log(ALL + b"S\n" + ALL + b"C\n"), "b.log")
        self.assertEqual(broken.status, 2)
        files = {"K": b"uid\nE0040100000000A1\n", "all": said.text + broken.text}
        found = vicinity.collection(files)
        self.assertEqual((str(found), [it.name for it in found.logs]),
                         ("impossible at line 5 of b.log", ["a.log", "b.log"]))
        self.assertEqual(found.logs[1], vicinity.Log("b.log", None, False, "impossible at line 5"))

    def test_what_is_refused(self):
        with self.assertRaisesRegex(vicinity.CollectionRefused, "refused at line 2 of K: Uid"):
            vicinity.collection({"K": b"uid\nx\n"})
        cut = vicinity.survey(NOTHING, "a.log").text[:-1]
        with self.assertRaisesRegex(vicinity.CollectionRefused, "refused at line 8 of cut: Survey"):
            vicinity.collection({"K": b"uid\nnone\n", "cut": cut})
        for files in ({}, {"a": NOTHING}, {"K": b"uid\nnone\n", "L": b"uid\nnone\n"},
                      {"K": b"uid\nnone\n", "": NOTHING}):
            with self.assertRaises(ValueError):
                vicinity.collection(files)


#: By which form the package writes what a command does.
ROWS = {"collection": "--csv", "json-collection": "--json", "reconcile": "--lines"}


class Rows(Command):
    """The worked rows of collections: what is written is what the program has to write, though
    each log is surveyed first."""

    def test_rows(self):
        number = 0
        for param in collection_rows.rows():
            command, files, row, answer = param.values
            form, texts = ROWS.get(command), collection_rows.files_of(row)
            if not form or answer["status"] == 4 or param.marks or not set(files) <= texts.keys():
                continue
            if command == "reconcile" and texts[files[0]][:9] in (b"", b"vicinity-"):
                continue  # against a list
            with self.subTest(param.id), mock.patch.object(collection, "read", texts.__getitem__):
                out, _, status = within("collection", form, "--", *files)
                self.assertTrue(collection_rows.is_right(answer, (out, b"", status)), out)
            number += 1
        self.assertGreater(number, 390)


class Asked(Command):
    def test_the_example(self):
        """docs/COLLECTIONS.md has the table."""
        for form, writes in (("--csv", "collection"), ("--json", "json-collection")):
            said = vicinity.run(writes, *map(bytes, contents(*TABLES, *SHELVES).values()),
                                names=[*TABLES, *SHELVES])
            for jobs in "13":
                self.assertEqual(within("collection", form, "--jobs", jobs, *TABLES, *SHELVES),
                                 (said.text, b"", 1))

    def test_lines(self):
        said = within("collection", *SHELVES, *TABLES)
        self.assertEqual(said[1:], (b"", 1))
        self.assertIn(b"absent E00401502B91C435\n", said[0])
        self.assertIn(f"misplaced E00401504477EB73 in {SHELVES[0]}, belongs to B\n".encode(),
                      said[0])
        self.assertEqual(within("collection", *TABLES, *SHELVES), said)

    def test_page(self):
        """It draws the object, and the logs; the text is that of the lines."""
        said, errors, status = within("collection", "--page", *TABLES, *SHELVES)
        told, plain = drawn_in(said.decode())
        self.assertEqual((errors, status), (b"", 1))
        self.assertEqual((told.pop("version"), told.pop("file")),
                         (vicinity.__version__.partition(".dev")[0], "catalogue.csv"))
        self.assertEqual([it["file"] for it in told.pop("files")],
                         ["catalogue.csv", "places.csv"])
        objects = [log.pop("object") for log in told["logs"]]
        self.assertEqual([it.pop("denied") for it in told["logs"]], [[]] * 3)
        self.assertEqual([it.pop("sha256") for it in told["logs"]],
                         [sha256(Path(name).read_bytes()).hexdigest() for name in SHELVES])
        self.assertEqual([it.pop("changed") for it in told["logs"]],
                         [Path(name).stat().st_mtime_ns // 1_000_000 for name in SHELVES])
        self.assertEqual([[it["file"], it["answer"]] for it in objects], [
            ["shelf-a.log", "complete 4"], ["shelf-b.log", "complete 3"],
            ["shelf-c.log", "unsettled 4 0E"]])
        self.assertEqual(told, json.loads(within("collection", "--json", *TABLES, *SHELVES)[0]))
        self.assertEqual(plain.encode(), within("collection", *TABLES, *SHELVES)[0])

    def test_no_markup_of_a_catalogue_is_one_of_its_page(self):
        said = within("collection", "--page", self.catalogue(
            "uid,<b>\nE0040100000000A1,</script><i>&\33\n"), self.names[1])[0].decode()
        self.assertEqual(drawn_in(said)[0]["items"][0]["cells"][1], "</script><i>&\33")
        self.assertNotRegex(said.replace("<b>vicinity</b>", ""), "<[bi]>|\33")

    def test_of_many_logs_the_first_stand_in_the_page(self):
        """Those before that have to be counted again. Of the others stands what they rule out of
        their own lists."""
        names = [self.write(name, log(lines)) for name, lines in (
            ("a", ALL + HEARD_A), ("large", b"# .\n" * 999_000 + ALL + HEARD_A),
            ("more", b"# .\n" * 999_000 + ALL + b"S\n" + LIST_A), ("open", b""))]
        told = drawn_in(within("collection", "--page", self.catalogue("uid\nnone\n"),
                               *names)[0].decode())[0]
        self.assertEqual([it.get("object", {}).get("file") for it in told["logs"]],
                         ["a", "large", None, "open"])
        self.assertEqual([it["denied"] for it in told["logs"]], [[], [], ["E0040100000000A1"], []])

    def test_a_page_has_the_table_of_places(self):
        """Without the mark of UTF-8, to say which logs it names that aren't here."""
        catalogue = self.catalogue("uid,place\nE0040100000000A1,A\n")
        places = self.write("places", b"\xef\xbb\xbfplace,log\nA,a\nA,more\n")
        said = within("collection", "--page", catalogue, places, self.write("a", log(ALL)))[0]
        self.assertEqual([it.get("text") for it in drawn_in(said.decode())[0]["files"]],
                         [None, "place,log\nA,a\nA,more\n"])

    def test_a_log_in_a_text_of_surveys_is_as_old_as_this(self):
        """Whatever file has the name of the log, even if it is the text of surveys itself."""
        catalogue, name = self.catalogue("uid\nE0040100000000A1\n"), self.write("a.log", NOTHING)
        survey = vicinity.survey(log(ALL + HEARD_A), name).text
        for surveys in (self.write("old.surveys", survey), self.write("a.log", survey)):
            os.utime(surveys, (15693, 15693))
            said, errors, status = within("collection", "--page", catalogue, surveys)
            self.assertEqual((errors, status), (b"", 0))
            drawn = drawn_in(said.decode())[0]["logs"]
            self.assertEqual([(it["name"], it["changed"], it.keys() & {"sha256", "object"})
                              for it in drawn], [(name, 15693_000, set())])

    def test_a_text_of_surveys_that_is_gone_has_the_time_of_what_was_read(self):
        """Written anew, it may be either that was judged."""
        catalogue = self.catalogue("uid\nE0040100000000A1\n")
        survey, pages = vicinity.survey(log(ALL + HEARD_A), "a.log").text, collection._page
        for then, status in (os.utime, 4), (os.remove, 0):
            surveys = self.write("old.surveys", survey)
            os.utime(surveys, (15693, 15693))

            def changed(*given):
                then(surveys)
                return pages(*given)

            with mock.patch.object(collection, "_page", changed):
                said = within("collection", "--page", catalogue, surveys)
            self.assertEqual(said[1:], (b"" if status == 0 else f"vicinity: {surveys} has changed "
                                        "since it was read first\n".encode(), status))
            if status == 0:
                (drawn,) = drawn_in(said[0].decode())[0]["logs"]
                self.assertEqual(drawn["changed"], 15693_000)

    def test_a_log_that_changes_meanwhile(self):
        """What is said of the first is never said beside the second, also where only its own list
        was written meanwhile, which no survey has."""
        name, catalogue = self.write("a.log", log(ALL + HEARD_A)), self.catalogue("uid\nnone\n")
        pages = collection._page
        for then in (NOTHING, log(ALL + HEARD_A) + b"U E0040100000000C3\n"):
            def changed(*given):
                self.write("a.log", then)
                return pages(*given)

            with mock.patch.object(collection, "_page", changed):
                self.assertEqual(within("collection", "--page", catalogue, name), (
                    b"", f"vicinity: {name} has changed since it was read first\n".encode(), 4))

    def test_statuses(self):
        catalogue = self.catalogue("uid\nE0040100000000A1\n")
        for index, status in ((1, 0), (0, 1), (6, 2), (7, 3)):
            for form in FORMS:
                said = within("collection", *form, catalogue, self.names[index])
                self.assertEqual((bool(said[0]), said[1:]), (True, (b"", status)))

    def test_a_table_that_is_refused(self):
        catalogue = self.catalogue("uid\nx\n")
        line = f"refused at line 2 of {catalogue}: Uid\n".encode()
        for form in FORMS:
            self.assertEqual(within("collection", *form, catalogue, self.names[0]), (line, b"", 3))
        told, said = on_a_terminal("collection", "--csv", catalogue, streams=["stderr"])
        self.assertEqual(said, line)
        self.assertIn(b"has no UID of 16 hex digits that begin with E0", told)
        self.assertIn(b"Write 'none' where an item has no tag.", told)

    def test_of_two_faults_that_of_the_first_file_is_told(self):
        catalogue = self.catalogue("uid\nE0040100000000A1\n")
        surveys = self.write("surveys.txt", b"vicinity-survey 1 a\n")
        places = self.write("places.csv", b"place,log\nA\n")
        line = f"refused at line 2 of {surveys}: Survey\n".encode()
        for form in FORMS:
            said = within("collection", *form, catalogue, surveys, places)
            self.assertEqual(said, (line, b"", 3))

    def test_files_that_are_no_collection(self):
        other = self.write("other.csv", b"uid\nnone\n")
        catalogue = self.catalogue("uid\nnone\n")
        for names in ([self.names[0]], [catalogue, other], [catalogue, *[TABLES[1]] * 2],
                      [catalogue, self.write("a\n.log", NOTHING)]):
            for form in FORMS:
                said, errors, status = within("collection", *form, *names)
                self.assertEqual((said, status), (b"", 4))
                self.assertIn(b"vicinity: these aren't the files of a collection", errors)
        self.assertEqual(within("collection")[::2], (b"", 4))

    def test_a_log_that_cannot_be_read(self):
        """Nothing is written by halves."""
        words = [self.catalogue("uid\nE0040100000000A1\n"), self.names[1], "/nowhere"]
        for form in FORMS:
            for jobs in "12":
                self.assertEqual(within("collection", *form, "--jobs", jobs, *words), (
                    b"", b"vicinity: cannot read /nowhere: No such file or directory\n", 4))

    def test_options_that_are_gone(self):
        catalogue = self.catalogue("uid\nnone\n")
        for gone, hint in (
                ("--tags", ": join the tables first: see COLLECTIONS"), ("--expected", ""),
                ("--column", ": columns have fixed names, uid and place: see TABLES"),
                ("--place", ": columns have fixed names, uid and place: see TABLES"),
                ("--places", ": a table with columns place and log stands behind the catalogue: "
                             "see TABLES"), ("--strict", ""),
                ("--surveys", ": the text of a survey stands among the logs: see COLLECTIONS"),
                ("--encoding", ": save the table as CSV UTF-8: see TABLES"),
                ("--sep", ": save the table as CSV UTF-8: see TABLES")):
            for words in ([gone, "x"], [f"{gone}=x"]):
                said, errors, status = within("collection", catalogue, *words)
                self.assertEqual((said, status), (b"", 4))
                self.assertEqual(errors.decode().splitlines()[0],
                                 f"vicinity: unrecognized arguments: {' '.join(words)}{hint}")
        self.assertEqual(within("collection", catalogue, "--", "--tags")[1:], (
            b"vicinity: cannot read --tags: No such file or directory\n", 4))

    def test_names_of_logs_in_a_file(self):
        wanted = within("collection", "--csv", *TABLES, *SHELVES)
        for end in "\n", "\0":
            listed = self.write("names", f"{end.join(SHELVES)}{end}".encode())
            self.assertEqual(within("collection", "--csv", *TABLES, "--logs-from", listed), wanted)

    def test_standard_input(self):
        catalogue = self.catalogue("uid\nE0040100000000A1\n")
        for words, given in (([catalogue, "-"], log(ALL + HEARD_A)),
                             (["-", self.names[1]], b"uid\nE0040100000000A1\n")):
            for form in FORMS[1:]:
                said, errors, status = command("collection", *form, *words, given=given)
                self.assertEqual((errors, status, b"there" in said), (b"", 0, True))
        drawn = command("collection", "--page", catalogue, "-", given=log(
            ALL + HEARD_A + SILENCE_A + ALL + b"S\n" + LIST_A + LIST_B))[0]
        self.assertEqual([(it["denied"], it.get("changed")) for it in drawn_in(
            drawn.decode())[0]["logs"]], [(["E0040100000000B2"], None)])

    def test_jobs_keep_the_order(self):
        names = [self.write(f"{number}.log", NOTHING if number % 3 else log(ALL + HEARD_A))
                 for number in range(60)]
        words = "collection", "--csv", self.catalogue("uid\nE0040100000000A1\n"), "--jobs"
        one, four = (within(*words, jobs, *names) for jobs in "14")
        self.assertEqual(four, one)
        self.assertEqual(one[0].count(b"; "), 19)

    def test_memory_that_is_refused(self):
        large = self.write("large.log", b"")
        os.truncate(large, 200_000_000)
        for form, jobs in zip(FORMS, "1122"):
            said = command("collection", *form, "--jobs", jobs, self.catalogue("uid\nnone\n"),
                           self.names[1], large, limit=least() + 100_000)
            self.assertEqual(said, (b"", f"vicinity: out of memory: {large}\n".encode(), 4))


class Doubts(Command):
    """What is said of a catalogue of which nothing is refused, beside an answer that stays."""

    def doubts_of(self, catalogue, *forms):
        """The same by each form, or by these."""
        name, errors = self.catalogue(catalogue), set()
        for form in forms or FORMS:
            said, warned, status = within("collection", *form, name, self.names[1])
            self.assertEqual((bool(said), status), (True, 0))
            errors.add(warned.decode().replace(name, "K"))
        (warned,) = errors
        return warned

    def test_a_catalogue_that_may_be_cut(self):
        """Behind its last row, or in the last cell of it."""
        cut = ("vicinity: K has {} lines, of which the last has no line end, so the file may have "
               "been cut off\n")
        text = "uid,title\nE0040100000000A1,Emma\nnone,Map\n"
        self.assertEqual(self.doubts_of(text), "")
        self.assertEqual(self.doubts_of(text.replace("\n", "\r\n")), "")
        self.assertEqual(self.doubts_of(text[:-1]), cut.format(3))
        self.assertEqual(self.doubts_of(text[:-3]), cut.format(3))
        self.assertEqual(self.doubts_of(text.partition("\nnone")[0]), cut.format(2))

    def test_a_name_that_is_nearly_that_of_places(self):
        for column in ("place\u00a0", "\ufeffplace", "\u200bplace", "\uff50lace", "place:",
                       "[Place]", "places", "PLACES"):
            for number, head in ((2, "uid,{}"), (3, "title;UID;{};b"), (1, "\ufeff{}\tuid")):
                row = ["E0040100000000A1" if it.lower() == "uid" else "a" for it in re.split(
                    "[,;\t]", head.lstrip("\ufeff"))]
                separator = re.search("[,;\t]", head)[0]
                said = self.doubts_of(f"{head.format(column)}\n{separator.join(row)}\n", ["--csv"])
                self.assertEqual(said, (
                    "vicinity: K: The catalogue has no column 'place', so an item on a wrong shelf "
                    "isn't noticed, nor a shelf that wasn't counted. If column "
                    f"{number}, {json.dumps(column)}, says where each item belongs, rename it to "
                    "place.\n"))

    def test_no_log(self):
        """Usually a pattern that found nothing. A survey is one, and so is an empty file."""
        catalogue = self.catalogue("uid,away\nnone,\nE0040100000000A1,away\n")
        for form in FORMS:
            said, warned, status = within("collection", *form, catalogue)
            self.assertEqual((bool(said), warned, status), (
                True, b"vicinity: no log is given, so nothing is counted: did a pattern, or a list "
                b"of names, find none?\n", 0))
            for text in (NOTHING, b"", vicinity.survey(NOTHING, "a").text):
                self.assertEqual(within("collection", *form, catalogue, self.write("a", text))[1],
                                 b"")

    def test_other_names(self):
        """Those that the library reads as place, or as any other."""
        for column in ("shelf", "place 2", "replaced", "location", ""):
            said = self.doubts_of(f"uid,{column}\nE0040100000000A1,1\n", ["--json"])
            self.assertEqual(said, "")
        files = [self.catalogue("uid, PLACE\t,places\nE0040100000000A1,1,\n"), self.names[1]]
        self.assertEqual(within("collection", *files)[1:], (b"", 0))


class Sure(Command):
    """How sure a complete answer is. What is wanted is counted by hand."""

    def setUp(self):
        super().setUp()
        self.expected = self.catalogue("uid\nE0040100000000A1\nE0040100000000B2\n")
        silent = ALL + b"S\n"
        # A is heard and silenced, and then all are asked; B is silenced, and all are asked thrice
        self.logs = [self.write(name, log(lines)) for name, lines in (
            ("a.log", ALL + HEARD_A + SILENCE_A + silent + LIST_A),
            ("b.log", ALL + HEARD_B + SILENCE_B + silent * 3))]

    def test_a_margin_that_is_too_small(self):
        where = f"margin 2 below 3 in {self.logs[0]}, weakest 1 00"
        words = "collection", self.expected, *self.logs, "--margin"
        self.assertEqual(within(*words, "3"), (f"{where}\n".encode(), b"", 1))
        self.assertEqual(within(*words, "2"), (b"complete 2\n", b"", 0))
        said, errors, status = within(*words, "3", "--csv")
        self.assertEqual((errors.decode(), status), (f"vicinity: {where}\n", 1))
        self.assertEqual((said, b"", 0), within(*words, "2", "--csv"))
        told = json.loads(within(*words, "3", "--json")[0])
        self.assertEqual((told["status"], told["wanted"], told["margin"]["margin"]), (1, 3, 2))
        plain = json.loads(within(*words, "2", "--json")[0])
        self.assertEqual({**told, "status": 0}, {**plain, "wanted": 3})
        said, _, status = within(*words, "3", "--page")
        self.assertEqual((drawn_in(said.decode())[0]["wanted"], status), (3, 1))
        self.assertIn(f"<title>catalogue.csv: {where}</title>", said.decode())

    def test_of_what_is_not_complete(self):
        for form in FORMS[:3]:
            words = "collection", *form, self.expected, self.logs[0]
            self.assertEqual(within(*words, "--margin", "9"), within(*words))

    def test_without_a_log(self):
        """It counts as too small."""
        words = "collection", self.catalogue("uid\nnone\n"), "--margin", "1"
        _, errors, status = within(*words, "--csv")
        self.assertEqual((errors.splitlines()[0], status),
                         (b"vicinity: margin unknown, 1 asked for", 1))

    def test_a_terminal_is_told(self):
        told, said = on_a_terminal("collection", self.expected, *self.logs, streams=["stderr"])
        self.assertEqual(said, b"complete 2\n")
        self.assertEqual(told.decode().replace("\r\n", "\n"), f"""{SENTENCES["answers"]["holds"]}
Any other tag would have had to be missed in 2 slots or more, in the field of {self.logs[0]}.
If replies were hidden: still complete
If the reader went deaf: others may be here, in {self.logs[0]} and {self.logs[1]}
""")

    def test_a_terminal_is_told_what_there_is_to_do(self):
        told, said = on_a_terminal("collection", *TABLES, *SHELVES, streams=["stderr"])
        self.assertEqual(told.decode().replace("\r\n", "\n"), """\
in all: 1 missing, 1 misplaced, 1 not provable
A: 1 missing
B: 1 misplaced
C: 1 not provable
""")
        sure = self.write("sure.log", third(ALL + HEARD_A.replace(b"R", b"H") + SILENCE_A + ALL
                                            + b"S\nF\n" + ALL + HEARD_A.replace(b"R", b"H")))
        told, said = on_a_terminal("collection", self.catalogue("uid\nE0040100000000A1\n"), sure,
                                   streams=["stderr"])
        self.assertIn(b"went deaf: still complete", told)
