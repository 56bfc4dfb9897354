"""How sure an answer is: in how many slots a tag would have had to be missed, or was silent.
What is wanted is counted by hand."""
import json

import vicinity
from cases import (A, ALL, B, HEARD_A, HEARD_B, LIST_A, LIST_B, SILENCE_A, SILENCE_B, Command,
                   log, within)
from helpers.records import drawn_in
from vicinity import Mask, Weakest

#: A is heard and silenced; then all are asked, and none answers.
TWICE = ALL + HEARD_A + SILENCE_A + ALL + b"S\n"
#: B is silenced as well, so it was asked only once.
ONCE_B = ALL + HEARD_A + SILENCE_A + SILENCE_B + ALL + b"S\n"
#: B is heard, and all are asked three times more.
OFTEN = ALL + HEARD_B + SILENCE_B + (ALL + b"S\n") * 3
ASKED = "tag was asked"


class Calls(Command):
    def test_margins(self):
        for text, wanted in (
                (log(ALL + b"S\n"), "complete 0\nmargin 1\nweakest 0 -\nhidden -\ndeaf 0 -"),
                (log(TWICE + LIST_A),
                 "complete 1\nmargin 2\nweakest 1 00\nhidden -\ndeaf 1 00"),
                (log(TWICE + LIST_A).replace(b"1\n", b"3\n", 1).replace(b"R ", b"H "),
                 "complete 1\nmargin 1\nweakest 1 00\nhidden -\ndeaf 1 00"),
                (log(ONCE_B + LIST_A), "complete 1\nmargin 1\nweakest 56 040100000000B2\n"
                                       "hidden 56 040100000000B2\ndeaf 1 00"),
                (log(ALL + b"C\n" + LIST_A), "unsettled 1 00"),
                (log(TWICE + ALL + HEARD_A), "impossible at line 8"),
                (b"", "refused at line 1: Header")):
            found = vicinity.margin(text)
            self.assertEqual(str(found), wanted)
            self.assertEqual(found.answer, vicinity.check(text))
            self.assertEqual(vicinity.margin(bytearray(text)), found)

    def test_of_every_possible_log(self):
        for lines, wanted in ((TWICE + LIST_A, Weakest(2, Mask(1, 0), None, Mask(1, 0))),
                              (ALL + HEARD_A, Weakest(0, Mask(56, A & (1 << 56) - 1))),
                              (ALL + b"C\n" + LIST_A, Weakest(0, Mask(1, 0))),
                              (ALL + b"S\n" + LIST_A, Weakest(1, Mask(1, 0))),
                              (ALL + b"S\n" + ALL + b"C\n", None), (b"X\n", None)):
            self.assertEqual(vicinity.margin(log(lines)).weakest, wanted)

    def test_a_list_beside_the_text(self):
        for lines in (TWICE, OFTEN, b"X\n", b""):
            for uids in ([], [A], [B, A]):
                listed = b"".join(vicinity.write_line("U", uid=uid) for uid in uids)
                wanted = vicinity.margin(log(lines + listed))
                self.assertEqual(vicinity.margin_listed(log(lines), uids), wanted)
                self.assertEqual(vicinity.margin_listed(log(lines).rstrip(), tuple(uids)), wanted)
        self.assertEqual(str(vicinity.margin_listed(log(TWICE), [1])),
                         "refused at line 7: NotVicinity")

    def test_what_is_no_list(self):
        with self.assertRaises(OverflowError):
            vicinity.margin_listed(log(TWICE), [1 << 64])
        with self.assertRaisesRegex(TypeError, "bytes, not str"):
            vicinity.margin_listed("", [])


class Said(Command):
    def setUp(self):
        super().setUp()
        self.whole = self.write("whole.log", log(TWICE + LIST_A))
        self.absent = self.write("absent.log", log(OFTEN + LIST_A + LIST_B))

    def test_a_margin_that_is_too_small(self):
        """The line doesn't say complete, and the status is 1."""
        small = "margin 2 below 3, weakest 1 00"
        for most, said, status in (("2", "complete 1", 0), ("3", small, 1)):
            for words in ([], ["check"]):
                self.assertEqual(within(*words, "--margin", most, self.whole),
                                 (f"{self.whole}: {said}\n".encode(), b"", status))
            self.assertEqual(within("--tabs", self.whole, "--margin", most)[0].decode(),
                             f"{self.whole}\t{status}\t{said}\n")
        self.assertEqual(within("--margin", "999999", self.whole)[2], 1)

    def test_other_answers_stay(self):
        self.assertEqual(within("--margin", "9", *self.names[2:]), within(*self.names[2:]))

    def test_as_json(self):
        weakest = {"mask_len": 1, "mask_value": "00"}
        for words, wanted in (
                ([], {"status": 0, "kind": "complete", "count": 1}),
                (["--margin", "2"], {"status": 0, "kind": "complete", "count": 1}),
                (["--margin", "3"], {"status": 1, "kind": "margin", "count": 1, "wanted": 3})):
            said, _, status = within("--json", *words, self.whole)
            holds = {"holds": True, "margin": 1, "weakest": weakest}
            self.assertEqual(json.loads(said), {
                "schema": 2, "file": self.whole, **wanted, "margin": 2, "weakest": weakest,
                "captured": holds, "deaf": {"holds": False, "status": 1, "kind": "unsettled",
                                            "mask_len": 1, "mask_value": "00"}})
            self.assertEqual(status, wanted["status"])
        told = json.loads(within("report", "--json", self.whole)[0])
        self.assertEqual((told["margin"], told["weakest"]), (2, weakest))
        told = json.loads(within("report", "--json", self.absent)[0])
        self.assertEqual(told["findings"], [{
            "kind": "absent", "uid": "E0040100000000A1", "line": 3, "overlooked": 4}])
        self.assertNotIn("margin", told)

    def test_in_a_terminal(self):
        for lines, wanted in (
                (TWICE + LIST_A, f"Each other {ASKED}: 2 times or more"),
                (ALL + b"S\n", f"Each {ASKED}: once or more"),
                (ONCE_B + LIST_A, f"Each other {ASKED}: once or more"),
                (OFTEN + LIST_A + LIST_B,
                 "line 3: absent E0040100000000A1 would have been missed in 4 slots"),
                (ALL + b"S\n" + LIST_A,
                 "line 3: absent E0040100000000A1 would have been missed in 1 slot")):
            said = within("show", self.write("one.log", log(lines)))[0].decode()
            self.assertIn(wanted, " ".join(said.split()))
            self.assertEqual(ASKED in said.replace("\n", " "), "Answer: complete" in said)

    def test_on_a_page(self):
        told = drawn_in(vicinity.page(log(TWICE + LIST_A)))[0]
        self.assertEqual((told["margin"], told["weakest"]),
                         (2, {"mask_len": 1, "mask_value": "00"}))
        told = drawn_in(vicinity.page(log(OFTEN + LIST_A + LIST_B)))[0]
        self.assertEqual([it["overlooked"] for it in told["findings"]], [4])
        self.assertNotIn("margin", told)
