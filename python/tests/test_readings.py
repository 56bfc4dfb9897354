"""Whether an answer also holds if strong replies hid weaker ones, and if the reader went deaf; and
what is shown of a log in a terminal. The answers are the worked ones of version 3."""
import json
import re
from unittest import mock

import vicinity
from cases import (ALL, ALONE, ANSWERS, CAPTURED_A, CAPTURED_B, HEARD_A, HEARD_B, LIST_A, LIST_B,
                   SILENCE_A, SILENCE_B, SIXTEEN, Command, log, third, within)
from helpers.frames import hex_of
from helpers.lines import log_of, rows
from helpers.records import drawn_in
from vicinity.logs.findings import JudgedLog
from vicinity.logs.headline import headline, lights

BROKEN = "This count can't be used. The log contradicts itself: "
HOLDS = {"holds": True}
NONE, EVEN = {"mask_len": 0, "mask_value": "-"}, {"mask_len": 1, "mask_value": "00"}
ANY, OPEN = ({"holds": False, "status": 1, "kind": "unsettled", **mask} for mask in (NONE, EVEN))
#: By their places in ANSWERS, what also holds if replies were hidden, and if the reader went deaf:
#: not where only a reply alone, or only silence, rules out all others. Of a text that is refused
#: nothing is said. Where nothing is left to ask, `settled` says whether that is so then.
READINGS = [({**HOLDS, "margin": 1, "weakest": NONE}, ANY), (OPEN, OPEN),
            ({**HOLDS, "settled": True}, {**OPEN, "settled": False}),
            ({**HOLDS, "settled": False}, {**HOLDS, "settled": False}),
            (HOLDS, ANY), (HOLDS, OPEN), (HOLDS, HOLDS), (None, None), (None, None)]
#: What to do where replies may have been hidden, and where the reader may have gone deaf.
ASK = ("To know whether a strong reply hid a weaker one, silence each tag that was heard, and ask "
       "all in one slot, until none answers:")
DEAF = ("To know whether the reader still heard at the end, switch the field off and on, write F, "
        "and ask for a tag that was found.")
QUIET_A = SILENCE_A.decode().strip()
#: Four tags, each read in a slot of its own, over which others may have been.
FOUR = SIXTEEN + b"".join(
    b"R %s\n" % hex_of(bytes.fromhex(f"00001{slot}000000000104E0")).encode() for slot in range(4)
) + b"S\n" * 12
#: Two tags, the first of which was read over the second: with R a contradiction, with H all tags.
OVER = ALL + HEARD_A + SILENCE_A + ALL + HEARD_B + SILENCE_B + ALL + b"S\n" + LIST_A + LIST_B
#: After the last silence, a tag that was found answers once more.
CURED = ALONE + b"F\n" + b"T 260138A1000000000104618F\n" + HEARD_A


class Said(Command):
    def test_as_json(self):
        for words in (["--json"], ["report", "--json"]):
            said, _, status = within(*words, *self.names)
            found = [json.loads(line) for line in said.splitlines()]
            self.assertEqual([(it.get("captured"), it.get("deaf")) for it in found], READINGS)
            self.assertEqual(status, 3)

    def said(self, text):
        told = json.loads(within("--json", self.write("one.log", text))[0])
        return told["captured"], told["deaf"]

    def test_what_holds(self):
        least = {"margin": 1, "weakest": EVEN}
        self.assertEqual(self.said(log(ALONE + LIST_A)), ({**HOLDS, **least}, OPEN))
        self.assertEqual(self.said(b"vicinity-log 2\n" + CURED + LIST_A),
                         ({**HOLDS, **least}, {**HOLDS, **least}))
        self.assertEqual(self.said(log(OVER))[0], {
            "holds": False, "status": 0, "kind": "complete", "count": 2})

    def test_in_a_page(self):
        """Where nothing is left to ask, also whether that is so then."""
        for lines, wanted in ((ALL + HEARD_A, {**HOLDS, "settled": False}),
                              (ALONE, {**HOLDS, "settled": True}),
                              (SILENCE_B + ALL + HEARD_A, HOLDS)):
            self.assertEqual(drawn_in(vicinity.page(log(lines)))[0]["captured"], wanted)

    def test_it_is_no_part_of_the_answer(self):
        """Neither of its line nor of its status."""
        for (_, numbers, text, _), name in zip(ANSWERS, self.names):
            self.assertEqual(within("--json", name)[2], numbers["status"])
            self.assertEqual(within("show", name)[2], numbers["status"])
            self.assertEqual(within(name), (f"{name}: {text}\n".encode(), b"", numbers["status"]))

    def test_in_a_terminal(self):
        """Of a text that is refused nothing is said."""
        hidden, deaf = "If replies were hidden", "If the reader went deaf"
        for text, wanted, not_said in (
                (log(ALONE + LIST_A), f"{hidden}: still complete; {deaf}: others may be here", ASK),
                (b"vicinity-log 2\n" + CURED + LIST_A, f"{deaf}: still complete", "To know"),
                (log(ALL + b"S\n"), f"Each tag was asked: once or more; {hidden}: still empty; "
                 f"{deaf}: tags may be here", "To know"),
                (log(ALL + HEARD_A), f"{hidden}: others may be here; {deaf}: others", "still"),
                (log(ALL + HEARD_A + LIST_A), f"{hidden}: others may be here", "and no other"),
                (log(ALL + HEARD_A + LIST_B), f"{hidden}: the answer may be wrong", "still"),
                (log(ALL + b"S\n" + LIST_A), f"{deaf}: the answer may be wrong", hidden),
                (log(ALL + b"S\nS\n"), "line 4: S", hidden)):
            said = " ".join(within("show", self.write("one.log", text))[0].decode().split())
            self.assertIn(wanted, said)
            self.assertNotIn(not_said, said)

    def test_what_to_send(self):
        """Each request is a line of its own. In a log of version 1 no line F can stand."""
        other = vicinity.write_line("T", vicinity.write_inventory(0, 1))
        alone, silenced = SIXTEEN + b"S\n" * 9, SILENCE_B + ALL + b"S\n"
        for text, *wanted in (
                (log(ALL + HEARD_A), ASK, QUIET_A, "T 260100F60A"),
                (log(ALL + HEARD_A + LIST_A), ASK, QUIET_A, "T 260100F60A"),
                (log(other + HEARD_A + LIST_A), ASK,
                 f"T {hex_of(bytes.fromhex('2002A1000000000104E0'))}", other.decode().strip()),
                (log(FOUR), f"{ASK} (a Stay Quiet to each of 4 tags)", "T 260100F60A"),
                (third(ALONE + LIST_A), DEAF, "F", "T 260138A1000000000104618F"),
                (log(ALONE + LIST_A), DEAF + " That takes a log of version 2 or 3: one of "
                 "version 1 has no line for it."),
                (third(ALONE + b"F\n" + CURED[-len(HEARD_A) - 27:] + LIST_A),),
                (third(alone), "Left to ask: before the U lines if the field stayed on, else in a "
                 "new log:",
                 "T 060100CD09 asks all UIDs"),
                (third(silenced), "Switch the field off and on, write F, and send 1 request for "
                 "tags that were silenced before they were heard: only then do they answer.", "F",
                 f"T {hex_of(bytes.fromhex('260138B2000000000104'))} asks E0040100000000B2"),
                (log(silenced), "Tags that were silenced before they were heard answer only after "
                 "a field cycle: begin a new log, of version 3.")):
            for columns in "40", "80":
                with mock.patch.dict("os.environ", COLUMNS=columns):
                    said = within("show", self.write("one.log", text))[0].decode()
                part = [it for it in said.split("\n\n") if re.search("^T |^F$|field", it, re.M)
                        and "asked" not in it]
                self.assertEqual(" ".join(" ".join(part).split()), " ".join(wanted))
                for request in wanted[1:]:
                    self.assertIn(f"\n{request.split(' asks')[0]}", said)

    def test_in_a_narrow_terminal(self):
        """Where rounds take all lines, one says that there are requests."""
        file = self.write("one.log", log(SIXTEEN + b"S\n" * 9))
        for columns, asks in ("1", "\u22ee  more"), ("20", "\u22ee  more"), ("39", "T 060100CD09"):
            with mock.patch.dict("os.environ", COLUMNS=columns):
                said, errors, status = within("show", file)
            self.assertEqual((errors, status), (b"", 1))
            self.assertIn(f"\n{asks}".encode(), said)


class Page(Command):
    """What the page says of logs, by the rows of tests/data/rows/page."""

    def rows_of(self, kind, least):
        """The logs of one kind of rows, and what is said of them."""
        cells = ([cell.strip() for cell in line.split("|")] for _, line in rows("page"))
        found = [(given, said) for looked_at, given, said, *_ in cells
                 if looked_at.split()[0] == kind]
        self.assertGreater(len(found), least)
        return found

    def test_headlines(self):
        """Of a contradiction the page says more."""
        for names, wanted in self.rows_of("headline", 30):
            wanted = BROKEN if wanted.startswith(BROKEN) else wanted
            self.assertEqual(headline(JudgedLog(log_of(names)))[:len(wanted)], wanted, names)

    def test_foreign_files(self):
        """Each is called what it is, with what to do, and not how a header is written."""
        for given, words in self.rows_of("foreign", 20):
            said = " ".join(within("show", self.write("a", log_of(given)))[0].decode().split())
            if words.startswith("This file isn't a log"):
                self.assertTrue(said.startswith(words), said)
            if said.startswith("This file isn't a log"):
                self.assertNotIn("Write the header", said)
                self.assertNotIn("vicinity page", said)
            elif "vicinity-log" in given:
                self.assertIn("a log. Line 1: ", said)

    def test_what_to_do_where_a_list_is_complete(self):
        """As at the shelf of the page: there is nothing to do only where it is green."""
        for names, wanted in self.rows_of("sure", 12):
            text = log_of(names)
            said = " ".join(within("show", self.write("a", text))[0].decode().split())
            is_sure = b"\nU " in text and wanted.endswith("still complete / still complete")
            self.assertEqual("Nothing to do. " in said, is_sure, names)
            steps = "Nothing to do", "Spread out items", "If items should be here"
            self.assertIs(vicinity.check(text).is_complete, any(it in said for it in steps))

    def test_lights(self):
        """None of a text that is refused."""
        for names, wanted in self.rows_of("lights", 10):
            said = dict(lights(JudgedLog(log_of(names))))
            values = [said[name] for name in ("Search finished", "List") if name in said]
            self.assertEqual(" / ".join(values), wanted, names)

    def test_how_sure(self):
        for names, wanted in self.rows_of("sure", 12):
            said = dict(lights(JudgedLog(log_of(names))))
            asked = said.get("Each other tag was asked", said.get("Each tag was asked", "-"))
            values = [asked, *(said.get(name, "-") for name in (
                "If replies were hidden", "If the reader went deaf"))]
            self.assertEqual(" / ".join(values), wanted, names)


class Sessions(Command):
    """What is shown of lines that only version 3 has."""

    def shown(self, lines, *words):
        return within("show", "--ascii", *words, self.write("one.log", third(lines)))[0].decode()

    def test_they_are_drawn(self):
        """A silenced tag has a q, another that may not have been alone a +,
        and - is a slot of which nothing is known."""
        asked = b"T 26010400AB05\n"
        heard = CAPTURED_A + CAPTURED_B + b"S\n" * 13 + SILENCE_A
        lines = SIXTEEN + b"N\n" + heard + asked + b"S\n" + LIST_A + LIST_B
        said = self.shown(lines)
        self.assertIn("\n\n   lines  asked 0  1  2  3  4  5  6  7  8  9  A  B  C  D  E  F\n"
                      " 2 to 19  ..    - A1qB2+ .  .  .  .  .  .  .  .  .  .  .  .  .\n", said)

    def test_they_are_quoted(self):
        said = self.shown(ALL + b"S\n" + ALL + CAPTURED_A)
        self.assertIn("line 5: E0040100000000A1 answered, perhaps with others; "
                      "asked: all UIDs\n", said)

    def test_contradictions(self):
        """The lines that can't be true are named; their causes are said on the page."""
        short = vicinity.write_line("T", vicinity.write_inventory(2, 1, vicinity.Mask(8, 0xB2)))
        even, odd = b"T 26010100137B\n", b"T 260101019A6A\n"
        for lines, sentence in (
                (ALL + CAPTURED_A + ALL + HEARD_B, "lines 3 and 5 can't both be true."),
                (ALL + HEARD_B + ALL + CAPTURED_A, "lines 3 and 5 can't both be true."),
                (ALL + b"S\n" + ALL + CAPTURED_A, "lines 3 and 5 can't both be true."),
                (ALL + CAPTURED_A + SILENCE_A + ALL + CAPTURED_A,
                 "lines 4 and 6 can't both be true."),
                (ALL + b"C\n" + even + b"S\n" + odd + HEARD_A + SILENCE_A,
                 "lines 3, 5 and 7 can't all be true."),
                (short + CAPTURED_A, "line 3 can't be true.")):
            said = self.shown(lines)
            self.assertIn(f"The log contradicts itself: {sentence}", " ".join(said.split()))
            self.assertIn("Causes, and what to do: python3 -m vicinity page LOG", said)

    def noted(self, lines):
        return within("report", self.write("one.log", third(lines)))[0].decode()

    def test_a_silenced_tag_that_was_heard_is_not_noted(self):
        self.assertNotIn("never heard", self.noted(ALONE.replace(b"R ", b"H ")))
        self.assertIn("never heard", self.noted(SILENCE_B + ALONE))
