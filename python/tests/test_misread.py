"""`misread`: a true log as a reader would have written it
that hides, misses or mistakes replies."""
import random

import vicinity
from cases import (ALL, CAPTURED_A, CAPTURED_B, HEARD_A, HEARD_B, LIST_A, LIST_B, SILENCE_A,
                   SIXTEEN, Command, log, third, within)

BOTH = LIST_A + LIST_B


class Misread(Command):
    def made(self, text, *words):
        """What is made of a log."""
        said, errors, status = within("misread", *words, self.write("true.log", text))
        self.assertEqual((errors, status), (b"", 0))
        return said

    def test_by_itself_a_log_stays(self):
        """Also where a round was cut short, with comments, and with tags that are Quiet.
        In version 3 a reply may hide others."""
        for lines in (ALL + HEARD_A + SILENCE_A + ALL + b"S\n" + LIST_A,
                      ALL + b"C\n" + SILENCE_A + ALL + HEARD_B + BOTH,
                      SIXTEEN + b"S\n# a\rS\n\n" + HEARD_A + HEARD_B + ALL + b"C\n" + BOTH,
                      SIXTEEN + b"S\n" * 16, b""):
            for header in (b"vicinity-log 1\n", b"vicinity-log 2\n"):
                heard = b"".join(it for it, reply in ((LIST_A, HEARD_A), (LIST_B, HEARD_B))
                                 if reply in lines)
                wanted = lines.replace(LIST_A, b"").replace(LIST_B, b"") + heard
                self.assertEqual(self.made(header + lines), header + wanted)
            self.assertEqual(self.made(third(lines)), third(wanted.replace(b"\nR ", b"\nH ")))

    def test_the_tags_of_a_log_that_ends_in_half_a_line(self):
        text = log(ALL + HEARD_A + LIST_A + b"# end")
        self.assertEqual(self.made(text), text + b"\n")

    def test_one_reply_is_read_over_others(self):
        for text, replies in ((log(ALL + b"C\n" + BOTH), {HEARD_A + LIST_A, HEARD_B + LIST_B}),
                              (third(ALL + b"C\n" + BOTH),
                               {CAPTURED_A + LIST_A, CAPTURED_B + LIST_B})):
            head = text[:15] + ALL
            made = {self.made(text, "--capture", "1", "--seed", str(seed)) for seed in range(20)}
            self.assertEqual(made, {head + it for it in replies})

    def test_replies_are_missed(self):
        for text in (log(ALL + b"C\n" + BOTH), third(ALL + b"C\n" + BOTH)):
            self.assertEqual(self.made(text, "--miss", "1"), text[:15] + ALL + b"S\n")
            made = {self.made(text, "--miss", "0.5", "--seed", str(seed))[15 + len(ALL):][:1]
                    for seed in range(40)}
            self.assertEqual(made,
                             {b"S", b"C", b"H" if text.startswith(b"vicinity-log 3") else b"R"})

    def test_noise(self):
        """A careful reader says that it knows nothing, or that something answered;
        another one notes a collision."""
        lines = SIXTEEN + b"S\n" + HEARD_A + HEARD_B + b"S\n" * 13
        self.assertEqual(self.made(log(lines + BOTH), "--noise", "1"), log(SIXTEEN + b"C\n" * 16))
        self.assertEqual(self.made(third(lines + BOTH), "--noise", "1"),
                         third(SIXTEEN + b"N\nD\nD\n" + b"N\n" * 13))

    def test_what_a_careful_reader_writes_is_true(self):
        """Unless it misses replies, no line rules out a tag that is there;
        what another one writes may."""
        rng, broken = random.Random(5), 0
        for seed in range(60):
            uids = [0xE0 << 56 | rng.randrange(64) for _ in range(5)]
            silence = vicinity.write_line("T", vicinity.write_stay_quiet(2, uids[0]))
            lines = b"".join(rng.choice((ALL, SIXTEEN, b"T 26010100137B\n", silence))
                             for _ in range(5))
            plan = lines + b"".join(vicinity.write_line("U", uid=uid) for uid in sorted(set(uids)))
            words = ["--capture", "0.5", "--noise", "0.3", "--seed", str(seed)]
            answers = []
            for head in (b"vicinity-log 3\n", b"vicinity-log 1\n"):
                made = self.made(vicinity.simulate(head + plan).text, *words)
                rest = b"".join(line for line in made.splitlines(True) if line[:1] != b"U")
                answers.append(vicinity.check_listed(rest, set(uids)))
                self.assertEqual(self.made(vicinity.simulate(head + plan).text, *words), made)
            self.assertIn(answers[0].kind.name, ("COMPLETE", "UNSETTLED", "DOUBTFUL"))
            broken += answers[1].kind.name in ("IMPOSSIBLE", "ABSENT", "UNLISTED")
        self.assertGreater(broken, 10)

    def test_what_is_refused(self):
        for text, why in ((b"", b"refused at line 1: Header\n"),
                          (log(ALL + b"S\nS\n"), b"refused at line 4: SlotOutsideRound\n")):
            self.assertEqual(within("misread", self.write("true.log", text)), (why, b"", 3))
        for words in (["--capture", "1.5"], ["--miss", "-1"], ["--noise", "x"], ["--noise", "nan"],
                      ["--seed", "x"], ["--other"]):
            said, errors, status = within("misread", *words, self.write("true.log", log(ALL)))
            self.assertEqual((said, errors[:10], status), (b"", b"vicinity: ", 4), words)
