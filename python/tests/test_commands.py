"""What `python3 -m vicinity` writes, and its status,
also where memory, streams and names are hostile."""
import json
import os
import signal
import subprocess
import sys
from unittest import mock

from cases import (ALL, ALONE, ANSWERS, CAPTURED_A, HEARD_A, LIST_A, NAMES, Command, command,
                   least, log, on_a_terminal, third, within)
import vicinity.__main__

COMPLETE = log(ALL + b"S\n")
FORMS = ([], ["--tabs"], ["--json"], ["show"], ["page"])


class Answers(Command):
    def test_a_line_for_each_file(self):
        said, errors, status = within(*self.names)
        wanted = "".join(f"{name}: {text}\n" for name, (_, _, text, _) in zip(self.names, ANSWERS))
        self.assertEqual((said.decode(), errors, status), (wanted, b"", 3))

    def test_the_worst_status(self):
        for count, status in ((1, 0), (3, 1), (7, 2), (8, 3)):
            self.assertEqual(within(*self.names[:count])[2], status)
            self.assertEqual(within(*reversed(self.names[:count]))[2], status)
        said, errors, status = within("/nowhere.log", self.names[0])
        self.assertEqual((said.decode(), status), (f"{self.names[0]}: complete 0\n", 4))
        self.assertEqual(errors, b"vicinity: cannot read /nowhere.log: No such file or directory\n")

    def test_standard_input(self):
        for words in (["-"], ["--", "-"]):
            self.assertEqual(command(*words, given=COMPLETE), (b"-: complete 0\n", b"", 0))

    def test_tabs(self):
        said, _, status = within("--tabs", self.names[0], self.names[6], "/nowhere.log")
        wanted = [[self.names[0], "0", "complete 0"], [self.names[6], "2", "impossible at line 5"],
                  ["/nowhere.log", "4", "no answer"]]
        self.assertEqual([line.split("\t") for line in said.decode().splitlines()], wanted)
        self.assertEqual(status, 4)

    def test_json(self):
        said, _, status = within("--json", *self.names, "/nowhere.log")
        found = [json.loads(line) for line in said.decode().splitlines()]
        self.assertEqual([it["file"] for it in found], [*self.names, "/nowhere.log"])
        wanted = [
            {"status": 0, "kind": "complete", "count": 0, "margin": 1,
             "weakest": {"mask_len": 0, "mask_value": "-"}},
            {"status": 0, "kind": "complete", "count": 1, "margin": 1,
             "weakest": {"mask_len": 1, "mask_value": "00"}},
            {"status": 1, "kind": "absent", "uid": "E0040100000000A1"},
            {"status": 1, "kind": "unlisted", "uid": "E0040100000000A1"},
            {"status": 1, "kind": "unsettled", "mask_len": 56, "mask_value": "040100000000A1"},
            {"status": 1, "kind": "doubtful", "uid": "E0040100000000A1"},
            {"status": 2, "kind": "impossible", "line": 5},
            {"status": 3, "kind": "refused", "line": 4, "fault": "SlotOutsideRound"},
            {"status": 3, "kind": "refused", "line": 2, "fault": "Crc"},
            {"status": 4, "kind": "no answer",
             "error": "cannot read /nowhere.log: No such file or directory"},
        ]
        others = "file", "schema", "captured", "deaf"
        self.assertEqual([{key: it[key] for key in it if key not in others} for it in found],
                         wanted)
        self.assertEqual({it["schema"] for it in found}, {2})
        self.assertEqual(status, 4)

    def test_no_library(self):
        said, errors, status = command(self.names[0], LIBVICINITY="/nowhere.so")
        self.assertEqual((said, status), (b"", 4))
        self.assertTrue(errors.startswith(b"vicinity: the library /nowhere.so can't be loaded"))

    def test_a_text_without_end_is_read_as_far_as_it_matters(self):
        self.assertEqual(within("/dev/zero")[::2],
                         (b"/dev/zero: refused at line 1: LineTooLong\n", 3))


class Words(Command):
    def test_words_that_are_no_command(self):
        name = self.names[0]
        for words in ([], ["--tabs", "--json", name], ["--other", name], ["show"],
                      ["page", name, name], ["--ascii", name], ["page", "--ascii", name],
                      ["show", "--json", name],
                      *(["--margin", word, name]
                        for word in ("0", "-1", "x", "1000000", "9" * 5000)),
                      ["report", "--margin", "1", name]):
            said, errors, status = within(*words)
            self.assertEqual((said, status), (b"", 4))
            self.assertTrue(errors.startswith(b"vicinity: "))
            self.assertIn(b"\nusage: ", errors)

    def test_what_was_a_command(self):
        """One line names what to use instead; a log of that name is still judged."""
        gone = {name: f"it is a command of the program: vicinity {name}"
                for name in ("explain", "frame", "margin", "simulate", "spell", "survey")}
        gone["reconcile"] = ("use collection CATALOGUE [PLACES] LOG .., "
                             "or vicinity reconcile for a list")
        for name, instead in gone.items():
            said = f"vicinity: {name} is no command here: {instead}\n".encode()
            for words in ([name], [name, self.names[0]], [name, "--help"]):
                self.assertEqual(within(*words), (b"", said, 4))
        self.write("frame", COMPLETE)
        ran = subprocess.run([sys.executable, "-m", "vicinity", "./frame"], cwd=self.folder,
                             capture_output=True)
        self.assertEqual((ran.stdout, ran.returncode), (b"./frame: complete 0\n", 0))

    def test_options_stand_anywhere(self):
        shown = within("show", "--ascii", self.names[0])
        self.assertEqual(shown[1:], (b"", 0))
        self.assertTrue(shown[0].isascii())
        self.assertEqual(within("show", self.names[0], "--ascii"), shown)
        self.assertEqual(command("check", self.names[0], "--tabs", self.names[1]),
                         within("--tabs", self.names[0], self.names[1]))
        self.assertEqual(within(self.names[0], "--tabs"), within("--tabs", self.names[0]))

    def test_a_name_that_begins_with_a_dash(self):
        self.write("--tabs", COMPLETE)
        ran = subprocess.run([sys.executable, "-m", "vicinity", "--", "--tabs"], cwd=self.folder,
                             capture_output=True)
        self.assertEqual((ran.stdout, ran.returncode), (b"--tabs: complete 0\n", 0))

    def test_help_and_version(self):
        said, errors, status = within("--help")
        self.assertEqual((errors, status), (b"", 0))
        for name in vicinity.__main__.parsers()[1]:
            self.assertIn(f"    {name}", said.decode())
            there, errors, status = within(name, "--help")
            self.assertEqual((there.split()[4].decode(), errors, status), (name, b"", 0))
        self.assertIn("--tabs", within("check", "--help")[0].decode())
        self.assertEqual(within("--version"), (f"{vicinity.__version__}\n".encode(), b"", 0))

    def test_colours(self):
        for colours, env in ((True, {}), (True, {"NO_COLOR": ""}), (False, {"NO_COLOR": "1"})):
            self.assertEqual(b"\33[" in on_a_terminal("show", self.names[1], **env)[0], colours)
        self.assertNotIn(b"\33", within("show", self.names[1])[0])
        self.assertNotIn(b"\33", on_a_terminal("show", self.names[1], TERM="dumb")[0])

    def test_green_is_what_is_sure(self):
        """A list that stays complete if replies were hidden, and if the reader went deaf; so does
        one behind whose last silence a tag that was found answers again, after a field cycle."""
        sure = third(ALONE + b"F\nT 260138A1000000000104618F\n" + HEARD_A + LIST_A)
        hidden, deaf = third(ALL + CAPTURED_A + LIST_A), third(ALONE + LIST_A)
        for text, colour in ((sure, b"1;32"), (deaf, b"1;34"), (COMPLETE, b"1;34"),
                             (log(ALL + HEARD_A + LIST_A), b"1;34"), (hidden, b"1;33"),
                             (log(ALL + b"S\n" + LIST_A), b"1;33")):
            drawn = on_a_terminal("show", self.write("one.log", text))[0]
            self.assertTrue(drawn.startswith(b"\33[%sm" % colour), drawn)

    def test_a_locale_without_unicode(self):
        for locale, is_ascii in (("C", True), ("POSIX", True), ("C.UTF-8", False)):
            said = command("show", self.names[6], LC_ALL=locale)[0]
            self.assertEqual(said.isascii(), is_ascii, locale)
        self.assertEqual(command("show", self.names[6], LC_ALL="C")[0],
                         command("show", "--ascii", self.names[6])[0])

    def test_a_text_that_ends_in_the_middle_of_a_line(self):
        for lines, is_cut in ((ALL + HEARD_A[:-5], True), (ALL + HEARD_A[:-5] + b"\n", False),
                              (ALL + b"X\n" + ALL, False), (b"T 26010", True)):
            told = json.loads(within("report", "--json", self.write("cut.log", log(lines)))[0])
            self.assertEqual((told["kind"], "was it cut?" in told["sentence"]),
                             ("refused", is_cut), lines)
        self.assertNotIn(b"was it cut?",
                         within("report", "--json", self.write("empty.log", b""))[0])

    def test_options_are_not_abbreviated(self):
        self.assertEqual(within("check", "--tab", self.names[0])[::2], (b"", 4))
        self.assertEqual(within("show", "--asc", self.names[0])[::2], (b"", 4))

    def test_an_option_that_is_given_twice(self):
        """None of its values is ignored."""
        for words in (["check", "--margin", "2", "--margin", "1", self.names[0]],
                      ["collection", self.names[1], "--jobs=1", "--jobs=1"],
                      ["misread", "--miss", "1", "--miss", "0", self.names[1]]):
            said, errors, status = within(*words)
            self.assertEqual((said, status), (b"", 4))
            self.assertIn(b": it is given twice\nusage: ", errors)
        one, other = (self.write(name, os.fsencode(self.names[number]))
                      for name, number in (("one", 2), ("other", 0)))
        self.assertEqual(within("--logs-from", one, "--logs-from", other),
                         within(self.names[2], self.names[0]))

    def test_logs_that_are_named_in_a_file(self):
        wanted = within(*self.names)
        for listed in ("\0".join(self.names), "\n".join(self.names)):
            for words in ([], ["check"]):
                self.assertEqual(command(*words, "--logs-from", "-", given=listed.encode()), wanted)
        for end in "\n", "\r\n":
            listed = self.write("names", f"{end.join(self.names)}{end}".encode())
            with mock.patch.object(os, "linesep", "\r\n"):  # as on Windows
                self.assertEqual(within("--logs-from", listed), wanted)
        self.assertIn(rb"0.log\x0d: No such file", within("--logs-from", listed)[1])
        said = within("report", self.names[0], "--logs-from",
                      self.write("names", os.fsencode(self.names[2])))
        self.assertEqual(said, within("report", self.names[0], self.names[2]))


class Memory(Command):
    def setUp(self):
        super().setUp()
        self.least = least()

    def test_it_is_refused_while_a_file_is_read(self):
        large = self.write("large.log", b"")
        os.truncate(large, 200_000_000)
        first, last = self.names[:2]
        said, errors, status = command(first, large, last, limit=self.least + 100_000)
        self.assertEqual(said.decode(), f"{first}: complete 0\n{last}: complete 1\n")
        self.assertEqual((errors.decode(), status), (f"vicinity: out of memory: {large}\n", 4))
        for form in ("show", "page"):
            self.assertEqual(command(form, large, limit=self.least + 100_000),
                             (b"", b"vicinity: out of memory\n", 4))

    def test_it_is_refused_while_a_file_is_judged_or_drawn(self):
        for form, rounds in (([], 400_000), (["show"], 100_000), (["page"], 100_000)):
            large = self.write("large.log", log((ALL + b"S\n") * rounds))
            statuses = []
            for more in (2_000, 4_000, 6_000, 8_000, 10_000, 30_000):
                said, errors, status = command(*form, large, *([] if form else self.names[:1]),
                                               limit=self.least + more)
                self.assertRegex(errors, rb"\A(vicinity: out of memory.*\n)?\Z")
                self.assertEqual(status, 4 if errors else 0)
                if not form:
                    self.assertTrue(said.endswith(f"{self.names[0]}: complete 0\n".encode()))
                statuses.append(status)
            self.assertEqual({statuses[0], statuses[-1]}, {4, 0}, form)


class Streams(Command):
    def test_standard_output_that_takes_nothing(self):
        words = [[*form, self.names[0]] for form in FORMS] + [["--help"], ["--version"]]
        words += [["collection", form, self.catalogue("uid\nnone\n"), self.names[1]]
                  for form in ("--csv", "--json", "--page")]
        for redirected, why in ((">&-", "Bad file descriptor"),
                                (">/dev/full", "No space left on device")):
            for these in words:
                ended = command(*these, redirected=redirected)
                self.assertEqual(ended,
                                 (b"", f"vicinity: write failed: {why}\n".encode(), 4), these)

    def test_a_pipe_that_nobody_reads(self):
        for form in FORMS:
            read, write = os.pipe()
            os.close(read)
            with open(write, "wb") as pipe:
                ran = subprocess.run([sys.executable, "-m", "vicinity", *form, self.names[0]],
                                     stdout=pipe, stderr=subprocess.PIPE)
            self.assertEqual((ran.stderr, ran.returncode),
                             (b"vicinity: write failed: Broken pipe\n", 4))

    def test_standard_error_that_takes_nothing(self):
        first, last = self.names[0], self.names[2]
        wanted = f"{first}: complete 0\n{last}: absent E0040100000000A1\n".encode()
        for redirected in ("2>&-", "2>/dev/full"):
            self.assertEqual(command(first, "/nowhere.log", last, redirected=redirected),
                             (wanted, b"", 4))
            for form in FORMS:
                self.assertEqual(command(*form, last, redirected=redirected)[1:], (b"", 1))
                self.assertEqual(command(*form, "/nowhere.log", redirected=redirected)[1:],
                                 (b"", 4))
                self.assertEqual(command(*form, last, redirected=f">&- {redirected}"),
                                 (b"", b"", 4))
            self.assertEqual(command("--other", redirected=redirected), (b"", b"", 4))

    def test_standard_input_that_is_closed(self):
        for form in FORMS:
            said, errors, status = command(*form, "-", redirected="<&-")
            self.assertEqual((errors, status),
                             (b"vicinity: cannot read -: Bad file descriptor\n", 4))

    def test_a_stream_that_is_closed_on_windows(self):
        """Its mode can't be set. Of a traceback the status would be 1, which is an answer."""
        there = """
import os, sys, types
from vicinity._process import read, run_command
sys.modules["msvcrt"] = types.SimpleNamespace(setmode=lambda file, _: os.fstat(file))
sys.platform, os.O_BINARY = "win32", 0
sys.exit(run_command(lambda: len(read("-"))))
"""
        for closed, why in (("<&-", b"vicinity: cannot read -: Bad file descriptor\n"),
                            (">&- </dev/null", b"")):
            ran = subprocess.run(["sh", "-c", f'"$@" {closed}', "sh", sys.executable, "-c", there],
                                 stderr=subprocess.PIPE)
            self.assertEqual((ran.stderr, ran.returncode), (why, 4 if why else 0))

    def test_a_pipe_that_is_not_waited_for(self):
        """Its first half would be complete."""
        for form in FORMS:
            read, write = os.pipe()
            os.set_blocking(read, False)
            with open(write, "wb", buffering=0) as pipe:
                pipe.write(COMPLETE)
                ran = subprocess.run([sys.executable, "-m", "vicinity", *form, "-"], stdin=read,
                                     stdout=subprocess.PIPE, stderr=subprocess.PIPE)
            os.close(read)
            self.assertEqual(ran.returncode, 4)
            self.assertNotIn(b"complete 0", ran.stdout)
            self.assertEqual(ran.stderr, b"vicinity: cannot read -: "
                                         b"Resource temporarily unavailable\n")

    def test_an_interrupt_is_no_traceback(self):
        ran = subprocess.Popen([sys.executable, "-m", "vicinity", self.names[0], "-"],
                               stdin=subprocess.PIPE, stdout=subprocess.PIPE,
                               stderr=subprocess.PIPE)
        self.assertEqual(ran.stdout.readline(), f"{self.names[0]}: complete 0\n".encode())
        ran.send_signal(signal.SIGINT)
        self.assertEqual((*ran.communicate(), ran.returncode), (b"", b"", -signal.SIGINT))

    def test_a_defect_is_no_answer(self):
        code = ("import sys; from vicinity._process import run_command\n"
                "sys.exit(run_command(lambda: 1 // 0))")
        ran = subprocess.run([sys.executable, "-c", code], capture_output=True)
        said = b"vicinity: ZeroDivisionError: integer division or modulo by zero\n"
        self.assertEqual((ran.stdout, ran.stderr, ran.returncode), (b"", said, 4))


class Names(Command):
    def test_they_stay_in_their_line(self):
        for name, shown in NAMES.items():
            path = os.path.join(os.fsencode(self.folder), name)
            where = os.path.join(self.folder, shown)
            missing = f"cannot read {where}: No such file or directory"
            self.assertEqual(within(path), (b"", f"vicinity: {missing}\n".encode(), 4))
            self.assertEqual(json.loads(within("--json", path)[0])["error"], missing)
            with open(path, "wb") as file:
                file.write(COMPLETE)
            self.assertEqual(within(path), (f"{where}: complete 0\n".encode(), b"", 0))
            self.assertEqual(within("--tabs", path), (f"{where}\t0\tcomplete 0\n".encode(), b"", 0))
            self.assertEqual(os.fsencode(json.loads(within("--json", path)[0])["file"]), path)
            for form in ("show", "page"):
                said, errors, status = within(form, path)
                self.assertEqual((errors, status), (b"", 0))
                self.assertNotRegex(said.decode(),
                                    "[\0-\x08\x0b-\x1f\x7f-\x9f\u2028\u202e]|&#5[5-7][0-9]{3};")

    def test_printf_gives_them_back(self):
        for name in NAMES:
            path = os.path.join(os.fsencode(self.folder), name)
            shown = within("--tabs", path)[0].split(b"\t")[0]
            given = subprocess.run(["bash", "-c", 'printf %b "$1"', "bash", shown],
                                   capture_output=True).stdout
            self.assertEqual(given, path)

    def test_words_that_are_refused(self):
        errors = within("--\33[2J\n", self.names[0])[1]
        self.assertIn(rb"--\x1b[2J\n", errors)
        self.assertNotIn(b"\33", errors)
