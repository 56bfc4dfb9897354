"""What the tests of the package share: lines of logs, their answers,
and the commands of the package."""
import contextlib
import os
import pty
import subprocess
import sys
import tempfile
import unittest
from unittest import mock

from helpers.frames import hex_of
from vicinity import Fault, Kind, _process
from vicinity.__main__ import main

TOP = os.path.dirname(os.path.dirname(os.path.dirname(os.path.abspath(__file__))))
ALL = b"T 260100F60A\n"
SIXTEEN = b"T 060100CD09\n"
A, B = 0xE0040100000000A1, 0xE0040100000000B2
HEARD_A = b"R 0000A1000000000104E06745\n"
HEARD_B = b"R 0000B2000000000104E0CF94\n"
CAPTURED_A, CAPTURED_B = (line.replace(b"R", b"H") for line in (HEARD_A, HEARD_B))
SILENCE_A = b"T 2202A1000000000104E0662A\n"
SILENCE_B = b"T %s\n" % hex_of(bytes.fromhex("2202B2000000000104E0")).encode()
LIST_A = b"U E0040100000000A1\n"
LIST_B = b"U E0040100000000B2\n"
#: A tag is heard and silenced, and then all are silent: in version 3 no reply hid another.
ALONE = ALL + HEARD_A + SILENCE_A + ALL + b"S\n"
COLLECTION = os.path.join(TOP, "examples/collection")
SHELVES = [os.path.join(COLLECTION, f"shelf-{letter}.log") for letter in "abc"]
#: Names of files, and how they are shown.
NAMES = {
    b"a: complete 4.log": "a: complete 4.log",
    b"a\nb.log: complete 1\n.log": r"a\nb.log: complete 1\n.log",
    b"a\tb\\c.log": r"a\tb\\c.log",
    b"\33]0;owned\7\33[2J\r.log": r"\x1b]0;owned\x07\x1b[2J\x0d.log",
    b"\xff.log": r"\xff.log",
    "\u00e9\u6f22\u202e\u0085\u2028.log".encode():
        "\u00e9\u6f22" r"\xe2\x80\xae\xc2\x85\xe2\x80\xa8.log",
}

# what is after the header, the answer, and the tags that show it
ANSWERS = [
    (ALL + b"S\n", dict(kind=Kind.COMPLETE, status=0, count=0), "complete 0", []),
    (ALL + HEARD_A + LIST_A, dict(kind=Kind.COMPLETE, status=0, count=1), "complete 1", []),
    (ALL + b"S\n" + LIST_A, dict(kind=Kind.ABSENT, status=1, uid=A), "absent E0040100000000A1", []),
    (ALL + HEARD_A, dict(kind=Kind.UNLISTED, status=1, uid=A), "unlisted E0040100000000A1", [A]),
    (SILENCE_A + ALL + b"S\n",
     dict(kind=Kind.UNSETTLED, status=1, mask_len=56, mask_value=0x040100000000A1),
     "unsettled 56 040100000000A1", [A]),
    (SILENCE_A + ALL + b"S\n" + LIST_A, dict(kind=Kind.DOUBTFUL, status=1, uid=A),
     "doubtful E0040100000000A1", []),
    (ALL + b"S\n" + ALL + b"C\n", dict(kind=Kind.IMPOSSIBLE, status=2, line=5),
     "impossible at line 5", []),
    (ALL + b"S\nS\n", dict(kind=Kind.REFUSED, status=3, line=4, fault=Fault.SLOT_OUTSIDE_ROUND),
     "refused at line 4: SlotOutsideRound", []),
    (b"T 260100F60B\n", dict(kind=Kind.REFUSED, status=3, line=2, fault=Fault.FRAME_CRC),
     "refused at line 2: Crc", []),
]


def log(lines):
    return b"vicinity-log 1\n" + lines


def third(lines):
    return b"vicinity-log 3\n" + lines


NOTHING = log(ALL + b"S\n")


def frame(content):
    """The digits of a frame, with its CRC."""
    return hex_of(content).encode()


def command(*words, given=b"", redirected="", limit="unlimited", **env):
    """What `python3 -m vicinity` writes, and its status; with its streams redirected
    as a shell does it, and with at most so many KiB of address space."""
    script = f'ulimit -v {limit}; exec "$@" {redirected}'
    ran = subprocess.run(["sh", "-c", script, "sh", sys.executable, "-m", "vicinity", *words],
                         input=given, capture_output=True, env={**os.environ, **env})
    return ran.stdout, ran.stderr, ran.returncode


def within(*given):
    """The same, without a process of its own."""
    said, errors = bytearray(), []

    def take(waiting):
        said.extend(waiting)
        waiting.clear()

    with mock.patch.multiple(_process, _write_out=take, _note=lambda *of: errors.extend(of)):
        with mock.patch.object(sys, "argv", ["__main__.py", *map(os.fsdecode, given)]):
            try:
                status = main()
            except _process.NoAnswer as why:
                status = _process.complain(str(why))
            except SystemExit as ended:  # after help
                status = ended.code
    return bytes(said), "".join(errors).encode(), status


def on_a_terminal(*words, streams=("stdin", "stdout"), **env):
    """What a terminal gets that is these streams, and what is written beside it."""
    ours, theirs = pty.openpty()
    ran = subprocess.run([sys.executable, "-m", "vicinity", *words], env={**os.environ, **env},
                         **{"stdout": subprocess.PIPE, **dict.fromkeys(streams, theirs)})
    os.close(theirs)
    told = b""
    with open(ours, "rb", buffering=0) as file, contextlib.suppress(OSError):
        while piece := file.read(4096):
            told += piece
    return told, ran.stdout


def least():
    """How many KiB of address space the commands take by themselves."""
    code = ("import vicinity.__main__, vicinity.commands.draw, vicinity.commands.collection; "
            "vicinity.check(b'')\n"
            "with open('/proc/self/status') as file: "
            "print(*(it.split()[1] for it in file if it.startswith('VmPeak')))")
    return int(subprocess.run([sys.executable, "-c", code], capture_output=True).stdout)


class Command(unittest.TestCase):
    def setUp(self):
        folder = tempfile.TemporaryDirectory()
        self.addCleanup(folder.cleanup)
        self.folder = folder.name
        self.names = [self.write(f"{number}.log", log(lines))
                      for number, (lines, *_) in enumerate(ANSWERS)]

    def write(self, name, text):
        name = os.path.join(self.folder, name)
        with open(name, "wb") as file:
            file.write(text)
        return name

    def write_in(self, folder, name, text):
        """A file in a folder of its own."""
        os.makedirs(os.path.join(self.folder, folder), exist_ok=True)
        return self.write(os.path.join(folder, name), text)

    def catalogue(self, content):
        return self.write("catalogue.csv",
                          content if isinstance(content, bytes) else content.encode())
