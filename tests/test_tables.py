"""What tables are, by crates/tables, which prints it in one line each.

`tests/data/tables.json` has texts, one character a byte, each with its items or its first fault.
Damaged catalogues are compared with helpers/tables.py, which was written from docs/TABLES.md alone;
and what is read of one is searched for each UID that stands in its bytes."""
import json
import random
import re

import pytest

from helpers import tables
from helpers.memory import refused, shim
from helpers.program import TOP, Program, needs, program_of
from helpers.random_collections import DAMAGE

ROWS = json.loads((TOP / "tests/data/tables.json").read_text())
# How many catalogues are damaged, in how many parts.
NUMBER, PARTS, SEED = 50_000, 5, 1604
LINES = 1_000_000
A, B = "E0040100000000A1", "E0040100000000B2"
# Texts of which each allocation is refused.
SMALL = (f"uid,place,away\n{A},a,\n{B},\"b\"\"c\",away\nnone,any,\n", "place;log\nx;y\nx;z\n",
         "uid,t\n,x\n")


def test_the_texts(read_tables):
    texts = [row["text"].encode("latin-1") for row in ROWS]
    assert read_tables(texts) == [row["told"] for row in ROWS]


def test_the_page_says_the_same():
    """The model, which is written from the page."""
    for row in ROWS:
        text = row["text"].encode("latin-1")
        assert tables.line_of(tables.read(text)) == row["told"], row["name"]


@pytest.mark.parametrize("text, told", [
    (b"uid,t\n%s,%s\n" % (A.encode(), b"x" * (16_384 - 17)), f"catalogue 2:{A}:any:here"),
    (b"uid,t\r\n%s,%s\r\n" % (A.encode(), b"x" * (16_384 - 17)), f"catalogue 2:{A}:any:here"),
    (b"uid,t\n%s,%s\n" % (A.encode(), b"x" * (16_384 - 16)), "refused 2 LineTooLong"),
    (b"\xef\xbb\xbfuid,%s\n%s,x\n" % (b"x" * (16_384 - 4), A.encode()),
     f"catalogue 2:{A}:any:here"),
    (b"uid\n%s\n" % A.encode() + b"\n" * (LINES - 2), f"catalogue 2:{A}:any:here"),
    (b"uid\n%s\n" % A.encode() + b"\n" * (LINES - 1), "refused 1000001 TooManyLines"),
    (b"uid\n" + b"\n" * (LINES - 1), "refused 1000001 NoItems"),
], ids=["a line of the greatest length", "its end doesn't count", "a line too long",
        "a mark doesn't count", "as many lines as there may be", "a line too many",
        "as many lines without an item"])
def test_the_limits(read_tables, text, told):
    assert read_tables([text]) == [told]


def catalogue(rng):
    """A random catalogue, of a kind that people write."""
    separator, end = rng.choice(",;\t"), rng.choice(("\n", "\r\n"))
    names = ["uid", "title", *rng.choice(((), ("place",), ("place", "away")))]
    lines = [separator.join(names)]
    for _ in range(rng.randrange(1, 7)):
        uid = f"E0{rng.getrandbits(56):014X}"
        cell = {"uid": rng.choice((uid, uid, uid.lower(), f'"{uid}"', "none")),
                "title": rng.choice(("x", "", '"a ""b"" c"', f'"a{separator}b"', "\u00e9")),
                "place": rng.choice(("a", "any", "b c")), "away": rng.choice(("", "away"))}
        lines.append(separator.join(cell[name] for name in names))
    return end.join(lines).encode() + rng.choice((b"", end.encode()))


def damaged(rng, text):
    """The text with a byte, a cell, a line or a block lost, doubled, moved or changed."""
    kind = rng.randrange(5)
    if kind == 0:
        parts = re.findall(rb"[^\n]*\n|[^\n]+", text)
    elif kind == 1:
        parts = re.findall(rb"[,;\t\n]|[^,;\t\n]+", text)
    else:
        parts = [text[at:at + 1] for at in range(len(text))]
    size = 1 if kind < 4 else rng.randrange(1, 40)
    at = rng.randrange(len(parts))
    block = parts[at:at + size]
    rest = parts[:at] + parts[at + size:]
    to = rng.randrange(len(rest) + 1)
    return b"".join(rng.choice((
        rest, parts[:at] + block + parts[at:], rest[:to] + block + rest[to:],
        parts[:at] + [rng.choice(DAMAGE)] + parts[at + size:])))


@pytest.mark.slow
@pytest.mark.parametrize("part", range(PARTS))
def test_damaged_catalogues(read_tables, logs, part):
    number, seed = logs
    rng = random.Random(seed + part)
    texts = [damaged(rng, catalogue(rng)) for _ in range(number)]
    kinds = set()
    for text, told in zip(texts, read_tables(texts), strict=True):
        assert told == tables.line_of(tables.read(text)), text
        kinds.add(told.split()[0])
        if told.startswith("catalogue"):
            # no UID that stands in the bytes is lost, and none is there twice
            uids = [word.split(":")[1] for word in told.split()[1:]]
            uids = sorted(uid for uid in uids if uid != "none")
            stand = re.findall(rb"(?<![0-9A-Fa-f])[Ee]0[0-9A-Fa-f]{14}(?![0-9A-Fa-f])", text)
            assert sorted(set(uids)) == uids
            assert {uid.decode().upper() for uid in stand} <= set(uids), text
    assert kinds >= {"catalogue", "refused"}


def a_million(names, line):
    """A text of as many lines as there may be, each for a number that is like none before."""
    return names + b"".join(line(number * 0x9E3779B97F4A7C15 % 2**56, number)
                            for number in range(LINES - 1))


MILLION = {
    "a catalogue": (b"uid,title,author,place,away\n", lambda uid, number: (
        b"E0%014X,\"A title, volume %d\",An Author,shelf %d,\n" % (uid, number, number % 997))),
    "a catalogue in order": (b"uid\n", lambda _, number: b"E0%014X\n" % number),
    "places": (b"place,log\n", lambda _, number: b"shelf %d,C%d.log\n" % (number % 997, number)),
}


def test_a_million_items(read_tables):
    told = read_tables([a_million(*MILLION["a catalogue"])])[0]
    assert told.startswith("catalogue 2:E000000000000000:7368656C662030:here 3:E03779B97F4A7C15:")
    assert told.count(" ") == LINES - 1


@pytest.mark.parametrize("name", MILLION)
def test_the_cost_of_a_million_lines(pytestconfig, tmp_path, name):
    """At most a second, or three where the machine has other work, and 200 MB, the text included.
    The last line is refused, so that nothing but reading takes time."""
    needs("time")
    given, took = tmp_path / "given", tmp_path / "took"
    text = a_million(*MILLION[name])
    given.write_bytes(tables.behind_lengths([text[:text.rindex(b"\n", 0, -1)] + b"\n\"\n"]))
    program = Program("time", "-q", "-f", "%U %S %M", "-o", took,
                      *program_of(pytestconfig, "tables").words)
    with open(given, "rb") as stdin:
        assert program.told(stdin=stdin) == f"refused {LINES} Quote\n"
    user, system, peak = map(float, took.read_text().split())
    assert user + system < 3
    assert peak * 1024 < 200_000_000


def test_each_allocation_is_refused(pytestconfig, tmp_path):
    program = program_of(pytestconfig, "tables")
    texts = [text.encode() for text in SMALL]
    right = [tables.line_of(tables.read(text)) for text in texts]
    seen = set()
    for said in refused(program, shim("refuse", tmp_path), given=tables.behind_lengths(texts)):
        told = said.out.decode().splitlines()
        if said.status:
            # the program itself had no memory, and wrote at most what was read before
            assert all(line in (whole, "memory") for line, whole in zip(told, right))
            continue
        assert all(line in (whole, "memory") for line, whole in zip(told, right, strict=True))
        seen |= set(told)
    assert "memory" in seen
