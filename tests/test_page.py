"""The page that judges logs in a browser: logs are dropped, chosen and typed; what it says is what
the program says; it reaches no network, and writes nothing on the console."""
import json
import random
import re
import shutil
import subprocess
import time
from hashlib import sha256

import pytest
from selenium.webdriver.common.keys import Keys

import biglog
from helpers.lines import log_lines, log_of, rows, text_of
from helpers.program import TOP, Program
from helpers.records import drawn_in
from helpers.screen import DROP, PHONE, Screen

MOST_BYTES = 600_000
UNFINISHED = (TOP / "examples/unfinished-count.log").read_bytes()
LONG = text_of(["vicinity-log 1", *biglog.search(biglog.new_tags(random.Random(1), 400))])
BITS = text_of(["vicinity-log 1", *[biglog.ask((5, 2), 16), *["S"] * 16] * 20])
ALL, EACH = "T 260100F60A", "T 060100CD09"
READ_A, READ_B = "R 0000A1000000000104E06745", "R 0000B2000000000104E0CF94"
OVER_A, QUIET_A = "H" + READ_A[1:], "T 2202A1000000000104E0662A"
LIST_A, LIST_B = "U E0040100000000A1", "U E0040100000000B2"
# What is looked at, a text, and the words that are there, by the rows of tests/data/rows/page.
SAID = {f"{place.partition(':')[2]}: {line}": [
    cell.strip().replace("\\n", "\n") for cell in line.split("|")] for place, line in rows("page")}
# Logs whose pages are read by everybody: each look of the answer, and what version 3 has.
READ = ("I16 S RA RB S13 UA UB", "I16 S C S14 UA", "I1 RA I1 S", "UA UA", "I1 RA", *[
    given for kind, given, *_ in SAID.values()
    if kind == "headline" and re.match("V3|.vicinity-log 3", given)])
TYPE = """
const field = document.getElementById("text");
field.value = arguments[0];
field.dispatchEvent(new Event("input", { bubbles: true }));
"""
RINGED = """
return [...document.querySelectorAll(".rounds td.named")]
  .map((it) => ({ ...it.dataset, title: it.title, text: it.textContent }));
"""
# Presses the button that stops as soon as it is there, once.
STOP = """
const stop = document.getElementById("stop");
new MutationObserver((_, seen) => {
  if (stop.hidden) return;
  seen.disconnect();
  stop.click();
}).observe(stop, { attributes: true });
"""
# The worker is given its module, but no text until `free` is called.
HOLD = """
const post = Worker.prototype.postMessage;
Worker.prototype.postMessage = function (it) { if (it.module) post.call(this, it); };
window.free = () => { Worker.prototype.postMessage = post; };
"""
# What a browser does that runs no worker, and one that has no room for a text; each once.
WORKERLESS = {
    "the worker is blocked": "{ queueMicrotask(() => this.onerror(new ErrorEvent('error'))); }",
    "nothing is sent to it": "{ throw new DOMException('', 'DataCloneError'); }"}
ONCE = """
const post = Worker.prototype.postMessage;
Worker.prototype.postMessage = function (it) {
  Worker.prototype.postMessage = post;
"""
# Why the second of two logs has no answer, with what makes it so.
UNREADABLE = "it can't be read; open it again, or the files in it if it is a folder"
UNANSWERED = {
    UNREADABLE: """
File.prototype.arrayBuffer = function () {
  return this.name === "two" ? Promise.reject(new Error()) : Blob.prototype.arrayBuffer.call(this);
};
""",
    "out of memory": """
const post = Worker.prototype.postMessage;
Worker.prototype.postMessage = function (it) {
  if (it.name !== "two") post.call(this, it);
  else queueMicrotask(() => this.onmessage({ data: { id: it.id, error: "out of memory" } }));
};
"""}
# The rows of tables of items: shelves, of which one alone stands at the head, and items.
ROWS = ".items :is(thead tr + tr, tbody tr)"
#: What is said of logs that are green.
WHOLE = "Complete, as far as a log can show"
#: What is said of a reader that may have gone deaf.
IF_HEARD = "The one listed tag is here, and no other, if the reader heard to the end."
MOVED = "1 item in the wrong place ({}, on Returns, belongs to A); nothing answered in A."
OF_A_DEAF = "The one expected item is here, and no other, if the reader of {} heard to the end."
CHOSEN = """
const it = document.getElementById("text");
return it.value.slice(it.selectionStart, it.selectionEnd);
"""


@pytest.fixture(scope="module")
def file(wasm_module, tmp_path_factory):
    made = tmp_path_factory.mktemp("page") / "vicinity.html"
    subprocess.run([TOP / "web/build", made, wasm_module], check=True)
    return made


def test_no_name_is_declared_in_two_modules(wasm_module, tmp_path):
    """Joined they would be no script. A declaration may go over several lines."""
    for folder in "web", "examples":
        shutil.copytree(TOP / folder, tmp_path / folder)
    with open(tmp_path / "web/left.mjs", "a", encoding="utf-8") as module:
        module.write("const ONLY_HERE = 1,\n  PASTE = 2;\n")
    said = Program(tmp_path / "web/build", tmp_path / "page.html", wasm_module).run()
    assert (said.err, said.status) == (b"PASTE is declared in left.mjs and in page.mjs\n", 1)


@pytest.fixture
def page(browser, file):
    one = Screen(browser)
    one.open(file)
    yield one
    one.end()


@pytest.fixture
def shown(browser, file):
    """Shows a log in place of the one before; after another test, on a page that is new."""
    one = Screen(browser)

    def show(log):
        before, now = one.run("return window.shown"), sha256(log).hexdigest()
        if before is None:
            one.open(file)
        if before != now:
            one.drop(log=log)
            one.until(".record code", now)
            one.run("window.shown = arguments[0]", now)
        return one
    yield show
    one.end()


def type_in(page, text):
    """Puts a text into the field, as a phone does that pastes it."""
    page.run(TYPE, text)


def test_one_small_file_that_fetches_nothing(file):
    text = file.read_text()
    assert len(text) < MOST_BYTES
    assert "content=\"default-src 'none';" in text
    assert not re.search(r"connect-src|img-src|unsafe-inline|\b(?:src|href)=",
                         text.partition("<script type=\"text/plain\"")[0])
    # Safari doesn't know it before 2023, and would run nothing
    assert "(?<" not in text


@pytest.mark.parametrize("row", SAID)
def test_what_is_said_of_a_text(shown, program, row):
    """By what its row looks at; and always that the answer is the program's."""
    kind, given, *words = SAID[row]
    kind, _, look = kind.partition(" ")
    page, answer = shown(log_of(given)), program.run("check", given=log_of(given)).out
    LOOKS[kind](page, *words, *([given, look] if look else []))
    told = [answer.decode().strip()]
    assert page.texts(".record code")[:1] == told
    # its first tag isn't more than the others
    assert page.texts(".banner code") == told * (not told[0].startswith("unlisted") or "U" in given)


def headline(page, words):
    """How it begins."""
    page.until("h1", words)


def lights(page, values):
    """The first two: whether the search is finished, and the list."""
    assert page.texts(".lights dd")[:2] == [it for it in values.split(" / ") if it]


def sure(page, values, given, look):
    """The look of the answer, and the other lights: how often each other tag was asked, and what
    may be wrong if replies were hidden, or else the reader was deaf. If that went deaf behind its
    last answer, its silent slots say nothing; so a list is green only beside what it is worth
    then."""
    page.until(f".banner.{look} h1", "")
    names = "Each other tag was asked", "If replies were hidden", "If the reader went deaf"
    wanted = {name: it for name, it in zip(names, values.split(" / "), strict=True) if it != "-"}
    if wanted.get(names[1]) == "still empty":
        wanted = {name.replace("other ", ""): it for name, it in wanted.items()}
    assert dict(zip(page.texts(".lights dt")[2:], page.texts(".lights dd")[2:])) == wanted
    is_wrong = [not wanted.get(name, "still").startswith("still") for name in names[1:]]
    is_heard, is_deaf = "RA" in given, is_wrong == [False, True]
    said = "If the reader had gone deaf after the last answer of a tag, the answer may be wrong"
    assert (said in page.said()) == (is_deaf and is_heard)
    assert ("A reader that is deaf writes the same log:" in page.said()) == (is_deaf > is_heard)


def says(page, words, never=None):
    """At the shelf, and to whoever maintains the reader."""
    page.until("#told", words)
    assert never is None or never not in page.said()


def hidden(page, words, ask):
    """Of strong replies that hid weaker ones; and the lines of requests."""
    said = [it.partition("hid a weaker one, the answer ")[2] for it in page.texts(".holds p")]
    assert [it for it in said if it] == [it for it in [words] if it != "-"]
    assert page.texts(".copy") == ["\n".join(log_lines(ask)[1:])] * bool(ask)


def foreign(page, words):
    """Of a text that is no log, told from one."""
    page.until("h1", "isn't a log")
    page.until("#told", words)
    is_file = "This file isn't a log" in page.said()
    assert ("For whoever maintains the reader" in page.said()) != is_file
    assert "SHA-256 of the file" in page.texts(".record")[0]
    assert page.texts("h2")[0] == "What to do"


def unusable(page, words, never=None):
    """Of a log."""
    page.until("h1", "This log can't be used. Line ")
    says(page, words, never)
    page.media("print")
    assert "Counted on" not in page.said()


LOOKS = {it.__name__: it for it in (headline, lights, sure, says, hidden, foreign, unusable)}


# What is seen on the screen, and how many stops a keyboard has.
SEEN = """
const it = document.querySelector(arguments[0]);
return Boolean(it) && it.checkVisibility({ contentVisibilityAuto: true });
"""
STOPS = """
return [...document.querySelectorAll("button, input, textarea, summary, [tabindex]")]
  .filter((it) => it.tabIndex >= 0 && it.checkVisibility({ contentVisibilityAuto: true })).length;
"""


def test_what_is_for_whoever_maintains_the_reader_is_folded(page, file):
    """The rounds, the text and the requests, until somebody has come for them."""
    page.open(file, "")
    page.drop(log=UNFINISHED)
    page.until("h1", "Not finished")
    for_readers = ".rounds", ".copy", "#text"
    assert not any(page.run(SEEN, it) for it in (*for_readers, ".record", ".banner code"))
    page.is_readable()
    page.press(".reader > summary")
    page.wait(lambda: all(page.run(SEEN, it) for it in for_readers))
    page.drop(log=log_of("I1 RA"))
    page.until("h1", "1 tag is here")
    assert page.run(SEEN, ".rounds") and page.run(SEEN, "#text")
    page.press(".reader > summary")
    page.wait(lambda: not page.run(SEEN, "#text"))
    page.drop(log=UNFINISHED)
    page.until("h1", "Not finished")
    page.press(".why .to-line")
    page.wait(lambda: page.run(SEEN, "#text"))
    assert page.run(CHOSEN).startswith("T ")


def test_a_text_that_is_put_into_the_field_is_opened(page, file):
    """Where no log is shown; that of a log can't be changed, so it is that which is judged."""
    page.open(file, "")
    assert page.run(SEEN, "#text")
    type_in(page, log_of("I1 RA UA").decode())
    page.until("h1", "The one listed tag is here")
    assert page.texts(".banner div > p") == ["pasted text"]
    field = page.driver.find_element("id", "text")
    assert field.get_property("value") == log_of("I1 RA UA").decode()
    assert field.get_property("readOnly")
    page.press("#close")
    page.wait(lambda: not field.get_property("readOnly") and not field.get_property("value"))


@pytest.mark.parametrize("part", ["", "#reader"])
def test_a_keyboard_has_few_stops(page, file, part):
    """Of the lines of a table one, from which arrows lead to the others."""
    page.open(file, part)
    page.drop(log=LONG)
    page.until("h1", "400 tags are here")
    assert page.run(STOPS) <= 30
    page.drop(log=log_of("I16 S RA RB S11 UZ UY"))
    page.until("h1", "Not finished")
    assert page.run(STOPS) <= 30
    page.run("document.querySelector('.uids .to-line').focus()")
    lines = "return [...document.querySelectorAll('.uids.unlisted .to-line')]"
    page.run("document.querySelector('.uids.unlisted .to-line').focus()")
    page.driver.switch_to.active_element.send_keys(Keys.ARROW_DOWN)
    assert page.run(f"{lines}.map((it) => [it.tabIndex, it === document.activeElement])") == [
        [-1, False], [0, True]]


def test_who_has_no_log_yet_is_told_what_one_is(page):
    for words in ("that the reader's software wrote", "A log's first line begins with vicinity-log",
                  "isn't a log: it can't show whether a tag was missed",
                  "write uid as its first line, and open it as the catalogue."):
        assert words in page.said()


@pytest.mark.parametrize("names", READ)
def test_everybody_can_read_it(shown, names):
    shown(log_of(names)).is_readable()


@pytest.mark.parametrize("log", [UNFINISHED, LONG, BITS], ids=["short", "long", "bits"])
def test_on_a_phone_every_slot_is_seen(page, log):
    """Also beside numbers of lines with four digits, and a mask that has no whole digits."""
    page.on_a_phone()
    page.drop(log=log)
    page.until(".rounds caption", "The rounds")
    last = page.run("return [...document.querySelectorAll('.rounds td:last-child')]"
                    ".map((it) => it.getBoundingClientRect().right)")
    assert max(last) <= PHONE


# How a part is drawn: its text, border, background, and the colour of its border.
DRAWN = """
return [...document.querySelectorAll(arguments[0])].map((it) => {
  const { borderTopStyle, borderTopWidth, backgroundColor, borderTopColor } = getComputedStyle(it);
  const border = `${parseFloat(borderTopWidth) ? borderTopStyle : "none"}`;
  const first = (it.querySelector("button") ?? it).firstChild?.textContent;
  return [first, border, backgroundColor, borderTopColor];
});
"""


@pytest.mark.parametrize("scheme", ["light", "dark"])
def test_in_the_colours_of_the_system_nothing_is_lost(page, scheme):
    """Where these are forced, as for who needs a high contrast, there are no backgrounds: borders
    and signs say what these do."""
    held = EACH, "S", OVER_A, READ_B, "C", "D", "N", *["S"] * 10
    page.drop(one=third(*held), two=log_of("I1 S"))
    page.press("#logs button")
    page.until("h1", "Not finished")
    page.press("td.silent")
    page.media(scheme=scheme, forced="active")

    def drawn(part):
        return page.run(DRAWN, part)
    assert {border for _, border, *_ in drawn(".banner, .light")} == {"solid"}
    ((_, _, ground, _),) = drawn("body")
    assert {colour for *_, colour in drawn(".why .to-line")} == {ground}
    readings = "silent", "heard", "captured", "collision", "garbled", "unknown"
    cells = [drawn(f".rounds tbody .{reading}")[-1][:2] for reading in readings]
    assert cells == [["·", "none"], ["B2", "none"], ["A1", "dotted"], ["×", "none"],
                     ["?", "none"], ["~", "dashed"]]
    ((*_, here, _),), others = drawn("td.here"), drawn("td.silent:not(.here)")
    assert len(others) == 10 and here not in [it[2] for it in others]
    ((*_, pressed, _), (*_, other, _)) = drawn("#logs button")
    assert pressed != other


def test_the_first_screen_says_what_it_is_for(page):
    """Also once all is closed: what this is, what to do, and what comes of it."""
    for _ in range(2):
        assert page.texts(".start h2") == ["What this is", "What to do", "What you get"]
        assert len(page.texts(".answers li")) == 5
        assert page.texts("#beside h2") == ["Or paste a log here"]
        page.is_readable()
        page.drop(**{"A.log": b""})
        page.until("h1", "The file A.log is empty.")
        page.press("#close")


def test_print_is_a_record(page):
    """With all that is folded, what is taken for granted, a sum of the log, and a line to sign."""
    page.drop(log=log_of("I16 S RA RB S13 UA UB"))
    page.until("h1", "All 2")
    page.media("print")
    page.run("window.dispatchEvent(new Event('beforeprint'))")
    said = "\n".join(page.texts("body"))
    for words in "E0040100000000A1", "Each tag has power", "SHA-256 of the log", "Counted on":
        assert words in said
    assert "Open files" not in said and not page.driver.find_element("id", "text").is_displayed()


def test_each_sheet_names_the_file(page):
    """However long the headline is."""
    page.drop(**{"shelf 1.log": log_of("I1 RA I1 RB")})
    page.until("h1", "This count can't be used.")
    page.run("window.dispatchEvent(new Event('beforeprint'))")
    rules = page.run("return [...document.styleSheets[0].cssRules].map((it) => it.cssText)")
    assert '"shelf 1.log: This count can\'t be used. The log contradicts itself' in rules[-1]
    assert page.driver.title.startswith("shelf 1.log: This count") and ' …"' in rules[-1]
    when = r"Printed on \d+ \w+ \d{4} at \d\d:\d\d"
    assert re.search(rf'@bottom-left {{ content: "{when}"', rules[-1])
    # that isn't said twice, but by browsers that write nothing there
    page.media("print")
    assert page.run("return document.querySelector('.printed').innerText") == ""
    page.run("delete window.CSSMarginRule; window.dispatchEvent(new Event('beforeprint'))")
    assert re.fullmatch(when, page.texts(".printed")[0])


def test_no_word_stands_on_a_line_number_on_paper(page):
    """Those of findings and of notes, with why they are named."""
    page.drop(log=log_of("I16 S RA RB S11 UA"))
    page.until(".lights", "no")
    page.media("print")
    ends = page.run("""return [...document.querySelectorAll("#told li .to-line")].map((it) => {
        const range = document.createRange(), next = it.nextSibling, before = it.previousSibling;
        range.selectNode(next?.data ? next : before);
        const [one] = range.getClientRects(), own = it.getBoundingClientRect();
        return next?.data ? one.left - own.right : own.left - one.right;
      })""")
    assert len(ends) > 1 and min(ends) > -1
    assert "shown by" in "\n".join(page.texts(".uids"))


def test_rings_are_explained_on_paper(page):
    page.drop(log=UNFINISHED)
    page.until(".lights", "no")
    page.media("print")
    assert page.driver.find_element("css selector", ".legend .named").is_displayed()
    assert page.run("return document.querySelector('.legend').ariaLabel") == "What the signs mean"
    size = "return getComputedStyle(document.body).fontSize"
    assert page.run(size) == "12px"


def test_the_cause_is_ringed(page):
    page.drop(log=UNFINISHED)
    page.until(".lights", "no")
    ringed = page.run(RINGED)
    assert ringed and all("not reached" in it["title"] for it in ringed)
    page.press(".why .to-line")
    assert page.run(CHOSEN) == "T 06010401719B"


def test_all_requests_that_are_left_are_there(page):
    """In each of ten rounds eight slots collide, of which no two make one mask. They are asked in
    sixteen slots, since one would collide again."""
    slots = ["C" if number.bit_count() % 2 else "S" for number in range(16)]
    asked = [line for low in range(16) for line in (
        biglog.ask((4, low), 16), *(slots if low < 10 else ["S"] * 16))]
    page.drop(log=text_of(["vicinity-log 1", *asked]))
    page.until("#told", "80 requests are left.")
    masks = [(8, number << 4 | low) for number in range(16) for low in range(10)
             if slots[number] == "C"]
    assert sorted(page.texts(".copy")[0].split()[1::2]) == sorted(
        biglog.ask(mask, 16)[2:] for mask in masks)


def test_on_paper_long_lists_come_last(page):
    tags = biglog.new_tags(random.Random(1), 30)
    page.drop(log=text_of(["vicinity-log 1", *biglog.search(tags)]))
    page.until("h1", "30 tags are here")
    page.media("print")
    tops = page.run("return ['.banner', '.rounds', 'details:has(> .uids)', '.record'].map((it) => "
                    "document.querySelector(it).getBoundingClientRect().top)")
    assert tops == sorted(tops)


@pytest.mark.parametrize("start", [b"PK\x03\x04\x14\0\x06\0,\n", b"PK\x03\x04",
                                   b"\xD0\xCF\x11\xE0\xA1\xB1\x1A\xE1\0", b"\xD0\xCF\x11\xE0"])
def test_a_spreadsheet_is_told_from_a_log(page, program, tmp_path, start):
    """By its first bytes. The answer is that of the library."""
    page.choose(tmp_path, {"books": start + bytes(range(256)) * 20})
    page.until("h1", "This file isn't a log, but a ZIP file, a spreadsheet or a document.")
    answer = program.run("check", str(tmp_path / "books")).out.decode().strip()
    assert answer.startswith("refused at line 1: ") and page.texts(".banner code") == [answer]
    assert "UTF-16" not in page.said()
    assert page.driver.find_element("id", "text").get_property("value") == ""
    page.press("#close")
    page.choose(tmp_path, {"books.xlsx": start + bytes(range(256)) * 20})
    page.until(".error", "books.xlsx is a spreadsheet")
    assert "save it as CSV" in page.said()


def test_a_packed_file_is_no_catalogue(page, tmp_path):
    """Alone it may have logs in it, to be unpacked; a collection isn't judged beside it."""
    page.drop(log=log_of("I1 RA"))
    page.until("h1", "1 tag is here")
    page.choose(tmp_path, {"logs.zip": b"PK\x03\x04"})
    page.until("h1", "This file isn't a log, but a ZIP file, a spreadsheet or a document.")
    assert page.texts(".steps")[0].startswith("Unpack a ZIP file, and open the logs that are in it."
                                              "\nSave a spreadsheet of what should be here as CSV")
    page.choose(tmp_path, {"Thumbs.db": b"\xD0\xCF\x11\xE0\xA1\xB1\x1A\xE1", "books.csv": OF_A,
                           "A.log": log_of("I1 RA QA I1 S")})
    page.until(".error", "Thumbs.db (a ZIP file, a spreadsheet or a document) is no table or log.")
    assert "save a spreadsheet as CSV; unpack what is packed" in page.texts(".steps")[0]


def third(*lines):
    """The text of a log of version 3."""
    return text_of(["vicinity-log 3", *lines])


def test_slots_of_version_3_are_drawn(page):
    """Each look once, with its words. On paper too."""
    page.drop(log=third(EACH, "N", OVER_A, READ_B, *"S" * 13))
    page.until(".lights", "no")
    drawn = "return [...document.querySelectorAll('.rounds td.captured, .rounds td.unknown')]"
    looks = page.run(f"{drawn}.map((it) => [it.className, it.title, it.textContent])")
    assert [look.split()[0] for look, _, _ in looks] == ["unknown", "captured"]
    assert "nothing known" in looks[0][1] and looks[0][2].startswith("~")
    assert "one tag, perhaps over others, E0040100000000A1" in looks[1][1]
    assert looks[1][2].startswith("A1")
    page.media("print")
    for words in "one tag, perhaps over others", "nothing known":
        assert words in "\n".join(page.texts(".legend"))


def test_a_slot_is_asked_again_as_a_whole(page):
    """A collision of one slot, around two tags that are certain: many masks are open, and one
    request has them all, in sixteen slots. Where the slots are more, each mask is asked."""
    alone = [line for uid, read in ((0x040100000000A1, READ_A), (0x040100000000B2, READ_B))
             for line in (biglog.ask((56, uid)), read)]
    page.drop(log=text_of(["vicinity-log 1", *alone, ALL, "C", LIST_A, LIST_B]))
    page.until(".copy", "T ")
    assert page.texts(".copy") == [EACH]
    assert "1 request is left." in page.said()
    page.drop(log=log_of("I16 S C C S13"))
    page.until(".copy", "\n")
    assert "2 requests are left." in page.said()


def test_replies_that_may_have_hidden_others_come_last(page):
    """Where a collision is left too, they are one sentence and one request, and aren't ringed."""
    again = [line for bits in range(8, 32, 4) for line in (biglog.ask((bits, 0xA1), 1), OVER_A)]
    page.drop(log=text_of(["vicinity-log 3", EACH, "S", OVER_A, "C", *"S" * 13, *again]))
    page.until(".why", "The search stopped with the round of line 29.")
    page.until("li", "In slot 2 of the round of line 2, which asked all UIDs, two or more tags")
    assert "In 7 slots of 7 rounds one tag was read, perhaps over others, and no" in page.said()
    assert "settled all of these UIDs, at last in those of lines 23, 25, 27 and 29." in page.said()
    assert ["two or more" in it["title"] for it in page.run(RINGED)] == [True]
    assert page.texts(".copy") == [biglog.ask((4, 2), 16), f"{QUIET_A}\n{ALL}"]
    assert page.said().count("If a slot has a collision, ask its mask in sixteen slots too.") == 2


@pytest.mark.parametrize(("listed", "where"), [("", "at the end."), ("UA", "before the U lines.")])
def test_what_may_be_hidden_may_collide(page, listed, where):
    """Two that were hidden collide as often as they are asked together: so it is said that their
    mask is asked in sixteen slots then."""
    page.drop(log=log_of(f"V3 I16 S HA S14 {listed}"))
    page.until(".reader", "where a reply may have hidden others, when the tags that were read "
               "there are silent. If a slot has a collision, ask its mask in sixteen slots too. "
               f"In the log, the new lines go {where}")


def test_a_table_is_compared_with_the_logs_that_are_here(page):
    page.drop(log=log_of("I1 RA"))
    page.until("h1", "1 tag is here")
    page.drop(**{"books.csv": b"title;uid\nWalden;E0:04:01:00:00:00:00:A1\n"})
    page.until("h1", "The one expected item is here")
    page.press(".logs summary")
    drawn = "return document.querySelector('.logs').textContent"
    page.wait(lambda: "Walden E0040100000000A1" in page.run(drawn))
    assert "Walden" in page.run("return document.querySelector('td.heard').title")


def a_tag_late():
    """A search for many tags, in whose last slot two or more answer although all are silent."""
    tags = biglog.new_tags(random.Random(1), 1200)
    lines = ["vicinity-log 1", *biglog.search(tags)]
    assert lines[-1] == "S"
    lines[-1] = "C"
    return lines, len(lines)


def a_collision_amid():
    """One tag is heard and silenced; two collide; every mask is silent, some before and some
    after, in sixteen rounds and others that say no more."""
    uid, silent = 0xE004010000000000, ["S"] * 16
    lines = ["vicinity-log 1", biglog.ask((4, 0), 16), biglog.reply(uid), *silent[1:],
             biglog.silence(uid), biglog.ask((4, 1), 16), *silent,
             *[biglog.ask((12, 0x111)), "S"] * 40, biglog.ask((0, 0)), "C"]
    return [*lines, *[biglog.ask((12, 0x211)), "S"] * 40,
            *(line for low in range(2, 16) for line in (biglog.ask((4, low), 16), *silent))
            ], len(lines)


@pytest.mark.parametrize("make", [a_tag_late, a_collision_amid])
def test_a_large_conflict_is_told_by_its_collision(page, program, make):
    lines, collision = make()
    log = text_of(lines)
    by = set(re.findall(r"\nby line (\d+)", program.run("report", given=log).out.decode()))
    page.drop(log=log)
    page.until("h1", f"in line {collision} two or more tags answered, but {len(by) - 1:,} other "
               "lines leave at most one.")
    ringed = {it["line"] for it in page.run(RINGED)}
    assert str(collision) in ringed <= by and (by <= ringed) == (make is a_collision_amid)
    is_more = any("and on slots not shown" in it for it in page.texts(".legend li"))
    assert is_more == (make is a_tag_late)


def test_the_cause_is_found_far_above(page):
    page.drop(log=text_of(["vicinity-log 1", "T 060100CD09", "C", *["S"] * 15,
                           *[biglog.ask((4, 1)), "S"] * 2500]))
    page.until(".why", "In slot 0 of the round of line 2, which asked all UIDs, two or more tags")
    assert "by no request" not in page.said()
    assert page.texts('.rounds td.named[data-line="3"]')


def test_two_that_were_silenced_before_are_told_in_one_mask(page, vicinity):
    """Their UIDs differ in the last bit alone, so one mask of 55 bits has both, and no other."""
    uids = [0xE0040100000000A1, 0xE0840100000000A1]
    quiets = [vicinity.write_line("T", vicinity.write_stay_quiet(2, uid)) for uid in uids]
    log = b"".join([b"vicinity-log 2\n", *quiets, b"T 260100F60A\nS\n"])
    assert vicinity.check(log).mask_len == 55
    page.drop(log=log)
    page.until("h1", "Not finished: 2 tags may be here or not, since they were silenced before "
               "they were heard.")
    assert page.texts(".why") == [
        "Lines 2 and 3 silenced 2 tags before they were heard: replies before aren't in "
        "the log, or the reader had the UIDs from an earlier count."]
    assert "by no request" not in page.said()


def frames(vicinity):
    """Frames of all kinds, in upper and lower case."""
    rng = random.Random(7)
    for _ in range(500):
        slots, uid = rng.choice([1, 16]), 0xE0 << 56 | rng.getrandbits(56)
        bits = rng.randint(0, 64 if slots == 1 else 60)
        mask = vicinity.Mask(bits, rng.getrandbits(64) & (1 << bits) - 1)
        yield vicinity.write_inventory(rng.randrange(4), slots, mask).hex()
        yield vicinity.write_stay_quiet(rng.randrange(4), rng.getrandbits(64)).hex().upper()
        yield vicinity.write_response(0, rng.randrange(256), uid).hex().upper()


def test_the_page_reads_frames_as_the_library_does(vicinity, wasm_module):
    given = "\n".join(frames(vicinity)).encode()
    said = subprocess.run(["node", TOP / "tests/wasm/frames.mjs", wasm_module], input=given,
                          capture_output=True, check=True).stdout
    told = json.loads(said)
    assert (told["tried"] >= 1500, told["wrong"]) == (True, [])


def test_who_was_silenced_before_is_ringed(page):
    page.drop(log=log_of("I1 QA I1 S UA"))
    page.until(".why", "Line 3 silenced")
    one, = page.run(RINGED)
    assert one["line"] == "3" and "the answer rests on it" in one["text"]


def test_the_last_stay_quiets_of_a_long_log_are_drawn_with_their_round(page):
    """Whose slots they underline."""
    rounds = [biglog.ask((8, 0)), "S"] * 70
    page.drop(log=text_of(["vicinity-log 1", ALL, READ_A, *rounds, EACH, READ_A, READ_B, *"S" * 14,
                           QUIET_A, biglog.silence(0xE0040100000000B2)]))
    page.until(".rounds td.quiet", "B2")
    assert len(page.texts(".rounds td.quiet")) == 2
    assert page.texts(".rounds .say") == ["not shown: 68 rounds"]


def test_stay_quiets_behind_one_that_is_marked_belong_to_their_round(page):
    """The marked one has a row of its own. For who doesn't see it, each cell says what it held."""
    page.drop(log=text_of(["vicinity-log 1", EACH, *"S" * 1, READ_A, READ_B, *"S" * 13, QUIET_A,
                           biglog.silence(0xE0040100000000B2), ALL, READ_A]))
    page.until("h1", "tag ..00A1 was silenced in line 19, but answered in line 22.")
    assert page.texts(".steps li")[0].startswith("Move the item with tag E0040100000000A1 nearer")
    cells = page.run("return [...document.querySelectorAll('.rounds tr:nth-child(1) td')]"
                     ".map((it) => it.textContent)")
    assert cells[:4] == ["all", "·no tag", "A1 (silenced afterwards)",
                         "B2 (silenced afterwards)"]
    head = page.run("return document.querySelector('.rounds tbody th').textContent")
    assert head.startswith("lines 2")


def test_without_a_list_no_tag_is_ringed(page):
    page.drop(log=log_of("I16 S RA RB S13"))
    page.until("h1", "2 tags are here")
    assert page.texts(".named") == []


def test_without_a_list_all_tags_are_seen(page):
    """Where nothing is left to ask. What isn't scrolled is no stop for the keyboard."""
    tags = biglog.new_tags(random.Random(1), 30)
    page.drop(log=text_of(["vicinity-log 1", *biglog.search(tags)]))
    page.until("h1", "30 tags are here")
    assert len([it for it in page.texts(".uids code") if it]) == 30
    page.wait(lambda: not page.driver.find_elements("css selector", ".wide[tabindex]"))


def test_a_file_that_cannot_be_read(page):
    """As a folder. The answer before is gone from everywhere."""
    page.drop(log=log_of("I1 RA UA"))
    page.until("h1", "The one listed tag is here")
    page.run("File.prototype.arrayBuffer = () => Promise.reject(new Error())")
    page.drop(**{"fold\u202Eer": b""})
    page.until(".error", f"fold‹202E›er: no answer ({UNREADABLE}).")
    assert page.driver.title == page.run(
        "return document.getElementById('said').textContent") == page.texts(".error")[0]
    assert "listed tag" not in page.said()


def test_a_file_is_chosen_again(page, tmp_path):
    for names, words in ("I1 RA UA", "The one listed tag is here"), ("I1 S UA", "No tag answered"):
        (tmp_path / "log").write_bytes(log_of(names))
        page.driver.find_element("id", "files").send_keys(str(tmp_path / "log"))
        page.until("h1", words)
        assert page.texts("#logs button") == []


def test_nothing_is_left_of_the_answer_before(page):
    """Also of a file with the same name, until it is judged."""
    page.drop(log=log_of("I1 RA UA"))
    page.until("h1", "The one listed tag is here")
    page.run("Worker.prototype.postMessage = () => {}")
    page.drop(log=log_of("I1 S UA"))
    page.wait(lambda: page.driver.title == "log ..")
    assert page.texts("h1") == []
    for said in page.said(), page.run("return document.getElementById('said').textContent"):
        assert said.strip() in ("", "log was replaced by what you opened under the same name.")


def test_the_lines_of_a_large_log_are_shown(page):
    comments = ["#" + "." * 120] * 10_000
    page.drop(log=text_of(["vicinity-log 1", *comments, "T 260100F60A",
                           "R 0000A1000000000104E06745", "T 260100F60A", "S"]))
    page.until("h1", "The log contradicts itself")
    page.press('td[data-line="10003"]')
    assert page.run(CHOSEN) == "R 0000A1000000000104E06745"


def test_the_focus_is_on_what_is_pressed(page):
    page.run(
        "document.getElementById('files').focus({ focusVisible: true })")
    ring = "return getComputedStyle(document.querySelector(arguments[0])).outlineStyle"
    assert page.run(ring, ".choose") == "solid"
    assert page.run(ring, "#example") == "none"


def test_a_long_judging_is_stopped(page, million):
    page.run(STOP)
    page.driver.find_element("id", "files").send_keys(str(million))
    page.until(".error", "no answer (stopped)")
    page.drop(log=log_of("I1 RA UA"))
    page.until("h1", "The one listed tag is here")


def test_slots_answer_to_the_keyboard(page):
    """Arrows lead along a row, and down a column; a slot that is pressed shows its line."""
    page.drop(log=log_of("I16 S RA RB S13 QA QB I16 S16"))
    page.until(".rounds", "A1")
    page.run("document.querySelector('.rounds tbody .to-line').focus()")

    def press(*keys):
        for key in keys:
            page.driver.switch_to.active_element.send_keys(key)
        return page.run("return document.activeElement.closest('td, th')?.dataset.line ?? ''")
    assert press(Keys.ARROW_RIGHT, Keys.ARROW_RIGHT) == "4"
    assert press(Keys.ARROW_DOWN) == "23" and press(Keys.ARROW_UP) == "4"
    assert page.run("return document.querySelectorAll('.rounds [tabindex=\"0\"]').length") == 1
    press(Keys.ENTER)
    assert page.run(CHOSEN).startswith("R 0000A1")
    assert page.run("return document.activeElement.id") == "text"


def test_text_and_rounds_are_linked(page):
    page.drop(log=log_of("I16 S RA RB S13 UA UB"))
    page.until("h1", "All 2")
    page.press('td[data-line="4"]')
    assert page.run(CHOSEN).startswith("R 0000A1")
    marked = "return [...document.querySelectorAll('td.here')].map((it) => it.dataset.line)"
    assert (page.run(marked), page.texts("#beside h2")) == (["4"], ["The text"])


def test_several_logs(page):
    """Each has its own answer, and no answer stands for all of them, until one is pressed."""
    page.drop(one=log_of("I1 RA UA"), two=log_of("I1 S UA"), three=log_of("I1 S S"))
    page.until("#logs", "The one listed tag is here")
    page.until("#logs", "No tag answered")
    page.until("#logs", "can't be used")
    # no tag was heard after the last silence, so the first isn't green
    said = "3 logs, each with its own answer. Complete, as far as a log can show: 0 of 3."
    page.until("h1", said)
    assert (page.texts("h1"), page.driver.title) == ([said], said)
    assert not page.texts(".banner") and page.said().startswith("What this takes for granted (7)")
    assert not page.driver.find_element("id", "text").is_displayed()
    page.is_readable()
    page.press("#logs button", 1)
    page.until("h1", "No tag answered")
    assert len(page.texts("h1")) == 1 and said in page.texts("#each")[0]
    assert page.texts("#logs button [aria-hidden=true]") == ["i", "!", "?"]
    assert page.run("return document.activeElement.textContent").startswith("!two ")


def test_of_logs_without_a_list_it_is_not_said_that_none_is_complete(page):
    page.drop(one=log_of("I1 RA QA I1 S"), two=log_of("I1 RB QB I1 S"))
    page.wait(lambda: page.texts("#logs .sign") == ["i", "i"])
    page.until("h1", "2 logs, each with its own answer.")
    assert "omplete" not in page.texts("h1")[0]


def test_several_logs_on_paper_are_a_record(page):
    """With the answer to each, its date and sum, and a line to sign."""
    one, two = log_of("V3 I1 RA QA I1 S F MA RA UA"), log_of("I1 S UA")
    page.drop(one=one, two=two)
    page.until("h1", f"2 logs, each with its own answer. {WHOLE}: 1 of 2.")
    page.media("print")
    page.run("window.dispatchEvent(new Event('beforeprint'))")
    when = r"of \d+ \w+ \d{4}, \d\d:\d\d"
    for words in (f"one: complete 1 · {when} · SHA-256 {sha256(one).hexdigest()}",
                  f"two: absent E0040100000000A1 · {when} · SHA-256 {sha256(two).hexdigest()}",
                  r"can show: 1 of 2\. \(2 files, by vicinity ", "What this takes for granted",
                  "Counted on"):
        assert re.search(words, page.said())


@pytest.mark.parametrize(("files", "number"), [
    # others may be hidden; no tag answered; the reader may have gone deaf
    (("I1 RA UA", "I1 S", "I1 RA QA I1 S UA"), "0 of 3"),
    (("I1 RA UA", "V3 I1 RA QA I1 S F MA RA UA"), "1 of 2")])
def test_of_several_logs_those_are_counted_that_are_green(page, files, number):
    page.drop(**{f"{at}.log": log_of(words) for at, words in enumerate(files)})
    page.until("h1", f"{WHOLE}: {number}.")
    assert len(page.texts("#logs .sign.yes")) == int(number[0])


def test_the_title_and_who_does_not_see_it_get_the_headline(page):
    """Whatever is shown, and after each change."""
    def is_same():
        (headline,), said = page.texts("h1"), page.run(
            "return document.getElementById('said').textContent")
        assert said.endswith(headline) and page.driver.title.endswith(headline)
    for names, words in (("I1 RA QA I1 S UA", "The one listed tag"), ("I1 S UA", "No tag answered"),
                         ("I1 RA I1 S", "This count"), ("UA UA", "This log"), ("I16 S", "Not fin")):
        page.drop(log=log_of(names))
        page.until("h1", words)
        is_same()
    page.drop(one=log_of("I1 S"), two=log_of("I1 S UA"))
    page.until("h1", f"{WHOLE}: 0 of 3.")
    is_same()
    page.drop(**{"books.csv": OF_A})
    page.until("h1", "item")
    is_same()
    page.drop(**{"books.xlsx": b"PK\x03\x04"})
    page.until(".note", "books.xlsx was left out: save a spreadsheet as CSV.")
    is_same()
    page.press("#close")
    page.drop(**{"books.xlsx": b"PK\x03\x04", "A.log": log_of("I1 S")})
    page.until("h1", "books.xlsx is a spreadsheet")
    is_same()


def test_what_is_no_log_is_not_counted_as_one(page):
    page.drop(one=log_of("I1 RA UA"), two=log_of("I1 S UA"), uids=b"E0040100000000A1\n")
    page.until("h1", f"2 logs, each with its own answer. {WHOLE}: 0 of 2. 1 file isn't a log.")
    page.press("#close")
    page.drop(uids=b"E0040100000000A1\n", prose=b"Dear reader\n")
    page.until("h1", "0 logs. 2 files aren't logs.")


def test_a_session_of_a_million_lines_does_not_freeze_the_page(page, million):
    page.run("window.ticks = 0; setInterval(() => window.ticks++, 20)")
    page.driver.find_element("id", "files").send_keys(str(million))
    page.until("h1", "All 115,600 listed tags are here")
    # the page went on meanwhile
    assert page.run("return window.ticks") > 20


def saved(page, folder):
    """The file that the page saves."""
    folder.mkdir(exist_ok=True)
    page.driver.execute_cdp_cmd("Browser.setDownloadBehavior",
                                {"behavior": "allow", "downloadPath": str(folder)})
    page.driver.find_element("id", "save").click()
    page.wait(lambda: [it for it in folder.glob("*.html") if it.stat().st_size])
    return next(folder.iterdir())


@pytest.mark.parametrize(("two", "others", "look"), [
    ("I1 RB", "; others may be in the field of two, if stronger replies hid them.", "read"),
    ("I1 RB QB I1 S", ", and no others, if the reader of two heard to the end.", "read"),
    ("V3 I1 RB QB I1 S F MB RB", ", and no others.", "yes")])
def test_a_collection_is_not_green_where_a_list_is_not(page, two, others, look):
    """In a field in which not all were asked once more, others may have been hidden; and where it
    didn't ask a tag again at the end, the reader may have gone deaf."""
    page.drop(**{"books.csv": b"uid,place\nE0040100000000A1,one\nE0040100000000B2,two\n",
                 "one.log": log_of("V3 I1 RA QA I1 S F MA RA"), "two.log": log_of(two)})
    page.until(f".banner.{look} h1", f"All 2 expected items are here{others}")
    page.press("#close")
    page.drop(**{"two.log": log_of(f"{two} UB")})
    page.until(f".banner.{look} h1", "The one listed tag is here")


def test_an_empty_field_is_not_green_without_a_tag_that_is_expected(page):
    """As an export has it that failed, beside an antenna that does; nor is it without a list."""
    page.drop(**{"books.csv": b"uid,title\nnone,Emma\nnone,Kim\n", "A.log": log_of("I1 S")})
    page.until(".banner.read h1", "Nothing is expected here, and no tag answered: that doesn't "
               "show that the reader worked. But 2 items have no tag.")
    assert page.texts(".lights dd")[1] == "0 of 2 items, 2 without a tag"
    page.press("#close")
    page.drop(**{"A.log": log_of("I1 S")})
    page.until(".banner.read h1", "No tag answered, and nothing is listed.")


def test_one_item_that_is_here_beside_a_log_of_no_place(page):
    page.drop(**{"books.csv": OF_A, "A.log": log_of("I1 RA QA I1 S"), "cart.log": log_of("I1 RB")})
    page.until("h1", "cart.log is of no place")
    page.drop(**{"cart.log": log_of("I1 S")})
    page.until("h1", "Cart.log is of no place; nothing answered in cart.log. Together the logs "
               "have the one expected item.")


def test_items_without_a_place_are_not_called_in_place(page):
    """It is told how many these are."""
    books = b"uid,place\nE0040100000000A1,A\nE0040100000000B2,any\nE0040100000000B1,B\n"
    logs = {"A.log": log_of("I1 RA QA I1 S"), "B.log": log_of("I1 RB QB I1 S")}
    page.drop(**{"books.csv": books, **logs})
    page.until("h1", "1 item missing if the reader of B heard to the end (E0040100000000B1, of B).")
    assert page.texts(".lights dd")[:2] == ["2 of 2 logs", "2 of 3 items, 1 without a place"]
    page.drop(**{"books.csv": books.replace(b"any", b"B")})
    page.until(".lights dd", "2 of 3 items")
    page.drop(**{"books.csv": b"uid,place\nE0040100000000A1,A\nE0040100000000B2,B\n"})
    page.until("h1", "but 1 item of a table that was here has no row now: B.")
    page.press(".doubts button")
    page.until(".banner.read h1", "All 2 expected items are here, and no others, if "
               "the readers of A and B heard to the end.")
    assert page.texts(".lights dd")[:2] == ["2 of 2 logs", "2 of 2 items"]


def test_a_collection_with_a_tag_that_is_not_in_the_catalogue(page):
    """It is no item of it. The catalogue has its sum, and on paper each log."""
    log, catalogue = log_of("I1 RA QA I1 S"), b"uid,title\nnone,Emma\n"
    page.drop(**{"catalogue": catalogue, "one.log": log})
    page.until("h1", "1 item not in the catalogue and 1 without a tag.")
    assert "1 item" in page.texts(".record")[0] and sha256(log).hexdigest() not in page.said()
    assert page.texts(".record code") == ["unlisted E0040100000000A1", sha256(
        catalogue).hexdigest()]
    page.media("print")
    page.run("window.dispatchEvent(new Event('beforeprint'))")
    assert sha256(log).hexdigest() in page.said()


def test_a_log_of_a_collection_is_compared_with_its_catalogue(page):
    """So it lacks no list, and nothing is to be compared at the shelf."""
    page.drop(**{"catalogue": b"uid,title\nnone,Emma\n", "one.log": log_of("I1 RA QA I1 S"),
                 "two.log": log_of("I1 S")})
    page.until("h1", "1 item not in the catalogue and 1 without a tag; "
               "nothing answered in two.log.")
    page.run("for (const it of document.querySelectorAll('details')) it.open = true")
    page.wait(lambda: len(page.texts(".logs h3")) == 2)
    assert page.texts(".logs h3") == [
        "1 tag is here, and no other, if the reader heard to the end.", "No tag answered."]
    assert page.texts(".logs dt") == [
        "Search finished", "If the reader went deaf",
        "Search finished", "Each tag was asked", "If replies were hidden",
        "If the reader went deaf"]
    assert page.texts(".logs h4").count("At the shelf") == 0
    assert page.texts(ROWS)[:2] == [
        "one.log", "not in the catalogue: find it by its tag\nE0040100000000A1"]
    page.media("print")
    assert page.said().count("Counted on") == 1


def test_items_that_are_not_on_their_shelves(page):
    """The first log rules Emma out. Of the items of the other shelf nothing is known."""
    page.drop(**{"catalogue": b"uid,title,place\nE0040100000000A1,Walden,one\n"
                 b"E0040100000000B2,Emma,one\nE0040100000000C3,Kim,two\n",
                 "one.log": log_of("I1 RA QA I1 S"), "two.log": log_of("I1 RA I1 S")})
    page.until("h1", "1 item not heard on its shelf (Emma, of one) and 1 not known yet; the log "
               "of two can't be used: count again.")
    assert page.texts(".logs summary")[0] == (
        "two: nothing is known of its field, since its log contradicts itself (line 5)")
    assert "send it and this page to whoever maintains the reader." in page.said()
    page.press(".logs summary")
    page.until(".logs h3", "tag ..00A1 answered in line 3, but not in line 5,")
    assert page.texts(ROWS)[:2] == ["Shelf one", "Emma\ntwo\nE0040100000000B2"]
    assert page.texts(ROWS)[2:4] == ["Shelf two", "Kim\nE0040100000000C3"]
    page.run("for (const it of document.querySelectorAll('#told > details')) it.open = true")
    page.until("details p", "The logs of their shelves rule these out. Count again first")


def test_a_log_that_is_not_finished(page):
    """What is left to ask in its field stands where it is opened."""
    page.drop(**{"catalogue": b"uid\nE0040100000000C8\n", "one.log": log_of("I16 S8")})
    page.until("h1", "1 item not known yet; count 1 log again.")
    assert page.texts(".logs summary") == ["one.log: 0 tags; not finished"]


def test_rows_without_a_tag(page):
    """They are counted, but nothing is known of them. Without a title the UID names an item."""
    catalogue = b"uid,title\nE0040100000000A1,Walden\nnone,Emma\n"
    page.drop(**{"catalogue": catalogue, "one.log": log_of("I1 RB QB I1 S")})
    page.until("h1", "1 item missing if the reader of one.log heard to the end (Walden), 1 not in "
               "the catalogue and 1 without a tag.")
    assert page.texts(".lights dd")[:2] == ["1 of 1 log", "0 of 2 items, 1 without a tag"]
    names = "return [...document.querySelectorAll('.items th[scope=row]')]"
    assert page.run(f"{names}.map((it) => [it.cellIndex, it.innerText])") == [
        [1, "Walden"], [2, "E0040100000000B2"], [1, "Emma"]]


def test_an_item_of_a_catalogue_with_many_columns_is_read_in_lines(page):
    """As a library system exports it: no column has room for a word. On paper too."""
    columns = [f"column {number}" for number in range(20)]
    page.drop(**{"books.csv": f"uid,title,{','.join(columns)},place\nE0040100000000A1,Emma,"
                 f"{','.join(['available'] * 20)},A\n".encode(), "A.log": log_of("I1 S")})
    page.until("h1", "1 item may be missing (Emma · available, of A); nothing answered in A.")
    for kind, width in ("print", 780), ("", 1000):
        page.media(kind)
        size = {"width": width, "height": 900, "deviceScaleFactor": 1, "mobile": False}
        page.driver.execute_cdp_cmd("Emulation.setDeviceMetricsOverride", size)
        lines = page.run("""
          return [...document.querySelectorAll(".items td[data-head^=column]")].map((it) => {
            const range = document.createRange();
            range.selectNodeContents(it);
            return range.getClientRects().length;
          })""")
        assert lines == [1] * 20
    cell = "document.querySelectorAll('.items td')[3]"
    assert page.run(f"return getComputedStyle({cell}, '::before').content") == '"column 2: "'


def test_a_long_table_of_items_stands_in_one_column_on_paper(page):
    """Firefox doesn't break a table into several: it left a sheet empty, and cut rows in two."""
    uids = [0xE004010000000000 + number for number in range(40)]
    page.drop(**{"books.csv": b"uid,title,place\n" + b"".join(
        b"%016X,Walden,%d\n" % (uid, uid % 2) for uid in uids),
                 "0.log": log_of("I1 S"), "1.log": log_of("I1 S")})
    page.until("h1", "40 items may be missing; nothing answered in 0 and 1.")
    page.media("print")
    assert page.run("return getComputedStyle(document.querySelector('details:has(> .items)'))"
                    ".columnWidth") == "auto"


def test_a_name_written_from_right_to_left_does_not_move_a_number(page):
    """One that follows it stood before it, away from what it counts."""
    page.drop(**{"books.csv": "uid,place\nE0040100000000A1,\u05de\u05d3\u05e3 1\n".encode(),
                 "\u05de\u05d3\u05e3 1.log": log_of("I1 RA QA I1 S")})
    page.until("h1", OF_A_DEAF.format("\u05de\u05d3\u05e3 1"))
    page.press("details:has(.logs) > summary")
    assert page.texts(".logs summary")[0].startswith("\u05de\u05d3\u05e3 1: 1 tag; it isn't shown")
    name, number = page.run("""
      const it = document.querySelector(".logs b"), range = document.createRange();
      range.setStart(it.nextSibling, 2);
      range.setEnd(it.nextSibling, 3);
      return [it, range].map((one) => one.getBoundingClientRect().left);""")
    assert name < number


def test_an_item_of_which_the_catalogue_says_nothing_is_named_by_its_uid(page):
    page.drop(**{"catalogue": b"uid\nE0040100000000A1\n", "one.log": log_of("I16 S")})
    page.until("h1", "1 item not known yet; count 1 log again.")
    page.run("for (const it of document.querySelectorAll('#told > details')) it.open = true")
    assert page.texts(".items thead th") == ["UID", "may be in"]
    assert page.texts(".items th[scope=row]") == ["E0040100000000A1"]


OF_A = b"uid,title,place\nE0040100000000A1,Emma,A\n"


def test_a_stopped_log_is_not_left_out_of_a_collection(page):
    """It has its text, so it is judged again."""
    page.run(HOLD)
    page.drop(one=log_of("I1 RA QA I1 S"), two=log_of("I1 RB QB I1 S"))
    page.until("#logs", "two ..")
    page.press("#stop")
    page.until("#logs", "two stopped")
    page.run("window.free()")
    page.drop(**{"books.csv": OF_A})
    page.until("h1", "1 item heard in a log of no place and 1 not in the catalogue; no log of A, "
               "unless one is it; two is of no place.")


@pytest.mark.parametrize("why", UNANSWERED)
def test_no_collection_is_judged_without_one_of_its_logs(page, why):
    """Nor by the next catalogue."""
    page.run(UNANSWERED[why])
    page.drop(one=log_of("I1 RA QA I1 S"), two=log_of("I1 RB QB I1 S"))
    page.until("#logs", f"two {why}")
    for name in "books.csv", "better.csv":
        page.drop(**{name: OF_A})
        page.until(".error", f"{name}: no answer (two: {why}).")
        assert page.texts("#told li") == [
            "Open it again under its name, or leave it out.", "All other files are still here."]


def test_no_answer_stands_beside_another_log_of_the_same_name(page):
    page.run("""
      const post = Worker.prototype.postMessage;
      let posted = 0;
      Worker.prototype.postMessage = function (it) {
        if (it.index || !posted++) post.call(this, it);
      };
    """)
    page.run(DROP, [["log", log_of(names).decode()] for names in ("I1 RA QA I1 S UA", "I1 S UA")])
    page.until("#logs", "The one listed tag is here")
    page.press("#logs button")
    page.until(".banner.read h1", "The one listed tag is here")
    page.press("#logs button", 1)
    assert (page.said(), page.texts("h1"), page.driver.title) == ("", [], "log ..")


def test_the_next_catalogue_does_not_lose_the_places(page):
    """Nor do other places lose the catalogue."""
    page.drop(**{"books.csv": OF_A, "places.csv": b"place,log\nA,1.log\nReturns,2.log\n",
                 "1.log": log_of("I1 S"), "2.log": log_of("I1 RA QA I1 S")})
    page.until("h1", MOVED.format("Emma"))
    page.drop(**{"better.csv": OF_A.replace(b"Emma", b"Kim")})
    page.until(".banner", "better.csv")
    assert page.texts("h1") == [MOVED.format("Kim")]
    page.drop(**{"others.csv": b"place,log\nA,2.log\nReturns,1.log\n"})
    page.until("h1", "if the readers of A and Returns heard to the end. But nothing answered in")
    assert "better.csv" in page.texts(".banner")[0] and "others.csv" in page.texts(".record")[0]
    page.drop(**{"places.csv": b"place,log\nA,1.log\nReturns,2.log\n"})
    page.until("h1", MOVED.format("Kim"))


# The file slow.log is read once `go` is called.
SLOW = """
File.prototype.arrayBuffer = function () {
  const read = Blob.prototype.arrayBuffer.call(this);
  if (this.name !== "slow.log") return read;
  return new Promise((done) => read.then((bytes) => { window.go = () => done(bytes); }));
};
"""


def test_a_table_waits_for_a_log_that_is_still_read(page):
    page.run(SLOW)
    page.drop(**{"slow.log": log_of("I1 RA QA I1 S")})
    page.drop(**{"books.csv": OF_A.replace(b",A", b",slow")})
    page.wait(lambda: page.run("return 'go' in window"))
    page.run("window.go()")
    page.until(".banner.read h1", OF_A_DEAF.format("slow"))


@pytest.mark.parametrize("is_example", [False, True])
def test_a_file_that_is_read_slowly_does_not_replace_a_later_one(page, is_example):
    page.run(SLOW)
    page.drop(**{"slow.log": log_of("I1 RA UA")})
    if is_example:
        page.press("#example")
    else:
        page.drop(later=UNFINISHED)
    page.wait(lambda: page.run("return 'go' in window"))
    page.run("window.go()")
    page.until("#told", "This is an example" if is_example else "later")
    page.wait(lambda: not page.run(SEEN, "#example"))


def test_the_example_leaves_with_the_first_file(page):
    page.press("#example")
    page.until("#told .note", "This is an example: twelve books")
    assert page.run("return document.activeElement.tagName") == "H1"
    page.drop(**{"books.csv": OF_A})
    page.until("h1", "The catalogue has 1 item in 1 place. Now open the logs.")
    page.drop(**{"A.log": log_of("I1 RA QA I1 S")})
    page.until("h1", OF_A_DEAF.format("A"))
    page.press("#example")
    page.until(".note", "What was here (books.csv, 1 log) was closed.")
    page.until(".note", "This is an example: twelve")
    assert "books.csv" not in page.said().partition("closed.")[2]
    page.until(".banner", "1 item missing if the reader of A heard to the end (Walden, of A)")


@pytest.mark.parametrize("is_stopped", [False, True])
def test_nothing_is_shown_while_a_file_is_read(page, is_stopped):
    """No answer to another one, nor a field whose text the file would replace."""
    page.drop(log=log_of("I1 RA UA"))
    page.until("h1", "The one listed tag is here")
    page.run(SLOW)
    page.drop(**{"slow.log": log_of("I1 S UA")})
    assert (page.said(), page.texts("h1"), page.driver.title) == ("", [], "slow.log ..")
    assert page.run("return document.getElementById('said').textContent") == ""
    assert not any(page.driver.find_element("id", it).is_displayed() for it in ("text", "save"))
    page.until("#status", "Reading slow.log ..")
    page.wait(lambda: page.run("return 'go' in window"))
    if is_stopped:
        page.press("#stop")
        page.until(".error", "slow.log: no answer (stopped).")
        page.drop(**{"books.csv": OF_A})
        page.until(".error", "books.csv: no answer (slow.log: stopped).")
        page.press("#close")
        page.drop(log=log_of("I1 S UA"))
    else:
        page.run("window.go()")
    page.until("h1", "No tag answered, but 1 is listed")
    assert page.texts("#status") == [""]


def test_the_logs_before_are_not_shown_while_a_file_is_read(page):
    page.drop(one=log_of("I1 RA UA"), two=log_of("I1 RA QA I1 S UA"))
    page.until("h1", "can show: 0 of 2.")
    page.run(SLOW)
    page.drop(**{"slow.log": log_of("I1 S UA"), "books.csv": b"uid\n"})
    assert (page.texts("h1"), page.texts("#logs button"), page.driver.title) == (
        [], [], "2 files ..")


def test_a_file_that_is_too_large_replaces_the_answer_before(page):
    page.drop(log=log_of("I1 RA UA"))
    page.until("h1", "The one listed tag is here")
    page.run(DROP.replace("[text]", "[new Uint8Array(256_000_001)]"), [["large.log", ""]])
    page.until(".error", "large.log: no answer (it has more than 256 MB).")


@pytest.mark.parametrize("name", ["one.txt.crdownload", "one.log.part", "one.PARTIAL", "one.tmp"])
def test_a_file_that_is_not_complete_yet_has_no_answer(page, name):
    """Its beginning may be a log that is complete, or a catalogue with fewer rows."""
    whole = log_of("I1 RA QA I1 S UA")
    page.drop_files({name: whole})
    page.until("#told .error", f"{name}: no answer (by its name it is still being downloaded")
    page.drop_files({name: whole, "two.log": whole, "all.csv": b"uid\nE0040100000000A1\n"})
    page.until("#told .error", f"all.csv: no answer ({name}: by its name it is still being")


def test_a_text_that_is_dropped(page):
    """Nothing is silently ignored. What is dropped into an empty field is opened."""
    page.drop(log=log_of("I1 RA UA"))
    page.until("h1", "The one listed tag is here")
    size = {"width": 1200, "height": 900, "deviceScaleFactor": 1, "mobile": False}
    page.driver.execute_cdp_cmd("Emulation.setDeviceMetricsOverride", size)
    text = {"items": [{"mimeType": "text/plain", "data": "#"}], "dragOperationsMask": 1}
    for where, selector, words in (("#told", "#status", "No file was dropped, so nothing has "),
                                   ("#text", "h1", "This text isn't a log. Line 1: ")):
        if where == "#text":
            page.press("#close")
            page.until("h1", "Did the RFID reader find every tag?")
        x, y = page.run("const it = document.querySelector(arguments[0]).getBoundingClientRect();"
                        "return [it.left + 60, it.top + 40]", where)
        for kind in "dragEnter", "dragOver", "drop":
            page.driver.execute_cdp_cmd("Input.dispatchDragEvent", {
                "type": kind, "x": x, "y": y, "data": text})
        page.until(selector, words)


@pytest.mark.parametrize("why", WORKERLESS)
def test_a_browser_that_runs_no_worker(page, why):
    """It says so. Then the next log is judged, by another worker."""
    page.run(f"{ONCE}{WORKERLESS[why]} }};")
    page.drop(log=log_of("I1 RA UA"))
    page.until(".error", "log: no answer (this browser doesn't run what judges it).")
    page.drop(log=log_of("I1 RA UA"))
    page.until("h1", "The one listed tag is here")


# Before the scripts of a page: what its worker lacks.
LACKING = """
const Before = Blob, words = %s;
window.Blob = class extends Before {
  constructor(parts, how) {
    super(how.type === "text/javascript" ? [words, ...parts] : parts, how);
  }
};
"""
# The first run of a command has trapped.
TRAPPED = """
const made = WebAssembly.instantiate.bind(WebAssembly);
let calls = 0;
WebAssembly.instantiate = async (module) => {
  const { exports } = (await made(module)).instance;
  const run = (...words) => {
    if (!calls++) throw new WebAssembly.RuntimeError("unreachable");
    return exports.vicinity_run(...words);
  };
  return { instance: { exports: { ...exports, vicinity_run: run } } };
};
"""


def open_lacking(page, file, words):
    """Opens the page in a browser whose workers begin with these words."""
    added = page.driver.execute_cdp_cmd("Page.addScriptToEvaluateOnNewDocument",
                                        {"source": LACKING % json.dumps(words)})
    page.open(file)
    page.driver.execute_cdp_cmd("Page.removeScriptToEvaluateOnNewDocument", added)


def test_a_browser_that_runs_no_web_assembly(page, file):
    """As on a phone in lockdown mode. It says so in the same words."""
    open_lacking(page, file, "WebAssembly.instantiate = undefined;")
    page.drop(log=log_of("I1 RA UA"))
    page.until(".error", "log: no answer (this browser doesn't run what judges it).")
    assert page.browser.console() == []


def test_what_has_trapped_is_said_in_words(page, file):
    """Then the next log is judged, by the library loaded anew."""
    open_lacking(page, file, TRAPPED)
    page.drop(log=log_of("I1 RA UA"))
    page.until(".error", "log: no answer (the page has failed while it judged this: open it anew,")
    page.drop(log=log_of("I1 RA UA"))
    page.until("h1", "The one listed tag is here")


def test_no_sum_is_named_where_none_can_be_had(page, file):
    """As on a page that comes by http."""
    open_lacking(page, file, "Object.defineProperty(self, 'crypto', { value: {} });")
    page.drop(**{"books.csv": OF_A, "A.log": log_of("I1 RA QA I1 S")})
    page.until(".banner.read h1", OF_A_DEAF.format("A"))
    assert "SHA-256" not in page.texts(".record")[0]
    one_file = dict.fromkeys(["A.log", "B.log"], log_of("I1 RA QA I1 S"))
    page.drop(**{"books.csv": OF_A + b"none,Walden,B\n", **one_file})
    page.until(".doubts", "One may be a copy of another: by http the browser can't compare them.")
    assert not page.texts(".doubts button")


def test_a_browser_that_runs_no_script_of_the_page(page, file, tmp_path):
    """As where a server forbids it, or an old one."""
    assert page.driver.find_elements("id", "old") == []
    blocked = tmp_path / "blocked.html"
    script = '<script type="module">'
    blocked.write_text(file.read_text().replace(script, script + ";"))
    page.open(blocked)
    page.wait(page.driver.find_element("id", "old").is_displayed)
    assert "Here that is off or blocked, the browser is from before" in page.texts("#old")[0]
    assert "Content Security Policy" in page.browser.console()[0]


@pytest.mark.parametrize("part", ["WORKER", "MODULE", "RECORD"])
def test_a_page_of_which_a_letter_has_changed_judges_nothing(page, file, tmp_path, part):
    """As by a bit that was turned over: the answer of another library could be green."""
    text, damaged = file.read_text(), tmp_path / "damaged.html"
    at = text.index(f'{part} = "') + 4000
    damaged.write_text(text[:at] + ("b" if text[at] == "a" else "a") + text[at + 1:])
    page.open(damaged)
    page.wait(page.driver.find_element("id", "old").is_displayed)
    assert "or this file is damaged" in page.texts("#old")[0]
    assert "Content Security Policy" in page.browser.console()[0]


def test_a_page_that_was_saved_is_read_without_its_script(page, tmp_path):
    page.drop(log=log_of("I1 RA QA I1 S UA"))
    page.until("h1", IF_HEARD)
    file = saved(page, tmp_path / "saved")
    page.open(file)
    assert (page.texts("h1"), page.texts("#old")) == ([IF_HEARD], [])
    (top,), (record,) = page.texts(".name"), page.texts(".record")
    assert re.fullmatch(r"vicinity \d+\.\d+\.\d+ · log · saved on \d+ \w+ \d{4}, \d\d:\d\d", top)
    assert "SHA-256 of the log" in record
    page.is_readable()
    file.write_text(file.read_text().replace('<script type="module">', '<script type="module">;'))
    page.open(file)
    page.wait(page.driver.find_element("id", "old").is_displayed)
    assert IF_HEARD in page.texts("#old")[0]
    assert "Content Security Policy" in page.browser.console()[0]


def test_the_text_of_a_page_that_was_saved_has_what_is_folded(page, tmp_path):
    """As a long list of items is, which stays so on the screen."""
    uids = [f"E004{number:012X}" for number in range(300)]
    page.drop(**{"books.csv": "\n".join(["uid", *uids]).encode(), "A.log": log_of("I1 S")})
    page.until("h1", "300 items may be missing; nothing answered in A.log.")
    _, plain = drawn_in(saved(page, tmp_path / "saved").read_text())
    assert [uid for uid in uids if uid not in plain] == []
    assert uids[0] not in page.said()


# The page as a browser saves it, with what its scripts have made of it.
AS_SAVED = "return '<!doctype html>' + document.documentElement.outerHTML"


def test_a_page_that_a_browser_has_saved(page, tmp_path):
    """No green answer to one of several logs stands alone, or beside an empty field."""
    page.drop(one=log_of("I1 RA QA I1 S UA"), two=log_of("I1 S UA"))
    page.press("#logs button")
    page.until("h1", "The one listed tag is here")
    page.until("#each", "can show: 0 of 2.")
    file = tmp_path / "saved.html"
    file.write_text(page.run(AS_SAVED))
    page.open(file)
    page.until("#status", "This is what a browser has saved of the page: its answers, without the")
    page.press("#logs button", 1)
    assert "two No tag answered, but 1 is listed." in page.texts("#logs")[0]
    assert page.texts("h1") == [IF_HEARD]
    assert not any(page.driver.find_element("id", it).is_displayed() for it in ("text", "save"))
    page.drop(two=log_of("I1 S UA"))
    page.until("h1", "No tag answered, but 1 is listed")
    assert (page.texts("#logs button"), page.texts("#status")) == ([], [""])


def test_a_page_that_a_browser_has_saved_before_it_was_used(page, tmp_path):
    """As to take it along: it is one like any other."""
    file = tmp_path / "saved.html"
    file.write_text(page.run(AS_SAVED))
    page.open(file)
    page.drop(log=log_of("I1 S UA"))
    page.until("h1", "No tag answered, but 1 is listed")
    page.open(file)
    assert (page.texts("#status"), page.texts("h1")) == (
        [""], ["Did the RFID reader find every tag?"])
    type_in(page, log_of("I1 S UA").decode())
    page.until("h1", "No tag answered, but 1 is listed")


# Pastes files, each by its name and text, or a text alone, into an element.
PASTES = """
const data = new DataTransfer(), [files, text, into] = arguments;
const typeOf = (name) => name.endsWith(".png") ? { type: "image/png" } : {};
for (const [name, content] of files) data.items.add(new File([content], name, typeOf(name)));
if (text) data.setData("text/plain", text);
const how = { clipboardData: data, bubbles: true, cancelable: true };
return document.querySelector(into).dispatchEvent(new ClipboardEvent("paste", how));
"""


def test_what_is_pasted_beside_the_field(page):
    """It is silently ignored nowhere: else the answer to the text before would be taken for its
    own. A picture that comes with a text isn't a file."""
    for names, answer in ("I1 S UA", "absent"), ("I1 RA UA", "complete 1"), ("I1 C", "unsettled"):
        assert not page.run(PASTES, [["image.png", ""]], log_of(names).decode(), "body")
        page.until(".banner code", answer)
    # beside the name of a file some systems have a text, where it is
    for into, path in ("#text", ""), ("body", "/home/emma/one.log"):
        assert not page.run(PASTES, [["one.log", log_of("I1 S UA").decode()]], path, into)
        page.until(".banner code", "absent")
    assert page.run(PASTES, [], "", "body") and page.texts(".banner code") == [
        "absent E0040100000000A1"]
    assert not page.run(PASTES, [["image.png", ""]], "vicinity-log 1\n", "#text")
    page.until(".banner code", "unsettled 0 -")
    # an empty field takes it in
    page.press("#close")
    page.until("h1", "Did the RFID reader find every tag?")
    assert page.run(PASTES, [["image.png", ""]], "vicinity-log 1\n", "#text")


def test_what_is_pasted_where_a_log_is_too_long_to_be_shown(page):
    page.drop_files({"long.log": b"vicinity-log 1\n" + b"#\n" * 600_000})
    page.until(".banner", "long.log")
    assert not page.run(PASTES, [], log_of("I1 RA UA").decode(), "#text")
    page.until(".banner code", "complete 1")


def test_a_catalogue_is_pasted_beside_the_logs_that_are_here(page):
    page.drop_files({"one.log": log_of("I1 RA QA I1 S UA"), "two.log": log_of("I1 S")})
    page.until("#logs", "two.log")
    page.run(PASTES, [], "uid,title\nE0040100000000A1,Emma\nE0040100000000B2,Kim\n", "body")
    page.until(".banner", "pasted text of ")
    assert "Kim" in page.said()


def test_what_is_judged_of_another_log_is_ended(page):
    """The next answer doesn't wait for it."""
    page.run(HOLD)
    page.drop(one=log_of("I1 RA UA"))
    page.until("#status", "Judging one ..")
    page.run("window.free()")
    page.run("Worker.prototype.terminate = () => { window.isEnded = true; }")
    page.drop(two=log_of("I1 S UA"))
    page.until("h1", "No tag answered, but 1 is listed")
    assert page.run("return window.isEnded")


def test_what_is_waited_for_is_said(page):
    """Of many logs not the last, and nothing of a text that a file replaces."""
    page.drop(log=log_of("I1 RA UA"))
    page.until("h1", "The one listed tag is here")
    page.run(HOLD + SLOW)
    page.drop(log=log_of("I1 S UA"))
    page.drop(**{"slow.log": log_of("I1 RA UA")})
    page.until("#status", "slow.log ..")
    time.sleep(1)
    assert page.texts("#status") == ["Reading slow.log .."]
    page.run("window.go()")
    page.until("#status", "Judging 2 logs ..")
    page.drop(one=log_of("I1 RA UA"), two=log_of("I1 S UA"))
    page.until("#status", "Judging 4 logs ..")
    page.press("#close")
    page.drop(**{"fold\u202Eer": log_of("I1 S")})
    page.until("#status", "Judging fold‹202E›er ..")


def test_what_is_shown_of_a_log_stays_while_another_is_judged(page):
    """What is unfolded, and the focus."""
    page.run("""
      const post = Worker.prototype.postMessage;
      Worker.prototype.postMessage = function (it) {
        if (it.name !== "two") post.call(this, it);
        else window.free = () => post.call(this, it);
      };
    """)
    page.drop(one=log_of("I1 RA QA I1 S UA"), two=log_of("I1 S UA"))
    page.until("#logs", "one The one listed tag is here")
    page.press("#logs button")
    page.run("document.querySelector('#told details').open = true")
    page.run("document.querySelector('#told summary').focus()")
    page.run("window.free()")
    page.until("#logs", "two No tag")
    assert page.run("return document.activeElement.parentElement.open")


@pytest.mark.parametrize(("files", "words"), [
    ({"disk": bytes(40_000_000)}, "This file isn't a log: it isn't text in UTF-8."),
    ({"books.csv": bytes(5_000_000), "A.log": log_of("I1 S")}, "books.csv, line 1: "),
    ({"books.csv": b"x" * 130_000, "A.log": log_of("I1 S")}, "books.csv, line 1: a line has at"),
    ({"books.csv": b"uid\n" + b"x" * 5_000_000, "A.log": log_of("I1 S")}, "books.csv, line 2: a"),
    ({"books.csv": b"uid\n" + b"\n" * 990_000, "A.log": log_of("I1 S")}, "books.csv, line 990002: "
     "the catalogue has no row")], ids=["disk", "zeros", "heads", "cell", "lines"])
def test_a_large_file_that_is_no_log_does_not_freeze_the_page(page, tmp_path, files, words):
    """As the image of a disk, of which one line is all; a larger one ended the page."""
    with page.never_frozen():
        page.choose(tmp_path, files)
        page.when("h1", words)
    assert len(page.said()) < 5000


def test_many_logs_do_not_freeze_the_page(page):
    """Nor is the focus lost while they are judged."""
    with page.never_frozen():
        page.drop_files({f"{number}.log": log_of("I1 RA QA I1 S UA") for number in range(400)})
        page.run("document.querySelector('#logs button').focus()")
        page.when("h1", "can show: 0 of 400.")
    assert page.run("return document.activeElement.textContent").startswith("i0.log The one")


# How many lists of logs the page's thread takes in: items may share one.
LISTS = """
const { get } = Object.getOwnPropertyDescriptor(MessageEvent.prototype, "data");
Object.defineProperty(MessageEvent.prototype, "data", { get() {
  const data = get.call(this), { items } = data.collection;
  window.lists = new Set(items.flatMap((it) => [it.certain_in, it.possible_in])).size;
  return data;
} });
"""


def test_many_logs_that_say_nothing_do_not_freeze_the_page(page):
    """Each item may be in each of their fields: that is one list, and not 24,000 of 400 numbers."""
    page.run(LISTS)
    rows = "".join(f"{0xE004010000000000 + number:016X},{number % 400}\n"
                   for number in range(24_000))
    with page.never_frozen():
        page.drop_files({"books.csv": f"uid,place\n{rows}".encode(),
                         **{f"{number}.log": b"vicinity-log 4\n" for number in range(400)}})
        page.when("h1", "24,000 items not known yet; ")
    assert page.run("return window.lists") == len(["none", "all"])


def test_a_drop_without_files_changes_nothing(page):
    page.drop(**{"books.csv": b"uid\nE0040100000000A1\nE0040100000000B2\n",
                 "A.log": log_of("I1 RA QA I1 S"), "list.log": log_of("UA")})
    said = "1 item not known yet; count 1 log again."
    page.until("h1", said)
    page.drop()
    assert page.texts("h1") == [said]
