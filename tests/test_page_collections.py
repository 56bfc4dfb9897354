"""Collections on the page, in a browser: what is dropped is handed whole to the library, and what
is drawn says no more than the object that it writes."""
import json
import random
import re
import subprocess
from base64 import b64encode
from hashlib import sha256

import pytest

import biglog
from helpers.lines import log_of, text_of
from helpers.program import TOP
from helpers.random_collections import case_of
from helpers.records import drawn_in
from helpers.screen import Screen

SEED, NUMBER, PARTS = 15693, 100, 2
# What may be wrong, by the light that says it.
UNSETTLED = "Found, if all logs count"
READINGS = {"If replies were hidden": "hidden", "If the reader went deaf": "deaf"}
DROP = """
const data = new DataTransfer(), now = Date.now();
for (const [name, text, date] of arguments[0]) {
  const bytes = Uint8Array.from(atob(text), (it) => it.charCodeAt(0));
  data.items.add(new File([bytes], name, { lastModified: date ?? now }));
}
const how = { dataTransfer: data, bubbles: true, cancelable: true };
document.dispatchEvent(new DragEvent("drop", how));
"""
IS_DONE = """
return document.getElementById("told").getAttribute("aria-busy") !== "true" &&
  document.getElementById("status").textContent === "" &&
  !!document.querySelector("#told h1, #each h1");
"""
# What has the focus, and what is told to whoever doesn't see the page.
FOCUS = "return document.activeElement.innerText"
TOLD = "return document.getElementById('said').textContent"
PRINTS = "window.dispatchEvent(new Event('beforeprint'))"
BANNER = "return document.querySelector('.banner')?.classList[1] ?? ''"
UID_A, UID_B, UID_C = (0xE0040100000000A1, 0xE0040100000000B2, 0xE0040100000000C3)
TITLES = {UID_A: "Emma", UID_B: "Walden", UID_C: "Kim"}


@pytest.fixture(scope="module")
def file(wasm_module, tmp_path_factory):
    made = tmp_path_factory.mktemp("page") / "vicinity.html"
    subprocess.run([TOP / "web/build", made, wasm_module], check=True)
    return made


@pytest.fixture
def page(browser, file):
    one = Screen(browser)
    one.open(file)
    yield one
    one.end()


def drop(page, files, dates=None):
    """Drops files, byte for byte, some of a time of their own, and waits until they are judged."""
    page.run(DROP, [[name, b64encode(text).decode(), (dates or {}).get(name)]
                    for name, text in files.items()])
    page.wait(lambda: page.run(IS_DONE), page.said)


def look(page):
    return page.run(BANNER)


def field(*uids, is_heard=True, asks=1, listed=()):
    """A log of a field with these tags, in which all is asked so often, and at last one of them
    once more; with a list of its own."""
    lines = ["vicinity-log 3"]
    for uid in uids:
        lines += [biglog.ask((56, uid & (1 << 56) - 1)), f"H{biglog.reply(uid)[1:]}",
                  biglog.silence(uid)]
    lines += [biglog.ask((0, 0)), "S"] * asks
    if uids and is_heard:
        lines += ["F", biglog.ask((56, uids[0] & (1 << 56) - 1)), f"H{biglog.reply(uids[0])[1:]}"]
    return text_of([*lines, *[f"U {uid:016X}" for uid in listed]])


def books(*rows, head="uid,title,place"):
    lines = [f"{uid:016X},{TITLES[uid]}{more}" for uid, more in rows]
    return "\n".join([head, *lines, ""]).encode()


BOTH = books((UID_A, ",A"), (UID_B, ",B"))
PLACES_OF_A = b"place,log\nA,A.log\n"
COMPLETE = {"books.csv": BOTH, "A.log": field(UID_A), "B.log": field(UID_B)}


# Random collections.

def is_sure(told):
    """Whether nothing at all may be green: written from COLLECTIONS, and not from the page."""
    logs, counts = told["logs"], told["counts"]
    asks = any(name.strip(" \t").lower() == "place" for name in told["columns"])
    return (told["status"] == 0 and counts["in place"] + counts["there"] > 0
            and not counts["no tag"] and not told["without_log"] and told["ended"]
            and (asks or len(logs) < 2)
            and not any(log["left_over"] or log["hidden"] or log["deaf"] or log["shared"]
                        or not log["answers"]
                        for log in logs))


def cases(part):
    """Collections of files that each can be opened, with names as a browser has them."""
    rng = random.Random(f"{SEED} {part}")
    for _ in range(NUMBER // PARTS):
        case, ending = case_of(rng), rng.choice((bytes, heard_again))
        yield {re.sub(r"[/\\]", "-", name): ending(case.files[name])
               for name in case.words if name in case.files}


def heard_again(text):
    """A log that ends with a tag that answers behind a field cycle."""
    lines = text.split(b"\n")
    heard = [line for line in lines if re.fullmatch(rb"[RH] [0-9A-F]{24}", line)]
    if not lines[0].startswith(b"vicinity-log") or not heard:
        return text
    # a version says of the lines of those before it what they say
    lines[0] = b"vicinity-log 3"
    uid = int.from_bytes(bytes.fromhex(heard[-1].decode()[2:])[2:9], "little")
    end = next((at for at, line in enumerate(lines) if line[:1] == b"U"), len(lines) - 1)
    last = [b"F", biglog.ask((56, uid)).encode(), b"H" + heard[-1][1:]]
    return b"\n".join([*lines[:end], *last, *lines[end:]])


@pytest.mark.slow
@pytest.mark.parametrize("part", range(PARTS))
def test_no_page_says_more_than_the_object(page, file, program, tmp_path, part):
    """Random ones, as people have them and as they shouldn't be: green is what nothing speaks
    against, a headline that all is here is that of an object that says so, each log and place that
    isn't counted is named, and what is refused is refused at that line."""
    seen = set()
    for at, files in enumerate(cases(part)):
        folder = tmp_path / str(at)
        folder.mkdir()
        for name, text in files.items():
            (folder / name).write_bytes(text)
        said = program.run("json-collection", "--", *files, cwd=folder)
        page.open(file, "")
        drop(page, files)
        if not page.texts("#told .banner, #told .error"):
            seen.add("each alone")
            assert said.status != 0 or len(files) == 1
        elif said.out.startswith(b"{"):
            seen |= compare(page, json.loads(said.out))
        else:
            seen.add("refused")
            assert page.texts(".error") and look(page) == "refused"
            line = re.match(r"refused at line (\d+) of (.*): (\w+)", said.out.decode())
            if line and line[3] != "SameName":
                assert f"{line[2]}, line {line[1]}: " in page.texts(".error")[0]
    assert seen >= {"green", "complete", "not complete", "refused", "without a log", "left over"}


def compare(page, told):
    """What was seen."""
    (headline,), words = page.texts("#told h1"), "\n".join(page.texts(".doubts"))
    assert (look(page) == "yes") <= is_sure(told), told
    is_complete = told["status"] == 0
    if not told["logs"]:
        assert headline.endswith("Now open the logs.") and look(page) == "read"
        return {"waiting"}
    is_all = re.match("(All|The one|Nothing is expected|Say whether|.* Together the logs have all)",
                      headline)
    is_more = told["answer"].startswith(("unlisted", "returned")) and not any(
        told["counts"][it] for it in ("missing", "misplaced", "not counted", "not provable"))
    assert bool(is_all) >= is_complete and (
        not is_all or is_complete or told["answer"].startswith(("no log of", "left over"))
        or is_more or " again, as others may be there" in headline)
    for place in told["without_log"]:
        assert place in words
    for log in told["logs"]:
        assert not log["left_over"] or re.split("[-/]", log["name"])[-1].strip() in words
    lights = dict(zip(page.texts(".lights dt"), page.texts(".lights dd")))
    is_missing = told["counts"]["missing"] or "Not heard on their shelves" in page.said()
    for light, reading in READINGS.items():
        # what is to be counted again says so, and nothing else
        holds = not any(log.get(reading) and log["field"] == "possible" and not log["open"]
                        for log in told["logs"])
        wanted = ("still complete" if holds else "others may be here") if is_complete else (
            "the answer may be wrong" if is_missing and not holds else None)
        assert lights.get(light) == (None if UNSETTLED in lights and holds else wanted), told
    assert not is_complete or "and no others." not in headline or (
        lights["If the reader went deaf"] == "still complete")
    place = next(it for it in (UNSETTLED, "In place", "Here") if it in lights)
    number = (sum(bool(it["certain_in"]) for it in told["items"]) if place == UNSETTLED else
              sum(told["counts"][state] for state in ("in place", "there")))
    assert lights[place].startswith(f"{number} of {len(told['items'])} item")
    done = sum(log["field"] == "possible" and not log["open"] and not log["hidden"]
               for log in told["logs"])
    assert lights["Counted to the end"].startswith(f"{done} of {len(told['logs'])} log")
    return {"complete" if is_complete else "not complete", "green" if look(page) == "yes" else "",
            "without a log" if told["without_log"] else "",
            "left over" if any(log["left_over"] for log in told["logs"]) else ""}


# What is said of logs and shelves.

def test_a_collection_that_is_complete(page):
    drop(page, {**COMPLETE, "B.log": field(UID_B, asks=2)})
    assert (look(page), page.texts("#told h1")) == (
        "yes", ["All 2 expected items are here, and no others."])
    assert page.texts(".lights dd") == ["2 of 2 logs", "2 of 2 items", "once or more",
                                        "still complete", "still complete"]
    assert page.texts("#told > details:last-of-type li")[0].startswith(
        "To go unnoticed, a tag would have had to be missed in 1 slot in the field of A")
    # fewer than one are none
    assert page.texts(".holds p")[1].endswith("hid a weaker one, the answer still holds.")
    assert not page.texts(".doubts")
    page.is_readable()


def test_where_a_reader_may_have_gone_deaf_nothing_is_green(page):
    """As of a list: it says so, and what shows whether the reader heard."""
    drop(page, {**COMPLETE, "B.log": field(UID_B, is_heard=False)})
    assert (look(page), page.texts(".lights dd")[-1]) == ("read", "others may be here")
    assert page.texts("#told h1") == [
        "All 2 expected items are here, and no others, if the reader of B heard to the end."]
    assert "deaf after the last answer of a tag, the answer may be wrong in the field of B" in (
        page.texts(".holds p")[-1])


# What keeps a collection that is complete from being green, and how it is said.
NOT_SURE = {
    "others may be hidden": ("B.log", log_of("I1 RB"), "if stronger replies hid"),
    "places aren't asked for": ("books.csv", books((UID_A, ""), (UID_B, ""), head="uid,title"),
                                "But where each belongs wasn't asked."),
    "two prove the same": ("A.log", field(UID_A, UID_B),
                           "All 2 expected items are in some log; but 1 tag is in both A and B."),
    "an item has no tag": ("books.csv", BOTH + b"none,Kim,A\n", "But 1 item has no tag."),
    "it may be cut off": ("books.csv", BOTH[:-1], "But the catalogue may have been cut off."),
    "its own list says more": ("B.log", field(UID_B, listed=[UID_B, UID_C]),
                               "But the list in B has what its log rules out.")}


@pytest.mark.parametrize("why", NOT_SURE)
def test_what_is_not_sure_is_not_green(page, why):
    name, text, words = NOT_SURE[why]
    drop(page, {**COMPLETE, name: text})
    assert look(page) == "read" and words in page.texts("#told h1")[0]


@pytest.mark.parametrize("is_heard", [True, False])
def test_nothing_is_missing_without_the_light_of_a_deaf_reader(page, is_heard):
    """Nor without that of hidden replies: an item is missing only as far as no tag answered."""
    drop(page, {**COMPLETE, "A.log": field(UID_B, is_heard=is_heard, asks=2)})
    assert page.texts("#told h1")[0].startswith("1 item may be missing")
    lights = dict(zip(page.texts(".lights dt")[2:], page.texts(".lights dd")[2:]))
    assert lights == ({} if is_heard else {"If the reader went deaf": "the answer may be wrong"})
    said = "deaf after the last answer of a tag, the answer may be wrong in the field of A"
    assert any(said in it for it in page.texts(".holds p")) == (not is_heard)
    drop(page, {"A.log": log_of("I1 RB")})
    assert page.texts(".lights dt")[2:] == list(READINGS)
    assert page.texts(".lights dd")[2:] == ["the answer may be wrong"] * 2


def test_a_log_of_a_collection_says_how_sure_it_is(page):
    """As it does by itself, since what is said of the items rests on it."""
    drop(page, {**COMPLETE, "B.log": field(UID_B, is_heard=False)})
    page.press("details:has(.logs) > summary")
    page.press(".logs summary", 1)
    page.until(".logs h3", "1 tag is here, and no other, if the reader heard to the end.")
    assert page.texts(".logs dt") == ["Search finished", "If the reader went deaf"]
    assert page.texts(".logs dd") == ["yes", "others may be here"]
    page.until(".logs .holds p", "If the reader had gone deaf after the last answer of a tag,")


@pytest.mark.parametrize(("catalogue", "listed", "words"), [
    (BOTH, [UID_B], "has 1 tag that its log rules out: Walden."),
    (BOTH, [UID_A], None), (BOTH, [UID_A, UID_C], "rules out: E0040100000000C3."),
    (books((UID_A, ""), (UID_B, ""), head="uid,title"), [UID_A, UID_B], "rules out: Walden.")])
def test_what_a_log_has_on_its_list_and_rules_out(page, catalogue, listed, words):
    """It may be that a reply was lost on the way into the log."""
    drop(page, {"books.csv": catalogue, "A.log": field(UID_A, listed=listed)})
    doubts = "\n".join(page.texts(".doubts b"))
    assert (words in doubts) if words else "rules out" not in doubts


def test_a_carriage_return_in_a_comment_begins_no_line(page):
    """And so lists no UID."""
    log = field(UID_A) + b"# old:\rU E0040100000000C3\n"
    drop(page, {"books.csv": BOTH, "A.log": log, "B.log": field(UID_B)})
    until_green(page)


def test_what_an_unfinished_log_has_on_its_list_may_be_there(page):
    """Its first slots rule out what ends in 2, and no more."""
    log = log_of("I16 S RA S UB") + b"U E0040100000000C3\n"
    drop(page, {"books.csv": BOTH, "A.log": log})
    doubts = "\n".join(page.texts(".doubts b"))
    assert "The reader's own list in A has 1 tag that its log rules out: Walden." in doubts


def test_a_catalogue_that_may_have_been_cut_off(page):
    """It waits for logs with that, too."""
    drop(page, {"books.csv": BOTH[:-1]})
    for _ in "waiting", "judged":
        assert "The last of the 2 rows of the catalogue has no line end." in page.texts(".doubts b")
        drop(page, {"A.log": field(UID_A), "B.log": field(UID_B)})
    assert "no line end" not in page.texts("#told > details")[-1]


def test_where_others_may_be_hidden_something_is_left_to_ask(page):
    drop(page, {**COMPLETE, "B.log": log_of("I1 RB")})
    assert page.texts(".steps li")[0] == (
        "Spread out items that lie on each other in the field of B, and count again.")
    assert page.texts(".steps li")[1].startswith("If it stays so, send the log of B and this page")
    assert page.texts(".lights dd")[0] == "1 of 2 logs"
    assert page.texts("#told > details > summary")[:3] == [
        "Ask all once more (1 log)", "Here (2 items)", "Searched to the end (1 log)"]


def test_a_field_in_which_nothing_answered(page):
    drop(page, {"books.csv": books((UID_A, ",A"), (UID_B, ",A")) + b"none,Kim,B\n",
                "A.log": field(UID_A, UID_B), "B.log": field()})
    page.until(".doubts b", "Nothing answered in 1 log: B.")
    assert look(page) == "read"


def test_a_column_of_nearly_that_name_asks_for_no_places(page):
    """As the library reads it: behind the name is a space that isn't one."""
    drop(page, {**COMPLETE, "books.csv": BOTH.replace(b"place", "place\u00a0".encode())})
    assert look(page) == "read" and "But where each belongs wasn't asked." in page.texts("h1")[0]


@pytest.mark.parametrize(("head", "rows", "meant"), [
    ("uid,title,Shelf", (",A", ",B"), "'Shelf'"), ("uid,title,Hylly", (",A", ",B"), "'Hylly'"),
    ("uid,title,Room,Shelf mark", (",1,a", ",1,b"), "'Room' or 'Shelf mark'"),
    ("uid,title,Hylly", (",A", ",A"), None), ("uid,title,author", (",x", ",y"), None)])
def test_a_column_that_may_say_where_items_belong_is_named(page, head, rows, meant):
    """It is called so, or it has the names of all logs. Whether it is that of places isn't
    guessed."""
    table = books(*zip((UID_A, UID_B), rows), head=head)
    drop(page, {**COMPLETE, "books.csv": table})
    (doubt,) = page.texts(".doubts li")
    assert "no column 'place'" in doubt and look(page) == "read"
    said = f"If column {meant} says where each item belongs, rename it to place."
    assert doubt.endswith(said if meant else "add a column 'place', and name each log after its "
                          "place.")


def test_a_catalogue_that_waits_names_the_column_of_shelves(page):
    """So does one beside the log of one field."""
    shelves = books((UID_A, ",A"), (UID_B, ",B"), head="uid,title,Shelf")
    drop(page, {"books.csv": shelves})
    assert "If column 'Shelf' says" in page.texts(".doubts")[0]
    drop(page, {"A.log": field(UID_A)})
    assert page.texts("h1") == ["1 item missing (Walden · B)."]
    assert "If column 'Shelf' says" in page.texts(".doubts")[0]
    drop(page, {"A.log": field(UID_A, UID_B, asks=2)})
    assert look(page) == "read" and "If column 'Shelf' says" in page.texts(".doubts")[0]
    drop(page, {"books.csv": BOTH})
    assert "rename" not in page.said()


def test_items_of_any_place_and_a_log_of_no_place(page):
    """A table of places says of which field such a log is."""
    files = {"books.csv": books((UID_A, ",A"), (UID_B, ",any")), "A.log": field(UID_A),
             "trolley.log": field(UID_B, asks=2)}
    drop(page, files)
    (doubt,) = page.texts(".doubts li")
    assert "trolley.log" in doubt and look(page) == "no"
    assert "If what is there has no fixed place ('any'), write a table of places, with the" in doubt
    drop(page, {"places.csv": b"place,log\nA,A.log\ntrolley,trolley.log\n"})
    assert look(page) == "yes"
    drop(page, {"books.csv": BOTH})
    assert "fixed place" not in page.said()


def test_paper_has_no_long_list_of_what_is_not_counted(page):
    """It says how many are of which place, and that the page has the list."""
    rows = [f"{0xE004010000000000 + at:016X},T{at},{'AB'[at > 60]}" for at in range(161)]
    drop(page, {"books.csv": "\n".join(["uid,title,place", *rows, ""]).encode(),
                "C.log": field(), "more.csv": b"place,log\nC,C.log\n"})
    page.media("print")
    page.run(PRINTS)
    words = "Not counted (161): A\u00a0(61) and B\u00a0(100). The whole list is in the page"
    assert [it for it in page.texts(".paper") if it.startswith(words)]
    assert "T160" not in page.said() and page.sheets() == 1
    page.media()
    page.press("summary")
    page.until("td, th", "T160")


@pytest.mark.parametrize(("names", "asked"), [
    (("C", "C (1)"), True), (("C (1)", "C (2)"), True), (("C", "C - Copy"), True),
    (("C", "Copy of C"), True), (("C", "C copy 2"), True), (("C", "C1"), False),
    (("(1)", "(2)"), False)])
def test_what_looks_like_a_copy(page, names, asked):
    """Without places nothing else says which of two is the older one."""
    logs = {f"{name}.log": field(uid) for name, uid in zip(names, (UID_A, UID_B))}
    drop(page, {"books.csv": books((UID_A, ""), (UID_B, ""), head="uid,title"), **logs})
    assert bool(page.texts(".doubts button")) == asked and look(page) == "read"


def test_places_that_are_called_like_copies_are_none(page):
    """Each log is of the place after which it is named."""
    drop(page, {"books.csv": books((UID_A, ",C (1)"), (UID_B, ",C (2)")),
                "C (1).log": field(UID_A), "C (2).log": field(UID_B)})
    assert look(page) == "yes"


@pytest.mark.parametrize("name", ["place\u00a0", "Places", "_place_", "pl\u0430ce", "pla ce",
                                  "p.l.a.c.e", "pl\u00adace", "place\u200bs"])
def test_one_log_and_a_column_that_is_nearly_called_place(page, name):
    """The item may be of another place: whoever wrote that column meant to say it."""
    drop(page, {"books.csv": books((UID_A, ",B"), head=f"uid,title,{name}"), "A.log": field(UID_A)})
    assert look(page) == "read" and "But where each belongs wasn't asked." in page.texts("h1")[0]
    assert "rename it to place." in page.texts(".doubts")[0]


def test_one_log_needs_no_places(page):
    """With one field there is nothing to confuse."""
    drop(page, {"books.csv": books((UID_A, ""), head="uid,title"), "A.log": field(UID_A)})
    assert (look(page), page.texts("#told h1")) == (
        "yes", ["The one expected item is here, and no other."])


def test_a_table_of_places_can_be_left_out(page):
    """Beside a catalogue that has none."""
    drop(page, {"books.csv": books((UID_A, ""), head="uid,title"), "places.csv": PLACES_OF_A,
                "A.log": field(UID_A)})
    assert page.texts("#told button") == ["Leave out books.csv", "Leave out places.csv"]
    pressed(page, "Leave out places.csv")
    page.until(".banner.yes h1", "The one expected item is here, and no other.")


@pytest.mark.parametrize("head", ["Ort", "Place name", "Shelf"])
def test_one_log_beside_a_column_that_is_called_like_places(page, head):
    """If it has several, one may be on another shelf than its own: that isn't green."""
    for second, colour in ((",B", "read"), (",A", "yes")):
        drop(page, {"books.csv": books((UID_A, ",A"), (UID_B, second), head=f"uid,title,{head}"),
                    "A.log": field(UID_A, UID_B)})
        assert look(page) == colour
        assert (f"If column '{head}' says where" in page.said()) == (colour == "read")


def test_a_log_that_is_called_nearly_like_a_place(page):
    drop(page, {"books.csv": books((UID_A, ",A"), (UID_B, ",A")), "A.log": field(UID_A),
                "A-2.log": field(UID_B)})
    assert page.texts("h1") == ["1 item heard in a log of no place; A-2.log is of no place."]
    assert ("If A-2.log is of A, call it A.log; if that is here too, write a table of places, with "
            "a row for each.") in page.said()


def test_a_shelf_without_a_log(page):
    drop(page, {"books.csv": BOTH, "A.log": field(UID_A)})
    assert page.texts("#told h1") == ["1 item not counted; no log of B."]
    assert page.texts(".doubts b") == ["No log of B: 1 item that belongs there isn't counted."]
    assert page.texts(".lights dd") == ["1 of 1 log; 1 place has none", "1 of 2 items"]
    page.is_readable()


def test_what_may_be_in_another_log_is_not_counted_on_a_shelf_without_one(page):
    """To finish that log says nothing of where it belongs."""
    drop(page, {"books.csv": books((UID_A, ",A"), (UID_C, ",B")), "A.log": log_of("I16 S RA S")})
    assert "No log of B: 1 item that belongs there isn't counted." in page.texts(".doubts b")


def test_a_log_of_no_place(page):
    drop(page, {**COMPLETE, "cart.log": field()})
    assert page.texts("#told h1") == ["Cart.log is of no place; nothing answered in cart.log. "
                                      "Together the logs have all 2 expected items."]
    assert page.texts(".doubts b") == ["1 log of no place: cart.log.",
                                       "Nothing answered in 1 log: cart.log."]
    page.press(".doubts button")
    page.until("h1", "All 2 expected items are here, and no others.")


def test_an_item_that_only_a_log_of_no_place_proves(page):
    """Nobody knows where it was heard: it may be in its place. Where a place is known, too, it is
    taken from there."""
    drop(page, {"books.csv": BOTH, "B.log": field(UID_B), "cart.log": field(UID_A)})
    assert page.texts("#told h1") == [
        "1 item heard in a log of no place; no log of A, unless cart.log is it."]
    page.press("#told > details > summary")
    assert page.texts(".items :is(thead tr + tr, tbody tr)") == [
        "cart.log", "Emma\nA\nE0040100000000A1"]
    drop(page, {"B.log": field(UID_A, UID_B)})
    assert page.texts("#told h1")[0].startswith(
        "1 item in the wrong place (Emma, on B, belongs to A); no log of A,")
    assert page.texts(".items :is(thead tr + tr, tbody tr)") == [
        "Shelf B", "take to A; also in cart.log\nEmma\nE0040100000000A1"]


@pytest.mark.parametrize(("uids", "words"), [
    ([UID_A, UID_C], "All 2 tags that A-old.log proves are proved by A too: Emma and Kim."),
    ([UID_A, UID_B], "1 of the 2 tags that A-old.log proves is proved by A too: Emma.")])
def test_an_older_log_of_a_shelf(page, uids, words):
    """It says how many tags both prove, and what that may mean."""
    drop(page, {"books.csv": books((UID_A, ",A"), (UID_C, ",A")), "A.log": field(UID_A, UID_C),
                "A-old.log": field(*uids, asks=2)})
    assert words in page.texts(".doubts b")
    assert "an older" in page.texts(".doubts")[0] and look(page) == "no"


ALL = (UID_A, UID_B, UID_C)
# Times of files, in ms: one, and how much earlier another is.
NOON, HOUR, HALF, DAY = 1_795_000_000_000, 3_600_000, 43_200_000, 86_400_000
NO_PLACES = books(*[(uid, "") for uid in ALL], head="uid,title")
ON_B = books(*[(uid, ",B") for uid in ALL])
# Tables, and a later count in which an item is lost, and the earlier one, by their names.
LATER = {
    "without places": ({"books.csv": NO_PLACES}, "today.log", "monday.log"),
    "by their dates": ({"books.csv": NO_PLACES}, "s1-2026-11-29.log", "s1-2026-11-28.log"),
    "of one place": ({"books.csv": ON_B, "p.csv": b"place,log\nB,B-today\nB,B-monday\n"},
                     "B-today.log", "B-monday.log"),
    "of no place": ({"books.csv": ON_B}, "B-2026-11-29.log", "B.log")}


@pytest.mark.parametrize("how", LATER)
def test_it_is_asked_which_of_two_is_the_older(page, how, tmp_path):
    """The later count proves fewer, as an item is lost. Where the earlier one is left out, that is
    missing; where the later one is, the page says on what its green rests, as does one saved."""
    tables, later, earlier = LATER[how]
    drop(page, {**tables, later: field(UID_A, UID_B), earlier: field(*ALL)},
         {later: NOON, earlier: NOON - HOUR})
    doubt = next(it for it in page.texts(".doubts li") if "proved by" in it)
    assert "One of the two may be an older log of the same shelf: leave out the older." in doubt
    assert look(page) != "yes" and not page.texts(".light.yes")
    at = len(page.texts(".doubts button")) - 2
    first, second = page.texts(".doubts button")[at:]
    assert re.match(rf"Leave out {earlier}, the older file, of \d+ Nov 2026, \d\d:\d\d$", first)
    assert re.match(rf"Leave out {later} of \d+ Nov 2026, \d\d:\d\d$", second)
    page.press(".doubts button", at + 1)
    if how == "of one place":
        page.until("h1", "No log B-today of B, as p.csv names; the log of B is older")
        pressed(page, "It isn't of this count")
    pressed(page, "The older one counts")
    page.until(".banner.yes h1", "All 3 expected items are here, and no others.")
    assert f"{later} was left out." in page.texts(".note")
    made = saved(page, tmp_path / "saved")
    for _ in range(2 + (how == "of one place")):
        page.press("#back")
    page.until("h1", "in both" if how != "of no place" else "is of no place")
    page.press(".doubts button", at)
    page.until("h1", {"of no place": "no log of B", "of one place": "1 item may be missing"}.get(
        how, "1 item missing"))
    assert look(page) == "no" and page.texts(".note") == [f"{earlier} was left out."]
    page.open(made)
    assert f"{later} was left out." in page.texts(".note")


def test_what_was_left_out_is_said_until_it_is_back(page):
    drop(page, {"books.csv": ON_B, "B.log": field(*ALL), "old.log": field()})
    page.press(".doubts button")
    page.until(".banner.yes h1", "All 3 expected items are here")
    drop(page, {"B.log": field(UID_A, UID_B)})
    page.until("h1", "1 item missing")
    assert page.texts(".note")[-1] == "old.log was left out."
    drop(page, {"old.log": field()})
    page.until("h1", "old.log is of no place")
    assert page.texts(".note") == ["old.log joined the logs that were here."]


def test_two_logs_of_one_place_are_called_by_their_files(page):
    drop(page, {"books.csv": books((UID_A, ",B"), (UID_B, ",B")), "B.log": field(UID_A, UID_B),
                "p.csv": b"place,log\nB,B\nB,B_old\n",
                "B_old.log": field(UID_A, UID_B, asks=2)})
    assert page.texts("#told h1") == ["All 2 expected items are in some log; but 2 tags are "
                                      "in both B.log and B_old.log."]
    assert "All 2 tags that B_old.log proves are proved by B.log too: Emma and Walden." in (
        page.texts(".doubts b"))


def test_until_it_is_said_which_of_two_counts_nothing_is_sure(page):
    drop(page, {**COMPLETE, "B (1).log": field(UID_B, asks=2)})
    assert page.texts("#told h1") == ["Say whether B.log or B (1).log counts. Together the logs "
                                      "have all 2 expected items."]
    assert page.texts(".lights dd")[:2] == ["3 of 3 logs", "2 of 2 items"]
    assert not page.texts(".light.yes")


@pytest.mark.parametrize("names", [["z.pdf"], ["y.pdf", "z.pdf", "list.txt"]])
def test_what_is_no_log_takes_no_collection_away(page, names):
    """It is said what it is."""
    drop(page, COMPLETE)
    drop(page, {name: b"%PDF-1.7\n" if "pdf" in name else b"E0040100000000A1\n"
                for name in names})
    page.until(".note", "The collection is still here.")
    said = ["y.pdf and z.pdf were left out: a PDF.",
            "list.txt was left out: a list of tag numbers."]
    assert page.texts(".note")[1:] == (said if len(names) > 1 else ["z.pdf was left out: a PDF."])
    assert look(page) == "yes"


@pytest.mark.parametrize(("name", "text", "why"), [
    ("notes.txt", b"Counted on Monday\n", "a log begins with 'vicinity-log'."),
    ("notes.csv", b"a,b\n1,2\n", "a catalogue has a column 'uid'."),
    ("more.xlsx", b"PK\x03\x04", "save a spreadsheet as CSV.")])
@pytest.mark.parametrize("others", [{}, {"B.log": field(UID_B, asks=2)}])
def test_what_belongs_to_no_collection_is_left_out_beside_one(page, name, text, why, others):
    """It takes nothing away, and what comes with it joins: all of which is said."""
    drop(page, COMPLETE)
    drop(page, {name: text, **others})
    assert look(page) == "yes" and page.texts("h1")[0].startswith("All 2 expected items are here")
    said = " ".join(page.texts(".note"))
    assert said.count(f"{name} was left out: {why}") == 1
    assert ("B.log was replaced" in said) == bool(others)
    assert ("The collection is still here." in said) == (not others)
    assert f"{name} was left out: {why}" in page.run(TOLD)


def test_what_belongs_to_no_collection_takes_none_away_that_waits(page):
    drop(page, {"places.csv": b"place,log\nA,1.log\nB,2.log\n", "1.log": field(UID_A)})
    drop(page, {"2.log": field(UID_B), "readme.txt": b"Hello\n"})
    assert page.texts("h1") == ["Now open the catalogue: a table (CSV) with a column uid."]
    drop(page, {"books.csv": BOTH})
    assert look(page) == "yes" and page.texts(".note")[-1].startswith("readme.txt was left out: ")


def test_items_by_their_states(page):
    """What there is to do at each shelf; what is away and stayed so is only counted."""
    rows = [(UID_A, ",A,"), (UID_B, ",A,"), (UID_C, ",B,away")]
    table = books(*rows, head="uid,title,place,away") + (
        b"E0040100000000D4,Dracula,B,away\nE0040100000000E5,Persuasion,A,\nnone,Ulysses,B,\n")
    drop(page, {"books.csv": table, "A.log": field(UID_A),
                "B.log": field(UID_B, UID_C, 0xE0 << 56)})
    assert page.texts("#told h1") == [
        "1 item missing (Persuasion, of A), 1 in the wrong place (Walden, on B, belongs to A), 1 "
        "not in the catalogue, 1 back that should be away and 1 without a tag."]
    assert page.texts(".items :is(thead tr + tr, tbody tr)")[:6] == [
        "Shelf A", "missing: look for it\nPersuasion\nE0040100000000E5",
        "Shelf B", "take to A\nWalden\nE0040100000000B2",
        "not in the catalogue: find it by its tag\nE000000000000000",
        "is back: record it\nKim\nE0040100000000C3"]
    assert page.texts(".lights dd")[1] == "1 of 6 items, 1 away, 1 without a tag"


def test_the_example(page):
    files = {it.name: it.read_bytes() for it in sorted((TOP / "examples/collection").iterdir())}
    drop(page, files)
    assert page.texts("#told h1") == [
        "1 item missing if the reader of A heard to the end (Walden, of A), 1 in the wrong place "
        "(The Time Machine, on A, belongs to B) and 1 not known yet; count C again."]
    assert page.texts(".logs summary")[0] == (
        "C (shelf-c.log): 3 tags; not finished")
    # replies may be hidden only in the log that is to be counted again
    assert page.texts(".lights dt")[2:] == ["If the reader went deaf"]
    assert page.texts(".lights dd") == ["2 of 3 logs", "9 of 12 items", "the answer may be wrong"]


# How a collection comes.

def test_a_log_is_judged_by_itself_when_it_is_opened(page):
    """And not before: what stands in the list is what the object of the collection says."""
    page.run("""
      const post = Worker.prototype.postMessage;
      window.asked = [];
      Worker.prototype.postMessage = function (it) {
        if (!it.index) window.asked.push(it.name ?? "");
        post.call(this, it);
      };
    """)
    drop(page, COMPLETE)
    assert page.run("return window.asked") == [""]
    page.run("for (const it of document.querySelectorAll('details')) it.open = true")
    page.until(".logs h3", "1 tag is here, and no other.")
    page.wait(lambda: sorted(page.run("return window.asked")) == ["", "A.log", "B.log"])
    drawn = page.run("return document.querySelector('.logs').textContent")
    assert "Emma E0040100000000A1" in drawn


def test_logs_that_come_one_after_the_other_stay(page):
    """The last one is shown; a new one of a name is another count. A catalogue has all of them."""
    drop(page, {"A.log": field()})
    drop(page, {"B.log": field(UID_B)})
    page.until("#each", "2 logs, each with its own answer.")
    assert page.texts("#told h1") == ["1 tag is here, and no other. The log has no list to compare "
                                      "with."]
    drop(page, {"A.log": field(UID_A)})
    assert len(page.texts("#logs button")) == 2
    drop(page, {"photo.jpg": PHOTO})
    page.until("#each", "2 logs, each with its own answer.")
    drop(page, {"books.csv": BOTH})
    assert look(page) == "yes" and page.texts("#logs button") == []


def test_a_catalogue_waits_for_logs(page):
    """It is read at once, so that what is wrong with it is said."""
    drop(page, {"books.csv": BOTH})
    assert page.texts("#told h1") == ["The catalogue has 2 items in 2 places. Now open the logs."]
    assert "a list of what was read would always agree" in page.said()
    drop(page, {"A.log": field(UID_A), "B.log": field(UID_B)})
    assert page.texts("#told h1") == ["All 2 expected items are here, and no others."]


def test_places_and_logs_wait_for_a_catalogue(page):
    drop(page, {"places.csv": b"place,log\nA,1.log\nB,2.log\n", "1.log": field(UID_A)})
    assert page.texts("#told h1") == ["Now open the catalogue: a table (CSV) with a column uid."]
    drop(page, {"2.log": field(UID_B)})
    drop(page, {"books.csv": BOTH})
    assert page.texts("#told h1") == ["All 2 expected items are here, and no others."]


def test_a_log_joins_a_collection_or_replaces_that_of_its_place(page):
    drop(page, {"books.csv": BOTH, "A.log": field(UID_A)})
    drop(page, {"B.log": field()})
    assert page.texts(".note") == ["B.log joined the logs that were here."]
    empty = "1 item may be missing (Walden, of B); nothing answered in B."
    assert page.texts("#told h1") == [empty]
    assert page.run(TOLD) == f"{page.texts('.note')[0]} {page.texts('#told h1')[0]}"
    assert ("Nothing answered in 1 log: B. 1 item should be there: check the antenna, and count "
            "again before you look for it.") in page.texts(".doubts li")
    drop(page, {"B.txt": field(UID_B)})
    assert page.texts(".note") == ["B.log was replaced by what you opened under the same name."]
    assert look(page) == "yes"
    page.press("#back")
    page.until("h1", empty.replace(";", "; the log of B is older than one that was here;"))
    assert page.run(FOCUS) == page.texts("h1")[0]
    page.press("#back")
    page.until("h1", "1 item not counted; no log of B.")
    assert not page.driver.find_element("id", "back").is_displayed()


def test_a_collection_with_its_catalogue_is_one_of_its_own(page):
    """As that of the next week: no log of the one before is in it."""
    drop(page, COMPLETE)
    drop(page, {"books.csv": BOTH, "A.log": field(UID_A)})
    assert page.texts("#told h1") == ["1 item not counted; no log of B."]
    assert page.texts(".note") == ["What was here (books.csv, 2 logs) was closed."]


def test_a_collection_of_older_files_is_asked_about(page):
    """That of last week, dropped whole over that of today: one answer is enough for all its files,
    and stands on the page from then on."""
    drop(page, {**COMPLETE, "B.log": field()}, {name: NOON for name in COMPLETE})
    page.until("h1", "1 item may be missing")
    older = {"books.csv": BOTH.replace(b"title", b"name"), "A.log": field(UID_A, asks=2),
             "B.log": field(UID_B)}
    drop(page, older, {name: NOON - HOUR for name in older})
    assert page.texts("h1") == ["All 2 expected items are in some log; but books.csv and the logs "
                                "of A and B are older than those that were here."]
    (words,) = page.texts(".doubts b")
    assert re.match(r"books.csv, A.log and B.log are older than files that aren't here any more: "
                    r"books.csv is of 18 Nov 2026, \d\d:\d6, books.csv was of 18 Nov 2026, "
                    r"\d\d:\d6\.$", words)
    assert look(page) == "read" and page.texts(".doubts button") == ["The older ones count"]
    page.press(".doubts button")
    page.until(".banner.yes h1", "All 2 expected items are here, and no others.")
    assert page.texts(".note") == [f"{words} It was answered here: 'The older ones count'."]
    drop(page, {"A.log": field(UID_A, asks=3)}, {"A.log": NOON - HOUR // 2})
    assert page.texts("h1") == [
        "All 2 expected items are in some log; but the log of A is older than one that was here."]
    assert [it for it in page.texts(".note") if it.startswith("books.csv and B.log are older")]


@pytest.mark.parametrize(("press", "headline"), [
    (1, "1 item may be missing (Emma, of A); nothing answered in A."),
    (0, "All 2 expected items are here, and no others.")])
def test_it_is_asked_which_of_two_counts(page, press, headline):
    """Until that is said, both are here, and nothing is green. Then the one that counts is of the
    place of the other, and the focus is on what has changed."""
    drop(page, COMPLETE, {name: NOON for name in COMPLETE})
    drop(page, {"A (1).log": field()}, {"A (1).log": NOON})
    assert look(page) == "no"
    assert page.texts(".doubts button") == ["Only A.log", "Only A (1).log"]
    assert re.search(r"[Ss]ay whether A.log or A \(1\).log counts", page.texts("h1")[0])
    page.press(".doubts button", press)
    page.until("h1", headline)
    assert page.run(FOCUS) == headline and headline in page.run(TOLD)
    assert page.texts(".note") == [["A (1).log was left out."], ["A.log was left out.",
                                   "A (1).log counts as A.log."]][press]
    drawn = page.run("return document.querySelector('.logs').textContent")
    assert ("A (A (1).log): " in drawn) == (press == 1)


PASTE = """
const data = new DataTransfer();
data.setData("text/plain", arguments[0]);
const how = { clipboardData: data, bubbles: true, cancelable: true };
document.querySelector("h1").dispatchEvent(new ClipboardEvent("paste", how));
"""


@pytest.mark.parametrize("how", ["dropped", "pasted"])
def test_a_catalogue_is_not_replaced_without_a_word(page, how):
    """A smaller one may be complete where the one before wasn't."""
    drop(page, {**COMPLETE, "B.log": field()})
    page.until("h1", "1 item may be missing")
    smaller = books((UID_A, ",A"))
    if how == "pasted":
        page.run(PASTE, smaller.decode())
    else:
        drop(page, {"week 2.csv": smaller})
    name = {"dropped": "week 2.csv", "pasted": "pasted text"}[how]
    said = f"books.csv was replaced by {name}."
    page.until(".note", said)
    assert page.texts(".note") == [said]
    assert page.run(TOLD) == f"{said} {page.texts('h1')[0]}"
    asked = "; 1 item of a table that was here has no row now: Walden \u00B7 B;"
    assert asked in page.texts("h1")[0]
    # once it is heard it is said as what it is
    drop(page, {"B.log": field(UID_B)})
    assert page.texts("h1") == ["1 item not in the catalogue; B.log is of no place. Together the "
                                "logs have the one expected item."]


def test_a_table_of_places_is_not_replaced_without_a_word(page):
    drop(page, {**COMPLETE, "places.csv": b"place,log\nA,A.log\nB,B.log\n"})
    drop(page, {"new.csv": b"place,log\nA,B.log\nB,A.log\n"})
    assert page.texts(".note") == ["places.csv was replaced by new.csv."] and look(page) == "no"


def test_a_pasted_table_joins_what_is_here(page):
    """Which is said."""
    drop(page, {"A.log": field(UID_A), "B.log": field(UID_B)})
    page.run(PASTE, BOTH.decode())
    page.until(".banner.yes", "pasted text of ")
    assert page.texts(".note") == ["pasted text joined the logs that were here."]


def test_no_catalogue_takes_a_pasted_log_in(page):
    page.run(PASTE, field(UID_A).decode())
    page.until("h1", "1 tag is here")
    drop(page, {"books.csv": books((UID_A, ""), head="uid,title")})
    assert page.texts("h1") == ["The catalogue has 1 item. Now open the logs."]
    assert page.texts(".note") == ["pasted text was left out: what is pasted has no name."]


@pytest.mark.parametrize("files", [
    COMPLETE, {"A.log": log_of("I1 RA QA I1 S UA")},
    {"A.log": field(UID_A, listed=[UID_A]), "B.log": field(UID_B, listed=[UID_B])}])
def test_nothing_is_said_any_more_when_all_is_closed(page, files):
    """Neither in the banner nor in the title, to whoever doesn't see it, nor on paper."""
    drop(page, files)
    page.wait(lambda: look(page) in ("yes", "read") or "can show: 2 of 2." in page.run(TOLD))
    page.press("#close")
    wanted = "Did the RFID reader find every tag?"
    page.until("h1", wanted)
    assert page.texts("h1") == [wanted] and not look(page) and page.run(TOLD) == wanted
    assert page.driver.title == f"vicinity: {wanted[0].lower()}{wanted[1:]}"
    page.media("print")
    page.run(PRINTS)
    assert not page.texts(".banner") and "here" not in page.said().partition("\n")[0]
    rules = page.run("return [...document.styleSheets[0].cssRules].map((it) => it.cssText)")
    assert f'@top-left {{ content: "{page.driver.title}"' in rules[-1]


def test_what_is_pasted_takes_no_collection_away_without_a_word(page):
    drop(page, COMPLETE)
    page.run(PASTE, "hello")
    page.until(".note", "The collection is still here.")
    said = "pasted text was left out: a log begins with 'vicinity-log'."
    assert said in page.texts(".note") and look(page) == "yes"
    page.run(PASTE, log_of("I1 S").decode())
    page.until("#told h1", "No tag answered, and nothing is listed.")
    assert page.texts(".note") == ["What was here (books.csv, 2 logs) was closed."]


def test_one_goes_back_after_a_paste(page):
    """A log that is pasted has no name, so it is of no place: it is judged by itself."""
    drop(page, COMPLETE)
    page.run(PASTE, log_of("I1 S").decode())
    page.until("h1", "No tag answered, and nothing is listed.")
    page.press("#back")
    page.until(".banner.yes h1", "All 2 expected items are here")
    page.press("#close")
    page.until("h1", "Did the RFID reader find every tag?")
    assert page.run(FOCUS) == page.texts("h1")[0] and not page.texts(".banner")
    assert page.driver.title == "vicinity: did the RFID reader find every tag?"
    drop(page, {"A.log": log_of("I1 S")})
    assert page.texts("h1") == ["No tag answered, and nothing is listed."]


# What is refused.

@pytest.mark.parametrize(("name", "text", "words", "cure"), [
    ("books.csv", BOTH.replace(b",B\n", b"\n"), "books.csv, line 3: the row has more or fewer",
     "Line 3 is: E0040100000000B2,Walden"),
    ("books.csv", BOTH.replace(b"E00401", b"E004", 1),
     "books.csv, line 2: the cell 'uid' has no UID", "Store the column as text"),
    ("books.csv", BOTH.replace(b"E0040100000000A1", b"A1000000000104E0"),
     "books.csv, line 2: the bytes of the UID are in the opposite order", "A1000000000104E0 is E0"),
    ("books.csv", b"Tag ID;title\n",
     "books.csv, line 1: it needs one column 'uid' (a table of places", "Line 1 is: Tag ID;title"),
    ("books.xlsx", b"PK\x03\x04", "books.xlsx is a spreadsheet", "save it as CSV."),
    ("books.xls", b"\xD0\xCF\x11\xE0\xA1\xB1\x1A\xE1", "books.xls is a spreadsheet", "as CSV"),
    ("books.csv", b"%PDF-1.7\n", "books.csv, line 1: this is no table, but a PDF",
     "Open the table itself, saved as CSV.")])
def test_what_is_no_catalogue(page, name, text, words, cure):
    """It is said what is wrong, and what to do; the logs stay for the next catalogue."""
    drop(page, {name: text, "A.log": COMPLETE["A.log"], "B.log": COMPLETE["B.log"]})
    assert words in page.texts(".error")[0] and cure in page.said()
    assert "2 logs are still here" in page.said()
    drop(page, {"better.csv": BOTH})
    assert page.texts("#told h1") == ["All 2 expected items are here, and no others."]


def test_two_catalogues_are_one_too_many(page):
    drop(page, {**COMPLETE, "more.csv": BOTH})
    assert page.texts(".error") == ["books.csv and more.csv are both catalogues: leave one out."]
    assert "Open one catalogue (a table with a column uid)" in page.said()


@pytest.mark.parametrize("name", ["Thumbs.db", "desktop.ini"])
def test_a_file_that_belongs_to_no_collection_is_left_out(page, name):
    """Beside which no other catalogue would help."""
    drop(page, {**COMPLETE, name: b"\xD0\xCF\x11\xE0" if name == "Thumbs.db" else b"[x]\n"})
    assert name in page.texts(".error")[0]
    assert page.texts("#told button") == [f"Leave out {name}"]
    page.press("#told button")
    page.until("h1", "All 2 expected items are here, and no others.")
    assert page.texts(".note") == [f"{name} was left out."] and look(page) == "yes"


@pytest.mark.parametrize("names", [("A.log", "A.log"), ("A.log", "A.txt")])
def test_of_two_logs_of_one_name_one_is_left_out(page, names):
    """They have the times at which they were changed. The second one is the log of a tag more."""
    files = zip((*names, "B.log", "books.csv"),
                (field(UID_A), field(UID_A, UID_C), field(UID_B), BOTH))
    page.run(DROP, [[name, b64encode(text).decode(), NOON - HOUR * (at == 1)]
                    for at, (name, text) in enumerate(files)])
    page.until(".error", "another log has that name, or is of a place by the same name")
    assert "next catalogue" not in page.said()
    told = page.texts("#told button")
    # the older one first
    assert told[0].startswith(f"Leave out {names[1]}, the older file, of ")
    assert told[1].startswith(f"Leave out {names[0]} of ")
    page.press("#told button", 0)
    page.until("h1", "All 2 expected items are here, and no others.")
    assert page.run(FOCUS) == page.texts("h1")[0]


PHOTO = b"\xff\xd8\xff\xe0\x00\x10JFIF\x00"
STRANGE = {"photo.jpg": PHOTO, "list.pdf": b"%PDF-1.7\n", "Thumbs.db": b"\xD0\xCF\x11\xE0",
           "notes.txt": b"Dear all,\n"}


@pytest.mark.parametrize("names", [["photo.jpg"], [*STRANGE]])
def test_files_that_are_no_texts_are_left_out_at_once(page, names):
    """All are named, with nothing of what is in them, and nothing is said before one agrees. A text
    beside them that is no log is left out with them."""
    drop(page, {**{name: STRANGE[name] for name in names}, **COMPLETE})
    isnt = {1: "photo.jpg (a picture) is no table or log.",
            4: "photo.jpg (a picture), list.pdf (a PDF), Thumbs.db (a ZIP file, a spreadsheet or a "
               "document) and notes.txt are no tables or logs."}
    assert page.texts(".error") == [isnt[len(names)]] and look(page) == "refused"
    assert "JFIF" not in page.said() and "\u2039" not in page.said()
    assert page.texts("#told button") == [
        "Leave out photo.jpg" if len(names) == 1 else "Leave out these 4 files"]
    page.press("#told button")
    page.until(".banner.yes h1", "All 2 expected items are here, and no others.")
    assert page.texts(".note")[0].endswith(" were left out." if len(names) > 1 else " left out.")
    assert all(name in page.texts(".note")[0] for name in names)


@pytest.mark.parametrize(("name", "text", "what"), [
    ("uids.txt", b"E0040100000000A1\n", "this is no log and no table, but a list of tag numbers"),
    ("trace.txt", b"[=] downloading tracelog\n", "but a trace of a Proxmark"),
    ("readme.txt", b"Hello\n", "readme.txt, line 1: this is no log and no table")])
def test_what_is_no_part_of_a_collection_is_called_what_it_is(page, name, text, what):
    """All else is here, and needs no other catalogue."""
    drop(page, {**COMPLETE, name: text})
    assert what in page.texts(".error")[0]
    assert "All other files are still here." in page.said()
    assert "next catalogue" not in page.said() and "Name one column" not in page.said()
    page.press("#told button")
    page.until(".banner.yes h1", "All 2 expected items are here, and no others.")


def test_a_table_too_many_is_left_out(page):
    drop(page, {**COMPLETE, "notes.csv": b"a,b\n"})
    page.press("#told button", page.texts("#told button").index("Leave out notes.csv"))
    page.until("h1", "All 2 expected items are here, and no others.")


@pytest.mark.parametrize("coding", ["utf-16-le", "utf-16-be", "utf-8"])
def test_a_table_with_the_mark_of_its_coding(page, coding):
    """UTF-16 becomes UTF-8 before the library is asked; its sum is that of the file."""
    table = ("\ufeff" + BOTH.decode().replace("Emma", "\u00c9mile")).encode(coding)
    drop(page, {**COMPLETE, "books.csv": table})
    assert look(page) == "yes"
    assert sha256(table).hexdigest() in page.run("return document.body.textContent")


def test_a_table_in_utf_16_by_its_columns(page):
    """Its first 4,096 bytes are looked at, which may end within a sign: between two surrogates."""
    head, *rows = BOTH.decode().splitlines()
    head += "," + "n" * (2046 - len(head) - 1) + "\U0001F4D6"
    table = "\n".join(["\ufeff" + head, *(f"{row}," for row in rows), ""]).encode("utf-16-le")
    assert table[4094:4098] == "\U0001F4D6".encode("utf-16-le")
    drop(page, {**{name: text for name, text in COMPLETE.items() if name != "books.csv"},
                "books.txt": table})
    assert look(page) == "yes"


@pytest.mark.parametrize("coding", ["utf-16-le", "utf-16-be"])
def test_a_log_in_utf_16_is_refused(page, program, tmp_path, coding):
    """As by the program, and as when it is opened alone."""
    files = {**COMPLETE, "A.log": ("\ufeff" + field(UID_A).decode()).encode(coding)}
    for name, text in files.items():
        (tmp_path / name).write_bytes(text)
    said = program.run("json-collection", "--", *files, cwd=tmp_path)
    assert said.out == b"refused at line 1 of A.log: Utf8\n"
    drop(page, files)
    assert "A.log, line 1: it seems to be UTF-16)." in page.texts(".error")[0]
    assert look(page) == "refused" and page.texts(".steps li")[0] == "Save it as ASCII or UTF-8."
    page.press("#close")
    drop(page, {"A.log": files["A.log"]})
    page.until("h1", "This text isn't a log. Line 1: it seems to be UTF-16.")
    assert page.texts(".steps li") == ["Save it as ASCII or UTF-8."]


@pytest.mark.parametrize("coding", ["utf-16-le", "utf-16-be"])
def test_surveys_in_utf_16_are_refused(page, coding):
    """As a shell of Windows may write them: nothing was cut off, and they are no table."""
    drop(page, {**COMPLETE, "n": "\ufeffvicinity-survey 1 C.log\n".encode(coding)})
    assert page.texts(".error") == ["books.csv: no answer (n, line 1: it seems to be UTF-16)."]
    assert page.texts(".steps li")[0] == "Save it as ASCII or UTF-8."


@pytest.mark.parametrize("coding", ["utf-16-le", "utf-16-be"])
def test_a_table_in_utf_16_that_is_broken_is_called_that(page, coding):
    """Cut within a sign, it is refused; with half a sign at its head, by which nobody sees a column
    uid, it is left out of what is here. The page doesn't take it for a table of no columns."""
    mark, text = "\ufeff".encode(coding), BOTH.decode().encode(coding)
    broken = "it seems to be UTF-16, but cut off, changed, or without its mark"
    drop(page, {**COMPLETE, "books.csv": mark + text[:-1]})
    assert page.texts(".error") == [f"books.csv, line 1: {broken}."]
    assert "Copy the file again, or save the table as 'CSV UTF-8'." in page.said()
    drop(page, {"books.csv": BOTH})
    drop(page, {"more.csv": mark + "\ud800".encode(coding, "surrogatepass") + text})
    assert page.texts(".note")[-1] == f"more.csv was left out: {broken}."


def test_a_table_whose_lines_end_with_cr_is_told_so(page):
    drop(page, {**COMPLETE, "books.csv": BOTH.replace(b"\n", b"\r")})
    assert page.texts(".error") == ["books.csv, line 1: its lines end with CR alone."]
    assert page.texts(".steps li")[0].startswith("Save it with LF, or CR LF, at the end of each")


def test_a_text_of_surveys_stands_in_place_of_its_logs(page, program, tmp_path):
    """Which can't be opened. By itself it is called what it is."""
    (tmp_path / "A.log").write_bytes(field(UID_A))
    survey = program.run("survey", "A.log", cwd=tmp_path).out
    drop(page, {"books.csv": BOTH, "all": survey, "B.log": field(UID_B)})
    assert look(page) == "yes"
    page.press("details:has(.logs) > summary")
    assert page.texts(".logs li") == ["A: 1 tag", "B: 1 tag"]
    assert len(page.texts(".logs summary")) == 1
    page.press("#close")
    drop(page, {"all": survey})
    page.until("h1", "This file isn't a log, but a text of surveys")


# How old the files are.

def test_an_older_file_that_replaces_a_newer_one_is_not_green(page, tmp_path):
    """It is said, and asked; the date is that of the file, which may be one of a copy."""
    drop(page, {**COMPLETE, "B.log": field()}, {name: NOON for name in COMPLETE})
    page.until("h1", "1 item may be missing")
    drop(page, {"B.log": field(UID_B)}, {"B.log": NOON - HOUR})
    assert page.texts(".note") == ["B.log was replaced by what you opened under the same name."]
    assert page.texts("h1") == ["All 2 expected items are in some log; but the log of B is older "
                                "than one that was here."]
    assert look(page) == "read" and not page.texts(".light.yes")
    # which may have become the way back of another file
    assert "Back" not in page.texts(".doubts")[0]
    (words,) = page.texts(".doubts b")
    assert re.match(r"B.log of 18 Nov 2026, \d\d:\d6 is older than B.log of 18 Nov 2026, "
                    r"\d\d:\d6, which isn't here any more\.$", words)
    page.press(".doubts button")
    page.until(".banner.yes h1", "All 2 expected items are here, and no others.")
    said = f"{words} It was answered here: 'The older one counts'."
    assert said in page.texts(".note")
    page.media("print")
    assert said in page.texts(".note") and said in page.texts(".signed")[0]
    page.media()
    made = saved(page, tmp_path / "saved")
    drop(page, {"B.log": field(UID_B, asks=2)}, {"B.log": NOON})
    assert page.texts(".note") == ["B.log was replaced by what you opened under the same name."]
    assert look(page) == "yes"
    page.open(made)
    assert page.texts(".note") == [said] and look(page) == "yes"


IS_OLDER = ["All 2 expected items are in some log; but the log of B is older than one that was "
            "here."]


def test_it_stays_in_question_what_was_replaced_first(page):
    """Also if the older file is opened once more, or another one that is older than the first."""
    drop(page, {**COMPLETE, "B.log": field()}, {name: NOON for name in COMPLETE})
    for asks, early in (1, 2 * HOUR), (1, 2 * HOUR), (2, HOUR):
        drop(page, {"B.log": field(UID_B, asks=asks)}, {"B.log": NOON - early})
        assert page.texts("h1") == IS_OLDER


def test_an_answer_is_about_two_files(page):
    """That a file is of this count doesn't say that it counts in place of a newer one."""
    drop(page, COMPLETE, {"books.csv": NOON, "A.log": NOON, "B.log": NOON - DAY - HOUR})
    page.press(".doubts button", 1)
    page.until(".banner.yes h1", "All 2 expected items are here, and no others.")
    drop(page, {"B.log": field()}, {"B.log": NOON})
    page.until("h1", "1 item may be missing")
    drop(page, {"B.log": field(UID_B)}, {"B.log": NOON - DAY - HOUR})
    assert page.texts("h1") == IS_OLDER


def test_what_is_answered_of_one_log_is_kept_and_says_nothing_of_others(page):
    """An older B counts. A new A joins, which leaves that; an older A is asked about by itself."""
    drop(page, {**COMPLETE, "B.log": field()}, {name: NOON for name in COMPLETE})
    drop(page, {"B.log": field(UID_B)}, {"B.log": NOON - HOUR})
    page.press(".doubts button")
    page.until(".banner.yes h1", "All 2 expected items are here, and no others.")
    (said,) = page.texts(".note")
    drop(page, {"A.log": field(UID_A, asks=2)}, {"A.log": NOON + HOUR})
    assert look(page) == "yes" and said in page.texts(".note")
    drop(page, {"A.log": field(UID_A)}, {"A.log": NOON})
    assert look(page) == "read" and said in page.texts(".note")
    assert page.texts("h1") == [IS_OLDER[0].replace("of B", "of A")]
    page.press(".doubts button")
    page.until(".banner.yes h1", "All 2 expected items are here, and no others.")
    assert page.texts(".note")[0].startswith("B.log and A.log are older than files that aren't ")
    # nor of another older file of the same name
    drop(page, {"B.log": field(UID_B, asks=2)}, {"B.log": NOON - 2 * HOUR})
    assert page.texts("h1") == IS_OLDER and look(page) == "read"


def test_of_several_copies_each_is_asked_about(page):
    """That both count is said of the one, and stays; of the other it is still asked."""
    drop(page, {"books.csv": books((UID_A, ""), (UID_B, ""), head="uid,title"),
                "A.log": field(UID_A), "A (1).log": field(UID_A, asks=2),
                "B.log": field(UID_B), "B (1).log": field(UID_B, asks=2)})
    number = page.texts(".doubts button").index("Both: they are of different fields")
    page.press(".doubts button", number)
    page.until(".note", "It was answered here: 'Both: they are of different fields'.")
    (said,) = page.texts(".note")
    assert look(page) != "yes" and re.search("[Ss]ay whether ", page.texts("h1")[0])
    drop(page, {"C.log": field(UID_C)})
    assert said in page.texts(".note") and re.search("[Ss]ay whether ", page.texts("h1")[0])


def test_logs_before_their_catalogue_are_asked_about_too(page):
    drop(page, {"B.log": field()}, {"B.log": NOON})
    drop(page, {"A.log": field(UID_A), "B.log": field(UID_B)},
         {"A.log": NOON, "B.log": NOON - HOUR})
    drop(page, {"books.csv": BOTH}, {"books.csv": NOON})
    assert page.texts("h1") == IS_OLDER


@pytest.mark.parametrize(("late", "answer"), [(HALF, True), (HALF + HOUR, False), (DAY, False)])
def test_a_log_of_half_a_day_before_is_not_green(page, late, answer):
    """Until it is said that it is of this count: its file may only have been copied. From when to
    when the files are stands below the headline."""
    drop(page, COMPLETE, {"books.csv": NOON - 9 * DAY, "A.log": NOON, "B.log": NOON - late})
    assert (look(page) == "yes") == answer
    assert re.search(r"2 logs of 1[78] Nov 2026, \d\d:\d6 to 18 Nov 2026, \d\d:\d6$",
                     page.texts(".banner p")[1])
    if answer:
        return
    assert page.texts("h1") == [
        "All 2 expected items are in some log; but the log of B is more than 12 hours older."]
    assert re.search("its file is of 1[78] Nov 2026", page.texts(".doubts b")[0])
    assert page.texts(".doubts button") == ["Leave out B.log", "It is of this count"]
    page.media("print")
    page.run(PRINTS)
    # no result is signed while a question is open; each log has the date of its file
    assert page.said().startswith("This is no result yet: answer what is asked below")
    assert "Counted on" not in page.said()
    assert re.search("of 1[78] Nov 2026", "\n".join(page.texts(".sum")))
    page.media()
    page.press(".doubts button", 1)
    page.until(".banner.yes h1", "All 2 expected items are here, and no others.")
    (said,) = page.texts(".note")
    spoken = page.run("return document.getElementById('said').textContent")
    assert spoken == f"{said} All 2 expected items are here, and no others."
    assert re.search("its file is of 1[78] Nov 2026", said)
    assert said.endswith("It was answered here: 'It is of this count'.")


def test_that_a_file_is_of_this_count_is_said_of_the_others_that_are_here(page):
    """With a newer one it is asked again; and so it is of other bytes."""
    drop(page, COMPLETE, {"books.csv": NOON, "A.log": NOON, "B.log": NOON - DAY - HOUR})
    page.press(".doubts button", 1)
    page.until(".banner.yes h1", "All 2 expected items are here, and no others.")
    drop(page, {"A.log": field(UID_A)}, {"A.log": NOON + 30 * DAY})
    assert page.texts("h1") == [
        "All 2 expected items are in some log; but the log of B is more than 12 hours older."]
    assert look(page) == "read"


def test_an_older_file_that_counts_may_be_of_another_day(page):
    drop(page, COMPLETE, {name: NOON for name in COMPLETE})
    drop(page, {"B.log": field(UID_B, asks=2)}, {"B.log": NOON - 30 * DAY})
    assert page.texts("h1") == IS_OLDER
    page.press(".doubts button")
    page.until("h1", "items are in some log; but the log of B is more than 12 hours older.")
    assert look(page) == "read"


def test_a_text_of_surveys_is_as_old_as_its_file(page, program, tmp_path):
    """It can't be left out as the log that it has, but it is answered whether it counts."""
    (tmp_path / "B.log").write_bytes(field(UID_B))
    survey = program.run("survey", "B.log", cwd=tmp_path).out
    files = {"books.csv": BOTH, "A.log": field(UID_A), "all.txt": survey}
    drop(page, files, {"A.log": NOON, "all.txt": NOON - 20 * DAY})
    page.until("h1", "items are in some log; but the log of B is more than 12 hours older.")
    assert page.texts(".doubts button") == ["It is of this count"]
    page.press(".doubts button")
    page.until(".banner.yes h1", "All 2 expected items are here, and no others.")


def test_two_files_of_one_minute_are_told_by_their_seconds(page):
    drop(page, COMPLETE, {name: NOON for name in COMPLETE})
    drop(page, {"B.log": field(UID_B, asks=2)}, {"B.log": NOON - 2000})
    assert re.search(r":38 is older than .*:40, which isn't", page.texts(".doubts b")[0])


def test_an_older_catalogue_is_asked_about(page, tmp_path):
    """It may lack the item that is missing. So it is with the next one, and with one of another
    name; that of another collection is no older one of this."""
    drop(page, {**COMPLETE, "books.csv": books(*[(uid, ",A") for uid in ALL])},
         {name: NOON for name in COMPLETE})
    page.until("h1", "1 item missing")
    for name, early in ("books.csv", 30 * DAY), ("b.csv", 20 * DAY):
        drop(page, {name: BOTH}, {name: NOON - early})
        assert page.texts("h1") == [
            "All 2 expected items are in some log; but 1 item of a table that was here has no row "
            f"now: Kim \u00B7 A and {name} is older than one that was here."]
        assert look(page) == "read" and not page.texts(".light.yes")
    pressed(page, "It isn't expected any more")
    (words,) = page.texts(".doubts b")
    assert re.match(r"b.csv of 29 Oct 2026, \d\d:\d6 is older than books.csv of 18 Nov 2026, "
                    r"\d\d:\d6, which isn't here any more\.$", words)
    page.press(".doubts button")
    page.until(".banner.yes h1", "All 2 expected items are here, and no others.")
    said = ["books.csv as it was here before has 1 more item, of which no log tells: "
            "Kim \u00B7 A. It was answered here: 'It isn't expected any more, or is in another "
            "row'.",
            f"{words} It was answered here: 'The older one counts'."]
    assert page.texts(".note") == said
    made = saved(page, tmp_path / "saved")
    drop(page, {**COMPLETE, "south.csv": BOTH}, {"south.csv": NOON - 40 * DAY})
    page.open(made)
    assert page.texts(".note") == said and look(page) == "yes"
    assert "b.csv of 29 Oct 2026, " in page.run("return document.body.textContent")


# What is here before a catalogue without a row comes, or pressed then; and the catalogue with it.
ALL_OF_A = books(*[(uid, ",A" if uid != UID_B else ",B") for uid in ALL])
ROWLESS = {
    "missing": ({**COMPLETE, "books.csv": ALL_OF_A}, {"books.csv": BOTH}),
    "not counted": ({"books.csv": ALL_OF_A, "B.log": COMPLETE["B.log"]}, {"books.csv": BOTH}),
    "before any log": ({"books.csv": ALL_OF_A}, {"week 2.csv": BOTH}),
    "two at once": ({"books.csv": ALL_OF_A}, {"week 2.csv": BOTH, "books.csv": ALL_OF_A},
                    "Leave out books.csv")}


@pytest.mark.parametrize("how", ROWLESS)
def test_nothing_is_complete_by_a_row_that_is_gone(page, how, tmp_path):
    """Whatever was known of its item, and whatever is opened later."""
    first, then, *button = ROWLESS[how]
    if not button:
        drop(page, first, {name: NOON for name in first})
    drop(page, then, {"books.csv": NOON + HOUR * (not button), "week 2.csv": NOON + HOUR})
    for words in button:
        pressed(page, words)
    drop(page, {name: COMPLETE[name] for name in ("A.log", "B.log")},
         {"A.log": NOON + HOUR, "B.log": NOON + HOUR})
    assert page.texts("h1") == [
        "All 2 expected items are in some log; but 1 item of a table that was here has no row now: "
        "Kim \u00B7 A."]
    words = "books.csv as it was here before has 1 more item, of which no log tells: Kim \u00B7 A."
    assert look(page) == "read" and page.texts(".doubts b") == [words]
    page.media("print")
    assert "This is no result yet" in page.said() and not page.texts(".signed")
    page.media()
    pressed(page, "It isn't expected any more")
    until_green(page)
    page.open(saved(page, tmp_path / "saved"))
    answer = "It isn't expected any more, or is in another row"
    assert f"{words} It was answered here: '{answer}'." in page.texts(".note")


@pytest.mark.parametrize("spelled", ["E0:04:01:00:00:00:00:C3", "E0 04 01 00 00 00 00 C3",
                                     "e004-0100-0000-00c3", '"E0040100000000C3"'])
def test_a_row_is_known_however_its_uid_is_written(page, spelled):
    drop(page, {**COMPLETE, "books.csv": BOTH + f"{spelled},Kim,A\n".encode()})
    page.until("h1", "1 item missing (Kim, of A)")
    drop(page, {"books.csv": BOTH})
    page.until("h1", "but 1 item of a table that was here has no row now: Kim \u00B7 A.")


# Catalogues with a row of which the next has none, in which more than one UID or none is read.
ROWS_OF_C = {
    "a note of another tag": b"note,uid,title,place\n,E0040100000000A1,Emma,A\n,E0040100000000B2,"
                             b"Walden,B\nwith E0:04:01:00:00:00:00:A1,E0040100000000C3,Kim,A\n",
    "a tab before it": b"note\tuid\ttitle\nE0\tE0:04:01:00:00:00:00:C3\tKim\n",
    "refused": b"with,uid,title,place\nE0040100000000A1,E0040100000000C3,Kim,A\n",
    "none in its cell": BOTH + b"none,Kim E0040100000000C3,A\n",
    "two rows in a line": BOTH + b"E0040100000000A1,Emma,AE0040100000000C3,Kim,A\n",
    "broken UTF-16": b"\xff\xfe" + (BOTH + b"E0040100000000C3,Kim,A\n").decode().encode(
        "utf-16-le") + b"0",
    "UTF-16 without a mark": (BOTH + b"E0040100000000C3,Kim,A\n").decode().encode("utf-16-le")}


@pytest.mark.parametrize("how", ROWS_OF_C)
def test_a_row_is_known_by_its_own_cell(page, how):
    drop(page, {**COMPLETE, "books.csv": ROWS_OF_C[how]}, {name: NOON for name in COMPLETE})
    assert look(page) != "yes"
    drop(page, {"books.csv": BOTH}, {"books.csv": NOON + HOUR})
    page.until("h1", "but 1 item of a table that was here has no row now: ")
    drop(page, {"books.csv": BOTH + b"E0040100000000C3,Kim,A\n"}, {"books.csv": NOON + 2 * HOUR})
    # of a line in which there may be several rows it is asked
    more = f"{UID_A:016X} \u00B7 Emma \u00B7 A{UID_C:016X} \u00B7 Kim \u00B7 A" * ("two" in how)
    asked = f"; 1 item of a table that was here has no row now: {more}" if more else ""
    assert page.texts("h1") == [f"1 item missing (Kim, of A){asked}."]


# A catalogue with rows of items that have no tag, behind that of Emma, and a later one; and what is
# said of these.
HEAD, EMMA, A_ROW = "uid,title,place", f"{UID_A:016X},Emma,A", "row now: Map \u00B7 A"
NO_ROW = f"{A_ROW}."
TAGLESS = {
    "gone": ([HEAD, EMMA, "none,Map,A"], [HEAD, EMMA], NO_ROW),
    "one of two": ([HEAD, EMMA, "none,Map,A", "NONE,Map,A"], [HEAD, EMMA, "none,Map,A"], NO_ROW),
    "three of one kind": ([HEAD, EMMA, *["none,Map,A"] * 3], [HEAD, EMMA],
                          "3 items of a table that was here have no row now: Map \u00B7 A"),
    "beside a tagged one of the kind, that is lost too": (
        [HEAD, EMMA, f"{UID_B:016X},Map,A", *["none,Map,A"] * 2], [HEAD, EMMA],
        "3 items of a table that was here have no row now: Map \u00B7 A"),
    "with cells that together look like a UID": (
        [f"{HEAD},code", f"{EMMA},", "none,The ache,A,00142437208184"],
        [f"{HEAD},code", f"{EMMA},", f"{UID_B:016X},The ache,A,00142437208199"], "now: The "),
    "with digits in other cells": (
        [f"{HEAD},copy", f"{EMMA},", "none,Map 1,A,12"],
        [f"{HEAD},copy", f"{EMMA},", f"{UID_B:016X},Map 11,A,2"], "has no row now: Map 1 "),
    "with other vowel signs": (
        [HEAD, EMMA, "none,\u0915\u093e\u0932\u093e,A"],
        [HEAD, EMMA, f"{UID_B:016X},\u0915\u0932\u093e,A"], "has no row now"),
    "without its last cell, beside the UID of another": (
        ["title,place,note,uid", f"Emma,A,,{UID_A:016X}", f"Map,A,in box {UID_A:016X}"],
        ["title,place,note,uid", f"Emma,A,,{UID_A:016X}"], "has no row now: Map \u00B7 A"),
    "with the UID of another": (
        [HEAD, EMMA, EMMA.replace("Emma", "Map")], [HEAD, EMMA], NO_ROW),
    "listed twice": ([HEAD, EMMA, EMMA], [HEAD, EMMA], ""),
    "whose UID is another's box": (
        [HEAD, EMMA, f"E00401,Map {UID_A:016X},A"], [HEAD, EMMA], "has no row now: Map "),
    "before any had a tag, below a title": (
        ["Books,,", HEAD, "none,Emma,A", "none,Map,A"], [HEAD, EMMA], NO_ROW),
    "beside one cell more, below a wrong heading": (
        ["barcode,RFID", f"Emma,{UID_A:016X}", "Map,"], ["barcode,uid", f"Emma,{UID_A:016X}"],
        "has no row now: Map."),
    "before any had a tag": ([HEAD, "none,Emma,A", "none,Map,A"], [HEAD, EMMA], NO_ROW),
    "of which no UID was known": ([HEAD, EMMA, ",Map,A"], [HEAD, EMMA], NO_ROW),
    "with a UID that is none": ([HEAD, EMMA, "E0040100,Map,A"], [HEAD, EMMA], NO_ROW),
    "below a title": (["Books,,", HEAD, EMMA, "none,Map,A"], [HEAD, EMMA], NO_ROW),
    "below a wrong heading": (["UID Nr,title,place", EMMA, ",Map,A"], [HEAD, EMMA], NO_ROW),
    "of lines that end with CR": ([f"{HEAD}\r{EMMA}\rnone,Map,A\r"], [HEAD, EMMA], NO_ROW),
    "beside a new one called alike": (
        [f"{HEAD},number", f"{EMMA},1", "none,Map,A,7"],
        [f"{HEAD},number", f"{EMMA},1", f"{UID_B:016X},Map,A,9"], NO_ROW),
    "in the box of another": (
        [f"{HEAD},box", f"{EMMA},", "none,Map,A,E0:04:01:00:00:00:00:A1"],
        [f"{HEAD},box", f"{EMMA},"], A_ROW),
    "with the UID of another in its title": (
        [HEAD, EMMA, f"none,Map {UID_A:016X},A"], [HEAD, EMMA], "has no row now: Map "),
    "behind a line break that was lost": (
        [HEAD, f"{EMMA}none,Map,A"], [HEAD, EMMA],
        f"no row now: {UID_A:016X} \u00B7 Emma \u00B7 Anone \u00B7 Map \u00B7 A"),
    "beside a tagged one of two tags": (
        [f"{HEAD},uid 2", f"{UID_A:016X},Map,A,{UID_B:016X}", "none,Map,A,"],
        [HEAD, f"{UID_A:016X},Map,A", f"{UID_B:016X},Map,A"], NO_ROW),
    "beside one with its UID in two columns": (
        [f"{HEAD},tag", f"{UID_A:016X},Map,A,{UID_A:016X}", "none,Map,A,"],
        [HEAD, f"{UID_A:016X},Map,A"], NO_ROW),
    "beside one of two tags, without a UID": (
        [f"uid,{HEAD}", f"{UID_A:016X},{UID_B:016X},Map,A", ",,Map,A"],
        [HEAD, f"{UID_A:016X},Map,A", f"{UID_B:016X},Map,A"], NO_ROW),
    "beside one whose note names another": (
        [f"{HEAD},note", f"{UID_A:016X},Map,A,with {UID_B:016X}", "none,Map,A,"],
        [f"{HEAD},note", f"{UID_A:016X},Map,A,"], f"{A_ROW} \u00B7 with {UID_B:016X} and Map"),
    "whose note names one that is called alike": (
        [f"{HEAD},note", f"{UID_A:016X},Map,A,", f"none,Map,A,{UID_A:016X}"],
        [f"{HEAD},note", f"{UID_A:016X},Map,A,"], A_ROW),
    "with the UID of another, which has a label, too": (
        [f"{HEAD},label", f"{EMMA},{UID_A:016X}", f"{UID_A:016X},Map,A,{UID_A:016X}"],
        [HEAD, EMMA], A_ROW),
    "with a tag that is broken in a note": (
        [f"{HEAD},note", f"{EMMA},", f"none,Map,A,old tag {UID_C:016X}"],
        [f"{HEAD},note", f"{EMMA},"], A_ROW),
    "in the line of another": ([HEAD, EMMA, "none,Map,A,none,Kim,A"], [HEAD, EMMA],
                               "no row now: Map \u00B7 A \u00B7 Kim \u00B7 A."),
    "in the line of a tagged one": (
        [HEAD, f"{EMMA},Map,A"], [HEAD, EMMA],
        f"no row now: {UID_A:016X} \u00B7 Emma \u00B7 A \u00B7 Map \u00B7 A."),
    "in place of the headings": ([",Map,A", EMMA], [HEAD, EMMA], NO_ROW),
    "in the line of the headings": ([f"{HEAD},none,Map,A", EMMA], [HEAD, EMMA], "has no row now"),
    "below a wrong heading, before any had a tag": (
        ["RFID,title,place", ",Emma,A", ",Map,A"], [HEAD, EMMA], NO_ROW),
    "below a wrong heading, of rounded numbers": (
        ["RFID;title;place", "1.6E+19;Emma;A", "1.6E+19;Map;A"], [HEAD, EMMA], "Map \u00B7 A."),
    "of a list without columns": (
        [f"{UID_A:016X}", f"{UID_B:016X}"], [HEAD, EMMA], f"no row now: {UID_B:016X}."),
    "with another UID in its cell": (["uid", f"{UID_B:016X}{UID_A:016X}"], ["uid", f"{UID_A:016X}"],
                                     f"no row now: {UID_B:016X}{UID_A:016X}."),
    "above the headings": ([f"{UID_B:016X},Map,A,torn", f"{HEAD},note", f"{EMMA},"], [HEAD, EMMA],
                           NO_ROW),
    "without a tag above the headings": (["none,Map,A", HEAD, EMMA], [HEAD, EMMA], NO_ROW),
    "joined to one that is shorter than the headings": (
        [f"{HEAD},year,note,x", f"{EMMA}{UID_B:016X},Map,A"], [HEAD, EMMA], "Map \u00B7 A."),
    "without a tag, joined to one that is shorter": (
        [f"{HEAD},year,note,x", f"{EMMA}none,Map,A"], [HEAD, EMMA], "Map \u00B7 A."),
    "joined to the headings": ([f"{HEAD}none,Map,A", EMMA], [HEAD, EMMA], "Map \u00B7 A."),
    "without a UID, joined to the headings": (
        [f"{HEAD},Map,A", EMMA, ",Kim,A"], [HEAD, EMMA, "none,Kim,A"], "Map \u00B7 A."),
    "between quotes that aren't closed": (
        [HEAD, f'{UID_A:016X},"Emma,A', 'none,Map",A'], [HEAD, EMMA], "Map \u00B7 A."),
    "in a table beside the other": (
        [f"{HEAD},tag,name,shelf", f"{EMMA},none,Map,A", f"{UID_C:016X},Kim,A,{UID_B:016X},Map,A"],
        [HEAD, EMMA], f"Emma \u00B7 A \u00B7 Map \u00B7 A and Kim \u00B7 A \u00B7 {UID_B:016X}"),
    "below a wrong heading, with a note of another": (
        ["RFID,title,place,note", f"{EMMA},", f",Map,A,with {UID_A:016X}"],
        [f"{HEAD},note", f"{EMMA},"], A_ROW),
    "in the first line, away": ([",Map,A,away", f"{EMMA},"], [f"{HEAD},away", f"{EMMA},"], A_ROW),
    "in the first lines, without headings": (
        ["Map;", "Globe;", f"Emma;{UID_A:016X}"], ["title;uid", f"Emma;{UID_A:016X}"],
        "2 items of a table that was here have no row now: Map and Globe."),
    "above headings that are the last line": (
        ["Map;", f"Emma;{UID_A:016X}", "title;uid"], ["title;uid", f"Emma;{UID_A:016X}"],
        "has no row now: Map."),
    "without headings, away": (
        [f"{UID_A:016X},Emma,", ",Map,away"], ["uid,title,away", f"{UID_A:016X},Emma,"],
        "has no row now: Map \u00B7 away."),
    "twice, beside the UID of another": (
        [f"{HEAD},part of", f"{EMMA},", *[f"none,Map,A,{UID_A:016X}"] * 2],
        [HEAD, EMMA, f"{UID_B:016X},Map,A"], "1 item of a table"),
    "of two filled cells above the headings": (
        ["-,Map", ",Globe", "uid,title", f"{UID_A:016X},Emma"], ["uid,title", f"{UID_A:016X},Emma"],
        "2 items of a table that was here have no row now: Map and Globe."),
    "away, beside another renamed column": (
        ["uid,title,status", f"{UID_A:016X},Emma,", "-,Map,away"],
        ["uid,title,away", f"{UID_A:016X},Emma,"], "has no row now: Map \u00B7 away."),
    "away, in rows that are cut at their ends": (
        [f"Emma,,{UID_A:016X}", "Map,away"], ["title,away,uid", f"Emma,,{UID_A:016X}"],
        "has no row now: Map \u00B7 away."),
    "of nothing but a UID that is none": (
        ["uid", f"{UID_A:016X}", "E00401"], ["uid", f"{UID_A:016X}"], "has no row now: E00401."),
    "of nothing but 'none'": (["uid", f"{UID_A:016X}", "none", "none"], ["uid", f"{UID_A:016X}"],
                              "2 items of a table that was here have no row now: none"),
    "below a title and a wrong heading": (
        ["Books,,", "RFID,title,place", EMMA, ",Map,A"], [HEAD, EMMA], "but 1 item of a table"),
    "in what the program has written": (
        [f"{HEAD},vicinity state,vicinity certain in", f"{EMMA},in place,A.log"],
        [HEAD, EMMA], ""),
    "below headings of another separator": (
        [HEAD, EMMA.replace(",", ";"), "none;Map;A"],
        [it.replace(",", ";") for it in (HEAD, EMMA, "none,Map,A")], ""),
    "with a letter in another coding": ([HEAD, EMMA, "none,Caf\udce9,A"],
                                        [HEAD, EMMA, "none,Caf\u00e9,A"], ""),
    "with a line break in a cell": ([HEAD, f'{UID_A:016X},"Emma', 'or more",A', "none,Map,A"],
                                    [HEAD, f"{UID_A:016X},Emma or more,A", "none,Map,A"],
                                    "1 item of a table that was here has no row now: or more"),
    "without its last cell, tagged": ([HEAD, f"{UID_A:016X},Emma", ",Map,A"],
                                      [HEAD, EMMA, "none,Map,A"], ""),
    "between bars": ([HEAD.replace(",", "|"), EMMA.replace(",", "|"), "none|Map|A"],
                     [HEAD, EMMA], NO_ROW),
    "beside a UUID, tagged": (
        [f"{HEAD},id", f"{EMMA},", "none,Map,A,3f2504e0-4f89-41d3-9a0c-0305e82c3301"],
        [f"{HEAD},id", f"{EMMA},", f"{UID_B:016X},Map,A,3f2504e0-4f89-41d3-9a0c-0305e82c3301"],
        ""),
    "tagged, and quoted": ([HEAD, f"{UID_A:016X},Emma, the novel,A"],
                           [HEAD, f'{UID_A:016X},"Emma, the novel",A'], ""),
    "tagged": ([HEAD, EMMA, "none,Map,A"], [HEAD, EMMA, f"{UID_B:016X},Map,A"], ""),
    "tagged, where no UID was known": (
        [HEAD, EMMA, ",Map,A"], [HEAD, EMMA, f"{UID_B:016X},Map,A"], ""),
    "in other lines": ([HEAD, EMMA, "none,Map,A", "none,Atlas,A"],
                       [HEAD, "none,Atlas,A", "none,Map,A", EMMA], "")}


@pytest.mark.parametrize("how", TAGLESS)
def test_a_row_of_an_item_without_a_tag_is_not_forgotten(page, how):
    """It is known by its other cells."""
    *catalogues, words = TAGLESS[how]
    for number, lines in enumerate(catalogues):
        text = "".join(f"{line}\n" for line in lines).encode(errors="surrogateescape")
        drop(page, {"books.csv": text, "A.log": field(UID_A)},
             {"books.csv": NOON + number, "A.log": NOON})
    (headline,) = page.texts("h1")
    assert words in headline if words else "no row now" not in headline, headline


@pytest.mark.parametrize("is_back", [True, False])
def test_a_row_of_a_catalogue_that_a_button_left_out(page, is_back):
    drop(page, {"books.csv": b"RFID,title,place\nE0040100000000A1,Emma,A\nnone,Map,A\n",
                "A.log": field(UID_A)})
    pressed(page, "Leave out books.csv")
    if is_back:
        page.press("#back")
    drop(page, {"books.csv": f"{HEAD},number\n{EMMA},1\n".encode()})
    page.until("h1", f"but 1 item of a table that was here has no {A_ROW}.")


def test_a_catalogue_that_was_taken_for_a_table_of_places(page):
    """Since it has columns place and log, and that of the UIDs another name."""
    drop(page, {"books.csv": b"rfid,title,place,log\nE0040100000000A1,Emma,A,x\n"
                             b"E0040100000000C3,Kim,A,x\n", "A.log": field(UID_A)})
    drop(page, {"books 2.csv": f"{HEAD},log\n{EMMA},x\n".encode()})
    pressed(page, "Leave out books.csv")
    page.until("h1", "1 item of a table that was here has no row now: E0040100000000C3 \u00B7 Kim")


def test_a_row_that_was_here_again_is_asked_about_again(page):
    drop(page, COMPLETE, {name: NOON for name in COMPLETE})
    for hours, table in enumerate([ALL_OF_A, BOTH, ALL_OF_A, BOTH], 1):
        drop(page, {"books.csv": table}, {"books.csv": NOON + hours * HOUR})
        assert look(page) != "yes"
        if table == BOTH:
            pressed(page, "It isn't expected any more")
            until_green(page)


def test_a_catalogue_with_all_rows_asks_nothing(page):
    """Nor does one in another order, or of which a tag that was without a row is heard."""
    drop(page, COMPLETE, {name: NOON for name in COMPLETE})
    drop(page, {"week 2.csv": books((UID_B, ",B"), (UID_A, ",A"))}, {"week 2.csv": NOON + HOUR})
    until_green(page)
    drop(page, {"week 3.csv": books((UID_B, ",B"))}, {"week 3.csv": NOON + 2 * HOUR})
    assert page.texts("h1") == ["1 item not in the catalogue; A.log is of no place. Together the "
                                "logs have the one expected item."]


def test_another_collection_that_is_older_is_asked_about(page):
    """Whatever the names in it, unless all was closed before."""
    drop(page, COMPLETE, {name: NOON for name in COMPLETE})
    files = {"south.csv": books((UID_C, ",K")), "K.log": field(UID_C)}
    for is_asked in True, False:
        drop(page, files, {name: NOON - HOUR for name in files})
        assert look(page) == ("read" if is_asked else "yes")
        page.press("#close")


# What is opened of noon, or an hour before that, or pressed, until a newer file of a name is gone;
# and the name of the file an hour older that then comes with a collection of its own.
MORE = books((UID_A, ",A"), (UID_B, ",B"), (UID_C, ",A"))
EMPTY, BEFORE = {**COMPLETE, "A.log": field()}, NOON - HOUR
GONE = {
    "replaced by an older catalogue": ("books.csv", {**COMPLETE, "books.csv": MORE},
                                       ({"books.csv": BOTH}, {"books.csv": BEFORE})),
    "a log, by a button": ("A.log", ({**EMPTY, "A.txt": field(UID_A)}, {"A.txt": BEFORE}),
                           "Leave out A.log"),
    "a copy, by a button": ("A.log", (COMPLETE, {"A.log": BEFORE}), {"A (1).log": field()},
                            "Only A.log"),
    "a catalogue, by a button": ("books.csv", ({**COMPLETE, "books (1).csv": MORE},
                                               {"books.csv": BEFORE}), "Leave out books (1).csv"),
    "called like a copy": ("books.csv", {"books (1).csv": MORE, **{
        name: COMPLETE[name] for name in ("A.log", "B.log")}}),
    "before the example": ("A.log", EMPTY, "Show an example"),
    "not whole": ("A.log", (COMPLETE, {"A.log": BEFORE}), {"A.log.part": b"vicinity-log 3"}),
    "not read": ("A.log", (COMPLETE, {"A.log": BEFORE}), {"A.csv": b"time,rssi\n"})}


@pytest.mark.parametrize("how", GONE)
def test_a_newer_file_that_was_here_is_not_forgotten(page, how):
    """However it went, and whatever was said of it."""
    name, *steps = GONE[how]
    for step in [*steps, (COMPLETE, {name: BEFORE})]:
        if isinstance(step, str):
            pressed(page, step)
        else:
            files, dates = step if isinstance(step, tuple) else (step, {})
            drop(page, files, {**{file: NOON for file in files}, **dates})
    one = {"A.log": "the log of A"}.get(name, name)
    if name == "books.csv":
        pressed(page, "It isn't expected any more")
    assert page.texts("h1") == [
        f"All 2 expected items are in some log; but {one} is older than one that was here."]
    assert look(page) == "read" and page.texts(".doubts button") == ["The older one counts"]
    pressed(page, "The older one counts")
    until_green(page)


def pressed(page, words):
    """Presses the button with these words, and waits until all is judged."""
    has = "return [...document.querySelectorAll('button')].map((it) => it.textContent)"
    page.wait(lambda: any(it.startswith(words) for it in page.run(has)), lambda: words)
    page.press("button", [it.startswith(words) for it in page.run(has)].index(True))
    page.wait(lambda: page.run(IS_DONE), page.said)


# What is opened, so many hours after noon, or pressed, until files are here that are older than
# one that isn't here any more; and until none are.
TABLES = {"books.csv": BOTH, "places.csv": b"place,log\nA,A\nB,B\n"}
NO_PLACES = books((UID_A, ""), (UID_B, ""), (UID_C, ""), head="uid,title")
OLD_A, NEW_A, OLD_B = {"A.log": field(UID_A)}, {"A.log": field()}, {"B.log": field(UID_B)}
CUT = b"vicinity-survey 1 A.log\npossible\n"
OLDER_THAN_GONE = {
    "numbers behind dots": (
        ({**TABLES, "A.20261130": field(), "B.20261130": field(UID_B)}, 1),
        ({**TABLES, "A.20261129": field(UID_A), "B.20261129": field(UID_B)}, 0)),
    "numbers, by a button": (({**TABLES, **OLD_B, "A.20261130": field()}, 1),
                             ({"A.20261129": field(UID_A)}, 0), "Leave out A.20261130"),
    "a copy that isn't read": ((COMPLETE, 0), ({"A (1).log": b" " + field()}, 1)),
    "of no name that is here": ((COMPLETE, 0), ({"recount.log": b" " + field()}, 1)),
    "a copy, by its button": (({"books.csv": BOTH, "A (1).log": field(), **OLD_B}, 1),
                              "Leave out A (1).log", (OLD_A, 0)),
    "by Back": ((COMPLETE, 0), (NEW_A, 1), "Back"),
    "before Back": ((COMPLETE, 0), (NEW_A, 1), "Back", (COMPLETE, 0)),
    "one between the two": (({**COMPLETE, **NEW_A}, 2), (OLD_A, 0), "The older one counts",
                            ({"A.log": field(asks=2)}, 1), (OLD_A, 0)),
    "answered of logs alone": (
        ({**NEW_A, **OLD_B}, 1), (OLD_A, 0), "The older one counts",
        ({"books.csv": b"PK\x03\x04"}, 0), "Leave out books.csv", (NEW_A, 1), (OLD_A, 0),
        ({"books.csv": BOTH}, 0)),
    "a catalogue that wasn't whole": (({"books.csv": BOTH}, 0), ({**OLD_A, **OLD_B}, 2),
                                      ({"books.csv.crdownload": b"uid"}, 1), "Back"),
    "torn, with bytes of no text": (
        (COMPLETE, 0), ({"A.log": b"vicinity-log 3\n\x00\xe9"}, 1), "Back"),
    "interchanged": (
        ({"books.csv": BOTH, "A.log": field(), "B.log": field(UID_A)}, 3),
        ({"A.log": field(UID_B)}, 1), "Count each as the other"),
    "what was refused": (
        ({"list.csv": b"uid,place\nE0040100000000A1,A\nno UID,B\n", "x1.log": field(),
          "x2.log": field(UID_B)}, 3), (COMPLETE, 0)),
    "of a reader that calls all its logs alike": (
        ({"books.csv": BOTH, "scan.log": field()}, 3), ({"scan.log": field(UID_B)}, 4),
        "Count it as B", (OLD_A, 0)),
    "of its own name, that counts as another place's, which one of nearly that name doesn't": (
        ({"books.csv": BOTH, "A.log": field(UID_A)}, 2), ({"A (1).log": field()}, 1),
        "Only A.log", ({"A (1).log": field(UID_B)}, 0), "Count it as B"),
    "the only file, by its button": (
        ({"list.csv": b"uid,place\nE0040100000000A1,A\nno UID,B\n"}, 3), "Leave out list.csv",
        (COMPLETE, 0)),
    "left out before another collection": (
        ({"north.csv": books((UID_C, ",N")), "N.log": field(UID_C), "A.log": field()}, 3),
        "Leave out A.log", (COMPLETE, 0)),
    "surveys in UTF-16, of which no name is known": (
        (COMPLETE, 0), ({"n.surveys": CUT.decode().encode("utf-16")}, 1), "Back"),
    "surveys that were cut off behind the first name": (
        (COMPLETE, 0), ({"A.log": field(UID_A, asks=2)}, 2), ({"n.surveys": CUT}, 1), "Back"),
    "what never had a catalogue": (
        ({"places.csv": b"place,log\nA,x1.log\nB,x2.log\n", "x1.log": field(),
          "x2.log": field(UID_B)}, 3), (COMPLETE, 0)),
    "of the place that another name is of now": (
        ({"books.csv": books((UID_A, ",A")), "p.csv": b"place,log\nA,r.log\n",
          "r.log": field()}, 3),
        ({"books.csv": BOTH, "p.csv": b"place,log\nA,old.log\nB,r.log\n",
          "r.log": field(UID_B)}, 4),
        ({"old.log": field(UID_A)}, 0)),
    "of a place that has another name now, and whose log's name others have": (
        ({"books.csv": BOTH, "p.csv": b"place,log\nA,r1.log\nB,r2.log\n", "r1.log": field(),
          "r2.log": field(UID_B)}, 3),
        ({"books.csv": books((UID_A, ",Hall"), (UID_B, ",B"), (UID_C, ",C")),
          "p.csv": b"place,log\nHall,old.log\nB,r1.log\nC,r2.log\n",
          "r1.log": field(UID_B), "r2.log": field(UID_C)}, 4),
        ({"old.log": field(UID_A)}, 0)),
    "of a place that has another name now, beside a newer one that it may be a copy of": (
        ({"books.csv": BOTH, "p.csv": b"place,log\nA,B (1).log\nB,B.log\n",
          "B (1).log": field(), **OLD_B}, 1),
        ({"books.csv": books((UID_A, ",Hall"), (UID_B, ",B")), "B.log": field(UID_B, asks=2),
          "p.csv": b"place,log\nHall,B (1).log\nB,B.log\n"}, 2),
        ({"B (1).log": field(UID_A)}, 0)),
    "of a place whose log has another name now": (
        ({"books.csv": BOTH, **OLD_B}, 0),
        ({"p.csv": b"place,log\nA,r.log\nB,B.log\n", "r.log": field()}, 3),
        ({"p.csv": b"place,log\nA,x.log\nB,B.log\n", "x.log": field(UID_A)}, 4),
        "Leave out r.log"),
    "one of two logs of a place": (
        ({"books.csv": MORE, "p.csv": b"place,log\nA,r1.log\nA,r2.log\nB,B\n",
          "r1.log": field(UID_A)}, 0), ({**OLD_B, "r2.log": field()}, 1),
        ({"r2.log": field(UID_C)}, 2)),
    "not read, with the name of the catalogue": (
        ({"A.csv": books((UID_A, ""), (UID_B, ""), head="uid,title")}, 3),
        ({"old.log": field(UID_A, UID_B)}, 0), ({"A.log.part": b"vicinity-log 3"}, 2), "Back"),
    "a table that wasn't read, with the name of a log": (
        ({"list.csv": BOTH}, 0), ({**OLD_A, **OLD_B}, 2), ({"A.csv.part": b"uid"}, 1), "Back"),
    "of a name that is another's by a table that came later": (
        ({"r1.log": field(UID_A)}, 3), ({"r1.log": field(UID_B)}, 4),
        ({"r2.log": field(UID_A, UID_C)}, 1),
        ({"books.csv": MORE, "p.csv": b"place,log\nA,r2.log\nB,r1.log\n"}, 0)),
    "of another place by all that was heard": (
        ({"books.csv": MORE, "A.log": field(UID_A, UID_C)}, 1), ({"B.log": field(UID_A)}, 2),
        ({"B.log": field(UID_B)}, 3)),
    "never judged, of another place by what was heard": (
        ({"B.log": field(UID_A)}, 2),
        ({"books.csv": MORE, "A.log": field(UID_A, UID_C), "B.log": field(UID_B)}, 1),
        ({"B.log": field(UID_B, asks=2)}, 3)),
    "refused, of another place by what was heard": (
        ({"books.csv": MORE, "A.log": field(UID_A, UID_C), "B.log": field(UID_B),
          "B.txt": field(UID_A)}, 1), "Leave out B.txt", ({"A.log": field(UID_A, UID_C)}, 0)),
    "of two places, as tables of places came": (
        ({"books.csv": BOTH, "p.csv": b"place,log\nA,r1.log\n", "r1.log": field()}, 3),
        ({"p.csv": b"place,log\nA,r3.log\nB,r1.log\n"}, 4), ({"r3.log": field(UID_A)}, 2),
        ({"r1.log": field(UID_B)}, 4)),
    "surveys that were cut off, called like a log": (
        (COMPLETE, 0), ({"A.txt": CUT}, 1), ({"A.log": field(UID_A, asks=2)}, 2)),
    "never judged, of a place that another log is of, too": (
        ({"A.log": field()}, 3), ({"A.log": field(UID_A)}, 4),
        ({"r2.log": field(UID_C), **OLD_B}, 2),
        ({"books.csv": MORE, "p.csv": b"place,log\nA,A.log\nA,r2.log\nB,B.log\n"}, 0)),
    "surveys of which an inner one was cut off": (
        (COMPLETE, 0), ({"n.surveys": CUT + CUT + b"answers 0\nend 3 1234\n"}, 1), "Back"),
    "surveys behind a byte order mark, called like a log": (
        (COMPLETE, 0), ({"A.surveys": b"\xef\xbb\xbf" + CUT}, 1),
        ({"A.log": field(UID_A, asks=2)}, 2)),
    "a survey that isn't as long as its end says": (
        (COMPLETE, 0), ({"n.surveys": CUT + b"answers 0\nend 9 1234\n"}, 1), "Back",
        ({"A.log": field(UID_A, asks=2)}, 2)),
    "of no place, and its name is of one now": (
        ({"books.csv": BOTH, "scan.log": field()}, 3),
        ({"p.csv": b"place,log\nA,old.log\nB,scan.log\n", "scan.log": field(UID_B)}, 4),
        ({"old.log": field(UID_A)}, 0)),
    "refused, of a place of which its name isn't any more": (
        ({"list.csv": b"uid,place\nE0040100000000A1,A\nno UID,B\n", "r1.log": field(),
          "p.csv": b"place,log\nA,r1.log\n"}, 3),
        ({"books.csv": BOTH, "p.csv": b"place,log\nA,old.log\nB,r1.log\n",
          "r1.log": field(UID_B)}, 4),
        ({"old.log": field(UID_A)}, 0)),
    "not whole, of a reader that calls all its logs alike": (
        ({"books.csv": BOTH, **OLD_A}, 0), ({"r2.log.part": field()}, 1),
        ({"r2.log": field(UID_B)}, 2), "Count it as B"),
    "of a place where an item without a fixed one was then": (
        ({"books.csv": books((UID_A, ",any"), (UID_B, ",A"), (UID_C, ",B")),
          "A.log": field(UID_A, UID_B)}, 1), ({"B.log": field(UID_A, UID_C)}, 2),
        ({"B.log": field(UID_C)}, 3)),
    "judged by itself, where nothing answered": (
        ({"r1.log": field()}, 2), ({"r1.log": field(UID_B)}, 3),
        ({"r0.log": field(UID_A)}, 1),
        ({"books.csv": BOTH, "p.csv": b"place,log\nA,r0.log\nB,r1.log\n"}, 1)),
    "refused, and counted again": ((COMPLETE, 0), ({"A.log": field(UID_A) + b"S\n"}, 1),
                                   ({"A.log": field(UID_A, asks=2)}, 2)),
    "by itself at first": ((OLD_B, 0), (OLD_A, 1), ({"A.log": field(UID_A, asks=2)}, 2),
                           ({"books.csv": BOTH}, 3)),
    "a table of a reader, with the name of a log": (
        ({"books.csv": BOTH}, 2), ({**OLD_A, **OLD_B}, 0),
        ({"A.csv": b"EPC,RSSI\nE0040100000000B2,-50\n"}, 1), "Back"),
    "no log, with the name by which one counts": (
        ({"books.csv": BOTH, **OLD_B}, 0), ({"scan.log": field(UID_A)}, 0), "Count it as A",
        ({"A.log": b"timeout\n"}, 1), "Back"),
    "a catalogue in UTF-16 without its mark": (
        (COMPLETE, 0), ({"export.csv": BOTH.decode().encode("utf-16-le")}, 1)),
    "a table of places, of which none is here": (
        (COMPLETE, 0), ({"places.csv": b"place,log\nA,A\nB,B\nC,C\n"}, 1), "Back"),
    "that is nearly a table of places": (
        ({**COMPLETE, "places.csv": b"place,log\nA,A\nB,B\n"}, 0),
        ({"places dec.csv": b"place,logs\nA,A\nB,B\nB,C\n"}, 1)),
    "of no place, where there are none any more": (
        ({"books.csv": books(*[(uid, ",any") for uid in (UID_A, UID_B, UID_C)]),
          "scan.log": field(UID_A), "B.log": field(UID_B, UID_C)}, 0),
        ({"scan.log": field()}, 1), ({"scan.log": field(UID_A, asks=2)}, 2),
        ({"books.csv": NO_PLACES}, 3)),
    "without places, of a tag that no log has now": (
        ({"books.csv": NO_PLACES, "scan.log": field(UID_A), "B.log": field(UID_B, UID_C)}, 0),
        ({"scan.log": field(0xE0040100000000D4)}, 1), ({"scan.log": field(UID_A, asks=2)}, 2))}
NO_OLDER = {
    "counted again": ((COMPLETE, 0), (NEW_A, 1), ({"A.log": field(UID_A, asks=2)}, 2), (OLD_A, 3)),
    "opened once more": ((COMPLETE, 0), (COMPLETE, 0)),
    "whole then": ((COMPLETE, 0), ({"books.csv.part": b"uid"}, 1), ({"books.csv": BOTH}, 2)),
    "by another name": (({"books.csv": BOTH, **OLD_B}, 0), ({"shelf.log": field(UID_A)}, 1),
                        "Leave out shelf.log", (OLD_A, 1)),
    "as a copy": ((COMPLETE, 0), ({"B.log": field(UID_B, asks=2)}, 1),
                  ({"A (1).log": field(UID_A, asks=2)}, 2), "Only A (1).log"),
    "not whole at first": ((COMPLETE, 0), ({"A.log.part": b"vicinity-log 3"}, 1), (OLD_A, 2)),
    "no log at all": ((COMPLETE, 0), ({"photo.jpg": b"\xff\xd8\xff\xe0\x00"}, 1))}


@pytest.mark.parametrize("how", [*OLDER_THAN_GONE, *NO_OLDER])
def test_what_is_older_than_a_file_that_is_gone_is_asked_about(page, how):
    """Whatever its name, unless one of its name that is as new is here, or itself."""
    for step in {**OLDER_THAN_GONE, **NO_OLDER}[how]:
        if isinstance(step, str):
            pressed(page, step)
        else:
            drop(page, step[0], {name: NOON + step[1] * HOUR for name in step[0]})
    (headline,) = page.texts("h1")
    assert (look(page) == "yes") == (how in NO_OLDER)
    assert bool(re.match(r"All \d expected items are in some log; but .* older than (one|those) "
                         "that w", headline)) == (how in OLDER_THAN_GONE)


def test_many_logs_that_are_counted_again_do_not_freeze_the_page(page):
    """Each that leaves is compared with those of its place, though many others are older."""
    uids = {f"P{number}": 0xE004010000000000 + number for number in range(800)}
    rows = "".join(f"{uid:016X},{place}\n" for place, uid in uids.items())
    with page.never_frozen():
        for asks, places in (1, [*uids]), (2, [*uids][::2]), (3, [*uids][::4]):
            logs = {f"{place}.log": field(uids[place], asks=asks) for place in places}
            tables = {"books.csv": f"uid,place\n{rows}".encode()} if asks == 1 else {}
            dates = {name: NOON + asks * HOUR + at for at, name in enumerate(logs)}
            drop(page, {**tables, **logs}, {"books.csv": NOON, **dates})
            assert page.texts("h1") == ["All 800 expected items are here, and no others."]


def test_an_answer_answers_one_question(page):
    """Of the same two logs another one may be asked; and of the same logs twice the same."""
    drop(page, {"books.csv": MORE, "A.log": field(UID_A, UID_C), "B.log": field(UID_B, UID_A)},
         {"books.csv": NOON, "A.log": NOON - DAY, "B.log": NOON})
    for words, left in ("It is of this count", 1), ("The fields overlap", 0):
        pressed(page, words)
        assert len(page.texts(".doubts li")) == left and (look(page) == "yes") == (not left)
    page.press("#close")
    drop(page, {"books.csv": books((UID_A, ",A"), (UID_C, ",B"), (UID_B, ",C")),
                "A.log": field(UID_A, UID_B), "B.log": field(UID_A, UID_C),
                "C.log": field(UID_B, UID_C)})
    number = len(page.texts(".doubts li"))
    assert number > 1
    for left in reversed(range(number)):
        assert look(page) != "yes"
        pressed(page, "The fields overlap")
        assert len(page.texts(".doubts li")) == left


def test_an_answer_is_kept_while_logs_of_other_places_join(page):
    """Of yesterday's log, and of one that a table of places names, until that place is counted."""
    drop(page, {"books.csv": MORE, "p.csv": b"place,log\nA,r1.log\nA,r2.log\nB,B\n",
                "r1.log": field(UID_A, UID_C)}, {name: NOON - DAY for name in (
                    "books.csv", "p.csv", "r1.log")})
    pressed(page, "It isn't of this count")
    drop(page, OLD_B, {"B.log": NOON})
    pressed(page, "It is of this count")
    until_green(page)
    drop(page, {"B.log": field(UID_B, asks=2)}, {"B.log": NOON + HOUR / 60})
    until_green(page)
    drop(page, {"r1.log": field(UID_A, UID_C, asks=2)}, {"r1.log": NOON + HOUR})
    assert page.texts(".doubts button") == ["It isn't of this count"]


def test_what_is_missing_may_be_in_any_field_of_its_place(page):
    """One of which nothing is sure is enough."""
    drop(page, {"books.csv": books((UID_A, ",A"), (UID_C, ",A")), "r2.log": field(UID_A),
                "p.csv": b"place,log\nA,r1.log\nA,r2.log\n", "r1.log": field()})
    page.until("h1", "1 item may be missing (Kim, of A); nothing answered in A.")
    page.press("#close")
    drop(page, {"books.csv": books((UID_A, ",A"), (UID_C, ",A")), "r2.log": field(UID_A),
                "p.csv": b"place,log\nA,r1.log\nA,r2.log\n",
                "r1.log": field(UID_A, is_heard=False)})
    assert page.texts("h1")[0].startswith("1 item missing if the reader of A heard to the end")


def test_what_a_list_has_may_be_there(page):
    drop(page, {"books.csv": MORE, **OLD_B, "A.log": field(UID_A, listed=[UID_A, UID_C])})
    page.until("h1", "1 item may be missing (Kim, of A); the list in A has what its log rules out.")


def test_what_is_missing_may_be_in_a_log_that_is_named(page):
    drop(page, {"books.csv": MORE, **OLD_B, "r1.log": field(UID_A),
                "p.csv": b"place,log\nA,r1.log\nA,r2.log\nB,B\n"})
    page.until("h1", "1 item may be missing (Kim, of A); no log r2.log of A, as p.csv names.")


def test_what_is_missing_may_be_in_a_newer_log_that_counted_for_another_place(page):
    table = {"p.csv": b"place,log\nB,scan.log\n"}
    drop(page, {"books.csv": MORE, **table, "scan.log": field(UID_A, UID_C)},
         {"books.csv": NOON, "p.csv": NOON, "scan.log": NOON + HOUR})
    drop(page, {"p.csv": b"place,log\nA,scan.log\n", "scan.log": field(UID_A)},
         {"p.csv": NOON, "scan.log": NOON})
    assert page.texts("h1")[0].startswith("1 item may be missing (Kim, of A)")


# A third column of a table of places, in which a catalogue's may be read.
THIRD = ["reader|UID", '"serial, uid"', "reader; uid", "uid\u00A0"]


@pytest.mark.parametrize("head", THIRD)
def test_a_table_of_places_is_one_by_its_own_separator(page, head):
    table = f"place,log,{head}\nA,r1.log,x\nA,r2.log,y\nB,B.log,z\n".encode()
    drop(page, {"places.csv": table, **OLD_B, "books.csv": MORE, "r1.log": field(UID_A, UID_C)})
    page.until("h1", "No log r2.log of A, as places.csv names.")


def test_a_quoted_heading_is_one(page):
    """Whatever separators are in it."""
    table = b'note;"a,uid,b";place;log\n;;A;r1.log\n;;A;r2.log\n;;B;B.log\n'
    drop(page, {"places.csv": table, **OLD_B, "books.csv": MORE, "r1.log": field(UID_A, UID_C)})
    page.until("h1", "No log r2.log of A, as places.csv names.")


def test_a_catalogue_may_have_a_long_first_line(page):
    heads = ",".join(f"{'a column that nobody looks at':40}{number}" for number in range(150))
    rows = "".join(f"{',' * 150}E0040100000000{tag}\n" for tag in ("A1", "B2"))
    drop(page, {"export.txt": f"{heads},uid\n{rows}".encode(), "A.log": field(UID_A, UID_B)})
    until_green(page)
    drop(page, {"june.csv": f"{heads},uid\n{rows}{',' * 150}E0040100000000C3\n".encode()})
    page.until("h1", "1 item missing")


def test_an_item_without_a_fixed_place_is_called_by_its_title(page):
    drop(page, {"books.csv": books((UID_A, ",A"), (UID_C, ",any")), "A.log": field(UID_A)})
    page.until("h1", "1 item missing (Kim).")


def test_of_a_place_that_has_no_log_now_a_newer_one_was_here(page):
    """Though nothing isn't counted for that: of the name of another's, and of none that is here."""
    asked = "in some log; no log of C; the log of A is older than one that was here."
    both, old = books((UID_A, ",A"), (UID_B, ",A")), field(UID_A, UID_B)
    table, other = b"place,log\nA,A.log\nC,C.log\n", b"place,log\nC,A.log\nA,C.log\n"
    drop(page, {"books.csv": both, "p.csv": other, "A.log": field(UID_A)},
         {"books.csv": NOON, "p.csv": NOON, "A.log": NOON + HOUR})
    drop(page, {"p.csv": table, "A.log": old}, {"p.csv": NOON, "A.log": NOON})
    page.until("h1", f"All 2 expected items are {asked}")
    page.press("#close")
    drop(page, {"books.csv": both, "p.csv": table, "A.log": old},
         {name: NOON for name in ("books.csv", "p.csv", "A.log")})
    page.until("h1", "All 2 expected items are here; no log of C.")
    drop(page, {"C.log": field(UID_A)}, {"C.log": NOON + HOUR})
    page.press("#back")
    page.until("h1", f"All 2 expected items are {asked}")


def test_what_is_opened_once_more_is_still_here(page):
    """Nothing else is older than it was, though one of its name is."""
    for files in {**COMPLETE, "A (1).log": field()}, {"A (1).log": field()}:
        drop(page, files, {name: NOON + HOUR * (name == "A (1).log") for name in files})
        assert len(page.texts(".doubts b")) == 2 and "any more" not in page.texts(".doubts")[0]


def test_logs_that_stay_are_asked_about_as_soon_as_a_newer_one_leaves(page):
    """Here `A (1).log`, which may be an older count, and has all that its own list has."""
    whole = field(UID_A, listed=[UID_A])
    drop(page, {"A (1).log": whole, "A.log": field(UID_A, listed=[UID_A, UID_B])},
         {"A (1).log": NOON + HOUR, "A.log": NOON + 3 * HOUR})
    page.wait(lambda: page.texts("#logs .sign") == ["\u2713", "!"] and page.texts(".signed"))
    drop(page, {"A.log": whole}, {"A.log": NOON})
    page.wait(lambda: page.texts("#logs .sign") == ["i", "i"])
    drop(page, {"B.log": whole, "C.log": whole})
    page.wait(lambda: page.texts("#logs .sign") == ["i", "i", "\u2713", "\u2713"])
    assert not page.texts(".signed")


def test_a_place_is_called_by_its_name_whatever_signs_it_has(page):
    drop(page, {"books.csv": books((UID_A, ",R$&"), (UID_B, ",B")), "B.log": field(UID_B),
                "R$&.log": field(UID_A, is_heard=False)})
    page.until("h1", "no others, if the reader of R$& heard to the end.")


def test_all_readers_are_named_on_which_an_answer_rests(page):
    """On paper nobody can look up who the others were."""
    files = {f"{place}.log": field(0xE004010000000000 + at, is_heard=False)
             for at, place in enumerate("ABCDEFGH")}
    rows = [f"E0040100000000{at:02X},{place}\n" for at, place in enumerate("ABCDEFGH")]
    drop(page, {"books.csv": f"uid,place\n{''.join(rows)}".encode(), **files})
    assert page.texts("h1") == ["All 8 expected items are here, and no others, if the readers of "
                                "A, B, C, D, E, F, G and H heard to the end."]


def test_that_both_count_is_said_of_these_files(page):
    drop(page, {"books.csv": books((UID_A, ""), (UID_B, ""), head="uid,title"),
                "A.log": field(UID_A), "A (1).log": field(UID_B)})
    pressed(page, "Both: they are of different fields")
    assert "ay whether" not in page.texts("h1")[0]
    drop(page, {"A (1).log": field(UID_B, asks=2)})
    assert "ay whether A.log or A (1).log counts" in page.texts("h1")[0]


def test_a_log_may_be_called_like_the_catalogue(page):
    """Each has its own sum, and the button leaves the log out alone."""
    log = field(UID_A)
    page.run(DROP, [[name, b64encode(text).decode(), date] for name, text, date in (
        ("A.csv", BOTH, NOON), ("A.csv", log, NOON - DAY), ("B.log", field(UID_B), NOON))])
    page.until("h1", "the log of A is more than 12 hours older")
    drawn = page.run("return document.body.textContent")
    assert all(sha256(text).hexdigest() in drawn for text in (BOTH, log))
    pressed(page, "Leave out A.csv")
    page.until("h1", "no log of A")


def test_a_newer_catalogue_that_a_button_left_out(page):
    """Is asked about at once; a table that was none isn't."""
    drop(page, {**COMPLETE, "books (1).csv": MORE}, {"books.csv": BEFORE, "books (1).csv": NOON})
    pressed(page, "Leave out books (1).csv")
    assert page.texts("h1")[0].endswith("books.csv is older than one that was here.")
    pressed(page, "The older one counts")
    pressed(page, "It isn't expected any more")
    until_green(page)
    drop(page, {"notes.csv": b"a,b\n"}, {"notes.csv": NOON + HOUR})
    until_green(page)


def test_who_opens_the_newer_file_once_more_takes_the_answer_back(page):
    """It is what the page names as the other answer."""
    drop(page, COMPLETE, {name: NOON for name in COMPLETE})
    for number in range(2):
        drop(page, {"B.log": field(UID_B, asks=2)}, {"B.log": BEFORE})
        assert page.texts("h1") == IS_OLDER
        pressed(page, "The older one counts")
        until_green(page)
        drop(page, {"B.log": field(*[UID_B][number:])}, {"B.log": NOON})
    page.until("h1", "1 item may be missing (Walden, of B); nothing answered in B.")


@pytest.mark.parametrize("is_at_once", [True, False])
def test_a_date_behind_a_dot_may_be_an_ending(page, is_at_once):
    """The library takes both for logs of one place, and so does the page, if there is one of that
    name: then the one is an older file of the other's name. Otherwise these are two places."""
    table, logs = books((UID_A, ",A")), {"A.20261129": field(UID_A), "A.20261130": field()}
    dates = {"books.csv": NOON, "A.20261129": BEFORE, "A.20261130": NOON}
    if is_at_once:
        drop(page, {"books.csv": table, **logs}, dates)
        pressed(page, "Leave out A.20261130")
    else:
        for name in reversed(logs):
            drop(page, {"books.csv": table, name: logs[name]}, dates)
    assert look(page) == "read" and page.texts("h1")[0].endswith(
        "but the log of A is older than one that was here.")
    drop(page, {**logs, "A.20261130": field(UID_B), "books.csv": books(
        (UID_A, ",A.20261129"), (UID_B, ",A.20261130"))}, dates)
    # it was never judged, or as the log of another place
    pressed(page, "The older one counts")
    until_green(page)


def test_a_file_that_becomes_whole_takes_its_own_place(page):
    """Beside one that isn't there is no answer, and without it none either."""
    for files in COMPLETE, {"A.log.part": b"vicinity-log 3"}, {"A.log": field(UID_A)}:
        drop(page, files)
        assert look(page) == ("refused" if "A.log.part" in files else "yes")
    assert page.texts(".note") == ["A.log.part was replaced by what you opened under the same "
                                   "name."]


def test_a_file_that_could_not_be_read_is_opened_again(page):
    """By its name and date it is the same: another one may be older than it."""
    drop(page, COMPLETE, {name: NOON - HOUR for name in COMPLETE})
    page.run("window.whole = File.prototype.arrayBuffer;"
             "File.prototype.arrayBuffer = () => Promise.reject(new Error())")
    drop(page, {"B.log": field(UID_B)}, {"B.log": NOON})
    page.until(".error", "B.log: it can't be read")
    page.run("File.prototype.arrayBuffer = window.whole")
    for date, asks in (NOON, False), (NOON - 1, True):
        drop(page, {"B.log": field(UID_B)}, {"B.log": date})
        page.until("h1", "but books.csv and the logs of A and B are older" if asks else
                   "All 2 expected items are here, and no others.")


def test_an_older_table_of_places_is_asked_about(page):
    files = {**COMPLETE, "p.csv": b"place,log\nA,A\nB,B\n"}
    drop(page, files, {name: NOON for name in files})
    drop(page, {"q.csv": files["p.csv"]}, {"q.csv": NOON - HOUR})
    assert look(page) == "yes"
    drop(page, {"q.csv": b"place,log\nA,A.log\nB,B\n"}, {"q.csv": NOON - HOUR})
    assert page.texts("h1")[0].endswith("but q.csv is older than one that was here.")


def test_a_new_log_beside_an_older_text_of_surveys(page, program, tmp_path):
    """Either may be left out, with its date. Without the newer one the older one is asked about."""
    for name, uid in ("A.log", UID_A), ("B.log", UID_B):
        (tmp_path / name).write_bytes(field(uid))
    survey = program.run("survey", "A.log", "B.log", cwd=tmp_path).out
    drop(page, {"books.csv": BOTH, "north.surveys": survey}, {"north.surveys": NOON - 30 * DAY})
    until_green(page)
    drop(page, {"A.log": field()}, {"A.log": NOON})
    page.until(".error", "another log has that name")
    first, second = page.texts("#told button")
    assert re.match("Leave out north.surveys, the older file, of 19 Oct 2026, ", first)
    assert re.match("Leave out A.log of 18 Nov 2026, ", second)
    page.press("#told button", 1)
    page.until("h1", "in some log; but the logs of A and B are older than those that were here.")
    assert look(page) == "read" and re.search("A.log is of 19 Oct .*, A.log was of 18 Nov",
                                              page.texts(".doubts b")[0])
    page.press("#back")
    page.until(".error", "another log has that name")
    page.press("#told button")
    page.until("h1", "no log of B; nothing answered in A.")


def test_logs_in_texts_of_surveys_are_compared_by_their_names(page, program, tmp_path):
    """Whatever these are, and each of them, if a text of that name couldn't be read."""
    def surveyed(logs):
        for name, log in logs.items():
            (tmp_path / name).write_bytes(log)
        return program.run("survey", *logs, cwd=tmp_path).out

    both = {"A.log": field(UID_A), "B.log": field(UID_B)}
    drop(page, {"books.csv": BOTH, "n.surveys": surveyed(both)},
         {"books.csv": NOON, "n.surveys": NOON})
    drop(page, {"n.surveys.part": b"vicinity-survey 1"}, {"n.surveys.part": NOON + HOUR})
    pressed(page, "Back")
    page.until("h1", "but the logs of A and B are older than those that were here.")
    page.press("#close")
    table, name = books((UID_A, ""), (UID_B, ""), head="uid,title"), "vicinity-survey A.log"
    for hours, uids in (0, [UID_A, UID_B]), (1, [UID_A]):
        drop(page, {"books.csv": table, "n.surveys": surveyed({name: field(*uids)})},
             {"books.csv": NOON + 2 * HOUR, "n.surveys": NOON + hours * HOUR})
    page.until("h1", "1 item missing (Walden).")
    pressed(page, "Back")
    page.until("h1", f"but the log of {name} is older than one that was here.")


def test_each_log_in_a_text_of_surveys_may_be_newer(page, program, tmp_path):
    """Also one that was refused, and without places one in which nothing was heard."""
    def opened(name, hours, **logs):
        for log, text in logs.items():
            (tmp_path / f"{log}.log").write_bytes(text)
        text = program.run("survey", *[f"{log}.log" for log in logs], cwd=tmp_path).out
        drop(page, {name: text if name == "x.surveys" else logs["B"]}, {name: NOON + hours * HOUR})

    for catalogue, early in (BOTH, b"vicinity-log 3\nX\n"), (
            books((UID_A, ""), (UID_B, ""), head="uid,title"), field()):
        drop(page, {"books.csv": catalogue}, {"books.csv": NOON})
        opened("x.surveys", 1, A=field(UID_A), B=early)
        opened("x.surveys", 2, A=field(UID_A))
        opened("B.log", 0, B=field(UID_B))
        assert re.match("All 2 .* but the log of B(.log)? is older than one", page.texts("h1")[0])
        page.press("#close")
    drop(page, {"books.csv": BOTH}, {"books.csv": NOON})
    opened("x.surveys", 1, A=field(UID_A), B=field(UID_B))
    drop(page, {"x.surveys": b"bash: vicinity: command not found\n"}, {"x.surveys": NOON + DAY})
    page.press("#back")
    page.until("h1", "but the logs of A and B are older than those that were here.")


# How files may be called, of which one is another count of the other.
COPIES = ["A (1)", "A (copy)", "A (another copy)", "A (3rd copy)", "A [2]", "A - Kopie",
          "Copie de A", "Kopia av A", "A - C\u00f3pia (2)", "A copy 2"]


@pytest.mark.parametrize("name", COPIES)
def test_systems_call_copies_in_their_languages(page, name):
    drop(page, {**COMPLETE, f"{name}.log": field()},
         {**{name: NOON for name in COMPLETE}, f"{name}.log": NOON + HOUR})
    assert f"ay whether A.log or {name}.log counts" in page.texts("h1")[0]
    assert [re.sub(" of 18 .*", "", it) for it in page.texts(".doubts button")] == [
        "Only A.log", f"Only {name}.log"]


def test_a_later_count_by_the_name_of_a_copy_is_not_forgotten(page):
    drop(page, COMPLETE, {name: NOON for name in COMPLETE})
    drop(page, {"A (1).log": field()}, {"A (1).log": NOON + HOUR})
    drop(page, COMPLETE, {name: NOON for name in COMPLETE})
    assert page.texts("h1") == ["All 2 expected items are in some log; but the logs of A and B are "
                                "older than those that were here."]
    (words,) = page.texts(".doubts b")
    assert re.search(r"A.log is of 18 Nov .*, A \(1\).log was of 18 Nov ", words)


def test_a_copy_that_is_left_out_is_of_no_place(page):
    """So all that is older is asked about."""
    drop(page, COMPLETE, {name: NOON for name in COMPLETE})
    drop(page, {"A (1).log": field(UID_A, asks=2)}, {"A (1).log": NOON + HOUR})
    pressed(page, "Only A.log")
    page.until("h1", "but the logs of A and B are older than ")


def test_a_number_behind_a_dot_is_no_ending(page):
    """Two such logs are of two places, or one of them is the older one, which is asked."""
    logs = {"R.1": field(UID_A), "R.2": field(UID_B)}
    drop(page, {"books.csv": books((UID_A, ",R.1"), (UID_B, ",R.2")), "R.1": logs["R.1"]})
    drop(page, {"R.2": logs["R.2"]})
    until_green(page)
    drop(page, {"books.csv": books((UID_A, ",R"), (UID_B, ",R")), **logs})
    page.until(".error", "another log has that name, or is of a place by the same name")
    assert len(page.texts("#told button")) == 2


@pytest.mark.parametrize("name", ["the example", "pasted text"])
def test_a_file_may_be_called_like_what_has_no_name(page, name):
    drop(page, {name: field(UID_A)})
    drop(page, {"B.log": field(UID_B)})
    page.until("#each", "2 logs")
    drop(page, {"books.csv": books((UID_A, f",{name}"), (UID_B, ",B"))})
    until_green(page)


# A log by itself.

def test_an_older_log_by_itself_is_asked_about(page, tmp_path):
    """In the list of several, on paper and where it is saved, too."""
    drop(page, {"A.log": log_of("I1 S UA")}, {"A.log": NOON})
    page.until("h1", "No tag answered, but 1 is listed.")
    drop(page, {"A.log": field(UID_A, listed=[UID_A])}, {"A.log": NOON - HOUR})
    asked = ("The one listed tag is here, and no other. But A.log is older than one that was "
             "here.")
    page.until("h1", asked)
    assert look(page) == "read" and not page.texts(".light.yes")
    assert "Nothing to do" not in page.said()
    page.media("print")
    page.run(PRINTS)
    assert page.texts(".asked") == [
        "This is no result yet: answer what is asked below, in vicinity.html, with the files."]
    assert "Counted on" not in page.said()
    page.media()
    made = saved(page, tmp_path / "asked")
    drop(page, {"B.log": field(UID_B, listed=[UID_B])}, {"B.log": NOON})
    page.until("#each", "can show: 1 of 2.")
    assert page.texts("#logs button")[0].startswith(f"i\nA.log {asked}".replace("\n", ""))
    page.press("#logs button")
    (words,) = page.texts(".doubts b")
    page.press(".doubts button")
    page.until(".banner.yes h1", "The one listed tag is here, and no other.")
    said = f"{words} It was answered here: 'The older one counts'."
    assert said in page.texts(".note") and "can show: 2 of 2." in page.texts("#each")[0]
    page.media("print")
    assert said in page.texts(".signed")[0]
    page.media()
    answered = saved(page, tmp_path / "answered")
    page.press("#back")
    page.until("h1", asked)
    page.open(made)
    assert look(page) == "read" and page.texts(".doubts b") == [words]
    assert page.texts(".doubts button") == []
    page.open(answered)
    assert look(page) == "yes" and page.texts(".note") == [said]


# Which logs count, and where.

@pytest.mark.parametrize(("name", "text"), [
    ("A.log", b" " + field(UID_A)), ("A.log", b"\x00\x01\x02"), ("A.csv", b"time,rssi\n1,2\n"),
    ("A.xlsx", b"PK\x03\x04")])
def test_a_new_count_that_can_not_be_read_is_not_green(page, name, text):
    """The old log of its place doesn't count in its stead."""
    drop(page, COMPLETE)
    assert look(page) == "yes"
    drop(page, {name: text})
    assert look(page) in ("no", "refused")
    drop(page, {"B.log": field(UID_B)})
    assert look(page) in ("no", "refused")


def test_a_table_that_was_left_out_stays_said(page):
    drop(page, {**COMPLETE, "places.csv": b"place,log\nA,shelf-a\nB,shelf-b\n"})
    page.press(".doubts button", page.texts(".doubts button").index("Leave out places.csv"))
    page.until(".banner.yes h1", "All 2 expected items are here, and no others.")
    drop(page, {"B.log": field(UID_B)})
    assert look(page) == "yes" and "places.csv was left out." in page.texts(".note")


def test_a_copy_of_a_log_that_is_not_here(page):
    """It can be counted as that one."""
    drop(page, {"books.csv": BOTH, "A.log": field(UID_A), "B (1).log": field(UID_B)})
    assert look(page) == "no"
    assert page.texts("h1") == ["1 item heard in a log of no place; no log of B, unless B (1).log "
                                "is it."]
    assert page.texts(".lights dt")[1] == UNSETTLED
    assert page.texts(".lights dd")[1] == "2 of 2 items"
    assert page.texts(".doubts button") == ["Count it as B", "Leave out B (1).log"]
    page.press(".doubts button")
    page.until(".banner.yes h1", "All 2 expected items are here, and no others.")
    assert page.texts(".note") == ["B (1).log counts as B.log."]
    assert "B (B (1).log): 1 tag" in page.run("return document.querySelector('.logs').textContent")


def test_what_was_heard_beside_belongs_to_no_place(page):
    """A tag that is of no item was heard, too: it isn't said that all belongs there."""
    table = books((UID_A, ",A"), (UID_B, ",B"))
    drop(page, {"books.csv": table, "A.log": field(UID_A), "cart.log": field(UID_B, UID_C)})
    assert "all that was heard in cart.log" not in page.texts(".doubts")[0]
    assert page.texts(".doubts button") == ["Leave out cart.log"]


@pytest.mark.parametrize("place", ["B/1", "B\\1"])
def test_a_place_after_which_no_file_can_be_named(page, place):
    """No button would count a log as its, but a table of places can."""
    table = books((UID_A, ",A"), (UID_B, f",{place}"))
    drop(page, {"books.csv": table, "A.log": field(UID_A), "cart.log": field(UID_B)})
    assert page.texts(".doubts button") == ["Leave out cart.log"]
    assert f"No file can be called {place}: write a table of places" in page.texts(".doubts")[0]
    drop(page, {"p.csv": f"place,log\nA,A\n{place},cart\n".encode()})
    assert look(page) == "yes"


# Tables of places that name three logs of two places.
NAMED = {"plain": b"place,log\nA,a1\nA,a2\nB,b.log\n",
         "quoted": b'\xef\xbb\xbfnote;"log"; Place \r\n"x;""y"""; a1.log ;A\r\n\r\n;a2;"A"\r\n;b;B',
         "in UTF-16": "\ufefflog\tplace\na1\tA\na2\tA\nb\tB\n".encode("utf-16")}
OF_TWO = {"books.csv": BOTH, "a1.log": field(UID_A), "b.log": field(UID_B)}


@pytest.mark.parametrize("how", NAMED)
def test_a_log_that_a_table_of_places_names_is_not_here(page, file, tmp_path, how):
    """Its place has another one, so the library counts that as counted."""
    drop(page, {**OF_TWO, "places.csv": NAMED[how]})
    assert page.texts("h1") == ["No log a2 of A, as places.csv names. Together the logs have all 2 "
                                "expected items."]
    assert look(page) == "read" and not page.texts(".light.yes")
    words = "places.csv names a2 for A, which isn't here: what may be there isn't counted."
    assert page.texts(".doubts b") == [words]
    page.press(".doubts button")
    until_green(page)
    said = f"{words} It was answered here: 'It isn't of this count'."
    assert page.texts(".note") == [said]
    page.open(saved(page, tmp_path / "saved"))
    assert page.texts(".note") == [said] and look(page) == "yes"
    page.open(file)
    drop(page, {**OF_TWO, "places.csv": NAMED[how], "a2.log": field(UID_C)})
    assert "a2 of A" not in page.said()


def test_both_tables_may_have_one_name(page):
    """That of places is the one that names logs."""
    files = {**OF_TWO, "places.csv": NAMED["plain"]}
    page.run(DROP, [[name.replace("places", "books"), b64encode(text).decode(), NOON]
                    for name, text in files.items()])
    page.wait(lambda: page.run(IS_DONE), page.said)
    assert page.texts(".doubts b") == ["books.csv names a2 for A, which isn't here: what may be "
                                       "there isn't counted."]


@pytest.mark.parametrize("is_named_later", [False, True])
def test_a_log_that_a_button_left_out_and_a_table_names(page, is_named_later):
    """As if it had never been here: its field isn't counted."""
    places, old = {"places.csv": NAMED["plain"]}, {"a2.log": field(UID_C)}
    first, later = ({}, places) if is_named_later else (places, {})
    names = {"books.csv": BOTH, "A.log": field(UID_A), "B.log": field(UID_B)}
    drop(page, {**(names if is_named_later else OF_TWO), **old, **first},
         {} if is_named_later else {"a2.log": NOON - DAY})
    pressed(page, "Leave out a2.log")
    if later:
        until_green(page)
        drop(page, {"places.csv": b"place,log\nA,A\nA,a2\nB,B\n"})
    assert page.texts("h1")[0].startswith("No log a2 of A, as places.csv names.")
    assert look(page) == "read" and "a2.log was left out." in page.texts(".note")
    pressed(page, "It isn't of this count")
    until_green(page)


def test_with_a_table_of_places_no_name_is_that_of_a_place(page):
    """Counted as A, it would be of no place: the table names another log."""
    drop(page, {"books.csv": BOTH, "p.csv": b"place,log\nA,one\nB,two\n",
                "A (1).log": field(UID_A), "two.log": field(UID_B)})
    assert not any("Count it as" in it for it in page.texts(".doubts button"))
    assert "p.csv doesn't name it: correct its column log." in page.texts(".doubts")[0]


def test_a_table_of_places_names_the_files_that_were_opened(page):
    """Also where somebody had said before of which places these are."""
    drop(page, {"books.csv": BOTH, "one.log": field(UID_A), "two.log": field(UID_B)})
    for _ in "AB":
        page.press(".doubts button")
        page.until(".note", "counts as")
    page.until(".banner.yes h1", "All 2 expected items are here, and no others.")
    assert page.texts(".note") == ["one.log counts as A.log.", "two.log counts as B.log."]
    drop(page, {"p.csv": b"place,log\nA,one.log\nB,two.log\n"})
    assert look(page) == "yes" and not any("counts as" in it for it in page.texts(".note"))


def test_a_log_that_counts_as_another_twice_is_called_by_its_file(page):
    """Not by the name that it had in between, which no file has."""
    files = {"books.csv": FOUR_BOOKS, "one.log": field(*OF_B), "A.log": field(*OF_A)}
    drop(page, files)
    page.press(".doubts button")
    page.until(".banner.yes h1", "All 4 expected items are here")
    drop(page, {"books.csv": "\n".join(["uid,title,place", *(
        f"{uid},{more[:-1]}{'AB'[more[-1] == 'A']}" for uid, more in FOUR.items()), ""]).encode()})
    page.press(".doubts button")
    page.until(".banner.yes h1", "All 4 expected items are here")
    assert [it for it in page.texts(".note") if "counts as" in it] == [
        "one.log counts as A.log.", "A.log counts as B.log."]
    drawn = page.run("return document.querySelector('.logs').textContent")
    assert "A (one.log): 2 tags" in drawn and "B (A.log): 2 tags" in drawn


def test_logs_that_are_called_otherwise_than_their_places(page):
    """What was heard in one says whose it may be, if all of it belongs to one place without a log.
    It counts as that place's when somebody has said so."""
    table = books((UID_A, ",A"), (UID_B, ",B"), (UID_C, ",B"))
    logs = {"shelf-a.log": field(UID_A), "shelf-b.log": field(UID_B, UID_C)}
    drop(page, {"books.csv": table, **logs})
    assert page.texts("h1") == ["3 items heard in logs of no place; no log of A, unless "
                                "shelf-a.log is it; no log of B, unless shelf-b.log is it."]
    assert page.texts(".doubts button") == ["Count it as A", "Leave out shelf-a.log",
                                            "Count it as B", "Leave out shelf-b.log"]
    page.press(".doubts button")
    page.until("h1", "2 items heard in a log of no place; no log of B, unless shelf-b.log is it.")
    assert look(page) == "no"
    page.press(".doubts button")
    page.until(".banner.yes h1", "All 3 expected items are here, and no others.")
    drop(page, {"books.csv": table, **logs, "shelf-a.log": field(UID_A, UID_B)})
    assert page.texts(".doubts button")[:2] == ["Count it as B", "Leave out shelf-b.log"]
    assert "shelf-a.log is of no place" in page.texts("h1")[0]


FOUR = {f"E004010000000{number:03}": f"Title {number},{'AB'[number % 2]}" for number in range(4)}
FOUR_BOOKS = "\n".join(["uid,title,place", *map(",".join, FOUR.items()), ""]).encode()
OF_A, OF_B = ([int(uid, 16) for uid in [*FOUR][at::2]] for at in (0, 1))


def test_logs_that_may_have_been_interchanged(page):
    """All that each has is of the other's place: it is asked, and no item is known to be in a wrong
    place before that. No green comes of it but by the answer."""
    files = {"books.csv": FOUR_BOOKS, "A.log": field(*OF_B), "B.log": field(*OF_A)}
    drop(page, files)
    assert page.texts("h1") == ["4 items may be in the wrong place; say whether the logs of A and "
                                "B were interchanged."]
    assert page.texts(".doubts b") == ["All 2 tags in the log of A belong to B, and all in its log "
                                       "to A."]
    assert look(page) == "no" and "take to" not in page.said()
    page.press(".doubts button", 1)
    page.until("h1", "4 items in the wrong place.")
    assert "take to B" in page.said()
    assert page.texts(".note")[0].endswith("It was answered here: 'No: each is of its place'.")
    page.press("#back")
    page.until("h1", "interchanged")
    page.press(".doubts button")
    page.until(".banner.yes h1", "All 4 expected items are here, and no others.")
    assert page.texts(".note") == ["A.log counts as B.log.", "B.log counts as A.log."]
    drawn = page.run("return document.querySelector('.logs').textContent")
    assert "A (B.log): 2 tags" in drawn and "B (A.log): 2 tags" in drawn
    drop(page, {"books.csv": FOUR_BOOKS})
    assert "A.log counts as B.log." in page.texts(".note")


def test_a_log_that_may_be_that_of_another_place(page):
    """Of one tag it isn't asked: an item may stand alone on a wrong shelf."""
    drop(page, {"books.csv": FOUR_BOOKS, "A.log": field(*OF_B), "B.log": field()})
    assert page.texts("h1")[0].startswith("2 items may be missing and 2 may be in the wrong "
                                          "place; say whether the log of A is that of B;")
    assert page.texts(".doubts button") == ["No: it is of its place"]
    drop(page, {"A.log": field(OF_B[0])})
    assert "1 in the wrong place" in page.texts("h1")[0]


def test_one_file_under_two_names(page):
    """One of the two shelves wasn't counted. Empty shelves may have the same log."""
    drop(page, {"books.csv": FOUR_BOOKS, "A.log": field(*OF_A), "B.log": field(*OF_A)})
    assert page.texts("h1") == ["2 items may be missing; A.log and B.log are one file."]
    assert "missing: look for it" not in page.said()
    assert page.texts(".doubts b") == ["A.log and B.log are the same, byte for byte."]
    assert page.texts(".doubts button") == ["Leave out A.log", "Leave out B.log"]
    page.press(".doubts button", 1)
    page.until("h1", "2 items not counted; no log of B.")
    drop(page, {"A.log": field(), "B.log": field()})
    assert "one file" not in page.said()


def test_a_log_in_which_all_is_of_another_shelf(page):
    """As a copy with another comment: perhaps the shelf wasn't counted."""
    for of in OF_A, OF_B:
        drop(page, {"books.csv": FOUR_BOOKS, "A.log": field(*of),
                    "B.log": field(*of) + b"# another\n"})
        assert page.texts("h1") == ["2 items may be missing; 2 tags are in both A and B."]
        assert "missing: look for it" not in page.said()


def test_two_fields_that_overlap(page):
    """Once somebody has said so, which stands there, it can be green; not with another log."""
    files = {"books.csv": FOUR_BOOKS, "A.log": field(*OF_A), "B.log": field(*OF_B, OF_A[0])}
    drop(page, files)
    assert page.texts("h1") == [
        "All 4 expected items are in some log; but 1 tag is in both A and B."]
    assert page.texts(".doubts button") == ["The fields overlap"]
    page.press(".doubts button")
    page.until(".banner.yes h1", "All 4 expected items are here, and no others.")
    (said,) = page.texts(".note")
    assert "proved by A too" in said or "proved by B too" in said
    assert said.endswith("It was answered here: 'The fields overlap'.")
    drop(page, {"A.log": field(*OF_A, asks=2)})
    assert look(page) == "read" and page.texts(".doubts button") == ["The fields overlap"]


@pytest.mark.parametrize("twice", [False, True])
def test_many_logs_that_are_called_otherwise_than_their_places(page, twice):
    """One button is enough; two logs that may be of one place aren't among them."""
    uids = {f"S{number}": 0xE004010000000000 + number for number in range(6)}
    table = "\n".join(["uid,place", *(f"{uid:016X},{place}" for place, uid in uids.items()), ""])
    scans = {f"scan_{place}.log": field(uid) for place, uid in uids.items()}
    more = {"again.log": field(uids["S0"], asks=2)} if twice else {}
    drop(page, {"books.csv": table.encode(), **scans, **more})
    number = 5 if twice else 6
    said = f"Count these {number} logs as those of their tags' places"
    assert page.texts(".doubts button")[0] == said
    assert f"unless {number} of other names are theirs" in page.texts("h1")[0]
    assert f"scan_S{6 - number}.log to S{6 - number}" in page.texts(".doubts b")[0]
    page.press(".doubts button")
    page.until(".note", f"{number} logs count by other names than their own")
    assert (look(page) == "yes") != twice
    drawn = page.run("return document.querySelector('.logs').textContent")
    assert "S5 (scan_S5.log): 1 tag" in drawn


@pytest.mark.parametrize("doubt", ["a day older", "hidden", "of a new name"])
def test_one_button_for_many_logs_makes_nothing_green_that_is_doubtful(page, doubt):
    """It says whose logs they are, and nothing of when they were written, or what they hid."""
    uids = {f"S{number}": 0xE004010000000000 + number for number in range(6)}
    table = "\n".join(["uid,place", *(f"{uid:016X},{place}" for place, uid in uids.items()), ""])
    files = {f"scan_{place}.log": field(uid) for place, uid in uids.items()}
    if doubt == "hidden":
        uid = uids["S3"]
        files["scan_S3.log"] = text_of(["vicinity-log 3", biglog.ask((0, 0)), biglog.reply(uid)])
    if doubt == "of a new name":
        files["other.log"] = field(UID_A)
    files["books.csv"] = table.encode()
    late = DAY if doubt == "a day older" else 0
    drop(page, files, {name: NOON - late * (name == "scan_S3.log") for name in files})
    page.press(".doubts button")
    page.until(".note", "6 logs count by other names than their own")
    assert look(page) in ("read", "no")
    words = {"a day older": "the log of S3 is more than 12 hours older",
             "hidden": "if stronger replies hid them",
             "of a new name": "other.log is of no place"}[doubt]
    assert words in page.texts("h1")[0]


def test_a_table_of_places_that_names_no_log(page):
    """Without it each log is of the place after which it is named."""
    drop(page, {**COMPLETE, "places.csv": b"place,log\nA,shelf-a\nB,shelf-b\n"})
    assert page.texts("h1") == ["2 items heard in logs of no place; no log of A and B, as "
                                "places.csv names none of these logs; A.log and B.log are of no "
                                "place."]
    assert "places.csv names none of these logs" in page.texts(".doubts")[0]
    assert page.texts(".doubts button") == ["Leave out places.csv"]
    page.press(".doubts button")
    page.until(".banner.yes h1", "All 2 expected items are here, and no others.")


def test_a_table_of_places_that_names_another_log(page):
    """The place is known, and has no other name: the table has."""
    drop(page, {**COMPLETE, "places.csv": b"place,log\nA,A.log\nB,Bb.log\n"})
    (said,) = [it for it in page.texts(".doubts li") if "of no place" in it]
    assert "places.csv doesn't name it: correct its column log." in said
    assert "has no place of that name" not in page.said()


def test_many_logs_of_no_place_are_left_out_at_once(page):
    strangers = {f"x{number}.log": field(UID_C) for number in range(5)}
    drop(page, {**COMPLETE, **strangers})
    assert "The catalogue has no place of these names." in page.texts(".doubts")[0]
    assert page.texts(".doubts button") == ["Leave out these 5 logs"]
    page.press(".doubts button")
    page.until(".banner.yes h1", "All 2 expected items are here, and no others.")
    assert page.texts(".note") == ["x0.log, x1.log, x2.log, x3.log and x4.log were left out."]
    drop(page, {"x0.log": strangers["x0.log"]})
    page.until("h1", "x0.log is of no place")
    assert page.texts(".note")[-1] == "x1.log, x2.log, x3.log and x4.log were left out."


def test_a_catalogue_that_names_no_place(page):
    drop(page, {"books.csv": books((UID_A, ",any")), "A.log": field(UID_A)})
    assert "The catalogue names no place: delete its column place, or fill it." in (
        page.texts(".doubts")[0])
    assert page.texts(".doubts button") == []


def test_no_log_of_another_shelf_is_left_out(page):
    """Of the shelf B there is no other log. What two prove is named."""
    drop(page, {"books.csv": books((UID_A, ",A"), (UID_C, ",A"), (UID_B, ",B")),
                "places.csv": b"place,log\nA,A\nA,old\nB,B\n", "A.log": field(UID_A, UID_C),
                "old.log": field(UID_A, UID_C, UID_B), "B.log": field(UID_B)})
    buttons = page.texts(".doubts button")
    assert buttons == ["The fields overlap", "Leave out A.log", "Leave out old.log"]
    assert look(page) == "read" and page.texts(".doubts b") == [
        "The tag that B proves is proved by old.log too: Walden.",
        "All 3 tags that old.log proves are proved by A.log and B too: Emma, Kim and Walden."]


def test_where_all_are_here_and_a_log_is_not_finished(page):
    drop(page, {**COMPLETE, "B.log": log_of("I16 S2 RB S9")})
    page.until("h1", "All 2 expected items are here; count B again, as others may be there.")
    assert look(page) == "no" and page.texts(".lights dt") == [
        "Counted to the end", "In place"]


def test_an_item_without_a_tag_is_looked_for(page):
    drop(page, {**COMPLETE, "books.csv": BOTH + b"none,Kim,A\n"})
    assert page.texts(".steps") == ["Look for 1 item by eye, as said below."]


def test_what_is_away_is_not_in_place(page):
    """Where nothing is expected, no light is lit for it."""
    drop(page, {"books.csv": b"uid,title,place,away\nE0040100000000A1,Emma,A,away\n",
                "A.log": field()})
    assert page.texts("h1") == ["Nothing is expected here, and no tag answered: that doesn't show "
                                "that the reader worked."]
    assert look(page) == "read" and "In place" not in page.texts(".light.yes dt")
    assert dict(zip(page.texts(".lights dt"), page.texts(".lights dd")))["In place"] == (
        "0 of 1 item, 1 away")


# What is saved and printed.

def test_each_row_on_paper_names_its_shelf(page):
    """A table may run onto a second sheet; on the screen the shelf stands above its rows. What is
    here stands on paper, too."""
    rows = [(0xE004010000000000 + number, f",{'AB'[number % 2]}") for number in range(60)]
    table = "\n".join(["uid,place", *(f"{uid:016X}{more}" for uid, more in rows), ""]).encode()
    drop(page, {"books.csv": table, "A.log": field(), "B.log": field()})
    page.until("h1", "60 items may be missing")
    assert page.run("return document.querySelector('.items td.paper').checkVisibility()") is False
    page.media("print")
    page.run(PRINTS)
    assert page.texts(".items td.paper") == ["A"] * 30 + ["B"] * 30


def test_what_is_here_stands_on_paper(page):
    drop(page, COMPLETE)
    assert "Walden" not in page.said()
    page.media("print")
    page.run(PRINTS)
    assert "Walden\tE0040100000000B2" in page.said()


CELLS = """
return [...document.querySelectorAll("td[data-head='may be in']")].map((it) => it.textContent);
"""


def saved(page, folder, then=""):
    """The file that the page saves, though something is done at once then."""
    folder.mkdir(exist_ok=True)
    page.driver.execute_cdp_cmd("Browser.setDownloadBehavior",
                                {"behavior": "allow", "downloadPath": str(folder)})
    page.run(f"document.getElementById('save').click();{then}")
    page.wait(lambda: [it for it in folder.glob("*.html") if it.stat().st_size])
    return next(folder.iterdir())


def test_what_is_saved_is_the_object_and_its_logs(page, program, tmp_path):
    """It is drawn as it was, and its logs can be opened."""
    files = {it.name: it.read_bytes() for it in sorted((TOP / "examples/collection").iterdir())}
    drop(page, files)
    heading = page.texts("h1")
    made = saved(page, tmp_path / "saved")
    told, plain = drawn_in(made.read_text())
    wanted = json.loads(program.run("json-collection", *files, cwd=TOP / "examples/collection").out)
    assert {key: told[key] for key in wanted if key != "logs"} == {
        key: value for key, value in wanted.items() if key != "logs"}
    for log, one in zip(told["logs"], wanted["logs"], strict=True):
        assert {key: log[key] for key in one} == one
        assert log["object"]["text"].encode() == files[log["name"]]
        assert log["sha256"] == sha256(files[log["name"]]).hexdigest()
    assert heading[0] in plain and [it["file"] for it in told["files"]] == [
        "catalogue.csv", "places.csv"]
    page.open(made)
    assert page.texts("h1") == heading
    page.press(".logs summary")
    page.until(".logs h3", "Not finished")


@pytest.mark.parametrize("wait", [0, 20, 60])
def test_what_is_saved_is_what_was_shown(page, tmp_path, wait):
    """With all its logs, whatever is shown before they are there."""
    head, rest = field(UID_C, asks=2).split(b"\n", 1)
    large = b"# a comment that takes time\n" * 40_000
    drop(page, COMPLETE)
    logs = {name: head + b"\n" + large + rest for name in ("A.log", "B.log")}
    drop(page, {"other.csv": books((UID_C, ",A")), **logs},
         {name: NOON for name in ("other.csv", *logs)})
    heading = page.texts("h1")
    back = f"setTimeout(() => document.getElementById('back').click(), {wait});"
    made = saved(page, tmp_path / "saved", back)
    told, _ = drawn_in(made.read_text())
    assert [log["object"]["sha256"] for log in told["logs"]] == [
        sha256(logs["A.log"]).hexdigest()] * 2
    # which has a row of the other catalogue
    page.until(".banner.read", "books.csv")
    page.open(made)
    assert page.texts("h1") == heading


def test_a_log_is_saved_though_another_is_opened(page, tmp_path):
    large = b"# a comment that takes time\n" * 60_000
    drop(page, {"A.log": field(UID_A) + large})
    opens = ("const data = new DataTransfer(); data.items.add(new File(['x'], 'B.log')); document"
             ".dispatchEvent(new DragEvent('drop', { dataTransfer: data, bubbles: true }));")
    made = saved(page, tmp_path / "saved", opens)
    assert re.fullmatch(r"A \d{4}-\d\d-\d\d \d{4}\.html", made.name)
    assert drawn_in(made.read_text())[0]["certain"]["count"] == 1


def test_a_list_of_logs_is_saved_once(page, tmp_path):
    """As where each item may be in each of many fields; then it is drawn as it was."""
    uids = [f"E004{number:012X}" for number in range(500)]
    drop(page, {"books.csv": "\n".join(["uid", *uids, ""]).encode(),
                **{f"field {number}.log": log_of("I16 S S") for number in range(100)}})
    unfold = "for (const it of document.querySelectorAll('#told > details')) it.open = true"
    page.run(unfold)
    page.until("td", "field 0.log")
    heading, may_be = page.texts("h1"), "\n".join(page.run(CELLS))
    made = saved(page, tmp_path / "saved")
    told, _ = drawn_in(made.read_text())
    assert told["lists"] == [list(range(100))] and len(json.dumps(told["items"])) < 200 * len(uids)
    page.open(made)
    page.run(unfold)
    page.until("td", "field 0.log")
    assert page.texts("h1") == heading and "\n".join(page.run(CELLS)) == may_be
    assert may_be.startswith("field 0.log, field 1.log, field 2.log or 97 more")


def test_the_sheets_say_of_what_they_are(page):
    """From the second one on: the first has it as its headline."""
    drop(page, COMPLETE)
    page.run(PRINTS)
    rules = page.run("return [...document.styleSheets[0].cssRules].map((it) => it.cssText)")
    said = "All 2 expected items are here, and no others."
    assert page.driver.title == f"books.csv: {said}"
    assert f'@top-left {{ content: "books.csv: {said}"' in rules[-1]
    page.press("#close")
    drop(page, {'a "b".log': log_of("I1 S")})
    page.run(PRINTS)
    rules = page.run("return [...document.styleSheets[0].cssRules].map((it) => it.cssText)")
    assert any("@page :first { @top-left { content: none; } }" in rule for rule in rules)
    assert sum("@top-left" in rule for rule in rules) == 2
    assert 'a \\"b\\".log' in rules[-1]


STOPS = """
return [...document.querySelectorAll("button, input, textarea, summary, [tabindex]")]
  .filter((it) => it.tabIndex >= 0 && it.checkVisibility({ contentVisibilityAuto: true })).length;
"""


def test_a_keyboard_has_few_stops_among_many_logs(page):
    uids = [0xE004010000000000 + number for number in range(60)]
    rows = [f"{uid:016X},Title,{number}" for number, uid in enumerate(uids)]
    drop(page, {"books.csv": "\n".join(["uid,title,place", *rows, ""]).encode(), **{
        f"{number}.log": log_of("I16 S12") for number in range(60)}})
    page.until("h1", "count all logs again.")
    assert len(page.texts(".logs summary")) == 60
    assert page.run(STOPS) <= 30


# What leaves the page.

def until_green(page):
    page.until(".banner.yes h1", "expected items are here, and no others.")


@pytest.mark.parametrize("text", [field(UID_B)[1:], field(UID_B)])
def test_a_new_count_of_a_file_that_counts_otherwise(page, text):
    """By the name that it was opened with: it is named, and counts no more."""
    drop(page, {"books.csv": BOTH, "A.log": field(UID_A), "B (1).log": field(UID_B)})
    page.press(".doubts button")
    until_green(page)
    drop(page, {"B (1).log": text})
    assert look(page) in ("no", "refused")
    assert ("B (1).log, counted as B.log, was replaced by what you opened under the same name."
            in page.texts(".note"))


def test_a_copy_of_a_log_is_older_than_one_that_was_closed(page):
    drop(page, {"B.log": field(UID_B, UID_C)}, {"B.log": NOON + HOUR})
    drop(page, {"books.csv": BOTH, "A.log": field(UID_A), "B (1).log": field(UID_B)},
         {"books.csv": NOON, "A.log": NOON, "B (1).log": NOON - 2 * HOUR})
    closed = "What was here (B.log) was closed."
    assert page.texts(".note") == [closed]
    page.press(".doubts button")
    page.until("h1", "the logs of A and B are older than those that were here.")
    assert closed in page.texts(".note") and look(page) == "read"


def test_of_two_logs_that_were_interchanged_both_are_replaced(page):
    drop(page, {"books.csv": FOUR_BOOKS, "A.log": field(*OF_B), "B.log": field(*OF_A)})
    page.press(".doubts button")
    until_green(page)
    drop(page, {"A.log": field(*OF_A)})
    page.until("h1", "2 items not counted; no log of B.")
    assert ("A.log, counted as B.log, and B.log, counted as A.log, were replaced by what you "
            "opened under the same name." in " ".join(page.texts(".note")))


@pytest.fixture
def surveys(program, tmp_path):
    """The texts of surveys of two logs, each of its own."""
    (tmp_path / "A.log").write_bytes(field(UID_A))
    (tmp_path / "B.log").write_bytes(field(UID_B))
    return [program.run("survey", name, cwd=tmp_path).out for name in ("A.log", "B.log")]


def test_each_text_of_surveys_is_as_old_as_its_file(page, surveys):
    files = {"books.csv": BOTH, "s1.txt": surveys[0], "s2.txt": surveys[1]}
    drop(page, files, {"books.csv": NOON, "s1.txt": NOON - 3 * DAY, "s2.txt": NOON})
    assert page.texts("h1") == [
        "All 2 expected items are in some log; but the log of A is more than 12 hours older."]


def test_an_older_text_of_surveys_is_asked_about(page, program, surveys, tmp_path):
    (tmp_path / "B.log").write_bytes(field(UID_B, asks=2))
    other = program.run("survey", "B.log", cwd=tmp_path).out
    files = {"books.csv": BOTH, "s1.txt": surveys[0], "s2.txt": surveys[1]}
    drop(page, files, {"books.csv": NOON, "s1.txt": NOON - 3 * HOUR, "s2.txt": NOON})
    assert look(page) == "yes"
    drop(page, {"s2.txt": other}, {"s2.txt": NOON - 2 * HOUR})
    assert page.texts("h1") == IS_OLDER


def test_of_which_places_the_logs_in_a_text_of_surveys_were(page, surveys):
    """Here others have their names, and that of A is older."""
    drop(page, {"books.csv": BOTH, "n.surveys": b"".join(surveys)},
         {"books.csv": NOON, "n.surveys": NOON})
    until_green(page)
    drop(page, {"books.csv": books((UID_A, ",A"), (UID_B, ",B"), (UID_C, ",C")),
                "p.csv": b"place,log\nA,old.log\nB,A.log\nC,B.log\n", "A.log": field(UID_B),
                "B.log": field(UID_C), "old.log": field(UID_A)},
         {**{name: NOON + HOUR for name in ("books.csv", "p.csv", "A.log", "B.log")},
          "old.log": NOON - HOUR})
    assert page.texts("h1") == [
        "All 3 expected items are in some log; but the log of A is older than one that was here."]


def test_an_answer_is_about_a_text_of_surveys(page, program, surveys, tmp_path):
    drop(page, {"books.csv": BOTH, "s1.txt": surveys[0], "B.log": field(UID_B)},
         {"books.csv": NOON, "s1.txt": NOON - 3 * DAY, "B.log": NOON})
    page.press(".doubts button")
    until_green(page)
    (tmp_path / "A.log").write_bytes(field(UID_A, asks=2))
    other = program.run("survey", "A.log", cwd=tmp_path).out
    drop(page, {"s1.txt": other}, {"s1.txt": NOON - 3 * DAY})
    assert page.texts("h1") == [
        "All 2 expected items are in some log; but the log of A is more than 12 hours older."]


def test_a_new_count_of_a_log_that_a_text_of_surveys_has(page, surveys):
    drop(page, {"books.csv": BOTH, "s1.txt": surveys[0], "s2.txt": surveys[1]})
    drop(page, {"B.log": field(UID_B)[1:]})
    assert look(page) in ("no", "refused")


def test_what_is_no_log_stays_until_it_is_left_out(page):
    drop(page, {"A.log": field(UID_A), "C.log": field(UID_C)[1:]})
    drop(page, {"B.log": field(UID_B)})
    assert len(page.texts("#logs button")) == 3
    drop(page, {"books.csv": BOTH})
    assert look(page) in ("no", "refused") and "C.log" in page.said()
    page.press("#told button", page.texts("#told button").index("Leave out C.log"))
    until_green(page)
    assert page.texts(".note") == ["C.log was left out."]


def test_what_can_not_be_read_can_be_left_out(page):
    """Whatever its name: the whole file may have another one."""
    part = "Unconfirmed 1234.crdownload"
    drop(page, {**COMPLETE, part: b"uid"}, {name: NOON for name in (*COMPLETE, part)})
    assert look(page) == "refused"
    pressed(page, f"Leave out {part}")
    until_green(page)
    assert f"{part} was left out." in page.texts(".note")


def test_a_log_in_a_text_of_surveys_counts_as_no_other(page, surveys):
    """Though it may have been interchanged with one that has a file of its own."""
    drop(page, {"books.csv": books((UID_B, ",A"), (UID_A, ",B")), "A.log": field(UID_A),
                "n.surveys": surveys[1]})
    assert "Were the two interchanged?" in page.texts(".doubts")[0]
    assert not [it for it in page.texts(".doubts button") if it.startswith("Count each")]


@pytest.mark.parametrize("files", [
    {}, {"A.log": log_of("I1 RA I1 RB")},
    {"A.log": field(UID_A, listed=[UID_A]), "B.log": log_of("I1 RA I1 RB")}])
def test_nothing_is_signed_that_is_no_result(page, files):
    """The example, a count that can't be used, and a list of logs that has one."""
    if files:
        drop(page, files)
    else:
        page.press("#example")
        page.until("h1", "1 item missing")
    page.media("print")
    page.run(PRINTS)
    assert "Counted on" not in page.said()


def test_beside_what_can_not_be_read_there_is_no_answer(page):
    drop(page, {"A.log": field(UID_A), "C.log.part": field(UID_C)})
    drop(page, {"B.log": field(UID_B)})
    drop(page, {"books.csv": BOTH})
    page.until(".error", "C.log.part: by its name it is still being downloaded or written")
    drop(page, COMPLETE)
    assert look(page) == "yes"


def test_a_log_by_itself_is_not_replaced_without_a_word(page):
    drop(page, {"A.log": field(UID_A)})
    drop(page, {"A.txt": field(UID_A, asks=2)})
    assert page.texts(".note") == ["A.log was replaced by what you opened under the same name."]


def test_what_was_closed_stays_said(page, tmp_path):
    """Of logs that had no catalogue, also where others of it came."""
    drop(page, {"A.log": field(UID_A)})
    drop(page, {"X.log": field(UID_C)})
    drop(page, COMPLETE)
    said = "What was here (A.log and X.log) was closed."
    assert page.texts(".note") == [said] and look(page) == "yes"
    drop(page, {"B.log": field(UID_B, asks=2)})
    assert said in page.texts(".note") and said in "\n".join(page.run(
        "return [...document.querySelectorAll('.signed')].map((it) => it.textContent)"))
    made = saved(page, tmp_path / "saved")
    page.open(made)
    assert page.texts(".note") == [said]


def test_what_is_pasted_stays_until_there_is_a_catalogue(page, tmp_path):
    drop(page, {"A.log": field(UID_A)})
    page.run(PASTE, field(UID_C).decode())
    page.until("#each", "2 logs")
    drop(page, {"B.log": field(UID_B)})
    page.until("#each", "3 logs")
    drop(page, {"books.csv": BOTH})
    said = "pasted text was left out: what is pasted has no name."
    assert page.texts(".note") == [said] and look(page) == "yes"
    made = saved(page, tmp_path / "saved")
    page.open(made)
    assert page.texts(".note") == [said]


def test_what_was_left_out_stays_said(page):
    drop(page, COMPLETE)
    drop(page, {"B (1).log": field(UID_B)[1:]}, {"B (1).log": NOON})
    drop(page, {"A.log": field(UID_A)})
    assert "B (1).log was left out: a log begins with 'vicinity-log'." in page.texts(".note")
    drop(page, {"X.log": field(UID_C)}, {"X.log": NOON})
    pressed(page, "Leave out X.log")
    until_green(page)
    assert "X.log was left out." in page.texts(".note")
    drop(page, {"X.csv": BOTH})
    assert "X.log was left out." in page.texts(".note") and look(page) == "yes"


def test_what_was_left_out_stays_said_without_a_catalogue(page):
    drop(page, {**COMPLETE, "X.log": field(UID_C)})
    page.press(".doubts button")
    until_green(page)
    drop(page, {"books.csv": books((UID_A, ",A")) + b"E004,Walden,B\n"})
    page.until(".error", "books.csv, line 3")
    page.press("#told button")
    page.until("#each", "2 logs")
    drop(page, {"books.csv": BOTH})
    assert look(page) == "yes" and "X.log was left out." in page.texts(".note")


def test_what_was_left_out_before_all_others_is_said(page):
    drop(page, {"books.csv": BOTH, "X.log": field(UID_C)})
    page.press(".doubts button")
    page.until("h1", "Now open the logs.")
    assert page.texts(".note") == ["X.log was left out."]


def test_what_counts_otherwise_is_named_when_it_is_replaced(page):
    drop(page, {"books.csv": BOTH, "A.log": field(UID_A), "X.log": field(UID_B)})
    page.press(".doubts button")
    until_green(page)
    drop(page, {"B.log": field(UID_B)})
    assert page.texts(".note") == ["X.log, counted as B.log, was replaced by what you opened under "
                                   "the same name."]


def test_a_log_that_is_still_judged_is_judged_when_another_joins(page):
    tags = [0xE004010000100000 + at for at in range(20_000)]
    page.run(DROP, [["big.log", b64encode(field(*tags)).decode(), None]])
    page.run(DROP, [["A.log", b64encode(field(UID_A)).decode(), None]])
    page.until("#logs", "20,000 tags are here")
    assert "stopped" not in page.texts("#logs")[0]
