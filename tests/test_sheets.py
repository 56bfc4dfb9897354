"""What spreadsheets write: each file is read with exactly the items that its sheet has, or refused
by the fault that docs/TABLES.md has for it.

What is expected is worked out by hand. LibreOffice writes its files in the test itself; those of
Excel and of Google Sheets have the forms that these write."""
from datetime import date

import pytest

from helpers.program import needs
from helpers.sheets import Hidden, Merged, converted

A, B = "E0040100000000A1", "E0040100000000B2"
# The options of LibreOffice's filter: the separator, the quote, the character set, the first line;
# and whether each text is quoted.
FORMS = {"comma": "44,34,76,1", "semicolon": "59,34,76,1", "tab": "9,34,76,1",
         "as-few-quotes": "44,34,76,1,,0,false", "windows-1252": "59,34,1,1",
         "utf-16": "9,34,65535,1"}
# Those that aren't UTF-8.
OTHERS = "windows-1252", "utf-16"
NAMES = ["uid", "title", "place", "away"]


def item(line, uid, place=None, away="here"):
    return f"{line}:{uid}:{place.encode().hex().upper() if place else 'any'}:{away}"


def catalogue(*items):
    return " ".join(["catalogue", *items])


# Sheets, and what is read of each in UTF-8; last what is read in Windows-1252, if that differs.
SHEETS = {
    "accents": (
        [NAMES[:3], [A, "\u00c9mile", "Z\u00fcrich"], [B, "na\u00efve \u2603", "\u65e5\u672c"]],
        catalogue(item(2, A, "Z\u00fcrich"), item(3, B, "\u65e5\u672c")), "refused 2 Utf8"),
    "an-accent-in-the-last-row": (
        [NAMES[:2], [A, "Emil"], [B, "\u00c9mile"]],
        catalogue(item(2, A), item(3, B)), "refused 3 Utf8"),
    "quotes-and-separators": (
        [NAMES[:3], [A, '5" disk', 'a, b; c\td'], [B, '"Emma", vol. 1', '"x"']],
        catalogue(item(2, A, "a, b; c\td"), item(3, B, '"x"'))),
    "apostrophes": (
        [NAMES[:3], [A, "'tis", "'s-Hertogenbosch"], [B, "it's'", "'"]],
        catalogue(item(2, A, "'s-Hertogenbosch"), item(3, B, "'"))),
    "an-apostrophe-before-a-uid": ([NAMES[:2], [A, "x"], ["'" + B, "y"]], "refused 3 Uid"),
    "empty-last-cells": (
        [NAMES, [A, None, "x"], ["none", None, "any"], [B, "y", "x", "away"]],
        catalogue(item(2, A, "x"), item(3, "none"), item(4, B, "x", "away"))),
    "empty-rows": (
        [NAMES[:2], [], [A, "x"], [None, " "], [], [B]],
        catalogue(item(3, A), item(6, B))),
    "a-column-without-a-name": (
        [NAMES[:2], [A, "x"], [B, "y", None, "a note"]],
        catalogue(item(2, A), item(3, B))),
    "a-merged-title": (
        [[*NAMES[:2], "author", "place"], [A, Merged("x", columns=2), "a"], [B, "y", "z", "b"]],
        catalogue(item(2, A, "a"), item(3, B, "b"))),
    "a-place-merged-over-rows": (
        [NAMES[:3], [A, "x", Merged("a", rows=2)], [B, "y"]], "refused 3 Place"),
    "a-uid-merged-over-rows": (
        [NAMES[:2], [Merged(A, rows=2), "volume 1"], [None, "volume 2"]], "refused 3 Uid"),
    "a-heading": (
        [[Merged("Inventory", columns=2)], NAMES[:2], [A, "x"]], "refused 1 Columns"),
    "a-line-break-in-a-cell": ([NAMES[:2], [A, "x"], [B, "two\nlines"]], "refused 3 Quote"),
    "a-line-break-in-a-name": ([["uid", "title\nand author"], [A, "x"]], "refused 1 Quote"),
    "a-uid-as-a-number": ([NAMES[:2], [A, "x"], [0xE0040100000000B2, "y"]], "refused 3 Uid"),
    "numbers": (
        [NAMES[:3], [A, 12.5, 7], [B, -1, 12]], catalogue(item(2, A, "7"), item(3, B, "12"))),
    "a-date-as-away": ([NAMES, [A, "x", "a", "away"], [B, "y", "b", date(2026, 11, 29)]],
                       "refused 3 Away"),
    "a-truth-value-as-away": ([NAMES, [A, "x", "a", True]], "refused 2 Away"),
    "a-date-as-a-title": ([NAMES[:2], [A, date(2026, 11, 29)]], catalogue(item(2, A))),
    "spaces": (
        [[" UID ", "Title", "Place  "], ["  E0 04 01 00 00 00 00 a1\t", " x ", "  a  b "]],
        catalogue(item(2, A, "a  b"))),
    "words-in-capitals": (
        [NAMES, ["None", "x", "ANY", "Away"], [A, "y", "Any", "AWAY"]],
        catalogue(item(2, "none", None, "away"), item(3, A, None, "away"))),
    "rows-that-a-filter-hides": (
        [NAMES[:2], Hidden([A, "x"]), [B, "y"]], catalogue(item(2, A), item(3, B))),
    "a-uid-in-a-note": ([NAMES[:2], [A, f"was {B}, replaced"]], "refused 2 UidElsewhere"),
    "one-tag-twice": ([NAMES[:2], [A, "x"], ["e0:04:01:00:00:00:00:a1", "y"]],
                      "refused 3 DuplicateUid"),
    "a-blank-uid": ([NAMES[:2], [A, "x"], [None, "y"]], "refused 3 Uid"),
    "names-alone": ([NAMES], "refused 2 NoItems"),
    "places": (
        [["place", "log", "note"], ["shelf 5", "C5", 'a "b"'], ["shelf, 6", "d/C6.log"]],
        "places " + " ".join(f"{line}:{place.encode().hex().upper()}:{log.encode().hex().upper()}"
                             for line, place, log in ((2, "shelf 5", "C5"),
                                                      (3, "shelf, 6", "d/C6.log")))),
}


@pytest.fixture(scope="session")
def written(once):
    """The folder with what LibreOffice writes."""
    needs("soffice")
    sheets = {name: sheet[0] for name, sheet in SHEETS.items()}
    return once("sheets", lambda folder: converted(folder, sheets, FORMS))


@pytest.mark.slow
@pytest.mark.parametrize("name", SHEETS)
def test_what_libreoffice_writes(written, read_tables, name):
    _, told, *in_windows_1252 = SHEETS[name]
    right = {form: told for form in FORMS}
    right.update(zip(OTHERS, ((in_windows_1252 or [told])[0], "refused 1 Utf8"), strict=True))
    texts = [(written / form / f"{name}.csv").read_bytes() for form in FORMS]
    assert dict(zip(FORMS, read_tables(texts), strict=True)) == right
    # Others write a mark, or CR and LF.
    texts = [text for form, text in zip(FORMS, texts, strict=True) if form not in OTHERS]
    texts = [change(text) for text in texts for change in (
        lambda text: b"\xef\xbb\xbf" + text, lambda text: text.replace(b"\n", b"\r\n"))]
    assert set(read_tables(texts)) == {told}


@pytest.mark.parametrize("text, told", [
    # Excel
    (f"\ufeffuid,title,place\r\n{A},\"Emma, vol. 1\",\u00e9tage\r\n{B},\"5\"\" disk\",any\r\n",
     catalogue(item(2, A, "\u00e9tage"), item(3, B))),
    (f"\ufeffuid;title;away\r\n{A};Emma, vol. 1;\r\n{B};\"a;b\";away\r\n",
     catalogue(item(2, A), item(3, B, None, "away"))),
    (f"\ufeffuid,title\r\n{A},\"two\nlines\"\r\n", "refused 2 Quote"),
    (f"\ufeffuid,title\r\n{A},x\r\n1.61403E+19,y\r\n", "refused 3 Uid"),
    (f"\ufeffuid,title,note\r\n{A},x,\r\n{B},y\r\n", "refused 3 Cells"),
    (f"\ufeff,\r\nuid,title\r\n{A},x\r\n", "refused 1 Columns"),
    (f"sep=;\r\nuid;title\r\n{A};x\r\n", "refused 1 Columns"),
    (f"uid;title\r\n{A};caf\u00e9\r\n".encode("windows-1252"), "refused 2 Utf8"),
    (f"uid;title\r\n{A};cafe\r\n".encode("windows-1252"), catalogue(item(2, A))),
    (f"uid\ttitle\r\n{A}\t\"a\tb\"\r\n".encode("utf-16"), "refused 1 Utf8"),
    (f"uid\ttitle\r\n{A}\t\"a\tb\"\r\n", catalogue(item(2, A))),
    (f"uid,title\r{A},x\r", "refused 1 Utf8"),
    # Google Sheets
    (f"uid,title,place\r\n{A},\"Emma, vol. 1\",\u00e9tage\r\n{B},\"5\"\" disk\",any",
     catalogue(item(2, A, "\u00e9tage"), item(3, B))),
    (f"uid,title,away\r\n{A},x,\r\n{B},y,", catalogue(item(2, A), item(3, B))),
    (f"uid,title\r\n{A},x\r\n,\r\n,", catalogue(item(2, A))),
    (f"uid,title\r\n{A},\"two\nlines\"", "refused 2 Quote"),
    (f"uid\ttitle\tplace\r\n{A}\tEmma, vol. 1\ta; b", catalogue(item(2, A, "a; b"))),
    (f"uid\ttitle\r\n{A}\t5\" disk", "refused 2 Quote"),
    (f"uid,title,away\r\n{A},x,FALSE", "refused 2 Away"),
], ids=[
    "Excel, CSV UTF-8", "where the comma is for decimals", "a line break in a cell",
    "a UID as a number", "a row that it ends early", "an empty first row", "a line for Excel",
    "Windows-1252", "Windows-1252 without accents", "Unicode Text", "tabs", "for old Macintoshes",
    "Google Sheets, CSV", "empty last cells", "empty last rows", "a line break",
    "tab-separated", "a quote, tab-separated", "a checkbox"])
def test_what_others_write(read_tables, text, told):
    assert read_tables([text if isinstance(text, bytes) else text.encode()]) == [told]
