"""Sheets, as LibreOffice reads them from a file, and as it writes them as CSV."""
from datetime import date
from typing import NamedTuple
from xml.sax.saxutils import escape

from helpers.program import told

SPACES = " ".join(f'xmlns:{name}="urn:oasis:names:tc:opendocument:xmlns:{name}:1.0"'
                  for name in ("office", "table", "text"))
DOCUMENT = (f'<?xml version="1.0" encoding="UTF-8"?><office:document {SPACES} office:version="1.3"'
            ' office:mimetype="application/vnd.oasis.opendocument.spreadsheet"><office:body>'
            '<office:spreadsheet><table:table table:name="one">%s</table:table>'
            '</office:spreadsheet></office:body></office:document>')


class Merged(NamedTuple):
    """A cell over several columns and rows."""
    text: str
    columns: int = 1
    rows: int = 1


class Hidden(list):
    """A row that a filter hides."""


def paragraph(text):
    """A line of a cell. Spaces as they are would be joined, and lost at the ends."""
    return "<text:p>%s</text:p>" % escape(text, {" ": "<text:s/>"})


def cell(value):
    """A text, a number, a date, a truth value or nothing."""
    columns = rows = 1
    if isinstance(value, Merged):
        value, columns, rows = value
    over = f'table:number-columns-spanned="{columns}" table:number-rows-spanned="{rows}"'
    covered = "<table:covered-table-cell/>" * (columns - 1)
    if value is None:
        return "<table:table-cell/>"
    if isinstance(value, bool):
        kind = f'office:value-type="boolean" office:boolean-value="{str(value).lower()}"'
    elif isinstance(value, (int, float)):
        kind = f'office:value-type="float" office:value="{value}"'
    elif isinstance(value, date):
        kind = f'office:value-type="date" office:date-value="{value}"'
    else:
        kind = 'office:value-type="string"'
    lines = "".join(map(paragraph, str(value).split("\n")))
    return f"<table:table-cell {over} {kind}>{lines}</table:table-cell>{covered}"


def row(cells):
    hidden = ' table:visibility="filter"' if isinstance(cells, Hidden) else ""
    return f"<table:table-row{hidden}>{''.join(map(cell, cells))}</table:table-row>"


def document(rows):
    return DOCUMENT % "".join(map(row, rows))


def converted(folder, sheets, forms):
    """Writes each sheet in each form, which names the options of LibreOffice's filter for CSV, to
    `folder/FORM/SHEET.csv`."""
    for name, rows in sheets.items():
        (folder / f"{name}.fods").write_text(document(rows))
    for form, options in forms.items():
        told("soffice", "--headless", f"-env:UserInstallation=file://{folder}/profile",
             "--convert-to", f"csv:Text - txt - csv (StarCalc):{options}",
             "--outdir", folder / form, *(folder / f"{name}.fods" for name in sheets))
