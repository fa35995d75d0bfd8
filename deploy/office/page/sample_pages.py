"""Sample files of each kind of list, to be filled in: CSV, and a workbook whose columns are formatted as text."""

import io
from string import ascii_uppercase
from typing import Any

from bottle import HTTPResponse, abort  # type: ignore[import]  # Debian's bottle has no types

from languages import N_, _
from meanings import Meaning

import columns
import plain
import sheet_books
from app import app, download, go_to, tell
from csv_list import line_of

ROWS = {
    "rooms": [["N-101"], ["N-102"], ["S-201"]],
    "people": [["24001", "Ann Ash", "", "N-101"], ["24002", "Bo Li", "", ""]],
    "grades": [["24001", "0"], ["24002", "1"]],
    "choices": [["24001", "N-102 S-201"], ["24002", "N-101"]],
    plain.DESCRIPTIONS: [["N-101", N_("North"), "1", "14 m²", N_("412.50 €"), N_("Balcony to the garden")],
                         ["N-102", N_("North"), "1", "18 m²", "455 €", ""],
                         ["S-201", N_("South"), "2", "12 m²", "380 €", N_("Quiet")]],
}
WORKBOOK = "application/vnd.openxmlformats-officedocument.spreadsheetml.sheet"
AS_TEXT = "@"


def workbook(rows: list[list[str]]) -> bytes:
    """A workbook of these rows. All of its columns are formatted as text, also below the last row."""
    import openpyxl  # pylint: disable=import-outside-toplevel  # it takes a while, and memory
    book = openpyxl.Workbook()
    sheet: Any = book.active
    for row in rows:
        sheet.append(row)
    for letter in ascii_uppercase[:len(rows[0])]:
        sheet.column_dimensions[letter].number_format = AS_TEXT
        sheet.column_dimensions[letter].width = 24
        for cell in sheet[letter]:
            cell.number_format = AS_TEXT
    held = io.BytesIO()
    book.save(held)
    return held.getvalue()


@app.get("/office/sample/<kind>.csv")
def sample_csv(kind: str) -> HTTPResponse:
    """A sample in CSV."""
    return download("".join(map(line_of, rows_of(kind))), f"sample-{kind}.csv")


@app.get("/office/sample/<kind>.xlsx")
def sample_workbook(kind: str) -> HTTPResponse:
    """A sample as a workbook."""
    rows = rows_of(kind)
    try:
        return download(workbook(rows), f"sample-{kind}.xlsx", WORKBOOK)
    except ImportError:
        tell("bad", str(Meaning(sheet_books.NOT_INSTALLED.says, sheet_books.NOT_INSTALLED.to_do).translated()))
        return go_to("/office/lists")


def rows_of(kind: str) -> list[list[str]]:
    """The rows of a sample, with its first line."""
    if kind not in ROWS:
        abort(404, "no such kind")
    return [columns.targets_of(kind), *([_(text) for text in row] for row in ROWS[kind])]
