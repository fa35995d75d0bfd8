"""Reads the first sheet of a workbook: .xlsx by openpyxl, .ods by defusedxml.

Both read one row after the other. What they may cost is bounded before (sheet_limits.py), and one workbook is read at a
time.
"""

import datetime
import io
import re
import threading
import warnings
import zipfile
from collections.abc import Iterator
from typing import Any
from xml.etree.ElementTree import Element

from languages import N_, _

from sheet_limits import DAMAGED, TOO_BIG, Unreadable, parts_of

Rows = list[tuple[int, list[str]]]  # each with its number in the spreadsheet

MOST_ROWS, MOST_COLUMNS, LAST_ROW = 10_001, 200, 1_048_576
NOT_INSTALLED = Unreadable(N_("This machine cannot read workbooks: a package is missing."),
                           N_("Ask the administrator, or save the list as CSV."))
OLD = Unreadable(N_("This is an old Excel workbook (.xls), or one with a password."), N_("Save it as .xlsx without a password."))
# Old Excel files, and all Excel files with a password.
OLD_EXCEL = b"\xd0\xcf\x11\xe0"
OFFICE = "{urn:oasis:names:tc:opendocument:xmlns:office:1.0}"
TABLE = "{urn:oasis:names:tc:opendocument:xmlns:table:1.0}"
TEXT = "{urn:oasis:names:tc:opendocument:xmlns:text:1.0}"
CELLS = (f"{TABLE}table-cell", f"{TABLE}covered-table-cell")

one_at_a_time = threading.Lock()
# A warning of the library could have what is in a cell, and would get into the log.
warnings.filterwarnings("ignore", module="openpyxl")


def is_book(data: bytes) -> bool:
    """Whether a file is a workbook, by its first bytes."""
    return data.startswith((b"PK\x03\x04", OLD_EXCEL))


def read(data: bytes) -> tuple[Rows, str]:
    """The rows of the first sheet, and what the file is."""
    if data.startswith(OLD_EXCEL):
        raise OLD
    with one_at_a_time:
        parts = parts_of(data)
        try:
            if "content.xml" in parts:
                return bounded(rows_of_ods(data)), _("a workbook of LibreOffice (.ods)")
            if "[Content_Types].xml" in parts:
                return bounded(rows_of_xlsx(data)), _("a workbook of Excel (.xlsx)")
        except Unreadable:
            raise
        except ImportError as fault:
            raise NOT_INSTALLED from fault
        except Exception as fault:  # pylint: disable=broad-except  # a broken workbook has faults of all kinds
            raise DAMAGED from fault
    raise DAMAGED


def bounded(found: Iterator[tuple[int, int, list[str]]]) -> Rows:
    """Rows with their numbers, from rows with how often they come. Empty ones are left out."""
    rows: Rows = []
    for number, times, fields in found:
        if not any(fields):
            continue
        if len(rows) + times > MOST_ROWS:
            raise TOO_BIG
        rows += [(number + more, fields) for more in range(times)]
    return rows


def without_result(row: int, column: int) -> Unreadable:
    """The fault of a cell whose formula has no result in the file, as scripts write it: the page would read it as empty."""
    letters = ""
    while column:
        column, rest = divmod(column - 1, 26)
        letters = chr(ord("A") + rest) + letters
    return Unreadable(_("The formula in the cell {cell} has no result in this file.", cell=f"{letters}{row}"),
                      N_("Open the workbook in your spreadsheet program, save it there, and send it again."))


# --- Excel

def rows_of_xlsx(data: bytes) -> Iterator[tuple[int, int, list[str]]]:
    """The rows of the first sheet that is shown. A formula is what it last came to."""
    results, written = (first_sheet(data, is_result).iter_rows(max_col=MOST_COLUMNS) for is_result in (True, False))
    for number, (cells, formulas) in enumerate(zip(results, written), 1):
        if number > LAST_ROW:
            raise DAMAGED
        for column, (cell, formula) in enumerate(zip(cells, formulas), 1):
            # An empty text as a result has another type.
            if formula.data_type == "f" and cell.value is None and cell.data_type == "n":
                raise without_result(number, column)
        yield number, 1, [text_of_cell(cell) for cell in cells]


def first_sheet(data: bytes, is_result: bool) -> Any:
    """The first sheet that is shown, with what its formulas last came to, or with the formulas."""
    import openpyxl  # pylint: disable=import-outside-toplevel  # it takes a while, and memory
    book = openpyxl.load_workbook(io.BytesIO(data), read_only=True, data_only=is_result, keep_links=False)
    sheet = next((one for one in book.worksheets if one.sheet_state == "visible"), None)
    if sheet is None:
        raise DAMAGED
    sheet.reset_dimensions()
    return sheet


def text_of_cell(cell: Any) -> str:
    """A cell as a person sees it, as far as identifiers, names and codes go."""
    value = cell.value
    if value is None or isinstance(value, str):
        return value or ""
    if isinstance(value, bool):
        return str(value).upper()
    if isinstance(value, float) and value.is_integer():
        value = int(value)
    if isinstance(value, int) and re.fullmatch("0+", cell.number_format or ""):
        return str(value).zfill(len(cell.number_format))
    return value.isoformat() if isinstance(value, (datetime.date, datetime.time)) else str(value)


# --- LibreOffice

def rows_of_ods(data: bytes) -> Iterator[tuple[int, int, list[str]]]:
    """The rows of the first table."""
    from defusedxml.ElementTree import iterparse  # type: ignore[import]  # pylint: disable=import-outside-toplevel
    number = 1
    with zipfile.ZipFile(io.BytesIO(data)) as archive, archive.open("content.xml") as content:
        for __, element in iterparse(content, events=("end",), forbid_dtd=True):
            if element.tag == f"{TABLE}table":
                return
            if element.tag == f"{TABLE}table-row":
                times = int(element.get(f"{TABLE}number-rows-repeated", 1))
                yield number, times, fields_of(element, number)
                number += times
                element.clear()


def fields_of(row: Element, number: int) -> list[str]:
    """The cells of a row as texts."""
    fields: list[str] = []
    empty = 0
    for cell in row:
        if cell.tag not in CELLS:
            continue
        times, text = int(cell.get(f"{TABLE}number-columns-repeated", 1)), text_of_ods(cell)
        if not text:
            if cell.get(f"{TABLE}formula") and not cell.get(f"{OFFICE}value-type"):
                raise without_result(number, len(fields) + empty + 1)
            empty += times
            continue
        if len(fields) + empty + times > MOST_COLUMNS:
            raise TOO_BIG
        fields += [""] * empty + [text] * times
        empty = 0
    return fields


def text_of_ods(cell: Element) -> str:
    """A cell as a person sees it, but a number without its separators, and a date as the file has it."""
    shown = "\n".join(text_of_paragraph(part) for part in cell if part.tag == f"{TEXT}p")
    kind = cell.get(f"{OFFICE}value-type")
    if kind == "date":
        return cell.get(f"{OFFICE}date-value", shown)
    if kind == "float" and not shown.isdigit():
        return re.sub(r"\.0+$", "", cell.get(f"{OFFICE}value", shown))
    return shown or cell.get(f"{OFFICE}string-value", "")


def text_of_paragraph(part: Element) -> str:
    """The text of a paragraph. An element stands for each space after the first."""
    texts = [part.text or ""]
    for inner in part:
        texts.append(" " if inner.tag in (f"{TEXT}s", f"{TEXT}tab", f"{TEXT}line-break") else text_of_paragraph(inner))
        texts.append(inner.tail or "")
    return "".join(texts)
