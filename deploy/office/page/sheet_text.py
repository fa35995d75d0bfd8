"""Reads a list that is a text: CSV with commas, semicolons or tabs, in one of the character sets that offices have."""

import codecs
import csv
import io
from collections.abc import Callable
from typing import NamedTuple

from languages import N_, _

from sheet_limits import Unreadable

SEPARATORS = {",": N_("commas"), ";": N_("semicolons"), "\t": N_("tabs")}
UTF_16 = (codecs.BOM_UTF16_LE, codecs.BOM_UTF16_BE)
LOOKED_AT = 10  # rows in which the names of the columns may be


class Text(NamedTuple):
    """A list of CSV: its rows with their numbers, what it is, whether its letters are guessed, and whether it is as the
    program takes it."""

    rows: list[tuple[int, list[str]]]
    what: str
    guessed: bool
    plain: bool


def decoded(data: bytes) -> tuple[str, str]:
    """A text, and its character set."""
    if data.startswith(UTF_16):
        kind = "utf-16"
    elif data[1:200:2].count(0) > 80 * len(data[1:200:2]) // 100:
        kind = "utf-16-le"
    elif data[0:200:2].count(0) > 80 * len(data[0:200:2]) // 100:
        kind = "utf-16-be"
    else:
        kind = "utf-8-sig"
    for name in (kind, "cp1252"):
        try:
            return data.decode(name), name
        except UnicodeDecodeError:
            continue
    raise Unreadable(N_("The page does not know the character set of this file."),
                     N_("Save the list as a workbook (.xlsx or .ods), or as CSV with the character set UTF-8."))


def rows_by(text: str, separator: str, most: int | None = None) -> list[tuple[int, list[str]]]:
    """The rows of a text that are not empty. Their numbers are those of the spreadsheet."""
    rows = []
    reader = csv.reader(io.StringIO(text, newline=""), delimiter=separator)
    for number, fields in enumerate(reader, 1):
        if any(field.strip() for field in fields):
            rows.append((number, fields))
        if number == most:
            break
    return rows


def read(data: bytes, knows: Callable[[str], bool]) -> Text:
    """The rows of a list. It is separated by what gives the most columns with a name that is known."""
    text, charset = decoded(data)
    told = text.startswith("sep=")  # Excel writes so which separator follows
    text = "\n" + text.partition("\n")[2] if told else text

    def worth(separator: str) -> tuple[int, int]:
        first = rows_by(text, separator, LOOKED_AT)
        names = max((sum(map(knows, fields)) for __, fields in first), default=0)
        return names, len(first[0][1]) if first else 0
    try:
        separator = max(SEPARATORS, key=worth)
        rows = rows_by(text, separator)
    except csv.Error as fault:
        raise Unreadable(N_("This file is no list in CSV."),
                         N_("Save the list as a workbook (.xlsx or .ods), or as CSV.")) from fault
    names = {"utf-8-sig": "UTF-8", "cp1252": _("the character set of Windows (cp1252)")}
    what = _("CSV with {separator}, in {charset}", separator=_(SEPARATORS[separator]), charset=names.get(charset, "UTF-16"))
    return Text(rows, what, charset == "cp1252", charset == "utf-8-sig" and separator == "," and not told)
