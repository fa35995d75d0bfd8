"""A list in CSV as a clerk sees it: rows of a spreadsheet, and the records that the program counts."""

import csv
import io
import secrets
from typing import NamedTuple

# One field may be the whole list.
csv.field_size_limit(1_000_000)


class Record(NamedTuple):
    """A record: its row in the spreadsheet, its fields, and the lines that it takes."""

    row: int
    fields: list[str]
    start: int
    end: int


class CsvList:
    """The records of a list. Record 0 is the header; empty lines are rows of the spreadsheet, and no records.

    Bytes that are no UTF-8 are kept as they are.
    """

    def __init__(self, body: bytes) -> None:
        text = body.decode("utf-8-sig", "surrogateescape")
        self.lines = list(io.StringIO(text, newline=""))
        self.records: list[Record] = []
        self.made: set[int] = set()  # the records whose keys the page has made
        reader = csv.reader(self.lines)
        start = 0
        for row, fields in enumerate(reader, 1):
            if fields:
                self.records.append(Record(row, fields, start, reader.line_num))
            start = reader.line_num

    @classmethod
    def of(cls, rows: list[tuple[int, list[str]]]) -> "CsvList":
        """A list of these rows, each with its number in the spreadsheet. The first one is the header."""
        table = cls(b"")
        table.lines = [line_of(fields) for _, fields in rows]
        table.records = [Record(row, fields, at, at + 1) for at, (row, fields) in enumerate(rows)]
        return table

    @property
    def header(self) -> list[str]:
        """The fields of the first line."""
        return self.records[0].fields if self.records else []

    def body(self, without: set[int] | None = None) -> bytes:
        """The list, without the records of these numbers."""
        skipped: set[int] = set()
        for number in without or ():
            record = self.records[number]
            skipped.update(range(record.start, record.end))
        left = "".join(line for at, line in enumerate(self.lines) if at not in skipped)
        return left.encode("utf-8", "surrogateescape")

    def fill_keys(self, but: set[int]) -> list[tuple[str, str, str]]:
        """Gives a new key to each person of the list who has none, but for some: identifier, name and key of each."""
        made = []
        for number, record in enumerate(self.records):
            if number and number not in but and len(record.fields) == 4 and not record.fields[2].strip():
                record.fields[2] = secrets.token_hex(16)
                made.append((record.fields[0], record.fields[1], record.fields[2]))
                self._write(record)
                self.made.add(number)
        return made

    def _write(self, record: Record) -> None:
        """Puts a record's fields into its lines."""
        self.lines[record.start:record.end] = [line_of(record.fields)] + [""] * (record.end - record.start - 1)


def line_of(fields: list[str]) -> str:
    """One line of CSV."""
    text = io.StringIO(newline="")
    csv.writer(text, lineterminator="\n").writerow(fields)
    return text.getvalue()
