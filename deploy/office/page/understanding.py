"""What the page understands of a clerk's file, and the clean list that it makes of it for the program.

The file may have other separators, another character set, other names and other columns; spaces at ends and small
letters are mended. The clerk sees each kind of change, and agrees.
"""

import re
import unicodedata
from collections.abc import Callable
from typing import NamedTuple

from languages import N_, _, ngettext
from meanings import Meaning
from told import FIELDS

import columns
import list_faults
import sheet_books
import sheet_text
from columns import Columns
from csv_list import CsvList
from plain import CAUSES, DESCRIPTIONS
from sheet_limits import Unreadable

ENDS = " \t\r\n\u00a0\u200b\u200c\u200d\ufeff"
SPACES, CAPITALS, SEPARATED = "spaces", "capitals", "separated"
CHANGES = {
    SPACES: N_("Spaces at the ends, and of several in a row all but one, were taken away"),
    CAPITALS: N_("Small letters became capitals: the program has only capitals in identifiers and room codes"),
    SEPARATED: N_("Commas, semicolons and line ends between room codes became spaces"),
}
EXAMPLES = 3


class Change(NamedTuple):
    """A kind of change: in how many fields, and some of them: the row, what the file has, what comes in."""

    what: str
    times: int
    examples: list[tuple[int, str, str]]


class Understood(NamedTuple):
    """What the page made of a file. If the file was as the program takes it, there is nothing to agree to."""

    table: CsvList
    body: bytes
    what: str                         # what the file is
    names: list[tuple[str, str]]      # each column of the file, and what it was taken for
    notes: list[str]
    changes: list[Change]
    first: list[list[str]]            # the first records, for the screen
    to_agree: bool


# --- fields

def squeezed(text: str) -> str:
    """A text with one space in place of several, and none at its ends. Its accents are one sign with their letters."""
    return " ".join(unicodedata.normalize("NFC", text.strip(ENDS)).split())


def stripped(text: str) -> str:
    """A text without spaces at its ends."""
    return text.strip(ENDS)


def capitals(text: str) -> str:
    """A code or an identifier in capitals. What has other letters than a to z stays, and is a fault."""
    return text.upper() if text.isascii() else text


def separated(text: str) -> str:
    """Room codes with one space between two."""
    return " ".join(re.split(r"[\s,;]+", text.strip(ENDS + ",;")))


Step = tuple[str, Callable[[str], str]]
CODE: list[Step] = [(SPACES, stripped), (CAPITALS, capitals)]
STEPS: dict[str, list[Step]] = {
    "person": CODE, "room": CODE, "home": CODE, "name": [(SPACES, squeezed)], "key": [(SPACES, stripped)],
    "grade": [(SPACES, stripped)], "email": [(SPACES, stripped)], "language": [(SPACES, stripped)],
    "choices": [(SPACES, stripped), (SEPARATED, separated), (CAPITALS, capitals)],
    **{target: [(SPACES, squeezed)] for target in FIELDS},
}
# The columns in which letters show whether the character set was guessed rightly.
MOST_ROWS_NAMED = 20
LETTERS = {"people": (1,), DESCRIPTIONS: (1, 5)}


class Cleaner:
    """Makes clean fields, and counts what it changed."""

    def __init__(self) -> None:
        self.counts: dict[str, int] = {}
        self.examples: dict[str, list[tuple[int, str, str]]] = {}

    def field(self, target: str, row: int, text: str) -> str:
        """A field as the program takes it, as far as it can be mended."""
        for what, step in STEPS[target]:
            mended = step(text)
            if mended != text:
                self.counts[what] = self.counts.get(what, 0) + 1
                seen = self.examples.setdefault(what, [])
                if len(seen) < EXAMPLES and target != "key":
                    old, new = list_faults.fields_shown([text, mended], "")
                    seen.append((row, old, new))
                text = mended
        return text

    def record(self, found: Columns, row: int, fields: list[str], width: int) -> list[str]:
        """A record with its columns in the program's order. One with more or fewer fields than the first line stays as
        it is: a fault. Its fields may be shifted, as by a comma in a name."""
        if len(fields) != width:
            return fields if len(fields) != len(found.places) else [*fields, ""]
        return [self.field(target, row, " ".join(filter(str.strip, (fields[place] for place in places))))
                for target, places in found.places.items()]

    def changes(self) -> list[Change]:
        """What it changed."""
        return [Change(_(text), self.counts[what], self.examples.get(what, [])) for what, text in CHANGES.items()
                if what in self.counts]


# --- files

class NotUnderstood(Exception):
    """A file of which the page understands nothing, and why."""

    def __init__(self, meaning: Meaning) -> None:
        super().__init__(str(meaning))
        self.meaning = meaning


def read(kind: str, data: bytes) -> Understood:
    """What the page understands of a file."""
    try:
        if sheet_books.is_book(data):
            rows, what = sheet_books.read(data)
            if not rows:
                raise NotUnderstood(Meaning(_("The first sheet of this workbook is empty."), _("The page reads no other sheet.")))
            width = max((len(fields) for _, fields in rows), default=0)
            rows = [(row, [*fields, *[""] * (width - len(fields))]) for row, fields in rows]
            return understood(kind, data, sheet_text.Text(rows, what, False, False))
        return understood(kind, data, sheet_text.read(data, lambda name: columns.is_known(kind, name)))
    except Unreadable as fault:
        raise NotUnderstood(Meaning(_(fault.says), _(fault.to_do))) from fault


def understood(kind: str, data: bytes, text: sheet_text.Text) -> Understood:
    """What the page understands of these rows."""
    if len(text.rows) > sheet_books.MOST_ROWS + sheet_text.LOOKED_AT:
        raise NotUnderstood(CAUSES["many"].translated())
    if not text.rows:
        raise NotUnderstood(Meaning(_("This file is empty."), _("Choose another one.")))
    found = columns.find(kind, text.rows)
    if isinstance(found, Meaning):
        raise NotUnderstood(found)
    header = text.rows[found.at][1]
    cleaner = Cleaner()
    records = [(row, cleaner.record(found, row, fields, len(header))) for row, fields in text.rows[found.at + 1:]]
    if not records and kind != DESCRIPTIONS:  # a list without descriptions takes all away
        raise NotUnderstood(Meaning(_("This list has the names of its columns, and no line below them."), _("Choose another one.")))
    targets = columns.targets_of(kind)
    table = CsvList.of([(text.rows[found.at][0], targets), *records])
    if text.plain and [record.fields for record in CsvList(data).records] == [record.fields for record in table.records]:
        return Understood(CsvList(data), data, text.what, [], [], [], [], False)
    # The page shows descriptions whole, and not as it shows what may have keys.
    first = [] if kind == DESCRIPTIONS else [list_faults.fields_shown(fields, kind) for __, fields in records[:5]]
    return Understood(table, table.body(), text.what, names_of(header, found), notes_on(kind, text, found, records),
                      cleaner.changes(), first, True)


def names_of(header: list[str], found: Columns) -> list[tuple[str, str]]:
    """Each column of the file with what it was taken for."""
    taken = {place: target for target, places in found.places.items() for place in places}
    return [(columns.listed([header[place]]), taken.get(place, _("left out"))) for place in range(len(header))
            if place in taken or place in found.left_out]


def notes_on(kind: str, text: sheet_text.Text, found: Columns, records: list[tuple[int, list[str]]]) -> list[str]:
    """What the clerk has to know besides."""
    notes = []
    if found.at:
        notes.append(_("The columns have their names in row {row}. What is above is left out.", row=text.rows[found.at][0]))
    if kind == "people":
        absent = {"key": _("No column has keys."),
                  "home": _("No column has rooms: nobody who is new gets one by this list.")}
        notes += [note for target, note in absent.items() if not found.places[target]]
        odd = [str(row) for row, fields in records if len(fields) == len(found.places) and not any(map(str.isalpha, fields[1]))]
        if odd:
            notes.append(ngettext("In row {rows} the name has no letter. If this is a sum and no person, take it out of the list.",
                                  "In rows {rows} the name has no letter. If these are sums and no people, take them out of the "
                                  "list.", len(odd), rows=", ".join(odd[:MOST_ROWS_NAMED])))
    letters = [fields[place] for __, fields in records for place in LETTERS.get(kind, ())
               if len(fields) == len(found.places) and not fields[place].isascii()]
    if text.guessed and letters:
        some = list_faults.shown([", ".join(letters[:6])], "")
        notes.append(_("The page guessed the character set. Look whether these names are right: {names}.", names=some)
                     if kind == "people" else
                     _("The page guessed the character set. Look whether this is right: {words}.", words=some))
    return notes
