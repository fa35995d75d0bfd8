"""Faults of a list that the page sees by itself, all at once.

The program names one bad record at a time. So once it has refused a list, the page looks for what it knows: how a field
is written, what the register has, and what is in the list twice. What it does not see here, the program names.
"""

import re
from collections.abc import Callable, Iterator

from languages import N_, _
from lines import CODE, IDENTIFIER, MOST_CHOICES
from meanings import REFUSALS, Meaning

import plain
from csv_list import CsvList
from office_view import Office

KEY = re.compile(r"[a-z0-9]{16,64}")
GRADE = re.compile(r"[0-9]")
UNSEEN = re.compile(r"[\x00-\x1f\x7f]|^ | $|  ")


def is_name(text: str) -> bool:
    """Whether the program takes this name."""
    return 1 <= len(text.encode()) <= 60 and not UNSEEN.search(text)


def is_list(text: str) -> bool:
    """Whether these are room codes, each once, with one space between two."""
    codes = text.split(" ") if text else []
    return len(codes) <= MOST_CHOICES and len(set(codes)) == len(codes) and all(map(CODE.fullmatch, codes))


# How each field of a record has to be written, by kind.
Form = Callable[[str], object]
FORMS: dict[str, tuple[Form, ...]] = {
    "rooms": (CODE.fullmatch,),
    "people": (IDENTIFIER.fullmatch, is_name, KEY.fullmatch, lambda text: not text or CODE.fullmatch(text)),
    "grades": (IDENTIFIER.fullmatch, GRADE.fullmatch),
    "choices": (IDENTIFIER.fullmatch, is_list),
}
ROOM_AGAIN = N_("This room is in row {row} of this list already.")
PERSON_AGAIN = N_("This person is in row {row} of this list already.")
# What may be in a list once, by kind: the field, and the fault of the second one.
ONCE = {"rooms": {0: ROOM_AGAIN}, "grades": {0: PERSON_AGAIN}, "choices": {0: PERSON_AGAIN},
        "people": {0: PERSON_AGAIN, 2: N_("This key is in row {row} of this list already."), 3: ROOM_AGAIN}}
# Kinds of which the program takes the last record of a person, and says nothing.
LAST_COUNTS = ("grades", "choices")


def badly_written(kind: str, fields: list[str]) -> Meaning | None:
    """What is wrong with how a record is written, if anything."""
    forms = FORMS[kind]
    if len(fields) != len(forms):
        return plain.cause(["fields"], kind)
    bad = next((number for number, (form, field) in enumerate(zip(forms, fields), 1) if not form(field)), 0)
    return plain.cause(["field", str(bad)], kind) if bad else None


def of_record(office: Office, kind: str, fields: list[str]) -> Meaning | None:
    """What is wrong with a record beside the register, if anything."""
    if kind == "rooms":
        return REFUSALS[4].translated() if fields[0] in office.rooms else None
    if kind == "people":
        return of_home(office, fields)
    if fields[0] not in office.people:
        return REFUSALS[2].translated()
    codes = fields[1].split() if kind == "choices" else []
    return REFUSALS[3].translated() if any(code not in office.rooms for code in codes) else None


def of_home(office: Office, fields: list[str]) -> Meaning | None:
    """What is wrong with a person who is to come in, or with the room where they live."""
    if fields[0] in office.people:
        return REFUSALS[5].translated()
    room = office.rooms.get(fields[3])
    if not fields[3] or (room and not room.shut and not room.tenant):
        return None
    return REFUSALS[3 if room is None else 7 if room.shut else 8].translated()


def overwritten(kind: str, table: CsvList) -> Iterator[tuple[int, Meaning]]:
    """The number of each record that would count in the place of an earlier one of the same person, and what is wrong with it."""
    rows: dict[str, int] = {}
    for number, record in enumerate(table.records if kind in LAST_COUNTS else ()):
        person = record.fields[0]
        if not number or badly_written(kind, record.fields):
            continue
        if person in rows:
            yield number, in_row(PERSON_AGAIN, rows[person])
        rows.setdefault(person, record.row)


def in_row(says: str, row: int) -> Meaning:
    """What is wrong with a record if an earlier row has the same."""
    return Meaning(_(says, row=row), _("Correct one of the two lines, or take it out."))


def find(office: Office, kind: str, table: CsvList, apart: set[int]) -> Iterator[tuple[int, Meaning]]:
    """The number of each record with a fault, but for those that are set apart, and what is wrong with it."""
    once = ONCE.get(kind, {})
    rows: dict[tuple[int, str], int] = {}
    for number, record in enumerate(table.records):
        if not number or number in apart:
            continue
        meaning = badly_written(kind, record.fields) or of_record(office, kind, record.fields)
        for place, says in once.items():
            field = record.fields[place] if place < len(record.fields) else ""
            if meaning is None and field and (place, field) in rows:
                meaning = in_row(says, rows[place, field])
        if meaning:
            yield number, meaning
        for place in once if len(record.fields) == len(FORMS[kind]) else ():
            rows.setdefault((place, record.fields[place]), record.row)
