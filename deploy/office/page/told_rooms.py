"""Descriptions of rooms as a clerk's list has them: what is wrong with a line, and what is beside the register."""

import re
from typing import Any, NamedTuple

from languages import N_, _
from lines import CODE, name_shows_a_key
from meanings import Meaning
from naming import Names
from told import AMOUNT, FIELDS

import plain
from csv_list import CsvList
from list_checks import ROOM_AGAIN, UNSEEN, in_row
from list_faults import Fault, shown
from office_view import Office

# A number with or without signs between its thousands: 412, 412.50, 412,50, 1.234,50, 1 234.50, 1'234.
NUMBER = re.compile(r"(?<![\d.,])(?:\d{1,3}(?:[ .,'’]\d{3})+|\d+)(?:[.,]\d{1,2})?(?!\d|[.,]\d)")
ENDS_IN_CENTS = re.compile(r"[.,](\d{1,2})$")
# What a clerk reads of the fields of a description.
NAMES = {"house": N_("House"), "floor": N_("Floor"), "size": N_("Size"), "rent": N_("Rent"), "text": N_("Text")}

Rooms = dict[str, dict[str, Any]]


class Described(NamedTuple):
    """A list of descriptions: what it says of each room, and the lines that are wrong."""

    rooms: Rooms
    faults: list[Fault]


class Beside(NamedTuple):
    """A list beside the register, and beside what residents read now."""

    unknown: list[str]   # rooms of the list that the register does not have
    without: list[str]   # rooms of the register of which the list says nothing
    lost: list[str]      # rooms that have a description now, and have none by the list
    names: list[str]     # rooms whose description has the name of somebody in the register


def amount_of(text: str) -> float | None:
    """A rent as a number, if the text has one number that may be an amount, and no other."""
    found = NUMBER.findall(text)
    if len(found) != 1 or len(re.findall(r"\d+", text)) != len(re.findall(r"\d+", found[0])):
        return None
    cents = ENDS_IN_CENTS.search(found[0])
    whole = found[0][:cents.start()] if cents else found[0]
    return int(re.sub(r"\D", "", whole)) + (int(cents[1].ljust(2, "0")) / 100 if cents else 0)


def rent_shown(text: str) -> str:
    """A rent as residents read it: a bare number of a workbook gets both digits of its cents."""
    return f"{text}0" if re.fullmatch(r"\d+[.,]\d", text) else text


def fault_of(fields: list[str], rows: dict[str, int]) -> Meaning | None:
    """What is wrong with a line, if anything. `rows` has the rooms of the lines before it."""
    if len(fields) != 1 + len(FIELDS):
        return plain.CAUSES["fields"].translated()
    if not CODE.fullmatch(fields[0]):
        return Meaning(_("The field room is not well written."), _(plain.CODE))
    if fields[0] in rows:
        return in_row(ROOM_AGAIN, rows[fields[0]])
    return next(filter(None, map(fault_of_field, FIELDS.items(), fields[1:])), None)


def fault_of_field(field: tuple[str, int], text: str) -> Meaning | None:
    """What is wrong with what a list says of a room, if anything."""
    name, longest = field
    if len(text) > longest:
        said = _("The field {name} has {count} signs, and may have {longest}.", name=name, count=len(text), longest=longest)
        return Meaning(said, _("Shorten it."))
    if UNSEEN.search(text):
        return Meaning(_("The field {name} has a sign that nobody sees.", name=name), _("Write the field again."))
    if name_shows_a_key(text):
        return Meaning(_("The field {name} has a word that may be a key.", name=name), _("Anybody can read it: take the word out."))
    if name == "rent" and text and amount_of(text) is None:
        return Meaning(_("The rent is no amount."), _("Write one number, such as 412.50 or 412,50 €, or leave the field empty."))
    return None


def description_of(fields: list[str]) -> dict[str, Any]:
    """What a line says of its room."""
    said: dict[str, Any] = {name: text for name, text in zip(FIELDS, fields[1:]) if text}
    if "rent" in said:
        said[AMOUNT] = amount_of(said["rent"])
        said["rent"] = rent_shown(said["rent"])
    return said


def described(table: CsvList) -> Described:
    """What a list says. A line that says nothing of its room is passed over."""
    rooms: Rooms = {}
    rows: dict[str, int] = {}
    faults = []
    for record in table.records[1:]:
        if meaning := fault_of(record.fields, rows):
            faults.append(Fault(record.row, shown(record.fields[:1], ""), shown(record.fields, ""), meaning))
            continue
        rows[record.fields[0]] = record.row
        if said := description_of(record.fields):
            rooms[record.fields[0]] = said
    return Described(rooms, faults)


def beside(office: Office, now: Rooms, rooms: Rooms) -> Beside:
    """A list of descriptions beside the register and those of now."""
    names = Names(one.name for one in office.people.values())
    return Beside([code for code in rooms if code not in office.rooms], [code for code in office.rooms if code not in rooms],
                  [code for code in now if code not in rooms],
                  [code for code, said in rooms.items() if names.are_said_of(said)])
