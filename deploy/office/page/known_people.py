"""A list of people or rooms beside the register: who is new, who is in it already, and who of the register is not on the list."""

from typing import NamedTuple

from languages import _

import plain
from csv_list import CsvList
from office_view import Office

HEADER = plain.header_of("people").split(",")


class Difference(NamedTuple):
    """What the list says of somebody who is in the register, where the register says something else."""

    ident: str
    listed: str
    kept: str


class Beside(NamedTuple):
    """The records of people who are in the register, where they differ from it, and who is not on the list."""

    known: set[int]
    differences: list[Difference]
    departed: list[str]


def compare(office: Office, table: CsvList) -> Beside:
    """A list beside the register. A list with another first line has nobody whom the register could have."""
    if table.header != HEADER:
        return Beside(set(), [], [])
    known: set[int] = set()
    differences: list[Difference] = []
    listed: set[str] = set()
    for number, record in enumerate(table.records):
        listed.add(record.fields[0])
        if number and record.fields[0] in office.people:
            known.add(number)
            differences += differences_of(office, record.fields)
    departed = [person.ident for person in office.participants if person.ident not in listed] if known else []
    return Beside(known, differences, departed)


def names_rooms(table: CsvList) -> bool:
    """Whether a list of people names the room of somebody."""
    return table.header == HEADER and any(len(record.fields) == len(HEADER) and record.fields[3] for record in table.records[1:])


def known_rooms(office: Office, table: CsvList) -> Beside:
    """A list of rooms beside the register: the records of rooms that it has already."""
    return Beside({number for number, record in enumerate(table.records) if number and record.fields[0] in office.rooms}, [], [])


def differences_of(office: Office, fields: list[str]) -> list[Difference]:
    """Where a record says something else than the register. An empty field says nothing."""
    if len(fields) != len(HEADER):
        return []
    ident, name, __, home = fields
    person = office.people[ident]
    pairs = [(name, person.name), (home, person.home or _("no room"))]
    return [Difference(ident, said, kept) for said, kept in pairs if said and said != kept]
