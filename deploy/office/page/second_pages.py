"""Leads through a second round, for the people without a room and the rooms that are free."""

from typing import NamedTuple

from languages import _, ngettext

import plain
from app import app, office_now, show
from many_pages import MOST_AT_ONCE
from office_view import Office


class Second(NamedTuple):
    """What a second round is for, and how far it has come."""

    without: int
    free: int
    asked: int           # people without a room who have a list on record
    tenants: list[str]   # who has a room, and no list on record or an empty one


class Said(NamedTuple):
    """What the page says in numbers: who has no room, who has left the college, how far the round is, and who has asked."""

    without: str
    left: str
    phase: str
    asked: str


def second_of(office: Office) -> Second:
    """The figures of a second round."""
    without = office.without_room
    tenants = [person.ident for person in office.without_list if person.home]
    return Second(len(without), len(office.free_rooms), sum(1 for one in without if office.choices.get(one.ident)), tenants)


@app.get("/office/second")
def second() -> str:
    """The steps of a second round, in their order, with the one that comes next."""
    office = office_now()
    away = {"idle": 1, "open": 3}.get(office.phase, 4)
    following, found = plain.STEPS[office.next_step] if office.next_step else None, second_of(office)
    return show("second", office=office, second=found, most=MOST_AT_ONCE, now=0 if office.left and away == 1 else away,
                following=following and _(following.name), said=said_of(office, found))


def said_of(office: Office, found: Second) -> Said:
    """The sentences with numbers."""
    free = ngettext("{count} room is free", "{count} rooms are free", found.free)
    return Said(
        ngettext("One person has no room, and {free}.", "{count} people have no room, and {free}.", found.without, free=free),
        ngettext("One person left the college in round {number}, and would take part as somebody without a room.",
                 "{count} people left the college in round {number}, and would take part as people without a room.",
                 len(office.left), number=office.number),
        _(plain.PHASES[office.phase].numbered, number=office.number),
        ngettext("{count} of {people} without a room has a list on record.",
                 "{count} of {people} without a room have a list on record.", found.asked, people=plain.people(found.without)))
