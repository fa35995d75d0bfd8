"""Undoes a withdrawal, or a note that somebody leaves the college: what has to be done, what is lost, and what comes back.

The program undoes neither within a round. The page leads from one step to the next. How far the clerk has come, it sees from
the office, so it can be left and opened again.
"""

import re
from typing import Any, NamedTuple

from languages import N_, _, ngettext

import plain
from app import app, ask, change, field, go_to, is_done, office_now, show, tell
from coming_back import GivenUp, had_in, has_come_again, rounds, what_is_left, without_copy
from keeper_client import KeeperFault
from office_view import Office
from people_pages import person_of
from questions import away_facts, must_be_sure

WITHDRAWN, GOING = "withdrawn", "going"  # why somebody takes no part
CLOSED, DRAWN, RESULTS = N_("the close of the round"), N_("the order that was drawn"), N_("the results")
# How the person can be helped without undoing it.
LATER = {
    WITHDRAWN: N_("Somebody who has withdrawn keeps the room that they have. After the round is settled, somebody without a room "
                  "can move into a free one (page People), or take part in a second round."),
    GOING: N_("Somebody who leaves the college has no room once the round is settled, and the old room may be another person's by "
              "then. Do not remove the person from the register. After the round is settled you can let them move into a free room "
              "(page People), or they can take part in a second round."),
}
# What a way back to the open round undoes, by the phase of now.
UNDONE = {"open": (), "closed": (CLOSED,), "drawn": (CLOSED, DRAWN), "ran": (CLOSED, DRAWN, RESULTS)}
# The steps of the long way, which the page takes itself.
STEPS = ("cancel", "open")


class Before(NamedTuple):
    """The copy that was made before somebody withdrew or was noted to leave, and what else would become of people by going
    back to it."""

    name: str
    others: list[str]


def part_of(office: Office, ident: str) -> str:
    """Why somebody takes no part in the round of now, or nothing."""
    person = office.people[ident]
    return WITHDRAWN if person.withdrawn else GOING if person.going else ""


def given_up_with(office: Office, ident: str) -> tuple[GivenUp, str] | None:
    """The last round that was given up, if the person took no part in it, and why."""
    for found in rounds(office)[:1]:
        if any(number > found.number for number in without_copy(office)):
            break
        had = had_in(found.copy)
        if ident in had.withdrawn + had.going:
            return found, WITHDRAWN if ident in had.withdrawn else GOING
    return None


def others_in(found: dict[str, Any], ident: str) -> list[str]:
    """What else would become of people and rooms by going back to a copy, in a few words each."""
    lists, names, keys, come, gone, grades, rooms, others = (
        len(found[part]) for part in ("lists", "names", "keys", "come", "go", "grades", "rooms", "others"))
    part = sum(1 for one in found["part"] if one != ident)
    said = [
        lists and ngettext("one person with another list", "{count} people with another list", lists),
        part and ngettext("one person with another part in the round", "{count} people with another part in the round", part),
        keys and ngettext("one person with another key", "{count} people with another key", keys),
        names and ngettext("one person with another name", "{count} people with another name", names),
        come and ngettext("one person who comes back into the register", "{count} people who come back into the register", come),
        gone and ngettext("one person who goes out of the register", "{count} people who go out of the register", gone),
        grades and ngettext("one person with another grade", "{count} people with another grade", grades),
        rooms and ngettext("a change of one room", "changes of {count} rooms", rooms),
        others and ngettext("one identifier that may be another person's in the copy",
                            "{count} identifiers that may be another person's in the copy", others),
    ]
    return [text for text in said if text]


def copy_before(office: Office, ident: str) -> Before | None:
    """The newest copy from before this one step, alone or in a bundle of lines, if it is of this round as it is now. A resident
    who withdraws makes none."""
    named = re.compile(rf"before (?:.*[,;] )?(?:going|withdraw) (?:{re.escape(ident)}(?![A-Z0-9])|\([0-9]+\))")
    for name, _size, why in reversed(ask("backups")["backups"]):
        if not named.match(why):
            continue
        try:
            found = ask("compare", name=name)
        except KeeperFault:  # the copy is damaged, or has gone
            continue
        if found["round"] == [office.number, "open"] and ident in found["part"] and ident not in found["others"]:
            return Before(name, [*map(_, UNDONE[office.phase]), *others_in(found, ident)])
    return None


@app.get("/office/undo/<ident>")
def undo(ident: str) -> str:
    """The ways to undo it, with the step that comes next."""
    office = office_now()
    place, part = person_of(office, ident), part_of(office, ident)
    if part and office.may("cancel"):
        return show("undo", office=office, person=office.people[ident], left=part == GOING, step="cancel", copy="",
                    before=copy_before(office, ident), facts=away_facts(office), later=_(LATER[part]))
    if not part and (found := given_up_with(office, ident)):
        return next_step(office, ident, *found)
    has_left = office.phase == "idle" and any(one.ident == ident for one in office.left)
    tell("bad", why_not(office, GOING if has_left else part))
    return go_to(place)


def why_not(office: Office, part: str) -> str:
    """Why nothing is undone of somebody who takes no part for this reason, or takes part."""
    if part:
        return _("{phase}. It can no longer be undone. {later}", phase=_(plain.PHASES[office.phase].title), later=_(LATER[part]))
    return (_("No round is under way, so there is nothing to undo.") if office.phase == "idle" else
            _("There is nothing to undo: this person takes part in the round."))


def next_step(office: Office, ident: str, given_up: GivenUp, part: str) -> str:
    """The page of the step that comes after the round was given up."""
    left = what_is_left(office, had_in(given_up.copy))
    rest = [one for one in left.away if one != ident and not has_come_again(office, one, left)]
    step = "open" if office.may("open") else "back" if rest or left.lists_but(rest) or left.longer else "done"
    return show("undo", office=office, person=office.people[ident], left=part == GOING, step=step, before=None,
                copy=given_up.copy, facts=(), later="")


@app.post("/office/undo/<ident>")
def take_step(ident: str) -> None:
    """Takes a step of the long way, and leads to the next one."""
    office, step = office_now(), field("step")
    person_of(office, ident)
    place = f"/office/undo/{ident}"
    if step not in STEPS or not office.may(step):
        tell("bad", _("This step does not come now. {phase}.", phase=_(plain.PHASES[office.phase].title)))
        go_to(place)
    if step == "cancel":
        must_be_sure(place)
    if change("do", lines=[step]) and step == "open" and (found := given_up_with(office_now(), ident)):
        is_done("take-out", name=found[0].copy, people=[ident])
    go_to(place)
