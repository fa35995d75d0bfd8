"""Results: the audit's verdict, figures, letters, and the plan of moves."""

from typing import NamedTuple

from languages import N_, _, ngettext, speaking, spoken
from lines import ACCEPTED
from plan_of_moves import LEAVES, NONE, SWAP, moves_in

import explaining
import figures
import plain
import views
from app import app, attempt, field, go_to, office_now, show, tell
from codes import unbroken
from office_view import Office
from resident_languages import residents

LONGEST_CLOSING = 1000
LEAVING = N_("They move out first, and into no other room.")
ROUND = N_("They move at the same time: each one goes where the next one in the list comes from, and the last one goes where the "
           "first one comes from.")
ADVICE = N_("A wave says only who has to wait for whom: each person can move as soon as their own new room is empty. It is "
            "simplest if everybody who moves brings their things to a store in the morning, and moves in after noon. Then all "
            "these rooms are empty at noon, and neither waves nor circles matter. Without a store, spread the waves over several "
            "days.")


@app.get("/office/results")
def results() -> str:
    """Who gets which room, and whether the audit agrees."""
    office = office_now()
    if not office.results:
        return show("no_results", office=office)
    return show("results", office=office, figures=figures.figures_of(office), faults=explaining.faults_of(office))


# --- letters

class Letter(NamedTuple):
    """A letter to one participant."""

    ident: str
    name: str
    result: str
    room: str
    told: list[str]


def letter_of(office: Office, ident: str, told: list[str]) -> Letter:
    """The letter with one person's result and how it came about."""
    room = office.results[ident]
    if room is None:
        result = _("You get no room in this round.")
    elif room == office.people[ident].home:
        result = _("You keep your room")
    else:
        result = _("Your new room is")
    return Letter(ident, office.people[ident].name, result, room or "", told)


@app.get("/office/letters")
@app.post("/office/letters")
def letters() -> str:
    """A letter for each participant in their own language, one a sheet, with the clerk's own text for it at its end."""
    office = office_now()
    if office.phase != "published":
        tell("bad", _("Letters can be printed while the results are published, until the round is settled."))
        go_to("/office/print")
    if explaining.faults_of(office):
        tell("bad", _("The audit finds other results. Send no letters, and call the administrator."))
        go_to("/office/results")
    written, explainer, spoken_by = [], explaining.explainer_of(office), residents()
    codes = dict.fromkeys(spoken_by.of(ident) for ident in office.results)
    closings = {code: lines_of(f"closing-{code}") or lines_of("closing") for code in codes}
    for ident in sorted(office.results, key=lambda one: office.people[one].name):
        facts = explainer.facts_of(ident) if explainer else None
        with speaking(spoken_by.of(ident)):
            letter = letter_of(office, ident, explaining.to_resident(facts) if facts else [])
            written.append(views.render("letter", letter=letter, number=office.number, closing=closings[spoken()],
                                        unbroken=unbroken))
    return show("letters", office=office, letters=written, codes=list(codes), lines_of=lines_of, fault=spoken_by.fault,
                longest=LONGEST_CLOSING)


def lines_of(name: str) -> list[str]:
    """The lines of a field, but for empty ones."""
    return [line for line in field(name)[:LONGEST_CLOSING].splitlines() if line.strip()]


# --- the day of moving

LEAVE, WAVE, CIRCLE = "leave", "wave", "circle"


class Move(NamedTuple):
    """One move: who, and from where to where."""

    ident: str
    name: str
    old: str
    new: str


class Group(NamedTuple):
    """Moves that belong together, by their kind: LEAVE, WAVE, or CIRCLE of people who pass their rooms round."""

    kind: str
    title: str
    note: str
    moves: list[Move]


def circles_of(swaps: list[Move]) -> list[list[Move]]:
    """The swaps by circle: each person is followed by the one who leaves the room that this person enters."""
    leaving = {move.old: move for move in swaps}
    circles = []
    while leaving:
        room = next(iter(leaving))
        circle = []
        while room in leaving:
            circle.append(leaving.pop(room))
            room = circle[-1].new
        circles.append(circle)
    return circles


def groups_of(office: Office, table: str) -> list[Group]:
    """The move-day list of the program, by waves and circles."""
    waves: dict[str, list[Move]] = {}
    for wave, ident, old, new in moves_in(table):
        name = office.people[ident].name if ident in office.people else ""
        waves.setdefault(wave, []).append(Move(ident, name, *(_("no room") if room == NONE else room for room in (old, new))))
    circles = circles_of(waves.pop(SWAP, []))
    groups = [Group(LEAVE, _("Leave the college"), _(LEAVING), waves.pop(LEAVES))] if LEAVES in waves else []
    first = (_("They move into rooms that nobody leaves, or whose tenants leave the college.") if groups else
             _("They move into rooms that nobody leaves."))
    groups += [Group(WAVE, _("Wave {number}", number=wave),
                     first if wave == "1" else _("They move once wave {number} has left.", number=int(wave) - 1), moves)
               for wave, moves in waves.items()]
    return groups + [Group(CIRCLE, _("Circle {number}", number=number), _(ROUND), circle)
                     for number, circle in enumerate(circles, 1)]


def advice_on(groups: list[Group]) -> str:
    """How many people move, and how a college gets through the day, if some have to wait for others."""
    counts = {kind: [len(group.moves) for group in groups if group.kind == kind] for kind in (LEAVE, WAVE, CIRCLE)}
    leaving, moving = sum(counts[LEAVE]), sum(counts[WAVE] + counts[CIRCLE])
    waves, circles = len(counts[WAVE]), len(counts[CIRCLE])
    said = [ngettext("{count} person moves, in {groups}.", "{count} people move, in {groups}.", moving,
                     groups=parts_of(waves, circles)) if waves or circles else
            ngettext("{count} person moves.", "{count} people move.", moving)]
    if leaving:
        said.append(ngettext("{count} person leaves the college.", "{count} people leave the college.", leaving))
    return " ".join([*said, _(ADVICE)] if waves > 1 or circles else said)


def parts_of(waves: int, circles: int) -> str:
    """So many waves and circles."""
    of_waves, of_circles = ngettext("{count} wave", "{count} waves", waves), ngettext("{count} circle", "{count} circles", circles)
    if waves and circles:
        return _("{waves} and {circles}", waves=of_waves, circles=of_circles)
    return of_waves if waves else of_circles


@app.get("/office/moves/<number:int>")
def moves(number: int) -> str:
    """The plan of moves: of a round that is over, or on a copy of the round under way."""
    office = office_now()
    ahead = {"ran": ("publish", "settle"), "published": ("settle",)}.get(office.phase, ())
    planned = bool(ahead) and number == office.number
    answer = attempt(*(ahead if planned else ()), f"moves {number}")[-1]
    if answer.status != ACCEPTED:
        tell("bad", str(plain.meaning(answer.text)))
        go_to("/office/print")
    groups = groups_of(office, answer.text)
    return show("moves", office=office, number=number, groups=groups, planned=planned, advice=advice_on(groups))
