"""To whom a message of each kind goes, and what stands in the place of its placeholders, by the rows of the office (rows.py).
Sentences are in the language that is spoken.
"""

import datetime

import times
from languages import ENGLISH, _, ngettext, spoken
from lines import ACCEPTED
from mail_words import RECEIPT
from plan_of_moves import LEAVES, NONE, SWAP, moves_in
from program import Program
from copies import Copies
from register import homes_in, people_in, takes_part, withdrawn_in
from seen import Rows


def goes_to(kind: str, rows: Rows, moves: dict[str, list[str]]) -> list[str]:
    """To whom a message of this kind goes now."""
    if kind == "invitation":
        return takes_part(rows)
    if kind == RECEIPT:
        return []  # the keeper finds out whose list has changed
    if kind == "reminder":
        return [person for person in takes_part(rows) if not rows["choices"].get(person)]
    known = people_in(rows)
    return [person for person in (moves if kind == "moves" else dict(rows["results"])) if person in known]


def told_by(kind: str, rows: Rows, moves: dict[str, list[str]]) -> dict[str, list[str | None]]:
    """What a message of this kind tells each person that may be something else once results are published anew."""
    if kind == "moves":
        return {person: list(move) for person, move in moves.items()}
    if kind != "results":
        return {}
    homes = homes_in(rows)
    return {person: [room, homes.get(person)] for person, room in rows["results"]}


def planned_moves(rows: Rows, program: Program, copies: Copies) -> dict[str, list[str]]:
    """The plan of moves that settling the published round will record: wave, old room and new room, by person."""
    if rows["phase"] != "published":
        return {}
    with copies.copied() as copy:
        answer = program.tell_all(["settle", f"moves {rows['number']}"], copy)[-1]
    moves = moves_in(answer.text) if answer.status == ACCEPTED else []
    return {move.person: [move.wave, move.old, move.new] for move in moves}


def none() -> str:
    """What stands in the place of a room that somebody does not have. Other languages have no word for `none` of whatever it is."""
    return NONE if spoken() == ENGLISH else _("no room")


def not_yet() -> str:
    """What stands in the place of what is not known yet."""
    return _("(not known yet)")


def result_of(rows: Rows, person: str, home: str | None) -> tuple[str, str]:
    """A person's result as a sentence, and the room alone."""
    results = dict(rows["results"])
    if rows["phase"] != "published" or person not in results:
        return not_yet(), not_yet()
    room = results[person]
    if room is None:
        return _("You get no room in this round."), none()
    return (_("You keep your room {room}.", room=room) if room == home else _("Your new room is {room}.", room=room)), room


def move_of(wave: str, old: str, new: str) -> str:
    """A person's move as a sentence."""
    if wave == LEAVES:
        return _("You move out of {old} before the others move.", old=old)
    if wave == SWAP:
        return (_("You move from {old} to {new}, at the same time as the people with whom you exchange rooms.", old=old, new=new)
                if old != NONE else
                _("You move to {new}, at the same time as the people with whom you exchange rooms.", new=new))
    if wave == "1":
        return (_("You move from {old} to {new}, as one of the first.", old=old, new=new) if old != NONE else
                _("You move to {new}, as one of the first.", new=new))
    before = int(wave) - 1
    return (_("You move from {old} to {new}, in wave {wave}: once the people of wave {before} have moved.",
              old=old, new=new, wave=wave, before=before) if old != NONE else
            _("You move to {new}, in wave {wave}: once the people of wave {before} have moved.", new=new, wave=wave, before=before))


def receipt_of(rows: Rows, person: str, since: datetime.datetime, withdrew: bool) -> str:
    """What the office has of a person's list, in sentences without its rooms. Whether the last receipt told of a withdrawal: one
    that the office has no more, since it went back to a copy, counts no more."""
    number, time = rows["number"], times.to_the_minute(since)
    if person in withdrawn_in(rows):
        return _("You have withdrawn from round {round}, since about {time}.", round=number, time=time)
    on_record = list_of(number, len(rows["choices"].get(person, [])), time)
    if not withdrew:
        return on_record
    again = _("Your withdrawal no longer counts: you take part in round {round} again.", round=number)
    return f"{again} {on_record}"


def list_of(number: int, count: int, time: str) -> str:
    """How many rooms are on a list, since when, as a sentence. The program does not tell an empty list from none."""
    if not count:
        return _("There is no room on your list in round {round}, as of about {time}: the list is empty, or there is none.",
                 round=number, time=time)
    return ngettext("A list of yours with {count} room has been on record in round {round} since about {time}.",
                    "A list of yours with {count} rooms has been on record in round {round} since about {time}.", count,
                    round=number, time=time)


def values_of(kind: str, rows: Rows, person: str, link: str, known: dict[str, list[str]]) -> dict[str, str]:
    """What stands in the place of each placeholder for this person. For a message of moves, `known` has the moves."""
    name, home = next((name, home) for one, name, home, _withdrawn in rows["people"] if one == person)
    values = {"name": name, "person": person, "room": home or none(), "round": str(rows["number"]), "link": link}
    if kind == "results":
        values["result"], values["new"] = result_of(rows, person, home)
    if kind == "moves":
        move = known.get(person)
        values["move"], values["new"] = (move_of(*move), none() if move[2] == NONE else move[2]) if move else (not_yet(), not_yet())
    return values
