"""The rounds that were given up, by the copies that the keeper made before: who had withdrawn, who was to leave the college,
and the lists. The office's page brings these back into a later round.
"""

import contextlib
import re
import sqlite3
from pathlib import Path
from typing import Any

from branches import Branches, named_in
from copies import kept_copy
from entries import Entry, lines_of
from languages import _
from lines import BUNDLE, IDENTIFIER
from office import Office
from parting import Parting
from phases import LAST_STEPS
from register import going_in, withdrawn_in
from rows import View, records_of, rows_of
from seen import Rows
from settings import Fault

GIVE_UP, SETTLE = "cancel", "settle"  # the kinds of the copies that are made before a round is given up, or settled
CHOICES = "choices"  # the kind of a list of lists
# What the journal says of people whom a clerk has taken out of what comes back.
TAKEN_OUT = re.compile(r"not back from round (\d+): (.+)")
# In the reason of a copy that was made before several lines: one of them ends a round.
ENDING = re.compile(rf"\b(?:{'|'.join(LAST_STEPS)}) \(")
KEPT_LISTS = "SELECT label, body FROM list WHERE kind = ?"


def round_in(file: Path) -> tuple[int, str] | None:
    """The number and the phase of the round in a kept copy. Nothing about one that was damaged."""
    with contextlib.suppress(sqlite3.Error), kept_copy(file) as database:
        found = database.execute("SELECT number, phase FROM round").fetchone()
        return (int(found[0]), str(found[1])) if found else None
    return None


def last_ended(now: Rows) -> int:
    """The number of the last round that is over."""
    return int(now["number"]) if now["phase"] == "idle" else int(now["number"]) - 1


def ends(office: Office, now: Rows) -> list[tuple[str, str]]:
    """The copies that were kept before a round was given up or settled, each with that step, the newest first. Of several lines at
    once the journal has the steps."""
    kept = [(name, office.backups.entry(name)) for name in reversed(office.backups.names())]
    many: dict[str, str] = {}
    if any(entry["kind"] == BUNDLE and ENDING.search(entry["why"]) for _name, entry in kept):
        many = Branches(office.journal.entries(whole=True)).ended_after((now["number"], now["phase"]))
    steps = [(name, many.get(name, "") if entry["kind"] == BUNDLE else entry["kind"]) for name, entry in kept]
    return [(name, step) for name, step in steps if step in LAST_STEPS]


def rounds(office: Office, now: Rows) -> list[tuple[str, int, str]]:
    """The copy, the number and the phase of each round that was given up since the last one was settled, the newest first.

    After a way back to a copy, a round that was given up, or settled, may be under way again: then it is none. The office knows a
    settled round by its moves. One in which nobody moved is known by the copy before it was settled, as long as that one is kept.
    """
    last = last_ended(now)
    found: dict[int, tuple[str, int, str]] = {}
    settled = set(now["settled"])
    for name, step in ends(office, now):
        had = round_in(office.backups.file_of(name))
        if had and had[0] <= last and had[0] not in found and had[1] != "idle":  # of several lines one may have opened the round
            if step == SETTLE:
                settled.add(had[0])
            else:
                found[had[0]] = (name, *had)
    return sorted((one for one in found.values() if one[1] > max(settled, default=0)), key=lambda one: one[1], reverse=True)


def without_copy(office: Office, now: Rows, known: list[int]) -> list[int]:
    """The other rounds that were given up since the last one was settled, by the journal, the newest first: their copies are not on
    this machine, or cannot be read."""
    number = last_ended(now)
    if not set(range(max(now["settled"], default=0) + 1, number + 1)).difference(known):
        return []
    ended, found = Branches(office.journal.entries(whole=True)).ended((now["number"], now["phase"])), []
    while number > max(now["settled"], default=0) and ended.get(number, GIVE_UP) == GIVE_UP:
        found += [number] if number in ended and number not in known else []
        number -= 1
    return found


def had_in(rows: Rows) -> dict[str, Any]:
    """What a round had: who had withdrawn, who was to leave the college, and all lists, also of these people."""
    return {"number": rows["number"], "phase": rows["phase"], "choices": rows["choices"],
            "withdrawn": withdrawn_in(rows), "going": going_in(rows)}


def imported_since(office: Office, then: Rows, now: Rows) -> dict[str, dict[str, list[str]] | None]:
    """The lists of choices that were imported since then, by label, and the choices of each person in it. Of one that was blanked
    nobody knows that."""
    had = {label for label, *_rest in then["lists"]}
    blank = {label: bool(is_blank) for label, kind, _added, is_blank in now["lists"] if kind == CHOICES and label not in had}
    if not blank:
        return {}
    with office.copies.copied() as file, contextlib.closing(sqlite3.connect(file)) as database:
        bodies = dict(database.execute(KEPT_LISTS, (CHOICES,)))
    return {label: None if is_blank else {person: " ".join(rest).split() for person, *rest in records_of(bodies[label])
                                          if IDENTIFIER.fullmatch(person)}
            for label, is_blank in blank.items() if label in bodies}


def taken_out(entries: list[Entry], number: int) -> list[str]:
    """Whom a clerk has taken out of what comes back of a round."""
    found = [TAKEN_OUT.fullmatch(line) for entry in entries for line in lines_of(entry)]
    return sorted({person for one in found if one and int(one[1]) == number for person in one[2].split()})


def take_out(office: Office, view: View, name: str, people: list[str], who: str) -> None:
    """Notes whom a clerk has taken out of what comes back of the round of a copy, so that no page offers it to another clerk."""
    numbers = {copy: number for copy, number, _phase in rounds(office, view.rows())}
    if name in numbers and people:
        with office.journal.change(who, f"not back from round {numbers[name]}: {' '.join(people)}"):
            pass


def given_up(office: Office, view: View, name: str | None) -> dict[str, Any]:
    """The rounds that were given up, and those of them of which there is no copy; or, with the name of the copy of one, what that
    round had, whose identifiers may be somebody else's by now, whom a clerk has taken out, and which lists were imported since."""
    now = view.rows()
    found = rounds(office, now)
    if name is None:
        return {"rounds": found, "gone": without_copy(office, now, [number for _copy, number, _phase in found])}
    if name not in [copy for copy, _, _ in found]:
        raise Fault(_("no round was given up after this copy was made, or the copy is gone"))
    with office.backups.taken_out(name) as copy:
        rows = rows_of(copy)
    parting = Parting(office, Branches(office.journal.entries(whole=True)), name)
    # A list that came back before a room was reopened lacks it.
    return {**had_in(rows), "others": sorted(parting.others_in(rows, now)), "imported": imported_since(office, rows, now),
            "taken_out": taken_out(parting.fork.before_other, rows["number"]),
            "reopened": sorted(named_in(parting.fork.before_other, "reopen"))}
