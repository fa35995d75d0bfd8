"""What the sender of a change saw of the office. If it has changed since, the change is not made.

The office's page puts what its clerk sees into its forms, and the keeper compares: both by these functions, of the rows
of `view` (rows.py).
"""

import hashlib
import json
from typing import Any, NamedTuple

from languages import N_, _
from register import going_in

Rows = dict[str, Any]

# What can be seen of people, and what a refusal says if it was changed.
PARTS = {
    "name": N_("The name of {who} was changed after you looked. Nothing was changed by you: decide again."),
    "home": N_("The room of {who} was changed after you looked. Nothing was changed by you: decide again."),
    "grade": N_("The grade of {who} was changed after you looked. Nothing was changed by you: decide again."),
    "list": N_("The list of {who} was changed after you looked. Nothing was changed by you: decide again."),
    "key": N_("The key of {who} was changed after you looked. Nothing was changed by you: decide again."),
    "all": N_("What is on record of {who} was changed after you looked. Nothing was changed by you: decide again."),
}
KEYED = ("key", "all")  # parts in which the marks of keys are
RESTARTED = N_("The office's keeper was started anew after you looked, so nobody knows whether the key of {who} was changed "
               "meanwhile. Nothing was changed by you: look again, and decide again.")
BACK = N_("The office went back to a copy after you looked, or was about to. Nothing was changed by you: look again, and decide "
          "again.")
NEVER = "never"  # has the office gone back
# How far a round is, in words.
STATES = {
    "idle": N_("No round is under way"), "open": N_("Round {number}: the round is open"),
    "closed": N_("Round {number}: the round is closed"), "drawn": N_("Round {number}: the order is drawn"),
    "ran": N_("Round {number}: the rooms are given"), "published": N_("Round {number}: the results are published"),
}


class Saw(NamedTuple):
    """What was seen of people: one of PARTS, and a mark that changes with it."""

    part: str
    people: list[str]
    mark: str


def stamp_of(number: int, phase: str) -> str:
    """The state of a round."""
    return f"round {number} {phase}"


def stamp(rows: Rows) -> str:
    """The state of the round of now."""
    return stamp_of(rows["number"], rows["phase"])


def state_of(rows: Rows) -> str:
    """The same as a form carries it, with the last way back: after it a round may be as far as before, and have other lists."""
    return f"{stamp(rows)}, back {rows.get('back') or NEVER}"


def saw(rows: Rows, part: str, people: list[str]) -> Saw:
    """What rows say of people. A mark with somebody's key in it ends with the run of the keeper: another one has other marks."""
    known, grades = {person: row for person, *row in rows["people"]}, dict(rows["grades"])
    going = set(going_in(rows))
    found: list[Any] = []
    for person in people:
        name, home, withdrawn = known.get(person, (None, None, None))
        record = {"name": name, "home": home, "grade": grades.get(person, 0), "list": rows["choices"].get(person),
                  "key": rows["key_marks"].get(person), "away": [withdrawn, person in going]}
        found.append(record.get(part, record))
    run = f"-{rows['run']}" if part in KEYED and any(person in rows["key_marks"] for person in people) else ""
    return Saw(part, people, hashlib.sha256(json.dumps(found).encode()).hexdigest()[:16] + run)


def why_other(rows: Rows, had: Saw) -> str:
    """Why what was seen of people is not so any more, or nothing. If the keeper was started anew, nobody knows it of keys."""
    if had == saw(rows, had.part, had.people):
        return ""
    by_another = had.mark.partition("-")[2] not in ("", rows["run"])
    return _(RESTARTED if by_another else PARTS[had.part],
             who=had.people[0] if len(had.people) == 1 else _("one of these people"))


def why_stale(rows: Rows, seen: str | None, had: Saw | None) -> str:
    """Why a change is not made whose sender saw the round and people in another state, or nothing. Who says nothing of ways back
    means the round alone."""
    if seen is not None and ", back " in seen and seen.partition(", back ")[2] != (rows.get("back") or NEVER):
        return _(BACK)
    if seen is not None and seen.partition(", back ")[0] != stamp(rows):
        now = _(STATES[rows["phase"]], number=rows["number"])
        return _("the office has gone on. {state}. Nothing was changed. Look before you go on.", state=now)
    return why_other(rows, had) if had is not None else ""
