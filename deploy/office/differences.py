"""What becomes of people and rooms if the office goes back to a copy: by the rows of then and those of now (rows.py). It has no
key."""

from typing import Any

from register import going_in, withdrawn_in
from seen import Rows


def away_in(rows: Rows) -> dict[str, str]:
    """Who takes no part in the round, and why."""
    return {**dict.fromkeys(withdrawn_in(rows), "withdrawn"), **dict.fromkeys(going_in(rows), "going")}


def differences(then: Rows, now: Rows) -> dict[str, Any]:
    """How far the round was, whose key, name, list, grade and part in the round become again what they were, who comes back, who
    goes, and which rooms are in or out of use again, or have another person."""
    old, new = ({person: name for person, name, *_ in rows["people"]} for rows in (then, now))
    both = [person for person in old if person in new]
    marks, lists = (then["key_marks"], now["key_marks"]), (then["choices"], now["choices"])
    away = away_in(then), away_in(now)
    grades = dict(then["grades"]), dict(now["grades"])
    rooms = [{code: tuple(room) for code, *room in rows["rooms"]} for rows in (then, now)]
    return {
        "round": [then["number"], then["phase"]],
        "keys": [person for person in both if marks[0][person] != marks[1][person]],
        "names": [[person, old[person], new[person]] for person in both if old[person] != new[person]],
        "lists": [person for person in both if lists[0].get(person) != lists[1].get(person)],
        "part": [person for person in both if away[0].get(person) != away[1].get(person)],
        "grades": [person for person in both if grades[0].get(person, 0) != grades[1].get(person, 0)],
        "rooms": sorted(code for code in {**rooms[0], **rooms[1]} if rooms[0].get(code) != rooms[1].get(code)),
        "come": [[person, name] for person, name in old.items() if person not in new],
        "go": [[person, name] for person, name in new.items() if person not in old],
    }
