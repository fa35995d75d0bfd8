"""What the rows of an office (rows.py) say of people: who is in the register, who lives where, and who takes part in the round."""

from typing import Any


def people_in(rows: dict[str, Any]) -> set[str]:
    """Who is in the register."""
    return {row[0] for row in rows["people"]}


def homes_in(rows: dict[str, Any]) -> dict[str, str | None]:
    """The room of each person, or none."""
    return {person: home for person, _name, home, _withdrawn in rows["people"]}


def withdrawn_in(rows: dict[str, Any]) -> list[str]:
    """Who has withdrawn from the round."""
    return [person for person, _name, _home, withdrawn in rows["people"] if withdrawn]


def going_in(rows: dict[str, Any]) -> list[str]:
    """Who leaves the college at the end of the round."""
    return [person for person, in rows["going"]]


def takes_part(rows: dict[str, Any]) -> list[str]:
    """Who takes part in the round."""
    away = {*withdrawn_in(rows), *going_in(rows)}
    return [person for person, *_rest in rows["people"] if person not in away]
