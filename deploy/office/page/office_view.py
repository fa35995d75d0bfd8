"""The office as the keeper showed it at one moment."""

from typing import Any, NamedTuple

from languages import _
from lines import LABEL
from phases import FROM
from register import going_in
from seen import Saw, saw, stamp, state_of

import plain


class Person(NamedTuple):
    """A person of the register."""

    ident: str
    name: str
    home: str | None
    withdrawn: bool
    going: bool = False
    grade: int = 0

    @property
    def takes_part(self) -> bool:
        """Whether the person takes part in the round."""
        return not self.withdrawn and not self.going

    @property
    def part(self) -> str:
        """The same in words."""
        return _("no, has withdrawn") if self.withdrawn else _("no, leaves the college") if self.going else _("yes")


class Room(NamedTuple):
    """A room of the register, with the identifier of the person who lives there."""

    code: str
    shut: bool
    tenant: str | None


class KeptList(NamedTuple):
    """An imported list, how many records it added, and whether its contents were deleted."""

    label: str
    kind: str
    added: int
    is_blank: bool


class Office:  # pylint: disable=too-many-instance-attributes  # each is a part of the office
    """The rows of the keeper's `view`, under names."""

    def __init__(self, view: dict[str, Any]) -> None:
        self.view = view
        self.version: int = view["version"]
        self.number: int = view["number"]
        self.phase: str = view["phase"]
        grades, going = dict(view["grades"]), set(going_in(view))
        self.people = {row[0]: Person(row[0], row[1], row[2], bool(row[3]), row[0] in going, grades.get(row[0], 0))
                       for row in view["people"]}
        self.rooms = {row[0]: Room(row[0], bool(row[1]), row[2]) for row in view["rooms"]}
        self.choices: dict[str, list[str]] = view["choices"]
        self.results: dict[str, str | None] = {row[0]: row[1] for row in view["results"]}
        self.lists = [KeptList(row[0], row[1], row[2], bool(row[3])) for row in view["lists"]]
        self.settled: list[int] = view["settled"]
        # Whether the residents' server runs, and the status with which it ended.
        self.serves: bool = view.get("server", True)
        self.ended: int | None = view.get("status")

    @property
    def has_date(self) -> bool:
        """Whether a date is set until which lists are taken."""
        return bool((self.view.get("until") or {}).get("until"))

    @property
    def stamp(self) -> str:
        """The state of the round."""
        return stamp(self.view)

    @property
    def state(self) -> str:
        """The state of the round, and the last way back. A form carries it, and the keeper refuses a change that was meant for
        another one."""
        return state_of(self.view)

    def saw(self, part: str, *people: str) -> Saw:
        """What is on record of people. A form that changes them carries its mark, and the keeper refuses a change that
        was meant for something else."""
        return saw(self.view, part, list(people))

    @property
    def next_step(self) -> str | None:
        """The step that comes next."""
        return next((name for name in plain.STEPS if name != "cancel" and self.may(name)), None)

    def may(self, line: str) -> bool:
        """Whether the program carries out such a line in this phase, or has an answer to such a question."""
        return self.phase in FROM[line]

    @property
    def withdrawn(self) -> list[Person]:
        """Who has withdrawn from the round."""
        return [person for person in self.people.values() if person.withdrawn]

    @property
    def going(self) -> list[Person]:
        """Who leaves the college at the end of the round."""
        return [person for person in self.people.values() if person.going]

    @property
    def left(self) -> list[Person]:
        """Who left the college in the round that was just settled, and is in the register still, without a room."""
        gone = [self.people[ident] for ident, in self.view["left"] if ident in self.people]
        return [person for person in gone if not person.home]

    @property
    def without_room(self) -> list[Person]:
        """Who takes part and has no room, but for those who have left."""
        gone = self.left
        return [person for person in self.participants if not person.home and person not in gone]

    @property
    def free_rooms(self) -> list[str]:
        """The rooms in use in which nobody lives."""
        return [room.code for room in self.rooms.values() if not room.shut and not room.tenant]

    @property
    def has_grades(self) -> bool:
        """Whether anybody has another grade than 0."""
        return any(person.grade for person in self.people.values())

    @property
    def participants(self) -> list[Person]:
        """Who takes part in the round."""
        return [person for person in self.people.values() if person.takes_part]

    @property
    def without_list(self) -> list[Person]:
        """Who takes part and has no list on record, or an empty one."""
        return [person for person in self.participants if not self.choices.get(person.ident)]

    def has_label(self, label: str) -> bool:
        """Whether a list was imported under this label."""
        return any(kept.label == label for kept in self.lists)

    def new_label(self, stem: str) -> str:
        """A label that is not taken."""
        number = 1
        while self.has_label(f"{stem}-{number}"):
            number += 1
        return f"{stem}-{number}"

    def label_for(self, kind: str, label: str) -> str:
        """The label under which a list can be sent again: this one, or another one if it is taken or not well written."""
        return self.new_label(kind) if self.has_label(label) or not LABEL.fullmatch(label) else label

    def choice_number(self, ident: str) -> int | None:
        """Which room of the own list this person gets, from 1; nothing if they keep their room or get none."""
        room, wishes = self.results.get(ident), self.choices.get(ident, [])
        if room is None or room == self.people[ident].home or room not in wishes:
            return None
        return wishes.index(room) + 1

    def is_off_the_list(self, ident: str) -> bool:
        """Whether this person gets a room that they did not list. Right results have none."""
        room = self.results.get(ident)
        return room not in (None, self.people[ident].home) and self.choice_number(ident) is None

    def outcome(self, ident: str) -> str:
        """What this person gets, in a word or two."""
        room, number = self.results.get(ident), self.choice_number(ident)
        if room is None:
            return _("no room")
        if room == self.people[ident].home:
            return _("keeps the room")
        return _("choice {number}", number=number) if number else _("a room off the list")
