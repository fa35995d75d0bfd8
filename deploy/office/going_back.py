"""A way back to a kept copy, as it is tried and then made."""

import contextlib
import sqlite3
from pathlib import Path
from typing import Any

from beside_register import BesideRegister
from branches import Branches
from correcting import refusal
from languages import _
from lines import ACCEPTED
from office import Office
from parting import Parting
from program import Answer, is_of_earlier_version, is_refused
from register import people_in
from rows import keys_in, rows_of
from seen import Rows
from settings import Fault


class GoingBack:
    """A way back to a copy. With `newer_keys` those of the same people stay who have the newer key now."""

    def __init__(self, office: Office, beside: BesideRegister, name: str, newer_keys: bool) -> None:
        self.office, self.beside, self.name, self.newer_keys = office, beside, name, newer_keys
        self.now: Rows | None = None
        self.then: Rows = {}
        self.found: dict[str, Any] = {}

    @property
    def line(self) -> str:
        """What the journal says of it."""
        return f"back {self.name}{', with the newer keys' if self.newer_keys else ''}"

    def carry_out(self, copy: Path) -> list[Answer]:
        """Puts the kept copy over one of the present office, which may be damaged. A copy from before an upgrade of the program
        is brought to the program's version."""
        keys, program = {}, self.office.program
        with contextlib.suppress(sqlite3.Error):
            self.now, keys = rows_of(copy), keys_in(copy)
        self.office.backups.take(self.name, copy)
        answer = program.look(copy)
        if is_of_earlier_version(answer):
            answer = program.migrate(copy)
        if answer.status == ACCEPTED:
            self.then = rows_of(copy)
            self.found = self.compared()
            if stay := self.stay():
                lines = [f"key {person} {keys[person]}" for person in stay]
                answers = program.tell_all(lines, copy)
                if is_refused(answers):
                    raise not_kept(stay[len(answers) - 1], keys, copy) or refusal(lines, answers, False)
        return [answer]

    def compared(self) -> dict[str, Any]:
        """What becomes of people. Of a damaged office, all that is known is who may be somebody else."""
        parting = Parting(self.office, Branches(self.office.journal.entries(whole=True)), self.name)
        if self.now:
            return parting.compared(self.then, self.now)
        everybody = people_in(self.then)
        return {"gone": sorted(parting.others(everybody, everybody))}

    def stay(self) -> list[str]:
        """Who keeps the key of now."""
        return self.found.get("newer_now", []) if self.newer_keys else []

    def prepare(self) -> None:
        """Just before the copy takes the office's place: erases what the keeper has beside the register of people who may be
        somebody else in the copy, and lets receipts know of the others what they saw."""
        people = set(self.found["gone"])
        self.found["gone"] = sorted(self.beside.with_something(people))
        self.beside.erase_others(people)
        if self.now:
            self.beside.post.going_back(self.now, self.then, self.found["others"])

    def told(self) -> dict[str, Any]:
        """What became of people, of whom some have kept their keys."""
        stay = set(self.stay())
        return {name: [one for one in found if one not in stay] if name in ("keys", "newer_now") else found
                for name, found in self.found.items()}


def forgotten_in(branches: Branches, copy: str, come: list[list[str]] | None, then: Rows) -> list[str]:
    """Those of the people who come back into the register by a copy who were forgotten since. If nobody knows who comes back, since
    the office of before cannot be read, that may be everybody of the copy."""
    forgotten = branches.forgotten_since(copy)
    people = sorted(people_in(then)) if come is None else [person for person, _name in come]
    return [person for person in people if person in forgotten]


def not_kept(person: str, keys: dict[str, str], copy: Path) -> Fault | None:
    """The fault of a newer key that a person cannot keep, since it is somebody else's in the copy; or nothing."""
    other = next((one for one, key in keys_in(copy).items() if key == keys[person] and one != person), "")
    if not other:
        return None
    return Fault(_("the newer key of {person} is in the copy that of {other}, so {person} cannot keep it. Nothing was changed. Go "
                   "back without the newer keys, and make new keys for both afterwards.", person=person, other=other))
