"""Who may be somebody else in a copy than now, though the identifier is the same, and whose key and list is the newer one.

A copy and the office of now come from one state, in which they part (branches.py); of that state a copy is kept. Somebody is
the same person in both who was in the register then, and was not removed since on the way to either, or who has the same key in
both. If the key of such a person, or the list, is now what it was then, that of the copy is the newer one.
"""

import contextlib
import functools
import sqlite3
from typing import Any

from branches import Branches
from differences import differences
from office import Office
from register import people_in
from rows import identifiers_in, rows_of
from seen import Rows
from settings import Fault

KEYS, LISTS = "key_marks", "choices"  # what a clerk or a person changes, as the rows have it


class Parting:
    """What has become of people between a copy and now, or between a copy and another one."""

    def __init__(self, office: Office, branches: Branches, copy: str, other: str = "") -> None:
        self.office, self.branches, self.copy = office, branches, copy
        self.fork = branches.fork(copy, other)

    @functools.cached_property
    def base(self) -> Rows | None:
        """The state in which both part; nothing if its copy is kept no more, or is damaged."""
        with contextlib.suppress(Fault, sqlite3.Error), self.office.backups.taken_out(self.fork.base) as file:
            return rows_of(file)
        return None

    def others_in(self, then: Rows, now: Rows) -> set[str]:
        """Identifiers of the copy and of now that may be another person's now. Who has the same key in both is the same person,
        also if the keeper was ended at a bundle of lines and nobody knows who was removed by it."""
        same = {person for person, mark in then[KEYS].items() if mark == now[KEYS].get(person)}
        return self.others(people_in(then), people_in(now)) - same

    def others(self, then: set[str], now: set[str]) -> set[str]:
        """The same by identifiers alone: those that came on one of the two branches, or were removed there. If the state in which
        both part is not known any more, those that were removed since."""
        both = then & now
        new = both - people_in(self.base) if self.fork.base != self.copy and self.base else set()
        return both & self.fork.removed() | new

    def come_as_others(self, come: set[str]) -> set[str]:
        """Of people who come back into the register: those who may be somebody else than who had the identifier last. If that
        person was not removed, they left the register by a way back, so the copy before it has them."""
        found: set[str] = set()
        left = set(come)
        for before in self.branches.before_ways():
            if not left:
                break
            last, register = Parting(self.office, self.branches, self.copy, before), self.register_of(before)
            found |= left & last.fork.removed() if register is None else last.others(left, register)
            left -= register or set()
        return found

    def register_of(self, copy: str) -> set[str] | None:
        """Who is in the register of a copy; nothing if it is kept no more, or is damaged."""
        with contextlib.suppress(Fault, sqlite3.Error), self.office.backups.taken_out(copy) as file:
            return identifiers_in(file)
        return None

    def compared(self, then: Rows, now: Rows) -> dict[str, Any]:
        """What becomes of people by going back to the copy (differences.py). `others` may be somebody else there, and what the
        keeper has under the identifiers of `gone` may be of somebody else than of that person. Of `keys`, `newer_now` have the
        newer one now, and `newer_then` in the copy; of `lists`, `newest` have the newest one in the copy, and `lost` another one
        now, which counts no more."""
        found = differences(then, now)
        others = self.others_in(then, now)
        same = {part: [one for one in found[part] if one not in others] if self.base else [] for part in ("keys", "lists")}
        newer_then = self.unchanged(KEYS, same["keys"], now)
        come = {person for person, _name in found["come"]}
        newest = self.unchanged(LISTS, same["lists"], now)
        emptied = then["number"] == now["number"] and now["phase"] != "idle"  # who has no list now has taken it back
        return {**found, "others": sorted(others), "gone": sorted(others | self.come_as_others(come)),
                "newer_now": [one for one in same["keys"] if one not in newer_then], "newer_then": newer_then,
                "newest": newest,
                "lost": [one for one in found["lists"] if one not in newest and (emptied or now[LISTS].get(one))]}

    def unchanged(self, part: str, people: list[str], now: Rows) -> list[str]:
        """Of these people, those whose key or list is now what it was in the state in which both part."""
        return [one for one in people if self.base and self.base[part].get(one) == now[part].get(one)]
