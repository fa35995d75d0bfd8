"""The figures after a way back to a copy: of each round those of the office as it is now.

The file of the figures follows what is carried out. So after a way back it may have those of another result, which was published
on another branch. A round that is published is counted anew from the office, and one that was settled on the way to the copy
from the copy before it was settled. If that one is gone, and another result was published elsewhere, nobody knows its figures
any more, and the file has none.
"""

import contextlib
import datetime
import itertools
import sqlite3

from backups import Backups
from branches import Branches
from figures_kept import Round, round_of
from given_up import round_in
from entries import DONE, NOT_DONE
from happened import Happened
from journal import Journal
from rows import rows_of
from seen import Rows
from settings import Fault

PUBLISH, SETTLE = "publish", "settle"


class Brought:
    """What a way back to a copy has brought. `before` is the copy that the keeper made before it."""

    def __init__(self, journal: Journal, backups: Backups, name: str, before: str) -> None:
        self.backups, self.name = backups, name
        self.branches = Branches(itertools.takewhile(lambda entry: entry.get("copy") != before, journal.entries(whole=True)))
        self.happened = Happened(self.branches.entries, None, lambda copy: round_in(backups.file_of(copy)))
        self.behind = set(self.branches.behind(name))  # places of what led to the copy

    def figures(self, now: Rows) -> dict[int, Round | None]:
        """The figures of rounds of which the file may have others, by number; None where nobody knows them."""
        found: dict[int, Round | None] = {}
        since = set(map(id, self.branches.fork(self.name).before_one))
        for index, step in enumerate(self.happened.steps):
            numbers, entry = self.happened.numbers(index), self.branches.entries[step.place]
            if (step.verb, self.happened.outcomes[index], len(numbers)) != (SETTLE, DONE, 1) or id(entry) not in since:
                continue
            rows = self.kept(str(entry.get("copy", "")), numbers[0])
            if rows or self.is_published_elsewhere(numbers[0]):
                found[numbers[0]] = self.counted(rows, step.place) if rows else None
        if now["phase"] == "published":
            found[now["number"]] = self.counted(now, len(self.branches.entries))
        return found

    def kept(self, copy: str, number: int) -> Rows | None:
        """A round that is published, by the copy before it was settled; nothing if that is gone, damaged, or of another moment."""
        with contextlib.suppress(Fault, OSError, sqlite3.Error), self.backups.taken_out(copy) as file:
            rows = rows_of(file)
            return rows if (rows["number"], rows["phase"]) == (number, "published") else None
        return None

    def is_published_elsewhere(self, number: int) -> bool:
        """Whether another result of a round may have been published on another branch: then the file may have that one."""
        return any(step.verb in (PUBLISH, SETTLE) and step.place not in self.behind
                   and number in (self.happened.numbers(index) or [number])
                   for index, step in enumerate(self.happened.steps) if self.happened.outcomes[index] is not NOT_DONE)

    def counted(self, rows: Rows, place: int) -> Round:
        """The figures of a published round. The day is that of the publication which led to it, if the journal has that."""
        published = next((step.place for index, step in reversed(list(enumerate(self.happened.steps)))
                          if step.verb == PUBLISH and step.place < place and step.place in self.behind
                          and self.happened.outcomes[index] is DONE), None)
        one = round_of(rows)
        if published is None:
            return one
        at = datetime.datetime.fromisoformat(self.branches.entries[published]["at"])
        return one._replace(published=at.astimezone().date().isoformat())
