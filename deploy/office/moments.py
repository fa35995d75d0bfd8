"""When the kept copies were made, by the journal."""

import datetime
from typing import NamedTuple

import times
from entries import Entry, kept_at, went_back_to

SECOND = datetime.timedelta(seconds=1)
LATEST = datetime.datetime.max.replace(tzinfo=datetime.timezone.utc) - SECOND


class Moment(NamedTuple):
    """Between which places a copy was made. Of one that was asked for the second alone is known: what was done in it, between
    both, may have come before the copy or after it."""

    first: int
    last: int


class Moments:  # pylint: disable=too-few-public-methods  # it answers one question
    """Knows when each copy was made, by the merged entries."""

    def __init__(self, entries: list[Entry]) -> None:
        self.times = [datetime.datetime.fromisoformat(entry["at"]) for entry in entries]
        self.kept = [kept_at(entry) for entry in entries]
        self.kept_before = {str(entry["copy"]): place for place, entry in enumerate(entries) if entry.get("copy")}
        self.before_ways = {place: self.kept[place] for place, entry in enumerate(entries) if went_back_to(entry)}

    def of(self, copy: str) -> Moment:
        """When a copy was made: just before a change, or at the time of its name. The names of copies are in order."""
        if copy in self.kept_before:
            return Moment(self.kept_before[copy], self.kept_before[copy])
        made = times.moment_of(copy) or LATEST
        first, last = (next((place for place, (at, kept) in enumerate(zip(self.times, self.kept)) if kept >= copy or at >= end),
                            len(self.times)) for end in (made, made + SECOND))
        first = max([first, *(place + 1 for place, before in self.before_ways.items() if "" < before < copy)])
        return Moment(first, max(first, last))
