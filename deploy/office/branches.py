"""The office's history as a tree: after each way back to a copy the office goes on from the moment of that copy.

The journal says in which order changes were made, and which copy was kept just before each. A state of the office is named by
its place: how many changes came before it in the journal, those of other branches included.
"""

from collections.abc import Iterable, Iterator
from typing import NamedTuple

import times
from entries import DONE, NOT_DONE, Entry, kept_at, lines_of, merged, said_of, went_back_to
from happened import Happened, Known
from moments import Moment, Moments
from phases import LAST_STEPS

REMOVED = ("remove", "forget")  # the lines after which an identifier can be another person's


class Fork(NamedTuple):
    """Where two states of the office part: the copy of the last state that both come from, its place, and what was carried out
    since then, or may have been, on the way to the one and on the way to the other. Of what is `unsure` nobody knows on which
    branch it was carried out, or whether before both."""

    base: str
    place: int
    before_one: list[Entry]
    before_other: list[Entry]
    unsure: list[Entry]

    def removed(self) -> set[str]:
        """Who was removed on one of the two branches, or may have come on one: the identifier can be another person's there."""
        gone = named_in([*self.before_one, *self.before_other, *self.unsure], *REMOVED)
        return gone | named_in(self.unsure, "person")


class WayBack(NamedTuple):
    """A way back that was carried out, or may have been: the copy before it, that of the state from which the office goes on,
    the place of this state, and of what nobody knows whether it was carried out since then."""

    before: str
    copy: str
    led_to: int
    unsure: list[Entry]


class Branches:
    """The tree, by the journal as far as it is there. A way back that the keeper is about to make is none yet."""

    def __init__(self, journal: Iterable[Entry]) -> None:
        self.entries = merged([entry for entry in journal if "at" in entry])
        self.now = Moment(len(self.entries), len(self.entries))
        self.moments = Moments(self.entries)
        self.ways: dict[int, WayBack] = {}
        for place, entry in enumerate(self.entries):
            if copy := went_back_to(entry):
                self.ways[place] = self.way_back(place, copy)

    def way_back(self, place: int, copy: str) -> WayBack:
        """A way back to a copy. If nobody knows whether it was made, the office goes on from what both states share."""
        first, last = (min(one, place) for one in self.moments.of(copy))
        unsure = self.entries[first:last]
        if is_done(self.entries[place]):
            return WayBack(kept_at(self.entries[place]), copy, first, unsure)
        fork = self.part((copy, first), ("", place))
        unsure += [*fork.before_one, *fork.before_other, *fork.unsure]
        return WayBack(kept_at(self.entries[place]), fork.base, fork.place, unsure)

    def fork(self, copy: str, other: str = "") -> Fork:
        """Where the state of a copy, and that of another one or of now, part."""
        made, other_made = self.moments.of(copy), self.moments.of(other) if other else self.now
        fork = self.part((copy, made.last), (other, other_made.last))
        fork.unsure.extend(self.entries[made.first:made.last] + self.entries[other_made.first:other_made.last])
        return fork

    def part(self, one: tuple[str, int], other: tuple[str, int]) -> Fork:
        """Where two states part, by the copy and the place of each."""
        names, at = {place: name for name, place in (other, one)}, [one[1], other[1]]
        since: tuple[list[Entry], ...] = [], [], []
        while at[0] != at[1]:
            later = int(at[1] > at[0])
            place = at[later] = at[later] - 1
            since[later].append(self.entries[place])
            if way := self.ways.get(place):
                at[later] = way.led_to
                names.setdefault(way.led_to, way.copy)
                since[2].extend(way.unsure)
        return Fork(names[at[0]], at[0], *since)

    def behind(self, copy: str) -> Iterator[int]:
        """The places of the entries that led to the state of a copy, the last one first."""
        return self.led_to(self.moments.of(copy).last)

    def led_to(self, place: int) -> Iterator[int]:
        """The places of the entries that led to a state, the last one first."""
        while place > 0:
            place -= 1
            if way := self.ways.get(place):
                place = way.led_to
            else:
                yield place

    def before_ways(self) -> Iterator[str]:
        """The copies that were kept before the ways back, the last one first."""
        return (way.before for way in reversed(self.ways.values()) if way.before)

    def forgotten_since(self, copy: str) -> set[str]:
        """Who was forgotten after a copy was made, or may have been, on whatever branch: who has the identifier in the copy, or
        somebody after them. That somebody has come under the identifier since changes nothing of that. Of a copy without a time
        nobody knows what came before it."""
        first = self.moments.of(copy).first if times.moment_of(copy) else 0
        return named_in(self.entries[first:], "forget")

    def ended(self, now: Known) -> dict[int, str]:
        """By which step each round ended on the way to now, as far as the journal says so."""
        happened, led = Happened(self.entries, now), set(self.led_to(self.now.last))
        return {number: step.verb for index, step in enumerate(happened.steps) for number in happened.numbers(index)
                if step.verb in LAST_STEPS and step.place in led and happened.outcomes[index] is not NOT_DONE}

    def ended_after(self, now: Known) -> dict[str, str]:
        """By which step the round of a kept copy ended, or may have ended: the first such one of the lines before which the copy
        was kept."""
        happened = Happened(self.entries, now)
        found: dict[str, str] = {}
        for step, outcome in zip(happened.steps, happened.outcomes):
            if step.verb in LAST_STEPS and outcome is not NOT_DONE:
                found.setdefault(str(self.entries[step.place].get("copy", "")), step.verb)
        return found

    def removed_since_settled(self, now: Known) -> set[str]:
        """Who was removed since the last round was settled. Who has come in again since then did not leave in that round."""
        happened = Happened(self.entries, now)
        entries = (self.entries[step.place] for step, outcome in zip(happened.steps, happened.outcomes)
                   if outcome is DONE and step.verb == "settle")
        settled = [str(entry["copy"]) for entry in entries if entry.get("copy")]
        return named_in(self.fork(settled[-1]).before_other, *REMOVED) if settled else set()


def named_in(entries: Iterable[Entry], *verbs: str) -> set[str]:
    """What lines of these verbs name that were carried out, or may have been."""
    lines = [line.split() for entry in entries for line in lines_of(entry)]
    return {words[1] for words in lines if len(words) > 1 and words[0] in verbs}


def is_done(entry: Entry) -> bool:
    """Whether the journal says that a change was carried out."""
    return said_of(entry) is DONE
