"""What happened, by the journal: of each step of a round and of each way back, whether it was done, was not, or nobody knows.

The answer to a change says so. If the keeper was ended before it had noted the answer, what is known from elsewhere may say so: a
later step that can only follow on this one, or never does; the round of a copy that was kept before a later step; the round of now.
Whatever asks whether something happened asks here, and guesses nothing itself.
"""

import bisect
import functools
import re
from collections.abc import Callable, Iterable
from typing import NamedTuple

from entries import DONE, NOT_DONE, UNKNOWN, Entry, Outcome, copy_in, lines_of, said_of
from lines import verb_of
from moments import Moments
from phases import FROM, LAST_STEPS, STEPS, TO

OPENED = re.compile(r"round (\d+)\b")

Known = tuple[int, str]  # the number and the phase of a round
RoundOf = Callable[[str], Known | None]


class Round(NamedTuple):
    """How far the office may have been. `since` says after how many steps of the journal this round began, and `settled` after how
    many the last one was settled. A number that is None is not known."""

    number: int | None
    phase: str
    since: int
    settled: int


class Step(NamedTuple):
    """A step of a round, or a way back: the place of its entry, its line, what the entry itself says of it, and of a round that
    was opened its number."""

    place: int
    line: str
    said: Outcome
    number: int | None

    @property
    def verb(self) -> str:
        """Its first word."""
        return verb_of(self.line)

    @property
    def copy(self) -> str:
        """To which copy the office goes back by it; nothing if it is no way back."""
        return copy_in(self.line)


def steps_of(entries: list[Entry]) -> list[Step]:
    """The steps that were carried out, or may have been."""
    found = []
    for place, entry in enumerate(entries):
        said = said_of(entry)
        opened = OPENED.match(str(entry.get("answer", ""))) if said is DONE else None
        for line in lines_of(entry):
            step = Step(place, line, said, int(opened[1]) if opened and line == "open" else None)
            if step.verb in STEPS or step.copy:
                found.append(step)
    return found


# --- what follows from elsewhere

class Happened:  # pylint: disable=too-many-instance-attributes  # each is something that is known of the steps
    """What came of each step, by the merged journal, the round of now, and the rounds of kept copies. `before` has how far the
    office may have been before each step, and now; `outcomes` what came of each."""

    def __init__(self, entries: list[Entry], now: Known | None = None, round_of: RoundOf | None = None) -> None:
        self.entries, self.steps = entries, steps_of(entries)
        self.places = [step.place for step in self.steps]
        unknown = any(step.said is UNKNOWN for step in self.steps)  # else nobody has to look into kept copies
        self.round_of: RoundOf = functools.cache(round_of if round_of and unknown else lambda _copy: None)
        self.moments = Moments(entries)
        self.gaps: set[int] = set()  # the steps before which something was done that is not in the journal
        self.turn = -1  # the last step after which there may have been another round than before it
        self.before = [{Round(None, phase, 0, 0) for phase in ("idle", *TO.values())}]
        for index in range(len(self.steps)):
            self.go_forth(index)
        self.narrow(len(self.steps), now)
        self.outcomes = [step.said for step in self.steps]
        for index in reversed(range(len(self.steps))):
            self.look_back(index)
        turns = (index for index, step in enumerate(self.steps) if (step.copy or step.verb in LAST_STEPS)
                 and self.outcomes[index] is not NOT_DONE)
        self.turn = max(self.turn, *turns, -1)

    def index(self, place: int) -> int:
        """How many steps come before an entry."""
        return bisect.bisect_left(self.places, place)

    def go_forth(self, index: int) -> None:
        """Follows a step, from all that the office may have been before it."""
        step = self.steps[index]
        if (copy := str(self.entries[step.place].get("copy", ""))) and self.index(step.place) == index:
            self.narrow(index, self.round_of(copy))  # of several lines the copy is from before the first
        after = self.all_after(index)
        if not after:
            self.before[index] = self.after_gap(index, *((None, phase) for phase in FROM[step.verb]))
            after = self.all_after(index)
        self.before.append(after)

    def all_after(self, index: int) -> set[Round]:
        """How far the office may be after a step; nothing if it fits nothing before."""
        return {then for one in self.before[index] for _, then in self.ways(index, one)}

    def narrow(self, index: int, known: Known | None) -> None:
        """Leaves out what has not a round that is known of the time before a step, or of now."""
        found = narrowed(self.before[index], known)
        self.before[index] = found or self.after_gap(index, known or (None, ""))

    def after_gap(self, index: int, *known: tuple[int | None, str]) -> set[Round]:
        """How far the office may have been before a step, if that step, or what is known of this time, fits nothing before: then
        something is not in the journal, as a line by hand. `known` are the rounds that it may have had; each may be that of before,
        or have begun since."""
        self.gaps.add(index)
        self.turn = index - 1
        before = self.before[index]
        settled = min(one.settled for one in before)
        return {Round(*one, since, settled) for one in known for since in {index, *(each.since for each in before)}}

    def ways(self, index: int, one: Round) -> list[tuple[Outcome, Round]]:
        """What may have come of a step, and how far the office was then, if it was so far before."""
        step = self.steps[index]
        return [*([(NOT_DONE, one)] if step.said is UNKNOWN else []), *((DONE, then) for then in self.after(step, index, one))]

    def after(self, step: Step, index: int, one: Round) -> Iterable[Round]:
        """How far the office may be after a step that was done."""
        if step.copy:
            return self.at_copy(step.copy, index)
        if one.phase not in FROM[step.verb] or step.number and one.number not in (None, step.number - 1):
            return []
        if step.verb == "open":
            return [one._replace(phase="open", number=step.number or (None if one.number is None else one.number + 1))]
        return [one._replace(phase=TO[step.verb], since=index + 1 if step.verb in LAST_STEPS else one.since,
                             settled=index + 1 if step.verb == "settle" else one.settled)]

    def at_copy(self, copy: str, index: int) -> set[Round]:
        """How far the office may have been when a copy was made."""
        first, last = map(self.index, self.moments.of(copy))
        found = set[Round]().union(*self.before[min(first, index):min(last, index) + 1])
        if (known := self.round_of(copy)) and not narrowed(found, known):
            return {one._replace(number=known[0], phase=known[1]) for one in found}
        return narrowed(found, known)

    def look_back(self, index: int) -> None:
        """Leaves out what does not lead to what was found of the time after a step."""
        outcomes, before = set[Outcome](), set[Round]()
        for one in self.before[index]:
            for outcome, then in self.ways(index, one):
                for later in self.before[index + 1]:
                    if then in (later, later._replace(number=None)):
                        outcomes.add(outcome)
                        before.add(self.numbered(one, self.steps[index] if outcome is DONE else None, later.number))
        if outcomes:
            self.outcomes[index] = outcomes.pop() if len(outcomes) == 1 else UNKNOWN
            self.before[index] = before

    @staticmethod
    def numbered(one: Round, done: Step | None, later: int | None) -> Round:
        """A state with the number of its round, if that is known of the time after it alone."""
        if one.number is not None or later is None or done and done.copy:
            return one
        return one._replace(number=later - 1 if done and done.verb == "open" else later)

    # --- what is asked

    def numbers(self, index: int) -> list[int]:
        """Which number the round before a step may have had; none if that is not known at all."""
        found = {one.number for one in self.before[index]}
        return [] if None in found else sorted(number for number in found if number is not None)

    def phase(self, index: int) -> str:
        """The phase before a step; nothing if that is not known."""
        found = {one.phase for one in self.before[index]}
        return found.pop() if len(found) == 1 else ""

    def is_of_now(self, index: int) -> Outcome:
        """Whether the round before a step is that of now."""
        if index > self.turn:
            return DONE
        then, now = ({one.since for one in self.before[place]} for place in (index, -1))
        return NOT_DONE if not then & now else DONE if len(then | now) == 1 else UNKNOWN

    def of_now(self, verb: str, surely: bool = False) -> list[int]:
        """The steps with this verb that were done in the round of now, or may have been, or those of which this is known."""
        found = {DONE} if surely else {DONE, UNKNOWN}
        return [index for index, step in enumerate(self.steps)
                if step.verb == verb and found.issuperset((self.outcomes[index], self.is_of_now(index)))]


def narrowed(states: set[Round], known: tuple[int | None, str] | None) -> set[Round]:
    """Those of these states that have a round of which number and phase are known, with its number."""
    if known is None:
        return states
    number, phase = known
    return {one._replace(number=number) for one in states if one.phase == phase and one.number in (None, number)}
