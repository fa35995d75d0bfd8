"""What the keeper's journal says of the draws of a year, for the public record: when rounds were opened and closed, which
seeds were noted and struck out, each draw, each round that was given up, and each way back to a copy. So nobody can draw
until the order pleases, and say nothing of it. If nobody knows whether something was done, each line and each sum says so.
"""

import collections

import times
from entries import DONE, NOT_DONE, Entry, merged
from happened import Happened, Known, RoundOf
from lines import on_one_line
from phases import LAST_STEPS
from seeds import DRAWN, STRUCK, noted_in

# When a round was given up, by its phase until then.
AFTER = {"open": " while it was open", "closed": " after it was closed", "drawn": " after the order was drawn",
         "ran": " after the rooms were given"}
NOT_SURE = " (nobody knows whether this took effect)"


class Years:
    """Follows the journal, and keeps what it says, with the place of the entry, and after how many steps it was."""

    def __init__(self, entries: list[Entry], happened: Happened) -> None:
        self.entries, self.happened = entries, happened
        self.said: list[tuple[int, int, str]] = []
        # How often the order of a round was drawn, for all that is known, and how often that may have been besides.
        self.draws, self.more = collections.Counter[int](), collections.Counter[int]()
        self.ended: set[int] = set()        # the rounds of which it is known how they ended
        for place, entry in enumerate(entries):
            if noted := noted_in(entry):
                end = "was struck out" if noted.source == STRUCK else f"was noted: {on_one_line(noted.source)}"
                self.say(place, happened.index(place), f"the seed {noted.seed} {end}")
        for index, outcome in enumerate(happened.outcomes):
            if outcome is not NOT_DONE:
                self.follow(index)
        self.said.sort(key=lambda one: one[0])  # each entry has either a note or steps

    def say(self, place: int, index: int, text: str) -> None:
        """Keeps a sentence, with its time."""
        self.said.append((place, index, f"{times.of_entry(self.entries[place]['at'])} {text}"))

    def follow(self, index: int) -> None:
        """A step that was done, or may have been."""
        step, sure = self.happened.steps[index], self.happened.outcomes[index] is DONE
        numbers = self.happened.numbers(index)
        if step.verb == "open":
            numbers = [step.number] if step.number else [number + 1 for number in numbers]
        if text := self.text_of(index, numbers):
            self.say(step.place, index, text if sure else f"{text}{NOT_SURE}")
        if step.verb == "draw":
            (self.draws if sure and len(numbers) == 1 else self.more).update(numbers)
        if step.verb in LAST_STEPS and sure and len(numbers) == 1:
            self.ended.update(numbers)

    def text_of(self, index: int, numbers: list[int]) -> str:
        """What a step did to the round, which has one of these numbers."""
        step = self.happened.steps[index]
        name = f"round {' or '.join(map(str, numbers))}" if numbers else "a round"
        if step.copy:
            return f"the office went back to the copy of {times.shown(times.made_at(step.copy))}"
        if step.verb == "cancel":
            return f"{name} was given up{AFTER.get(self.happened.phase(index), '')}: {self.drawn(index, numbers)}"
        if step.verb == "draw":
            seed = DRAWN.match(step.line)  # words may be those of a seed, too: then the head of the record has it
            return f"the order of {name} was drawn, {f'by the seed {seed[1].lower()}' if seed else 'by words'}"
        return {"open": f"{name} was opened", "close": f"{name} was closed"}.get(step.verb, "")

    def drawn(self, index: int, numbers: list[int]) -> str:
        """Whether an order was drawn before a step in the round that has one of these numbers."""
        if len(numbers) == 1 and self.draws[numbers[0]]:
            return "its order was drawn"
        unsure = len(numbers) != 1 or self.more[numbers[0]] or self.is_cut(index)
        return "nobody knows whether its order was drawn" if unsure else "no order was drawn"

    def is_cut(self, index: int) -> bool:
        """Whether something that is not in the journal was done in the round, before a step of it."""
        happened = self.happened
        opened = [one for one in range(index) if happened.steps[one].verb == "open" and happened.outcomes[one] is DONE]
        return any(max(opened, default=0) < gap <= index for gap in happened.gaps)

    def sum_of(self, number: int) -> str:
        """How often the order of a round was drawn; nothing if once."""
        known, more = self.draws[number], self.more[number]
        if known == 1 and not more:
            return ""
        if not known:
            return (f"it does not say by which of {more} draws the order of round {number} came about" if more > 1 else
                    f"it does not say when the order of round {number} was drawn")
        often = "once" if known == 1 else f"{known} times"
        unsure = f", and nobody knows of {'one' if more == 1 else more} more" if more else ""
        return f"the order of round {number} was drawn {often}{unsure}"


def history(journal: list[Entry], whole: bool, now: Known, settled: list[int],
            round_of: RoundOf | None = None) -> list[str]:
    """What the journal says since a round was settled, as sentences. The office has a round of this number and phase now, and knows
    of these rounds that they were settled. If the journal is not `whole`, it has lost its beginning."""
    rows, number = merged(journal), now[0]
    happened = Happened(rows, now, round_of)
    years, start = Years(rows, happened), min(one.settled for one in happened.before[-1])
    said = [text for _, index, text in years.said if index >= start]
    if not whole and not start and rows:
        said.insert(0, f"what was before {times.of_entry(rows[0]['at'])} could not be read")
    last = max((one for one in settled if one < number), default=0)
    said += [f"it does not say what became of round {one}" for one in range(last + 1, number) if one not in years.ended]
    return [*said, *filter(None, [years.sum_of(number)])]
