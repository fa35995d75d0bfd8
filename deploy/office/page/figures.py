"""The figures of a round's results."""

from collections import Counter
from typing import NamedTuple

from languages import _

from office_view import Office

# Choices beyond this one share a bar.
LAST_BAR = 12


class Bar(NamedTuple):
    """One bar of the picture: its name, how many people, and its length in percent of the longest."""

    name: str
    people: int
    length: int


class Figures(NamedTuple):
    """What came of a round."""

    participants: int
    with_list: int
    moved: int
    mean: float
    keep: int
    off: list[str]
    none: list[str]
    free: list[str]
    bars: list[Bar]


def figures_of(office: Office) -> Figures:
    """How many people got which choice, kept their room, got none, or have a room that they did not list, which right
    results never give; and the rooms that nobody gets."""
    numbers = [office.choice_number(ident) for ident in office.results]
    choices = Counter(number for number in numbers if number)
    none = [ident for ident, room in office.results.items() if room is None]
    off = [ident for ident in office.results if office.is_off_the_list(ident)]
    keep = len(office.results) - choices.total() - len(none) - len(off)
    withdrawn_homes = {person.home for person in office.withdrawn}
    given = set(office.results.values()) | withdrawn_homes
    free = [room.code for room in office.rooms.values() if not room.shut and room.code not in given]
    mean = sum(number * count for number, count in choices.items()) / (choices.total() or 1)
    with_list = len(office.participants) - len(office.without_list)
    bars = bars_of(choices, keep, len(off), len(none))
    return Figures(len(office.results), with_list, choices.total(), mean, keep, off, none, free, bars)


def bars_of(choices: Counter[int], keep: int, off: int, none: int) -> list[Bar]:
    """The bars of the picture."""
    last = min(max(choices, default=0), LAST_BAR)
    rows = [(_("Choice {number}", number=number), choices[number]) for number in range(1, last + 1)]
    later = sum(count for number, count in choices.items() if number > LAST_BAR)
    rows += [(_("A later choice"), later)] if later else []
    rows += [(_("Keep their room"), keep), *([(_("A room off the list"), off)] if off else []), (_("No room"), none)]
    longest = max(count for _, count in rows) or 1
    return [Bar(name, count, round(100 * count / longest)) for name, count in rows]
