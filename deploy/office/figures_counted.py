"""The figures of a published round for the college's committee: how many wanted which room, and who gets what by grade and by
house. They are counted from the rows of the office, and made so coarse that they say nothing of a few people.

Each number of people is rounded down to a multiple of five, so 20 stands for 20 to 24 and 0 for fewer than five. That holds
for totals too: what is left of a total without its other parts is not one number. Where it is nevertheless, the table is
left out.
"""

import itertools
from collections import Counter
from collections.abc import Iterator

from register import homes_in
from seen import Rows

FEWEST = 5  # of fewer people nothing is said

OUTCOMES = ("first", "later", "keep", "none")
# Each table, with what is counted in each of its rows. `wishing` are the people whose list begins with another room than their
# own. They `want` this room first, and they `name` each room that stands above their own one.
TABLES: dict[str, tuple[str, ...]] = {
    "all": ("people", "wishing", *OUTCOMES),
    "grades": ("people", *OUTCOMES),
    "houses": ("rooms", "named", "wanted", *OUTCOMES[:3]),
    "rooms": ("named", "wanted"),
}
ALL = "all"  # the only row of the first table

Tables = dict[str, dict[str, dict[str, int]]]
Cell = tuple[str, str, str]          # table, row, and what is counted
Total = tuple[Cell, list[Cell]]      # a cell, and the cells of which it is the total


def house_of(room: str) -> str:
    """The house of a room: what is before the first hyphen of its code. A code without a hyphen has none."""
    house, hyphen, _ = room.partition("-")
    return house if hyphen else ""


def wishes_of(home: str | None, listed: list[str]) -> list[str]:
    """The rooms of a list above the person's own one. Nobody gets what comes after it."""
    return list(itertools.takewhile(lambda room: room != home, listed))


def outcome_of(home: str | None, wishes: list[str], room: str | None) -> str:
    """What somebody gets: one of OUTCOMES, or nothing for a room off the list, which right results never give."""
    if room is None or room == home:
        return "none" if room is None else "keep"
    return ("first" if room == wishes[0] else "later") if room in wishes else ""


class Counts:
    """The exact figures of a round."""

    def __init__(self, rows: Rows) -> None:
        self.counts: dict[Cell, int] = Counter()
        self.found: dict[str, set[str]] = {"all": {ALL}, "grades": set(), "houses": set(), "rooms": set()}
        for room, shut, _ in rows["rooms"]:
            if not shut:
                self.add("rooms", room)
                self.add("houses", house_of(room), "rooms")
        homes, grades = homes_in(rows), dict(rows["grades"])
        for person, room in rows["results"]:
            home = homes.get(person)
            self.count(wishes_of(home, rows["choices"].get(person, [])), home, room, str(grades.get(person, 0)))

    def add(self, table: str, row: str, *counted: str) -> None:
        """Counts one person, or one room, in a row of a table."""
        self.found[table].add(row)
        for one in counted:
            self.counts[table, row, one] += 1

    def count(self, wishes: list[str], home: str | None, room: str | None, grade: str) -> None:
        """Counts one participant."""
        outcome = list(filter(None, [outcome_of(home, wishes, room)]))
        self.add("all", ALL, "people", *outcome, *(["wishing"] if wishes else []))
        self.add("grades", grade, "people", *outcome)
        if room is not None:
            self.add("houses", house_of(room), *outcome)
        for wish in wishes[:1]:
            self.add("houses", house_of(wish), "wanted")
            self.add("rooms", wish, "wanted")
        for wish in wishes:
            self.add("rooms", wish, "named")
        for house in {house_of(wish) for wish in wishes}:
            self.add("houses", house, "named")

    def tables(self) -> Tables:
        """The tables with exact numbers. One grade alone, or one house alone, is as good as all, and is left out."""
        return {table: {row: {one: self.counts[table, row, one] for one in counted} for row in sorted(self.found[table])}
                for table, counted in TABLES.items() if len(self.found[table]) > 1 or table in ("all", "rooms")}


# --- what may be shown

def coarse(exact: Tables) -> Tables:
    """The tables in coarse numbers of people. A table whose totals would give a few people away is left out. Right results never
    leave the first one out; without it there is none."""
    shown: Tables = {}
    for name, table in exact.items():
        rounded = {row: {one: number if one == "rooms" else number - number % FEWEST for one, number in counted.items()}
                   for row, counted in table.items()}
        if not gives_away({**shown, name: rounded}):
            shown[name] = rounded
        elif not shown:
            break
    return shown


def totals_of(tables: Tables) -> Iterator[Total]:
    """Each total that a reader knows, with its parts."""
    every = {name: [(name, row) for row in table] for name, table in tables.items()}
    for row in every["all"] + every.get("grades", []):
        yield (*row, "people"), [(*row, one) for one in OUTCOMES]
    for name, figures in (("grades", ("people", *OUTCOMES)), ("houses", OUTCOMES[:3])):
        for one in figures if name in tables else ():
            yield ("all", ALL, one), [(*row, one) for row in every[name]]
    for name in {"houses", "rooms"} & set(tables):
        yield ("all", ALL, "wishing"), [(*row, "wanted") for row in every[name]]
    for row in every.get("houses", []):
        yield (*row, "wanted"), [(*room, "wanted") for room in every.get("rooms", []) if house_of(room[1]) == row[1]]


def gives_away(tables: Tables) -> bool:
    """Whether totals leave one number alone for a group of fewer than five people. A cell is known to lie between two numbers;
    each total narrows those of its parts, and they narrow those of the total. Wrong results, such as a room off somebody's list,
    may leave no number at all: such a table says nothing that is right, and narrowing it would not end."""
    low = {(name, row, one): number for name, table in tables.items() for row, counted in table.items()
           for one, number in counted.items() if one != "rooms"}
    small, high = [cell for cell in low if low[cell] == 0], {cell: number + FEWEST - 1 for cell, number in low.items()}
    totals = [(total, parts) for total, parts in totals_of(tables) if parts]
    narrowed = True
    while narrowed:
        narrowed = False
        for total, parts in totals:
            least, most = sum(map(low.__getitem__, parts)), sum(map(high.__getitem__, parts))
            limits = {part: (low[total] - most + high[part], high[total] - least + low[part]) for part in parts}
            for cell, (lower, upper) in {**limits, total: (least, most)}.items():
                if lower > low[cell] or upper < high[cell]:
                    low[cell], high[cell], narrowed = max(lower, low[cell]), min(upper, high[cell]), True
                    if low[cell] > high[cell]:
                        return True
    return any(low[cell] >= high[cell] for cell in small)
