"""The figures of the rounds for the college's committee: a page with pictures, and a list in CSV. Neither has a name."""

from typing import Any, NamedTuple

import bottle  # type: ignore[import]  # Debian's bottle has no types

from figures_counted import ALL, FEWEST, OUTCOMES, TABLES, Tables
from languages import N_, _

from app import app, ask, download, go_to, show
from file_pages import csv_of

# The names of what people get, on the page and in CSV, which has all its words in English.
GETS = {"first": N_("Choice 1"), "later": N_("A later choice"), "keep": N_("Keep their room"), "none": N_("No room")}
GROUPS = {"all": "all", "grades": "grade", "houses": "house", "rooms": "room"}
FEWER = N_("fewer than {number}")
NO_HOUSE = N_("(no house)")
# Of so many rooms the page shows who wants them. The list in CSV has all.
MOST_WANTED = 12
# Of fewer people the percentages would lie too far from each other to say anything.
FEW_FOR_PERCENT = 25
COLUMNS = ("rooms", "people", "wishing", *OUTCOMES, "named", "wanted")
HEADINGS = ("rooms", "participants", "want another room", *map(str.lower, GETS.values()), "named by", "first choice of")


class Part(NamedTuple):
    """A part of a bar: what it stands for, where it begins, and how long it is, in percent."""

    outcome: str
    start: float
    length: float


class Round(NamedTuple):
    """The figures of a round."""

    number: int
    published: str
    tables: Tables

    @property
    def all(self) -> dict[str, int]:
        """The figures of all participants."""
        return self.tables["all"][ALL]

    @property
    def met(self) -> str:
        """Between which percentages the share of the first choices lies that are met, if that are enough people. They follow from
        the two numbers that are shown, each of which may stand for up to four people more, so they say nothing else of anybody."""
        first, wishing = self.all["first"], self.all["wishing"]
        if wishing < FEW_FOR_PERCENT:
            return ""
        least, most = 100 * first // (wishing + FEWEST - 1), min(100, -(-100 * (first + FEWEST - 1) // wishing))
        return _("{least} to {most} %", least=least, most=most)

    @property
    def most_wanted(self) -> list[tuple[str, dict[str, int]]]:
        """The rooms that most people name."""
        rooms = [(room, counted) for room, counted in self.tables.get("rooms", {}).items() if counted["named"]]
        return sorted(rooms, key=lambda row: (-row[1]["named"], -row[1]["wanted"], row[0]))[:MOST_WANTED]


def said(number: int) -> str:
    """A number of people, as far as it is shown."""
    return str(number) if number else _(FEWER, number=FEWEST)


def bar_of(counted: dict[str, int]) -> list[Part]:
    """The parts of a bar for what people get. Its parts are as coarse as the numbers."""
    total, parts, start = sum(counted[one] for one in OUTCOMES if one in counted) or 1, [], 0.0
    for one in OUTCOMES:
        length = round(100 * counted.get(one, 0) / total, 1)
        parts.append(Part(one, round(start, 1), length))
        start += length
    return parts


def figures() -> dict[str, Any]:
    """The rounds of which there are figures, the newest first; and the file, if it is damaged."""
    kept = ask("figures")
    return {"rounds": [Round(*one) for one in reversed(kept["rounds"])], "damaged": kept["damaged"]}


@app.get("/office/committee")
def newest_round() -> str:
    """The rounds over the years, and the newest one."""
    return str(committee(0))


@app.get("/office/committee/<number:int>")
def committee(number: int) -> str:
    """The rounds over the years, and one of them."""
    kept = figures()
    chosen = [one for one in kept["rounds"] if number in (0, one.number)]
    if number and not chosen:
        go_to("/office/committee")
    return show("committee", **kept, chosen=chosen[0] if chosen else None, said=said, bar_of=bar_of,
                gets={name: _(text) for name, text in GETS.items()}, fewer=said(0), no_house=_(NO_HOUSE))


def cell_of(name: str, counted: dict[str, int]) -> str:
    """A cell of the list in CSV. It is empty where the table does not count this."""
    if name not in counted:
        return ""
    return str(counted[name]) if counted[name] or name == "rooms" else FEWER.format(number=FEWEST)


def rows_of(one: Round) -> list[list[Any]]:
    """The rows of a round in the list in CSV."""
    return [[one.number, one.published, GROUPS[table], row or NO_HOUSE,
             *(cell_of(name, counted) for name in COLUMNS)]
            for table in TABLES for row, counted in one.tables.get(table, {}).items()]


@app.get("/office/committee.csv")
def committee_csv() -> bottle.HTTPResponse:
    """The figures of all rounds."""
    rounds = figures()["rounds"]
    return download(csv_of(["round", "published", "group", "name", *HEADINGS], (row for one in rounds for row in rows_of(one))),
                    "figures.csv")
