"""The figures of published rounds, kept for the college's committee: a small file beside the journal, without names and
identifiers (figures_counted.py says what is in it).

A round's lists, order and results are deleted when it is settled. So its figures are taken when it is published, and once more
before it is settled. A round that was given up has none, nor has one that an office that went back to a copy does not know.
"""

import contextlib
import datetime
import json
import sqlite3
import threading
from collections.abc import Callable
from pathlib import Path
from typing import Any, NamedTuple

from copies import copied_beside
from figures_counted import ALL, TABLES, Counts, Tables, coarse
from languages import _
from lines import verb_of
from phases import LAST_STEPS
from placing import beside, replace_file
from register import going_in, homes_in
from rows import rows_of
from seen import Rows
from settings import Fault

# The lines after which there are other figures, or none.
STEPS = frozenset({"publish", *LAST_STEPS})


class Damaged(Exception):
    """The file has something else than figures."""


class Round(NamedTuple):
    """The figures of a round: the day on which it was published, whether anybody moves, and the tables."""

    published: str
    moves: bool
    tables: Tables


def round_of(rows: Rows) -> Round:
    """The figures of a round that is published."""
    homes = homes_in(rows)
    moves = any(homes.get(person) != room for person, room in rows["results"]) or any(map(homes.get, going_in(rows)))
    tables = coarse(Counts(rows).tables())
    if not tables:
        raise Fault(_("the results contradict each other"))
    return Round(datetime.date.today().isoformat(), moves, tables)


def is_known(number: int, one: Round, rows: Rows) -> bool:
    """Whether the office knows this round as published or settled. Of a settled round it keeps the moves, if there were any;
    other rounds that are over may have been given up."""
    if number == rows["number"] and rows["phase"] != "idle":
        return bool(rows["phase"] == "published")
    return number in rows["settled"] or (not one.moves and number <= rows["number"])


def are_tables(tables: Any) -> bool:
    """Whether something has the form of tables."""
    return (isinstance(tables, dict) and list(tables.get("all", {})) == [ALL]
            and all(name in TABLES and isinstance(table, dict) for name, table in tables.items())
            and all(isinstance(counted, dict) and tuple(counted) == TABLES[name] for name, table in tables.items()
                    for counted in table.values())
            and all(isinstance(number, int) for table in tables.values() for counted in table.values()
                    for number in counted.values()))


def rounds_of(text: bytes) -> dict[int, Round]:
    """The rounds that the file has, by their numbers."""
    try:
        rounds = {int(number): Round(**values) for number, values in json.loads(text)["rounds"].items()}
        for one in rounds.values():
            datetime.date.fromisoformat(one.published)
        whole = all(isinstance(one.moves, bool) and are_tables(one.tables) for one in rounds.values())
    except (ValueError, TypeError, KeyError, AttributeError, RecursionError) as fault:
        raise Damaged from fault
    if not whole:
        raise Damaged
    return dict(sorted(rounds.items()))


class Kept:
    """The file of the figures."""

    def __init__(self, path: Path) -> None:
        self.path, self.lock = path, threading.Lock()

    def read(self) -> dict[int, Round]:
        """All rounds that the file has."""
        try:
            return rounds_of(self.path.read_bytes())
        except FileNotFoundError:
            return {}

    def write(self, rounds: dict[int, Round]) -> None:
        """Writes the file anew."""
        text = json.dumps({"rounds": {number: one._asdict() for number, one in sorted(rounds.items())}})
        replace_file(self.path, f"{text}\n".encode())

    def shown(self, rows: Rows) -> dict[str, Any]:
        """What is shown of the rounds that the office knows: number, day and tables of each. And the file, if it is damaged."""
        try:
            rounds = self.read()
        except Damaged:
            return {"rounds": [], "damaged": str(self.path)}
        return {"rounds": [[number, one.published, one.tables] for number, one in rounds.items() if is_known(number, one, rows)],
                "damaged": ""}

    def follow(self, lines: list[str], before: "Before", rows: Callable[[], Rows]) -> str:
        """Keeps the figures after lines were carried out: `before` has what was noted meanwhile, `rows` gives the rows of now. Says
        what went wrong, if anything: the lines have been carried out."""
        if STEPS.isdisjoint(map(verb_of, lines)):
            return ""
        return self.told(lambda said: self.keep(before, rows(), said))

    def went_back(self, brought: Callable[[], dict[int, Round | None]]) -> str:
        """Has the figures of the office of now after a way back: `brought` gives those that may be others than the file has, and
        None where nobody knows them. Says what went wrong, if anything: the office is back."""
        def put(said: list[str]) -> None:
            old, new = self.known(said), brought()
            kept = {number: one for number, one in old.items() if number not in new}
            kept.update({number: one for number, one in new.items() if one})
            self.write_if_other(old, kept)
        return self.told(put)

    def told(self, write: Callable[[list[str]], None]) -> str:
        """Writes the file, and gives what there is to say of it."""
        said: list[str] = []
        try:
            with self.lock:
                write(said)
        except (Fault, OSError, sqlite3.Error) as fault:
            reason = getattr(fault, "strerror", None) or fault
            said.append(_("The figures of the round could not be kept ({reason}).", reason=reason))
        return " ".join(said)

    def known(self, said: list[str]) -> dict[int, Round]:
        """What the file has. A damaged one is set aside, and that is said."""
        try:
            return self.read()
        except Damaged:
            said.append(self.set_aside())
            return {}

    def write_if_other(self, old: dict[int, Round], new: dict[int, Round]) -> None:
        """Writes the file anew, if it is to have something else."""
        if new != old:
            self.write(new)

    def keep(self, before: "Before", now: Rows, said: list[str]) -> None:
        """Adds the figures of published rounds, and takes those of unknown ones out."""
        old = self.known(said)
        new = {number: one for number, one in old.items() if is_known(number, one, now) and number not in before.given_up}
        for published in [*before.rows, *([now] if now["phase"] == "published" else [])]:
            number, taken = published["number"], round_of(published)
            same = number in old and old[number].tables == taken.tables
            new[number] = taken._replace(published=old[number].published) if same else taken
        self.write_if_other(old, new)

    def set_aside(self) -> str:
        """Gives a damaged file another name, so that nothing of it is lost."""
        other = beside(self.path, f".damaged-{datetime.datetime.now():%Y%m%dT%H%M%S}")
        self.path.rename(other)
        return _("The file of the figures was damaged, and has the name {file} now. The page has no figures of earlier rounds. "
                 "Tell the administrator.", file=other)


class Before:  # pylint: disable=too-few-public-methods  # it notes, and nothing else
    """Notes the rows of an office before a line settles its round, since afterwards the lists are deleted; and which round a line
    gives up: after a way back it may have been published once, and have figures."""

    def __init__(self, file: Path) -> None:
        self.file = file  # the office's own file: nobody reads it while a line is carried out on it
        self.rows: list[Rows] = []
        self.given_up: set[int] = set()

    def look(self, line: str, file: Path) -> None:
        """Looks at the office, or a copy of it, while the program has the file and is about to carry out a line."""
        if verb_of(line) in LAST_STEPS and file != self.file:
            with contextlib.suppress(sqlite3.Error), copied_beside(file) as copy:  # the program says what is wrong with it
                rows = rows_of(copy)
                if verb_of(line) == "settle":
                    self.rows.append(rows)
                else:
                    self.given_up.add(rows["number"])
