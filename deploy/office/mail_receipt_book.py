"""What the file of the mail has of receipts: whether the office wants them, what the keeper saw of each person's list, and what
the last receipt told.

A list is here as a mark: it says whether the list has changed, and nothing of its rooms to who has this file alone. With the end
of the round all of it is erased.
"""

import secrets
import sqlite3
from typing import Any, NamedTuple

from mail_book import BEGUN, REFUSED, SENT, UNCERTAIN, WAITING, Book, forget_old, mark_by, set_in
from mail_words import RECEIPT
from register import going_in, withdrawn_in
from seen import Rows
from times import now

# Settings of the file.
ON, WHY, WHO, LINK, ROUND, MARK = (f"receipts-{name}" for name in ("on", "why", "who", "link", "round", "mark"))
# Marks: no room on a list; who has withdrawn; who leaves the college; what counts as not told.
NOTHING, WITHDRAWN, AWAY, FORGOTTEN = "", "withdrawn", "away", "forgotten"


class Wanted(NamedTuple):
    """Whether the office wants receipts, why none goes on, who began them, the address of the residents' page, and the round
    whose lists are here, if one is under way."""

    on: bool
    why: str
    who: str
    link: str
    round: int | None


class Entry(NamedTuple):
    """What the keeper sees of a person's list, since when, and what the person was last told."""

    now: str
    at: str
    told: str


NONE = Entry(NOTHING, "", NOTHING)


class ReceiptBook:
    """The part of the file that has receipts."""

    def __init__(self, book: Book) -> None:
        self.book = book

    # --- whether there are receipts

    def wanted(self) -> Wanted:
        """How it stands with receipts."""
        found = dict(self.book.rows("SELECT name, value FROM setting WHERE name LIKE 'receipts-%'"))
        number = found.get(ROUND, "")
        return Wanted(found.get(ON) == "on", found.get(WHY, ""), found.get(WHO, ""), found.get(LINK, ""),
                      int(number) if number else None)

    def begin(self, who: str, link: str) -> None:
        """Begins with receipts."""
        self.book.set(**{ON: "on", WHY: "", WHO: who, LINK: link, MARK: secrets.token_hex(16)})

    def end(self) -> None:
        """Ends with them. What was sent stays written down."""
        with self.book.opened() as database:
            set_in(database, {ON: ""})
            clear(database)

    def pause(self, why: str) -> None:
        """Notes why none goes on, or that they go on."""
        self.book.set(**{WHY: why})

    # --- lists

    def marks(self, rows: Rows) -> dict[str, str]:
        """The mark of what is on record of each person who has something there."""
        secret = self.book.setting(MARK)
        found = {person: mark_by(secret, " ".join(rooms)) for person, rooms in rows["choices"].items() if rooms}
        return {**found, **dict.fromkeys(withdrawn_in(rows), WITHDRAWN), **dict.fromkeys(going_in(rows), AWAY)}

    def entries(self) -> dict[str, Entry]:
        """What is written down of each person."""
        return {person: Entry(*rest) for person, *rest in self.book.rows("SELECT person, now, at, told FROM receipt")}

    def entry(self, person: str) -> Entry:
        """What is written down of a person."""
        found = self.book.rows("SELECT now, at, told FROM receipt WHERE person = ?", person)
        return Entry(*found[0]) if found else NONE

    def begin_round(self, number: int, marks: dict[str, str]) -> None:
        """Takes what is on record for known: nobody gets a receipt of that. Old messages are forgotten."""
        with self.book.opened() as database:
            clear(database)
            set_in(database, {ROUND: str(number)})
            at = now()
            database.executemany("INSERT INTO receipt VALUES (?, ?, ?, ?)", [(one, mark, at, mark) for one, mark in marks.items()])
            forget_old(database, number)

    def end_round(self) -> None:
        """Erases what is written down of lists."""
        with self.book.opened() as database:
            clear(database)

    def saw(self, changed: dict[str, Entry], gone: list[str]) -> None:
        """Writes down what has changed."""
        with self.book.opened() as database:
            database.executemany("INSERT OR REPLACE INTO receipt VALUES (?, ?, ?, ?)",
                                 [(person, *entry) for person, entry in changed.items()])
            database.executemany("DELETE FROM receipt WHERE person = ?", [(person,) for person in gone])

    # --- messages

    def begin_message(self, number: int, person: str, entry: Entry) -> int | None:
        """Writes down that this receipt is on its way, and so that the person knows: before the mail server gets it. Gives which
        receipt of the person it is; nothing if another list is on record by now."""
        with self.book.opened() as database:
            if not tell(database, person, entry, entry.now):
                return None
            database.execute("DELETE FROM message WHERE (kind, round, person, state) = (?, ?, ?, ?)",
                             (RECEIPT, number, person, WAITING))
            turn, = database.execute("SELECT coalesce(max(turn), 0) + 1 FROM message WHERE kind = ? AND round = ? AND person = ?",
                                     (RECEIPT, number, person)).fetchone()
            database.execute("INSERT INTO message VALUES (?, ?, ?, ?, ?, ?, '')", (RECEIPT, number, turn, person, BEGUN, now()))
            return int(turn)

    def tell_nothing(self, person: str, entry: Entry) -> None:
        """A change of which this person gets no receipt."""
        with self.book.opened() as database:
            tell(database, person, entry, entry.now)

    def mark(self, number: int, turn: int, person: str, state: str, why: str = "") -> None:
        """What became of a receipt."""
        with self.book.opened() as database:
            mark_in(database, (number, turn, person), state, why)

    def take_back(self, number: int, turn: int, person: str, entry: Entry, why: str) -> None:
        """A receipt was not sent, and is due again."""
        with self.book.opened() as database:
            mark_in(database, (number, turn, person), WAITING, why)
            database.execute("UPDATE receipt SET told = ? WHERE person = ? AND told = ?", (entry.told, person, entry.now))

    def states(self, number: int) -> dict[str, list[list[Any]]]:
        """What became of the receipts of a round: by outcome, the person, the time and why of each."""
        found = self.book.rows("SELECT state, person, at, why FROM message WHERE kind = ? AND round = ? ORDER BY person, turn",
                               RECEIPT, number)
        return {state: [rest for one, *rest in found if one == state] for state in (SENT, REFUSED, UNCERTAIN)}

    def uncertain_elsewhere(self, number: int) -> list[list[Any]]:
        """The uncertain receipts of other rounds than this one, as far as they are kept: the person, the time and why of each."""
        found = self.book.rows("SELECT person, at, why FROM message WHERE kind = ? AND round <> ? AND state = ? "
                               "ORDER BY person, at", RECEIPT, number, UNCERTAIN)
        return [list(row) for row in found]

    def forget_uncertain(self, number: int) -> None:
        """Takes uncertain receipts for such that were not sent: these people get a receipt again."""
        key = (RECEIPT, number, UNCERTAIN)
        with self.book.opened() as database:
            database.execute("UPDATE receipt SET told = ? WHERE person IN (SELECT person FROM message WHERE kind = ? AND round = ? "
                             "AND state = ?)", (FORGOTTEN, *key))
            database.execute("DELETE FROM message WHERE kind = ? AND round = ? AND state = ?", key)


def mark_in(database: sqlite3.Connection, key: tuple[int, int, str], state: str, why: str) -> None:
    """What became of a receipt, by its round, turn and person."""
    database.execute("UPDATE message SET state = ?, at = ?, why = ? WHERE (kind, round, turn, person) = (?, ?, ?, ?)",
                     (state, now(), why, RECEIPT, *key))


def clear(database: sqlite3.Connection) -> None:
    """Erases what is written down of lists."""
    database.execute("DELETE FROM receipt")
    set_in(database, {ROUND: ""})


def tell(database: sqlite3.Connection, person: str, entry: Entry, told: str) -> bool:
    """Writes down what a receipt tells a person, if all is as it was seen."""
    return bool(database.execute("UPDATE receipt SET told = ? WHERE (person, now, told) = (?, ?, ?)",
                                 (told, person, entry.now, entry.told)).rowcount)
