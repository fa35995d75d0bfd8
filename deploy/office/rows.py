"""What the office's file says, read from a copy: all but keys, of which it has marks, and the bytes of lists."""

import contextlib
import csv
import hashlib
import io
import secrets
import sqlite3
import threading
from collections.abc import Callable, Iterator
from pathlib import Path

from copies import Copies, State
from seen import Rows

# Each table that is shown as it is.
TABLES = {
    "rooms": "SELECT code, shut, id FROM room LEFT JOIN person ON home = code ORDER BY code",
    "people": "SELECT id, name, home, withdrawn FROM person ORDER BY id",
    "results": "SELECT person, room FROM result ORDER BY person",
    "lists": "SELECT label, kind, added, body = CAST('blanked' AS BLOB) FROM list ORDER BY label",
    "words": "SELECT person, hex FROM word ORDER BY person",
    # Who left the college in the round of this number, once that is settled. Nobody else moves out without a new room.
    "left": "SELECT person FROM move, round WHERE move.round = round.number AND to_room IS NULL ORDER BY person",
}
# Tables that a file has from a version on. In a file of an earlier version, which the program has yet to migrate,
# nobody has a grade and nobody leaves.
LATER = {
    "grades": (2, "SELECT person, value FROM grade ORDER BY person"),
    "going": (3, "SELECT person FROM going ORDER BY person"),
}
KEYS = "SELECT id, passkey FROM person"
# By it a mark of a key says whether the key has changed, and nothing else. It never leaves this process.
SECRET = secrets.token_bytes(32)
RUN = secrets.token_hex(4)  # names this process: marks of keys by another one say nothing


def identifiers_in(file: Path) -> set[str]:
    """Who is in the register of a copy."""
    with contextlib.closing(sqlite3.connect(file)) as database:
        return {person for person, in database.execute("SELECT id FROM person")}


def names_in(file: Path) -> dict[str, str]:
    """The names of the people in the register of a copy."""
    with contextlib.closing(sqlite3.connect(file)) as database:
        return dict(database.execute("SELECT id, name FROM person"))


def keys_in(file: Path) -> dict[str, str]:
    """The key of each person in the register of a copy."""
    with contextlib.closing(sqlite3.connect(file)) as database:
        return dict(database.execute(KEYS))


def records_of(body: bytes) -> Iterator[list[str]]:
    """The records of a kept list, as far as it can be read."""
    with contextlib.suppress(csv.Error):
        yield from filter(None, csv.reader(io.StringIO(body.decode("utf-8-sig", "replace"), newline="")))


def rows_of(file: Path) -> Rows:
    """The rows of a copy, by name."""
    with contextlib.closing(sqlite3.connect(file)) as database:
        rows: Rows = {name: database.execute(query).fetchall() for name, query in TABLES.items()}
        version, number, phase = database.execute("SELECT version, number, phase FROM round").fetchone()
        for name, (since, query) in LATER.items():
            rows[name] = database.execute(query).fetchall() if version >= since else []
        choices: dict[str, list[str]] = {}
        for person, room in database.execute("SELECT person, room FROM choice ORDER BY person, place"):
            choices.setdefault(person, []).append(room)
        key_marks = {person: hashlib.blake2b(key.encode(), digest_size=6, key=SECRET).hexdigest()
                     for person, key in database.execute(KEYS)}
        settled = [number for number, in database.execute("SELECT DISTINCT round FROM move ORDER BY round")]
    return {**rows, "version": version, "number": number, "phase": phase, "choices": choices, "settled": settled,
            "key_marks": key_marks, "run": RUN}


class View:  # pylint: disable=too-few-public-methods  # it keeps what it has read
    """The rows of now, or what else is read of a copy. They are kept until the file changes."""

    def __init__(self, copies: Copies, read: Callable[[Path], Rows] = rows_of) -> None:
        self.copies, self.read, self.lock = copies, read, threading.Lock()
        self.seen: tuple[State, Rows] | None = None

    def rows(self, still: bool = False) -> Rows:
        """The rows of the office as it is now."""
        with self.lock:
            now = self.copies.state()
            if self.seen and self.seen[0] == now:
                return self.seen[1]
            with self.copies.copied(still) as copy:
                rows = self.read(copy)
            # Rows that may be older than the next change of the same tick of the clock are not kept.
            self.seen = (now, rows) if now.is_settled() else None
            return rows
