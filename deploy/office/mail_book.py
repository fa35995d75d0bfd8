"""The file of the mail: addresses, texts, and which message went to whom. It is beside the office's file, and in no copy.

A message is `begun` in the file, and on the disk, before the mail server gets it, and has its outcome afterwards. So
after a crash at most one message is uncertain, and the file says which. What was sent stays sent when the office goes
back to a copy; so this file does not.
"""

import contextlib
import hashlib
import json
import secrets
import sqlite3
import threading
from collections.abc import Iterable, Iterator, Mapping
from pathlib import Path
from typing import Any, NamedTuple

from languages import _
from mail_why import ENDED_MEANWHILE
from mail_words import ALL, RECEIPT, Text
from settings import Fault
from times import now

WAITING, BEGUN, SENT, REFUSED, UNCERTAIN = "waiting", "begun", "sent", "refused", "uncertain"
SECRET = "told-secret"  # a setting: the key of the marks
ERASED = "erased-"  # a setting for each kind: the last round whose messages were forgotten
RUNNING, PAUSED, ENDED = "running", "paused", "ended"
TABLES = """
CREATE TABLE IF NOT EXISTS address(person TEXT PRIMARY KEY, email TEXT NOT NULL);
CREATE TABLE IF NOT EXISTS text(kind TEXT PRIMARY KEY, subject TEXT NOT NULL, body TEXT NOT NULL);
CREATE TABLE IF NOT EXISTS words(kind TEXT, language TEXT, subject TEXT NOT NULL, body TEXT NOT NULL, PRIMARY KEY(kind, language));
CREATE TABLE IF NOT EXISTS setting(name TEXT PRIMARY KEY, value TEXT NOT NULL);
CREATE TABLE IF NOT EXISTS turn(kind TEXT, round INTEGER, number INTEGER NOT NULL, PRIMARY KEY(kind, round));
CREATE TABLE IF NOT EXISTS message(kind TEXT, round INTEGER, turn INTEGER, person TEXT, state TEXT NOT NULL, at TEXT NOT NULL,
  why TEXT NOT NULL, PRIMARY KEY(kind, round, turn, person));
CREATE TABLE IF NOT EXISTS told(kind TEXT, round INTEGER, turn INTEGER, person TEXT, mark TEXT NOT NULL,
  PRIMARY KEY(kind, round, turn, person));
CREATE TABLE IF NOT EXISTS earlier(kind TEXT, round INTEGER, turn INTEGER, person TEXT, state TEXT NOT NULL, at TEXT NOT NULL,
  why TEXT NOT NULL, mark TEXT, PRIMARY KEY(kind, round, turn, person));
CREATE TABLE IF NOT EXISTS gone(kind TEXT, round INTEGER, turn INTEGER, state TEXT, count INTEGER NOT NULL,
  PRIMARY KEY(kind, round, turn, state));
CREATE TABLE IF NOT EXISTS run(one INTEGER PRIMARY KEY, kind TEXT NOT NULL, round INTEGER NOT NULL, turn INTEGER NOT NULL,
  subject TEXT NOT NULL, body TEXT NOT NULL, link TEXT NOT NULL, who TEXT NOT NULL, state TEXT NOT NULL, why TEXT NOT NULL,
  at TEXT NOT NULL);
CREATE TABLE IF NOT EXISTS run_words(language TEXT PRIMARY KEY, subject TEXT NOT NULL, body TEXT NOT NULL);
CREATE TABLE IF NOT EXISTS receipt(person TEXT PRIMARY KEY, now TEXT NOT NULL, at TEXT NOT NULL, told TEXT NOT NULL);
"""
# The table `text` has what clerks wrote before there were languages, and `words` what they write in each. `run` has the text of
# everybody who has no other one in `run_words`. `told` has a mark of what a message told its person that may change, in the
# place of the rooms. `earlier` has messages that those of the run are to replace, with their marks: who does not get another one
# after all has the earlier one still. `gone` counts the messages whose people were erased, and names none of them.

# The messages of the run, which is the only one.
OF_RUN = "(kind, round, turn) = (SELECT kind, round, turn FROM run)"


class Run(NamedTuple):
    """Messages that are sent one after the other: what they are, as the clerk saw them, and how far they are."""

    kind: str
    round: int
    turn: int
    subject: str
    body: str
    link: str
    who: str
    state: str
    why: str
    at: str

    @property
    def text(self) -> Text:
        """The text of its messages."""
        return Text(self.subject, self.body)


class Book:  # pylint: disable=too-many-public-methods  # one for each thing that is written or read
    """The file. Each call is done, and on the disk, when it returns."""

    def __init__(self, path: Path) -> None:
        self.path, self.lock = path, threading.RLock()

    @contextlib.contextmanager
    def opened(self) -> Iterator[sqlite3.Connection]:
        """The file, for one change, of which all takes effect or nothing. What is deleted is overwritten."""
        with self.lock:
            try:
                with contextlib.closing(sqlite3.connect(self.path)) as database:
                    database.executescript("PRAGMA secure_delete = ON; PRAGMA synchronous = EXTRA; PRAGMA temp_store = MEMORY;"
                                           + TABLES)
                    with database:
                        yield database
            except sqlite3.OperationalError as fault:
                raise Fault(_("the file of the mail could not be read or written ({why}). Nothing was changed in it.", why=fault)
                            ) from fault
            except sqlite3.DatabaseError as fault:
                raise Fault(_("the file of the mail, {path}, is damaged. Tell the administrator: it has to be moved away. "
                              "Then bring the addresses in again; what was sent is not known any more.", path=self.path)) from fault

    def rows(self, query: str, *values: Any) -> list[Any]:
        """What a query gives. Of a file that is not there, nothing."""
        if not self.path.exists():
            return []
        with self.opened() as database:
            return database.execute(query, values).fetchall()

    # --- addresses and texts

    def addresses(self) -> dict[str, str]:
        """The address of each person who has one."""
        return dict(self.rows("SELECT person, email FROM address ORDER BY person"))

    def address(self, person: str) -> str:
        """A person's address, or nothing."""
        return str((self.rows("SELECT email FROM address WHERE person = ?", person) or [[""]])[0][0])

    def set_addresses(self, addresses: dict[str, str]) -> None:
        """Gives people these addresses. An empty one takes a person's address away."""
        with self.opened() as database:
            database.executemany("INSERT OR REPLACE INTO address VALUES (?, ?)", addresses.items())
            database.execute("DELETE FROM address WHERE email = ''")

    def people(self) -> set[str]:
        """Who has an address, or was sent something."""
        return {person for person, in self.rows("SELECT person FROM address UNION SELECT person FROM message "
                                               "UNION SELECT person FROM earlier")}

    def erase(self, people: Iterable[str]) -> None:
        """Erases all that the file has of people."""
        if self.path.exists():
            erased = [(person,) for person in people]
            with self.opened() as database:
                count_gone(database, erased)
                for table in ("address", "message", "told", "earlier", "receipt"):
                    database.executemany(f"DELETE FROM {table} WHERE person = ?", erased)

    def has(self, person: str) -> dict[str, Any]:
        """All that the file has of a person."""
        sent = self.rows("SELECT kind, round, state, at FROM message WHERE person = ? ORDER BY at", person)
        return {"address": self.address(person), "sent": sent}

    def texts(self, kind: str) -> dict[str, Text]:
        """The texts of a kind that clerks have written, by language."""
        found = self.rows("SELECT ?, subject, body FROM text WHERE kind = ?", ALL, kind)
        found += self.rows("SELECT language, subject, body FROM words WHERE kind = ?", kind)
        return {language: Text(subject, body) for language, subject, body in found}

    def set_text(self, kind: str, language: str, text: Text) -> None:
        """Keeps a text."""
        with self.opened() as database:
            database.execute("INSERT OR REPLACE INTO words VALUES (?, ?, ?, ?)", (kind, language, *text))

    # --- settings

    def setting(self, name: str) -> str:
        """A setting, or nothing."""
        return str((self.rows("SELECT value FROM setting WHERE name = ?", name) or [[""]])[0][0])

    def set(self, **settings: str) -> None:
        """Sets some."""
        with self.opened() as database:
            set_in(database, settings)

    # --- messages

    def turn(self, kind: str, number: int) -> int:
        """Which message of this kind it is in a round, from 1: each person gets one a turn."""
        return int((self.rows("SELECT number FROM turn WHERE kind = ? AND round = ?", kind, number) or [[1]])[0][0])

    def begin_turn(self, kind: str, number: int, turn: int) -> None:
        """Begins another turn: everybody can get a message of this kind once more."""
        with self.opened() as database:
            database.execute("INSERT OR REPLACE INTO turn VALUES (?, ?, ?)", (kind, number, turn))

    def states(self, kind: str, number: int, turn: int) -> dict[str, list[str]]:
        """What became of the messages of a turn, by person: the state, the time, and why."""
        found = self.rows("SELECT person, state, at, why FROM message WHERE kind = ? AND round = ? AND turn = ? ORDER BY person",
                          kind, number, turn)
        return {person: rest for person, *rest in found}

    def told(self, kind: str, number: int, turn: int) -> dict[str, str]:
        """The mark of what the messages of a turn told, by person. Messages that earlier versions sent have none."""
        return dict(self.rows("SELECT person, mark FROM told WHERE kind = ? AND round = ? AND turn = ?", kind, number, turn))

    def marks_of(self, told: Mapping[str, object]) -> dict[str, str]:
        """The mark of what a message tells each person."""
        if not told:
            return {}
        secret = self.setting(SECRET)
        if not secret:
            secret = secrets.token_hex(16)
            self.set(**{SECRET: secret})
        return {person: mark_by(secret, json.dumps(one)) for person, one in told.items()}

    def forget_uncertain(self, kind: str, number: int, turn: int) -> None:
        """Takes uncertain messages for such that were not sent."""
        with self.opened() as database:
            for table in ("message", "gone"):
                database.execute(f"DELETE FROM {table} WHERE kind = ? AND round = ? AND turn = ? AND state = ?",
                                 (kind, number, turn, UNCERTAIN))

    def gone(self, kind: str, number: int, turn: int | None = None) -> dict[str, int]:
        """How many messages of a turn, or of all turns, have which outcome, whose people were erased since."""
        return dict(self.rows("SELECT state, sum(count) FROM gone WHERE kind = ? AND round = ? AND turn = coalesce(?, turn) "
                              "GROUP BY state", kind, number, turn))

    def erased(self, kind: str, number: int) -> bool:
        """Whether messages of a kind in a round are forgotten, and there are none since. There can be some again after a way back
        to a copy of that round."""
        return (int(self.setting(f"{ERASED}{kind}") or 0) >= number
                and not self.rows("SELECT 1 FROM message WHERE kind = ? AND round = ? LIMIT 1", kind, number))

    # --- the run

    def run(self) -> Run | None:
        """The last run, if there was one."""
        found = self.rows("SELECT * FROM run")
        return Run(*found[0][1:]) if found else None

    def start(self, run: Run, texts: dict[str, Text], people: list[str]) -> None:
        """Begins a run, with its texts by language. Messages of rounds that are long over are forgotten."""
        key = (run.kind, run.round, run.turn)
        with self.opened() as database:
            database.execute("INSERT OR REPLACE INTO run VALUES (1, ?, ?, ?, ?, ?, ?, ?, ?, ?, ?)", run)
            database.execute("DELETE FROM run_words")
            database.executemany("INSERT INTO run_words VALUES (?, ?, ?)", [(one, *text) for one, text in texts.items()])
            set_aside(database, key, people)
            database.executemany("INSERT OR REPLACE INTO message VALUES (?, ?, ?, ?, ?, ?, '')",
                                 [(*key, person, WAITING, run.at) for person in people])
            forget_old(database, run.round)

    def run_texts(self) -> dict[str, Text]:
        """The texts of the run by language. A run that an earlier version began has one text alone."""
        return {language: Text(*text) for language, *text in self.rows("SELECT language, subject, body FROM run_words")}

    def set_run(self, state: str, why: str) -> None:
        """How far the run is. With its end, what still waits is no message any more."""
        with self.opened() as database:
            database.execute("UPDATE run SET state = ?, why = ?, at = ?", (state, why, now()))
            if state == ENDED:
                for table in ("message", "gone"):
                    database.execute(f"DELETE FROM {table} WHERE {OF_RUN} AND state = ?", (WAITING,))
                bring_earlier(database)

    def waiting(self) -> str:
        """Who is the next that waits for a message of the run, or nobody."""
        found = self.rows(f"SELECT person FROM message WHERE {OF_RUN} AND state = ? ORDER BY person LIMIT 1", WAITING)
        return str(found[0][0]) if found else ""

    def stopped_at(self, kind: str, number: int, state: str) -> tuple[str, str] | None:
        """At whose message of a kind it stopped, which is in this state now, and why; None if that person was erased."""
        found = self.rows("SELECT person, why FROM message WHERE kind = ? AND round = ? AND state = ? AND why <> '' "
                          "ORDER BY at DESC LIMIT 1", kind, number, state)
        return found[0] if found else None

    def mark(self, person: str, state: str, why: str = "") -> None:
        """What becomes of a message of the run."""
        with self.opened() as database:
            mark_in(database, person, state, why)

    def begin_message(self, person: str, told: Mapping[str, object]) -> None:
        """The message of the run to this person is on its way. `told` has what it tells them, if that may change."""
        marks = self.marks_of({one: what for one, what in told.items() if one == person})
        with self.opened() as database:
            mark_in(database, person, BEGUN, "")
            database.executemany("INSERT OR REPLACE INTO told SELECT kind, round, turn, ?, ? FROM run", marks.items())

    def skip(self, person: str) -> None:
        """The message of the run to this person is none any more."""
        with self.opened() as database:
            database.execute(f"DELETE FROM message WHERE {OF_RUN} AND person = ?", (person,))

    def end_begun(self, of_run: bool = False) -> list[str]:
        """Of messages that were begun, and whose outcome nobody has noted, nobody knows whether they were sent: of all, or of
        those of the run. Gives whose receipts are uncertain for this reason now."""
        if not self.path.exists():
            return []
        which = f"state = ? AND {OF_RUN}" if of_run else "state = ?"
        with self.opened() as database:
            found = database.execute(f"SELECT person FROM message WHERE {which} AND kind = ?", (BEGUN, RECEIPT)).fetchall()
            database.execute(f"UPDATE message SET state = ?, why = ? WHERE {which}", (UNCERTAIN, ENDED_MEANWHILE, BEGUN))
            return [person for person, in found]


def count_gone(database: sqlite3.Connection, people: list[tuple[str]]) -> None:
    """Counts the messages of people who are about to be erased, so that the numbers of a message stay what they are. Of one that is
    on its way nobody knows what becomes of it; one that was to replace another one leaves that one."""
    for person in people:
        found = database.execute("SELECT kind, round, turn, message.state, earlier.state FROM message "
                                 "LEFT JOIN earlier USING (kind, round, turn, person) WHERE person = ?", person).fetchall()
        for *key, state, before in found:
            counted = before if state == WAITING and before else UNCERTAIN if state == BEGUN else state
            database.execute("INSERT INTO gone VALUES (?, ?, ?, ?, 1) ON CONFLICT(kind, round, turn, state) "
                             "DO UPDATE SET count = count + 1", (*key, counted))


def set_aside(database: sqlite3.Connection, key: tuple[str, int, int], people: list[str]) -> None:
    """Sets the messages aside that people have got, or may have got, and that those of a run are to replace."""
    database.execute("DELETE FROM earlier")
    database.executemany(
        "INSERT INTO earlier SELECT message.*, mark FROM message LEFT JOIN told USING (kind, round, turn, person) "
        "WHERE (kind, round, turn, person) = (?, ?, ?, ?) AND state IN (?, ?)",
        [(*key, person, SENT, UNCERTAIN) for person in people])


def bring_earlier(database: sqlite3.Connection) -> None:
    """Who has got no other message in the run has the earlier one."""
    left = "FROM earlier WHERE (kind, round, turn, person) NOT IN (SELECT kind, round, turn, person FROM message)"
    database.execute(f"INSERT OR REPLACE INTO told SELECT kind, round, turn, person, mark {left} AND mark IS NOT NULL")
    database.execute(f"INSERT INTO message SELECT kind, round, turn, person, state, at, why {left}")
    database.execute("DELETE FROM earlier")


def set_in(database: sqlite3.Connection, settings: Mapping[str, str]) -> None:
    """Sets some settings."""
    database.executemany("INSERT OR REPLACE INTO setting VALUES (?, ?)", settings.items())


def mark_in(database: sqlite3.Connection, person: str, state: str, why: str) -> None:
    """What becomes of a message of the run."""
    database.execute(f"UPDATE message SET state = ?, at = ?, why = ? WHERE {OF_RUN} AND person = ?", (state, now(), why, person))


def mark_by(secret: str, text: str) -> str:
    """What changes with a text, and says nothing of it to who does not know the secret."""
    return hashlib.blake2b(text.encode(), digest_size=12, key=secret.encode()).hexdigest()


def forget_old(database: sqlite3.Connection, number: int) -> None:
    """Forgets the messages of rounds that are long over, and keeps up to which round those of each kind are forgotten."""
    database.execute("INSERT INTO setting SELECT ? || kind, max(round) FROM message WHERE round < ? GROUP BY kind "
                     "ON CONFLICT(name) DO UPDATE SET value = max(CAST(value AS INTEGER), CAST(excluded.value AS INTEGER))",
                     (ERASED, number - 1))
    for table in ("message", "told", "earlier", "turn", "gone"):
        database.execute(f"DELETE FROM {table} WHERE round < ?", (number - 1,))
