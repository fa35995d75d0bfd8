#!/usr/bin/python3
"""Stands for the program `rooms` where the keeper's own parts are tried: a few lines over the tables of an office.

It knows no law of an office. What the keeper has to know of the program is here: lines on standard input, words behind `--`,
answers and statuses, a list that is known again by its label and bytes, and a server that has the file until it is ended.
"""

import contextlib
import os
import re
import signal
import socket
import sqlite3
import sys
from pathlib import Path

TABLES = """
CREATE TABLE room(code TEXT PRIMARY KEY NOT NULL, shut INTEGER NOT NULL) STRICT;
CREATE TABLE person(id TEXT PRIMARY KEY NOT NULL, name TEXT NOT NULL, passkey TEXT NOT NULL UNIQUE,
  home TEXT UNIQUE REFERENCES room(code), withdrawn INTEGER NOT NULL) STRICT;
CREATE TABLE round(one INTEGER PRIMARY KEY, version INTEGER NOT NULL, number INTEGER NOT NULL,
  phase TEXT NOT NULL) STRICT;
CREATE TABLE choice(person TEXT NOT NULL, place INTEGER NOT NULL, room TEXT NOT NULL,
  PRIMARY KEY(person, place)) STRICT;
CREATE TABLE word(person TEXT PRIMARY KEY NOT NULL, hex TEXT NOT NULL) STRICT;
CREATE TABLE result(person TEXT PRIMARY KEY NOT NULL, room TEXT UNIQUE) STRICT;
CREATE TABLE move(round INTEGER NOT NULL, person TEXT NOT NULL, from_room TEXT, to_room TEXT, wave INTEGER,
  PRIMARY KEY(round, person)) STRICT;
CREATE TABLE list(label TEXT PRIMARY KEY NOT NULL, kind TEXT NOT NULL, body BLOB NOT NULL,
  added INTEGER NOT NULL) STRICT;
CREATE TABLE grade(person TEXT PRIMARY KEY NOT NULL, value INTEGER NOT NULL) STRICT;
CREATE TABLE going(person TEXT PRIMARY KEY NOT NULL) STRICT;
INSERT INTO round VALUES (1, 3, 0, 'idle');
"""


class Refused(Exception):
    """A refusal, by its number and name."""


def one_of(database, query, *values):
    """The only value that a query gives, or nothing."""
    found = database.execute(query, values).fetchone()
    return found and found[0]


def add_room(database, code):
    """`room CODE`."""
    if not re.fullmatch("[A-Z0-9][A-Z0-9-]{0,7}", code):
        raise TypeError
    if one_of(database, "SELECT 1 FROM room WHERE code = ?", code):
        raise Refused("4 DuplicateRoom")
    database.execute("INSERT INTO room VALUES (?, 0)", (code,))
    return "ok"


def add_person(database, person, key, *name):
    """`person ID KEY NAME..`."""
    if not name or not re.fullmatch("[A-Z0-9]{1,12}", person) or not re.fullmatch("[a-z0-9]{16,64}", key):
        raise TypeError
    if one_of(database, "SELECT 1 FROM person WHERE id = ?", person):
        raise Refused("5 DuplicatePerson")
    if one_of(database, "SELECT 1 FROM person WHERE passkey = ?", key):
        raise Refused("6 KeyInUse")
    database.execute("INSERT INTO person VALUES (?, ?, ?, NULL, 0)", (person, " ".join(name), key))
    return "ok"


def set_name(database, person, *name):
    """`name ID NAME..`."""
    if not name:
        raise TypeError
    if not database.execute("UPDATE person SET name = ? WHERE id = ?", (" ".join(name), person)).rowcount:
        raise Refused("2 UnknownPerson")
    return "ok"


def set_key(database, person, key):
    """`key ID KEY`."""
    if not one_of(database, "SELECT 1 FROM person WHERE id = ?", person):
        raise Refused("2 UnknownPerson")
    if one_of(database, "SELECT 1 FROM person WHERE passkey = ? AND id <> ?", key, person):
        raise Refused("6 KeyInUse")
    database.execute("UPDATE person SET passkey = ? WHERE id = ?", (key, person))
    return "ok"


def blank(database, label):
    """`blank LABEL`."""
    if not database.execute("UPDATE list SET body = CAST('blanked' AS BLOB) WHERE label = ?", (label,)).rowcount:
        raise Refused("25 UnknownLabel")
    return "ok"


def leave(database, person):
    """`leave ID`."""
    if not one_of(database, "SELECT home FROM person WHERE id = ?", person):
        raise Refused("10 NoHome")
    database.execute("UPDATE person SET home = NULL WHERE id = ?", (person,))
    return "ok"


def choose(database, person, *rooms):
    """`choose ID CODE..`."""
    database.execute("DELETE FROM choice WHERE person = ?", (person,))
    database.executemany(
        "INSERT INTO choice VALUES (?, ?, ?)", [(person, place, room) for place, room in enumerate(rooms)]
    )
    return " ".join(["chosen", *rooms])


def step(old, new, said):
    """A line that leads from a phase to the next."""

    def change(database):
        phase = one_of(database, "SELECT phase FROM round")
        if phase not in old:
            raise Refused(f"1 BadPhase {phase}")
        database.execute("UPDATE round SET phase = ?, number = number + ?", (new, new == "open"))
        return said

    return change


def me_of(database, key):
    """`me KEY`."""
    found = database.execute("SELECT id, name FROM person WHERE passkey = ?", (key,)).fetchone()
    if not found:
        raise Refused("2 UnknownPerson")
    return f"person {found[0]}\nname {found[1]}"


def tell_round(database):
    """`round`."""
    number, phase = database.execute("SELECT number, phase FROM round").fetchone()
    return f"round {number} {phase} people {one_of(database, 'SELECT count(*) FROM person')} withdrawn 0"


def table(query):
    """A line that shows rows."""
    return lambda database: "\n".join("  ".join(map(str, row)) for row in database.execute(query)) or "none"


LINES = {
    "room": add_room,
    "person": add_person,
    "name": set_name,
    "key": set_key,
    "blank": blank,
    "leave": leave,
    "choose": choose,
    "me": me_of,
    "round": tell_round,
    "rooms": table("SELECT code FROM room ORDER BY code"),
    "people": table("SELECT id, name FROM person ORDER BY id"),
    "open": step({"idle"}, "open", "round 1 open"),
    "close": step({"open"}, "closed", "closed 1"),
    "cancel": step({"open", "closed"}, "idle", "cancelled"),
}


def bring_in(database, kind, label, path):
    """A list."""
    with open(path, "rb") as held:
        body = held.read()
    known = database.execute("SELECT kind, body, added FROM list WHERE label = ?", (label,)).fetchone()
    if known:
        if known[:2] != (kind, body):
            raise Refused("14 ListDiffers")
        return f"added {known[2]}"
    first, *records = body.decode().split()
    if (kind, first) != ("rooms", "room"):
        raise Refused("15 BadRecord 0 header")
    for number, code in enumerate(records, 1):
        try:
            add_room(database, code)
        except Refused as why:
            raise Refused(f"15 BadRecord {number} refusal {str(why).split(maxsplit=1)[0]}") from why
    database.execute("INSERT INTO list VALUES (?, ?, ?, ?)", (label, kind, body, len(records)))
    return f"added {len(records)}"


def answer(database, words):
    """Carries out a line, and gives its text and its status."""
    work = bring_in if words[0] == "import" else LINES.get(words[1]) if words[0] == "do" and len(words) > 1 else None
    if words[0] == "export":
        work, words = table("SELECT id || ',' || name FROM person"), words[:1] if words[1] == "people" else [
            "",
            "",
            "",
        ]
    try:
        if not work:
            raise TypeError
        with database:
            return work(database, *words[2 if words[0] == "do" else 1 :]), 0
    except Refused as why:
        return f"refused {why}", 1
    except TypeError:
        return "not understood", 2


def answer_lines(database):
    """Answers the lines of standard input, each before it reads the next one."""
    greatest = 0
    for line in sys.stdin.buffer:
        text, status = answer(database, ["do", *line.decode().split()])
        print(text, flush=True)
        greatest = max(greatest, status)
    return greatest


def open_alone(file):
    """Opens a file as the program does: it has to have its only name, and nobody else may have its lock."""
    database = sqlite3.connect(f"file:{file}?mode=rw", uri=True, timeout=0)
    named = os.stat(file)
    opened = [os.stat(held) for held in Path("/proc/self/fd").iterdir() if held.exists()]
    if named.st_nlink != 1 or not any(os.path.samestat(named, one) for one in opened):
        raise sqlite3.OperationalError("the file has another name")
    database.execute("PRAGMA locking_mode = EXCLUSIVE")
    tell_round(database)
    return database


def serve(port, file):
    """Has the file, and answers as to a key that nobody has."""
    with contextlib.closing(open_alone(file)) as database, socket.socket() as door:
        if database.execute("PRAGMA integrity_check").fetchall() != [("ok",)] or not tell_round(database):
            return 3
        door.setsockopt(socket.SOL_SOCKET, socket.SO_REUSEADDR, 1)
        door.bind(("127.0.0.1", int(port)))
        door.listen()
        print(f"listening on 127.0.0.1:{port}", flush=True)
        while True:
            with door.accept()[0] as talk, contextlib.suppress(OSError):
                if talk.recv(9216):
                    talk.sendall(b"HTTP/1.1 403 Forbidden\r\nContent-Length: 0\r\nConnection: close\r\n\r\n")


def main(words):
    """Does what the program does."""
    signal.signal(signal.SIGTERM, signal.SIG_DFL)
    if words[0] == "words":
        ((seed, count),) = re.findall(r"^--seed=(\w+) --count=(\d+)$", " ".join(words[1:]))
        print(*(f"{number:016x}" for number in range(int(count) * (len(seed) == 64))), sep="\n")
        return 0
    command, file, more = words[0], words[2], [word for word in words[3:] if word != "--"]
    if command == "serve":
        return serve(more[1], file)
    with contextlib.closing(sqlite3.connect(file) if command == "new" else open_alone(file)) as database:
        if command == "new":
            database.execute("PRAGMA journal_mode = WAL")
            database.executescript(TABLES)
            print("ok")
            return 0
        if command == "lines":
            return answer_lines(database)
        text, status = answer(database, [command, *more])
        print(text)
        return status


if __name__ == "__main__":
    try:
        sys.exit(main(sys.argv[1:]))
    except sqlite3.Error:
        print("unavailable")
        sys.exit(3)
