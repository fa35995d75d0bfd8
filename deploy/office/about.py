"""What the office keeps of one person: in its file, in the kept copies, in the journal, and in texts that clerks have written.
No key is in it.
"""

import contextlib
import json
import re
import sqlite3
from collections.abc import Callable
from pathlib import Path
from typing import Any

import times
from copies import kept_copy
from entries import Entry, merged
from languages import _
from machine_backup import KEPT
from mail_book import Book
from naming import Names, Place, in_mails, in_told
from office import Office
from rows import names_in, records_of
from settings import Fault

# The columns of an imported list that are shown; that of the key in a list of people is not.
KEY_COLUMN = {"people": 2}
NAME_COLUMN = 1  # of a list of people
# What lines of the journal have that may look like an identifier, and is none: what is counted, numbers of rounds, codes of rooms,
# labels, and behind an identifier a room or a grade. Then answers that name nobody, and a seed with what witnesses threw.
NO_PERSON = re.compile(r"\(\d+(?: [a-z]+)?\)|--count \d+|\b\d+ (?:people|rooms|days|are deleted)\b|\bimport \S+ \S+|"
                       r"(?:\b(?:round|room|shut|reopen|blank|picture of)|\bbegins:|\baccounts [a-z]+:) [^ ;]+")
BEHIND = re.compile(r"\b((?:home|grade) [A-Z0-9]+) [^ ;]+")
NAMES_NOBODY = re.compile(r"(?:refused|round|added|closed|drawn|ran|published|settled|sent|chosen) .*|\d+ lines", re.DOTALL)
THROWN = re.compile(r"seed [0-9a-f]{64}[\W\d_]*")


def records_in(database: sqlite3.Connection, person: str) -> list[list[Any]]:
    """The records of this person in the kept lists: label, kind and fields of each."""
    found = []
    query = "SELECT label, kind, body FROM list WHERE kind <> 'rooms' AND instr(body, CAST(? AS BLOB)) > 0 ORDER BY label"
    for label, kind, body in database.execute(query, (person,)):
        found += [[label, kind, [_("(key)") if place == KEY_COLUMN.get(kind) and field else field
                                 for place, field in enumerate(fields)]]
                  for fields in records_of(body) if fields[0] == person]
    return found


def kept_in(file: Path, person: str) -> dict[str, Any]:
    """What a copy of the office has of a person beside the rows that are shown: records of kept lists, and moves."""
    with contextlib.closing(sqlite3.connect(file)) as database:
        moves = database.execute("SELECT round, from_room, to_room FROM move WHERE person = ? ORDER BY round", (person,))
        return {"lists": records_in(database, person), "moves": moves.fetchall()}


def names_on(records: list[list[Any]]) -> set[str]:
    """The names of a person on kept lists of people."""
    return {fields[NAME_COLUMN] for _label, kind, fields in records if kind == "people" and len(fields) > NAME_COLUMN}


def traces_in(file: Path, person: str) -> tuple[bool | None, set[str]]:
    """Whether a kept copy has a person, in its register or else in a kept list, and under which names. Of one that was damaged
    nobody knows it."""
    try:
        with kept_copy(file) as database:
            known = {name for name, in database.execute("SELECT name FROM person WHERE id = ?", (person,))}
            records = [] if known else records_in(database, person)
            return bool(known or records), known | names_on(records)
    except sqlite3.Error:
        return None, set()


def may_name(entry: dict[str, Any]) -> str:
    """What of an entry of the journal may name people."""
    line, answer, note = (times.without(str(entry.get(part, ""))) for part in ("line", "answer", "note"))
    return "\n".join([BEHIND.sub(r"\1", NO_PERSON.sub(" ", line)), "" if NAMES_NOBODY.fullmatch(answer) else answer,
                      "" if THROWN.fullmatch(note) else note])


def entries_of(journal: Path, person: str, names: Names) -> list[Entry]:
    """The entries of the whole journal that name a person, each change as one; and notes of clerks that have one of these names."""
    named, found = re.compile(rf"(?<![A-Za-z0-9]){re.escape(person)}(?![A-Za-z0-9])"), list[Entry]()
    numbers: set[str] = set()
    with contextlib.suppress(FileNotFoundError), open(journal, "rb") as lines:
        for line in lines:
            with contextlib.suppress(ValueError):
                entry = json.loads(line)
                if not isinstance(entry, dict):
                    continue
                number = str(entry.get("n", ""))
                if number in numbers or named.search(may_name(entry)) or names.are_in(str(entry.get("note", ""))):
                    found.append(entry)
                    numbers.update([number] if number else [])
    return merged(found)


def texts_with(office: Office, book: Book, names: Names) -> dict[str, Any]:
    """Which texts that clerks have written have one of these names, and which file could not be looked into."""
    found, faults = list[Place](), list[str]()
    looks: list[Callable[[], list[Place]]] = [lambda: in_told(office.told.read(), names), lambda: in_mails(book, names)]
    for look in looks:
        try:
            found += look() if names else []
        except Fault as fault:
            faults.append(str(fault))
    return {"places": found, "looked": bool(names), "fault": " ".join(faults)}


def about(office: Office, book: Book, person: str) -> dict[str, Any]:
    """All that the office keeps of a person, beside the rows that are shown; and for how long backups of the machine may have it.
    `unsure` are copies that may have the person: in free pages, or since they are damaged.
    Texts may have any name that was under the identifier: the office no longer knows whether it was somebody else's."""
    with office.copies.copied() as copy:
        kept, register = kept_in(copy, person), names_in(copy)
    backups = office.backups
    traces = {name: traces_in(backups.file_of(name), person) for name in backups.names()}
    names = Names({register.get(person, ""), *names_on(kept["lists"]), *(one for _has, found in traces.values() for one in found)})
    days = backups.days()
    stays = backups.stays(days)
    unsure = [name for name, (has, _names) in traces.items() if has is None or not has and not backups.has_rows_alone(name)]
    return {**kept, "copies": [[name, stays[name].until] for name, (has, _names) in traces.items() if has and name in stays],
            "unsure": [[name, stays[name].until] for name in unsure if name in stays],
            "journal": entries_of(office.settings.journal, person, names), "texts": texts_with(office, book, names),
            "backups": {"folder": str(office.settings.place.backups), "most": KEPT, "days": days}}
