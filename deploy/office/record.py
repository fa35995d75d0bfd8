#!/usr/bin/python3
"""record.py FILE [--seed HEX]: writes the public record of a round, from an office's file.

The record is the whole round as lines of a rehearsal, without names and keys: each person has the identifier as name,
and a made-up key. `rooms rehearse < RECORD` gives the office's own results once more, on anybody's machine; audit.py
checks them without the program. The office's own results are in it as comments, which a rehearsal skips.

A round has results from `run` until `settle`, so only then it can be recorded. FILE and its log are copied before they
are read, and stay as they are. While a server has the file, take the record by `rooms-office record`.

Exit status: 0 the record was written, 1 the round has no results, 2 the file is no office's, or cannot be read.
"""

import argparse
import contextlib
import re
import shutil
import signal
import sqlite3
import sys
import tempfile
from collections.abc import Iterable, Iterator
from pathlib import Path
from typing import NamedTuple

from audit import seed_words

VERSION = 3       # of the file: the tables that are read here
ROUNDS = 40       # earlier rounds are opened and cancelled, up to so many; beyond them a comment gives the number
FORMS = {"room": "[A-Z0-9][A-Z0-9-]{0,7}", "person": "[A-Z0-9]{1,12}", "word": "[0-9a-f]{16}"}
SEED = "[0-9a-fA-F]{64}"
# In place of what the journal says, where there is none.
NOT_READ = ("it was not read, so seeds that were noted and rounds that were given up are not named",)


def N_(text: str) -> str:  # pylint: disable=invalid-name  # as it is called with gettext
    """Marks a text that the keeper says in the clerk's language. This program works without it, and in English."""
    return text


class Refused(Exception):
    """The record cannot be written; says why, by a text and its values."""

    status = 2

    def __init__(self, text: str, **values: object) -> None:
        super().__init__(text.format(**values))
        self.text, self.values = text, values


class NoResults(Refused):
    """The round has no results."""

    status = 1


class Person(NamedTuple):
    """A person of the office, without name and key."""

    identifier: str
    home: str | None
    withdrawn: bool
    going: bool = False   # whether the person leaves the college, and the room goes into the round
    grade: int = 0        # a smaller grade is earlier in the order

    @property
    def takes_part(self) -> bool:
        """Whether the person gets a result."""
        return not self.withdrawn and not self.going


class Office(NamedTuple):
    """What the file says of the round."""

    number: int
    phase: str
    rooms: list[tuple[str, bool]]
    people: list[Person]
    choices: dict[str, list[str]]
    words: dict[str, str]
    results: dict[str, str | None]


# --- reading

@contextlib.contextmanager
def opened(file: Path) -> Iterator[sqlite3.Connection]:
    """A copy of the file, with its log. It has keys: nobody else can read its folder, and it is gone at the end."""
    with tempfile.TemporaryDirectory() as folder:
        copy = Path(folder) / "office.db"
        try:
            shutil.copyfile(file, copy)
            for end in ("-wal", "-journal"):
                with contextlib.suppress(FileNotFoundError):
                    shutil.copyfile(file.with_name(file.name + end), copy.with_name(copy.name + end))
        except OSError as why:
            raise Refused(N_("{file} cannot be read ({reason})"), file=file, reason=why.strerror) from why
        with contextlib.closing(sqlite3.connect(copy)) as database:
            yield database


def read_office(file: Path) -> Office:
    """The round of an office's file. Columns are read by their names, so there may be others."""
    with opened(file) as database:
        try:
            found = database.execute("SELECT version, number, phase FROM round").fetchall()
            if len(found) != 1 or found[0][0] != VERSION:
                raise Refused(N_("{file} is no office's file of version {version}, the one that this program knows. "
                                 "An office of an earlier version becomes one by: rooms migrate --db FILE"),
                              file=file, version=VERSION)
            _, number, phase = found[0]
            if phase not in ("ran", "published"):
                raise NoResults(N_("round {number} is {phase}: a round has results from `run` until `settle`"),
                                number=number, phase=phase)
            grades = dict(database.execute("SELECT person, value FROM grade"))
            going = {person for person, in database.execute("SELECT person FROM going")}
            choices: dict[str, list[str]] = {}
            for person, room in database.execute("SELECT person, room FROM choice ORDER BY person, place"):
                choices.setdefault(person, []).append(room)
            return Office(
                number, phase,
                [(code, bool(shut)) for code, shut in database.execute("SELECT code, shut FROM room ORDER BY code")],
                [Person(identifier, home, bool(withdrawn), identifier in going, grades.get(identifier, 0))
                 for identifier, home, withdrawn in
                 database.execute("SELECT id, home, withdrawn FROM person ORDER BY id")],
                choices,
                dict(database.execute("SELECT person, hex FROM word ORDER BY person")),
                dict(database.execute("SELECT person, room FROM result ORDER BY person")))
        except sqlite3.Error as why:
            raise Refused(N_("{file} is no office's file, its log is not beside it, or it is damaged ({reason})"),
                          file=file, reason=why) from why


def check(office: Office) -> None:
    """Refuses rows of which no lines can be made that mean the same: the program would refuse such a file too."""
    texts = {
        "room": [room for room, _ in office.rooms],
        "person": [person.identifier for person in office.people],
        "word": list(office.words.values()),
    }
    for kind, form in FORMS.items():
        for text in texts[kind]:
            if not isinstance(text, str) or not re.fullmatch(form, text):
                raise Refused(N_("the file is no office's: it has {found!r} for a {kind}"), found=text, kind=kind)
    participants = {person.identifier for person in office.people if person.takes_part}
    if any(person.grade not in range(10) or (person.withdrawn and person.going) for person in office.people):
        raise Refused(N_("the file is no office's: a grade is not from 0 to 9, or somebody has withdrawn and leaves"))
    if set(office.words) != participants or set(office.results) != participants:
        raise Refused(N_("the file is no office's: its words and results are not those of the people who take part"))
    homes = [person.home for person in office.people if person.home]
    free = {room for room, shut in office.rooms if not shut}
    listed = {room for rooms in office.choices.values() for room in rooms}
    if len(set(homes)) != len(homes) or not free.issuperset(homes) or not listed.issubset(texts["room"]):
        raise Refused(N_("the file is no office's: two people have one home, or a home or a list a room that is not there"))


# --- writing

def round_number(office: Office) -> list[str]:
    """A rehearsal begins at round 1, and each round that is opened and cancelled takes a number."""
    before = office.number - 1
    if before <= ROUNDS:
        return ["open", "cancel"] * before
    return [f"# A rehearsal begins at round 1: so its answers say 1 where the office's say {office.number}."]


def register(office: Office) -> list[str]:
    """The rooms, the people, who lives where, and the grades, as they were when the round closed."""
    return [
        *(f"room {room}" for room, _ in office.rooms),
        *(f"person {person.identifier} nokey{number:011} {person.identifier}"
          for number, person in enumerate(office.people, 1)),
        *(f"home {person.identifier} {person.home}" for person in office.people if person.home),
        *(f"grade {person.identifier} {person.grade}" for person in office.people if person.grade),
    ]


def wishes(office: Office) -> list[str]:
    """What counted when the round was closed. Lists of people who take no part are left out: they did not count.

    Lists come first, since nobody can list a room that is shut. Nobody lives in such a room: a person who did has no
    home in the register. If somebody who leaves the college has lost the room so, the program refuses `going`; for the
    results that is the same as to withdraw.
    """
    leaving = [person for person in office.people if person.going]
    without = [person for person in leaving if not person.home]
    return [
        *(f"choose {person.identifier} {' '.join(office.choices[person.identifier])}" for person in office.people
          if person.takes_part and office.choices.get(person.identifier)),
        *(f"withdraw {person.identifier}" for person in office.people if person.withdrawn),
        *(f"# {person.identifier} leaves the college, and has no room." for person in without),
        *(f"withdraw {person.identifier}" for person in without),
        *(f"going {person.identifier}" for person in leaving if person.home),
        *(f"shut {room}" for room, shut in office.rooms if shut),
    ]


def outcome(office: Office) -> list[str]:
    """The draw and the run, what a rehearsal is asked, and the office's own results."""
    return [
        "close",
        " ".join(["draw", *(office.words[person] for person in sorted(office.words))]),
        "run",
        *(["publish"] if office.phase == "published" else []),
        "round",
        "order",
        "results",
        "# These are the office's own results:",
        *(f"# result {person:12}  {office.results[person] or 'none'}" for person in sorted(office.results)),
    ]


def seed_of(office: Office, seeds: Iterable[str]) -> str | None:
    """Which of these seeds has the words of the draw."""
    words = [office.words[person] for person in sorted(office.words)]
    whole = [seed.lower() for seed in seeds if re.fullmatch(SEED, seed)]
    return next((seed for seed in whole if seed_words(seed, len(words)) == words), None)


def record(file: Path, seeds: Iterable[str] = (), history: Iterable[str] = NOT_READ) -> str:
    """The record of the round in an office's file, with what the keeper's journal says of the draw (`history`). Of the
    seeds that may be the draw's, it names the one that is."""
    office = read_office(file)
    check(office)
    seed = seed_of(office, seeds)
    return "\n".join([
        f"# round {office.number} {office.phase}",
        "# The record of a round of room exchange: rooms rehearse < RECORD. Names and keys are made up.",
        "# Homes and lists are those of the end of the round. Lists of people who take no part are left out.",
        f"# seed {seed}" if seed else "# No seed of the draw is recorded.",
        *(f"# journal: {line}" for line in history),
        *round_number(office), *register(office), "open", *wishes(office), *outcome(office), ""])


def main(words: list[str]) -> int:
    """Writes the record to standard output."""
    parser = argparse.ArgumentParser(prog="record.py", description="Writes the public record of a round.")
    parser.add_argument("file", type=Path, help="an office's file, with its log beside it")
    parser.add_argument("--seed", help="the seed of the draw, which the record then has")
    asked = parser.parse_args(words)
    try:
        if asked.seed and not re.fullmatch(SEED, asked.seed):
            raise Refused("a seed has 64 signs out of 0 to 9 and a to f")
        text = record(asked.file, [asked.seed] if asked.seed else [])
        if asked.seed and "\n# seed " not in text:
            raise Refused("the words of the draw are not those of this seed")
    except Refused as why:
        print(f"record.py: {why}", file=sys.stderr)
        return why.status
    sys.stdout.write(text)
    return 0


if __name__ == "__main__":
    if hasattr(signal, "SIGPIPE"):  # as audit.py ends
        signal.signal(signal.SIGPIPE, signal.SIG_DFL)
    sys.exit(main(sys.argv[1:]))
