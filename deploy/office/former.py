"""Whose an identifier was.

Moves, lists, copies and the journal speak of people by their identifiers, also of those who are out of the register. Under an
identifier that goes to somebody else they would speak of two people. So nobody comes into the register under an identifier that
was somebody else's, unless the clerk says that it is the same person. Who comes again under the same name is the same person.
"""

import contextlib
import json
import re
import sqlite3
from collections.abc import Callable, Collection
from pathlib import Path

from branches import REMOVED, is_done, named_in
from copies import kept_copy
from entries import Entry, merged
from languages import _
from lines import IDENTIFIER
from office import Office
from program import Answer, is_refused
from rows import names_in, records_of
from settings import Fault

Names = dict[str, str]  # by identifier; an empty one is not known

COME, FORGET = "person", "forget"  # the lines of the journal by which somebody came, and was forgotten
NUMBER = re.compile(rb'"n": "([^"]*)"')
SPEAKS = re.compile(rf"\b(?:{'|'.join((COME, *REMOVED))}) ".encode())
OF_THESE = "SELECT id, name FROM person WHERE id IN (SELECT value FROM json_each(?))"
MOST_NAMED = 20  # in a refusal


class WasAnothers(Fault):
    """People come under identifiers that were somebody else's: each identifier, with that person's name. Of `removed` the same
    lines take that person out of the register."""

    def __init__(self, former: list[tuple[str, str]], removed: Collection[str] = ()) -> None:
        super().__init__(said_of_many(former, removed) if len(former) > 1 else said_of(*former[0], former[0][0] in removed))
        self.former = former


def said_of_many(former: list[tuple[str, str]], removed: Collection[str]) -> str:
    """What a clerk reads before people come under identifiers that were somebody else's. Nothing is changed yet: who is removed
    by the same lines is still in the register."""
    people = ", ".join(f"{person} ({name})" if name else person for person, name in former[:MOST_NAMED])
    if len(former) > MOST_NAMED:
        people = _("{people} and more", people=people)
    if any(person in removed for person, _name in former):
        return _("These are identifiers of people who are out of the register, or whom these lines remove: {people}. Moves, lists, "
                 "copies and the journal speak of those people under them. If they are the same people, say so. If somebody is "
                 "another person, give another identifier.", people=people)
    return _("These were the identifiers of people who are out of the register: {people}. Moves, lists, copies and the journal "
             "still speak of those people under them. If they are the same people, say so. If somebody is another person, "
             "give another identifier.", people=people)


def said_of(person: str, name: str, is_removed: bool) -> str:
    """The same of one identifier. Who is removed by the same lines has a name."""
    if is_removed:
        return _("{person} is the identifier of {name}, whom these lines remove. Moves, lists, copies and the journal speak of "
                 "that person under it. If this is the same person, say so. If it is somebody else, give another identifier.",
                 person=person, name=name)
    if name:
        return _("{person} was the identifier of {name}, who is out of the register. Moves, lists, copies and the journal still "
                 "speak of that person under it. If this is the same person, say so. If it is somebody else, give another "
                 "identifier.", person=person, name=name)
    return _("{person} was the identifier of somebody who is out of the register. Moves, lists, copies and the journal still speak "
             "of that person under it. If this is the same person, say so. If it is somebody else, give another identifier.",
             person=person)


def is_same(name: str, other: str) -> bool:
    """Whether both are one name, whatever spaces it has; none is nobody's."""
    return bool(name) and name.split() == other.split()


class Former:
    """The identifiers of people who are out of the register."""

    def __init__(self, office: Office) -> None:
        self.office = office

    def watch(self, file: Path, again: set[str], carry_out: Callable[[], list[Answer]]) -> list[Answer]:
        """Carries something out on a file. On a copy of the office, nobody who is not there `again` may come by it under an
        identifier that was somebody else's."""
        if file == self.office.copies.file:
            return carry_out()
        before = names_in(file)
        answers = carry_out()
        if not is_refused(answers):
            self.refuse(before, names_in(file), again)
        return answers

    def refuse(self, before: Names, after: Names, again: set[str]) -> None:
        """Refuses people who come into the register under identifiers that were somebody else's, or take one from somebody."""
        come = {person: name for person, name in after.items()
                if person not in again and not is_same(before.get(person, ""), name)}
        if not come:
            return
        former = self.names_of(come.keys() - before.keys())
        former.update((person, before[person]) for person in come.keys() & before.keys())
        if asked := [(person, former[person]) for person in sorted(former) if not is_same(former[person], come[person])]:
            raise WasAnothers(asked, before.keys())

    def names_of(self, people: set[str]) -> Names:
        """Those of these people, who are not in the register, whose identifiers were somebody's, with the name in the newest copy
        that has them, or else in a kept list. Nobody is named who was forgotten."""
        with self.office.copies.copied() as copy:
            found = {**in_office(copy), **self.kept_names(people)}
        come, gone, forgotten = in_journal(self.office.settings.journal)
        found = {**dict.fromkeys(come | gone | forgotten, ""), **found}
        return {person: "" if person in forgotten else found[person] for person in people & found.keys()}

    def kept_names(self, people: set[str]) -> Names:
        """Those of these people who are in the register of a kept copy, with the name in the newest one."""
        backups, found = self.office.backups, dict[str, str]()
        for name in reversed(backups.names()):
            if left := people - found.keys():
                found.update(in_copy(backups.file_of(name), left))
        return found


def in_copy(file: Path, people: set[str]) -> Names:
    """Those of these people who are in the register of a kept copy. One that cannot be read, or was damaged, has nobody."""
    with contextlib.suppress(sqlite3.Error), kept_copy(file) as database:
        return dict(database.execute(OF_THESE, (json.dumps(sorted(people)),)))
    return {}


def in_office(file: Path) -> Names:
    """Of whom the moves and the kept lists speak, with the name in the last list of people that has them."""
    with contextlib.closing(sqlite3.connect(file)) as database:
        found: Names = {person: "" for person, in database.execute("SELECT DISTINCT person FROM move")}
        for kind, body in database.execute("SELECT kind, body FROM list WHERE kind <> 'rooms' ORDER BY rowid"):
            for person, *fields in records_of(body):
                name = fields[0] if kind == "people" and fields else ""
                if IDENTIFIER.fullmatch(person):
                    found[person] = name or found.get(person, "")
    return found


def in_journal(journal: Path) -> tuple[set[str], set[str], set[str]]:
    """Who came into the register one by one, who was removed, or may have been, and who was forgotten, by the whole journal."""
    entries = changes_in(journal)
    return named_in(filter(is_done, entries), COME), named_in(entries, *REMOVED), named_in(entries, FORGET)


def changes_in(journal: Path) -> list[Entry]:
    """The changes of the whole journal that have such lines, each as one entry."""
    found, numbers = list[Entry](), set[bytes]()
    with contextlib.suppress(FileNotFoundError), open(journal, "rb") as lines:
        for line in lines:
            number = NUMBER.search(line)
            if number and (number[1] in numbers or SPEAKS.search(line)):
                with contextlib.suppress(ValueError, TypeError):
                    found.append(dict(json.loads(line)))
                    numbers.add(number[1])
    return merged(found)
