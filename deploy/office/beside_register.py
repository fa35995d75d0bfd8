"""What the keeper has of people beside the register, under their identifiers: mail addresses and what was sent, languages, and the
college's accounts. A person who gets an identifier later is somebody else, and gets nothing of it.

So before new people come into the register, what is there under their identifiers is erased: of somebody who was removed by hand,
or who is in the register no more since the office went back to a copy. Before people go, their identifiers are written down in a
file beside the office's; once they are out of the register, all that is under them is erased, by the next keeper if this one is
ended. After a way back it stays, since the office may come forth again, and no copy has it; but before the office goes back to
a copy that may have somebody else under an identifier (parting.py), what is under that is erased.
"""

import contextlib
import json
import sqlite3
import threading
from collections.abc import Callable, Iterable
from pathlib import Path

from accounts import Accounts
from languages import N_, _
from languages_kept import Languages
from mail import Post
from placing import beside, part_of, replace_file
from settings import Fault, unwritten


class BesideRegister:
    """What the keeper has of people beside the register."""

    def __init__(self, file: Path, post: Post, languages: Languages, accounts: Accounts) -> None:
        self.post, self.languages, self.accounts = post, languages, accounts
        self.path, self.lock = beside(file, ".leaving"), threading.Lock()
        self.failed: set[str] = set()  # people of whom something could not be erased

    def prepare(self, come: set[str], gone: set[str]) -> None:
        """Before people come into the register, and leave it. If it fails, they do not."""
        if come:
            self.erase_before(come)
        if gone:
            with self.lock:
                self.write(self.leaving() | gone)

    def erase_before(self, come: set[str]) -> None:
        """Erases what was somebody else's under these identifiers."""
        try:
            self.erase(come)
        except Fault as fault:
            raise Fault(_("{why} Before that nobody new comes into the register: what is kept there may be of somebody else who "
                          "had the same identifier. Nothing was changed in the register.", why=fault)) from fault

    def erase_others(self, people: set[str]) -> None:
        """Before the office goes back to a copy that may have others under these identifiers. If it fails, it does not."""
        try:
            self.erase(people)
        except Fault as fault:
            raise Fault(_("{why} Before that the office does not go back: what is kept there may be of another person than "
                          "that of the copy ({people}). Nothing was changed in the office.", why=fault,
                          people=", ".join(sorted(people)))) from fault

    def erase(self, people: set[str]) -> None:
        """Erases all that is under these identifiers."""
        if people:
            self.post.book.erase(people)
            self.languages.set_residents(dict.fromkeys(people, ""))
            self.accounts.erase(people)
            self.failed -= people

    def with_something(self, people: set[str]) -> set[str]:
        """Those of these people of whom something is kept here, or may be, if that cannot be read."""
        try:
            return people & {*self.post.book.people(), *self.languages.kept().residents, *self.accounts.kept().people.values()}
        except Fault:
            return people

    def kept_of(self, people: set[str]) -> list[tuple[str, str, str, list[str]]]:
        """Address, language and accounts of these people, as far as they can be read: what they have by now may be another clerk's
        work."""
        with contextlib.suppress(Fault):
            addresses, languages = self.post.book.addresses(), self.languages.kept().residents
            accounts = self.accounts.kept().people
            return [(one, addresses.get(one, ""), languages.get(one, ""),
                     sorted(name for name, who in accounts.items() if who == one)) for one in sorted(people)]
        return []

    def let_go(self, gone: Iterable[str]) -> str:
        """Erases all of people who are out of the register. If one file fails, the others are changed all the same, and the next
        keeper tries again, if that can be written down. Says what could not be erased, and why, or nothing: that they are out of
        the register stands."""
        people, failed = sorted(gone), []
        erasures: list[Callable[[list[str]], None]] = [self.post.erase, self.languages.erase, self.accounts.forget]
        for erase in erasures if people else []:
            try:
                erase(people)
            except (Fault, OSError, sqlite3.Error) as fault:
                failed.append(str(fault))
        if failed:
            self.failed |= set(people)
            if self.is_noted(set(people)):
                return _("{what} The keeper tries it again when it starts.", what=" ".join(failed))
            return _("{what} This could not be noted either, so the keeper does not try it again: forget these people once more "
                     "({people}).", what=" ".join(failed), people=", ".join(people))
        self.failed -= set(people)
        with self.lock, contextlib.suppress(Fault, OSError):  # the next keeper finds nothing under who stays in this file
            if left := self.leaving():
                self.write(left - set(people))
        return ""

    def finish(self, register: Callable[[], set[str]]) -> str:
        """Erases what a keeper has left that was ended. A person who is in the register did not leave after all, or is somebody
        else, before whom all was erased. Says what could not be erased, and why, or nothing."""
        part_of(self.path).unlink(missing_ok=True)
        left: set[str] = set()
        try:
            left = self.leaving()
            why = self.let_go(left - register()) if left else ""
            if left and not why:
                self.path.unlink(missing_ok=True)
            return why
        except (Fault, OSError, sqlite3.Error) as fault:  # of a file that is damaged: the next start tries again
            self.failed |= left or {self.path.name}
            return _("what is kept of people who are out of the register was not erased ({why}). The keeper tries it again when it "
                     "starts.", why=fault)

    # --- the file

    def is_noted(self, people: set[str]) -> bool:
        """Whether the file has these people: they are added, unless that fails. Who was out of the register before is not in it
        yet."""
        with self.lock, contextlib.suppress(OSError):
            with contextlib.suppress(Fault):
                self.write(self.leaving() | people)
            return people <= self.leaving()
        return False

    def leaving(self) -> set[str]:
        """Who leaves the register, or is out of it and not erased yet."""
        try:
            return set(map(str, json.loads(self.path.read_bytes())))
        except (FileNotFoundError, ValueError, TypeError):  # it is renamed once it is whole
            return set()

    def write(self, people: set[str]) -> None:
        """Puts another file in the place of this one, or takes it away if nobody is left."""
        try:
            replace_file(self.path, f"{json.dumps(sorted(people))}\n".encode() if people else None)
        except OSError as fault:
            raise unwritten(N_("who goes out of the register"), fault) from fault
