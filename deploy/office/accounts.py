"""Which account of the college is which person's, for residents who sign in by the college's own account
(deploy/sign-in/README.md).

The file `accounts` beside the office's file is the keeper's own, and no part of the office or of its copies. Without it
nobody signs in by an account. No name of an account is in the journal.
"""

import csv
import io
import json
import re
import threading
import unicodedata
from pathlib import Path
from typing import Any, NamedTuple

from copies import Copies
from journal import Journal
from languages import N_, _
from lines import IDENTIFIER, LONGEST_LIST
from placing import replace_file
from register import people_in
from rows import View, keys_in
from settings import Fault, unwritten

# How the person of an account is found.
LIST, SAME, CAPITALS, OFF = "list", "same", "capitals", "off"
RULES = {
    LIST: "the list says whose each account is",
    SAME: "an account has the name of its person's identifier",
    CAPITALS: "an account has the name of its person's identifier in small letters",
    OFF: "nobody signs in by an account",
}
SMALL = re.compile(r"[a-z0-9]{1,12}")  # an identifier in small letters: no other letter becomes one of these capitals
HEADING = ["person", "account"]
LONGEST = 128  # signs of an account's name


class Kept(NamedTuple):
    """The rule, and for the rule `list` the person of each account."""

    rule: str
    people: dict[str, str]


def alike(account: str) -> str:
    """What is the same for names that differ only by capitals, or by signs that look alike."""
    return unicodedata.normalize("NFKC", account).casefold()


def is_account(account: str) -> bool:
    """Whether a text may be the name of an account. A provider that writes one in another way names another account."""
    return 0 < len(account) <= LONGEST and account.isprintable() and account == account.strip()


def records_of(text: str) -> list[list[str]]:
    """The rows of a list, with its heading."""
    if len(text.encode("utf-8", "replace")) > LONGEST_LIST:
        raise Fault(f"the list has more than {LONGEST_LIST:,} bytes. Nothing was changed.")
    if "\ufffd" in text:  # what stands for bytes that are none of UTF-8
        raise Fault("the list is not in UTF-8. Nothing was changed.")
    try:
        rows = list(csv.reader(io.StringIO(text.removeprefix("\ufeff"), newline=""), strict=True))
    except csv.Error as fault:
        raise Fault("the list is no CSV. Nothing was changed.") from fault
    if rows[:1] != [HEADING]:
        raise Fault(f"the first line of the list is not {','.join(HEADING)}. Nothing was changed.")
    return rows


def people_of(text: str, register: set[str]) -> dict[str, str]:
    """The person of each account in a list. Names that can be taken for one another are refused."""
    found: dict[str, str] = {}
    taken: set[str] = set()
    people: set[str] = set()
    for number, row in enumerate(records_of(text), 1):
        if number == 1 or not row:
            continue
        why = why_bad(row, register, taken, people)
        if why:
            raise Fault(f"row {number} of the list: {why}. Nothing was changed.")
        person, account = row
        taken.add(alike(account))
        people.add(person)
        found[account] = person
    return found


def why_bad(row: list[str], register: set[str], taken: set[str], people: set[str]) -> str:
    """What is wrong with a row, or nothing. It names no account."""
    if len(row) != len(HEADING):
        return f"it has {len(row)} fields in place of {len(HEADING)}"
    person, account = row
    if person not in register:
        return "nobody in the register has this identifier" if IDENTIFIER.fullmatch(person) else "this is no identifier"
    if person in people:
        return f"{person} has an account in another row"
    if not is_account(account):
        return f"an account has 1 to {LONGEST} signs, without spaces at its ends"
    if alike(account) in taken:
        return "another row has this account, or one that differs only by capitals or by signs that look alike"
    return ""


class Accounts:
    """The file of the accounts."""

    def __init__(self, file: Path) -> None:
        self.file, self.lock = file, threading.Lock()
        self.seen: tuple[tuple[int, int], Kept] | None = None

    def kept(self) -> Kept:
        """What the file says. It is read again only after a change."""
        try:
            found = self.file.stat()
            state = (found.st_ino, found.st_mtime_ns)
            if self.seen is None or self.seen[0] != state:
                self.seen = (state, self.read())
            return self.seen[1]
        except FileNotFoundError:
            return Kept(OFF, {})

    def read(self) -> Kept:
        """Reads the file."""
        try:
            held = json.loads(self.file.read_bytes())
            rule, people = held["rule"], held["people"]
            if rule in RULES and all(isinstance(one, str) for one in people.values()):
                return Kept(rule, people)
        except (ValueError, KeyError, TypeError, AttributeError):
            pass
        raise Fault(_("the file {path} is damaged: nobody signs in by an account. Bring the list of accounts in again.",
                      path=self.file))

    def write(self, kept: Kept) -> None:
        """Puts another file in the place of this one."""
        try:
            replace_file(self.file, f"{json.dumps(kept._asdict(), ensure_ascii=False)}\n".encode())
        except OSError as fault:
            raise unwritten(N_("the list of accounts"), fault) from fault

    def put(self, rule: str, people: dict[str, str]) -> None:
        """Sets the rule, with the accounts of people for the rule `list`."""
        if rule not in RULES:
            raise Fault(f"there is no rule {rule!r}: the rules are {', '.join(RULES)}. Nothing was changed.")
        with self.lock:
            self.write(Kept(rule, people))

    def erase(self, people: set[str]) -> None:
        """Takes people out."""
        with self.lock:
            kept = self.kept()
            stay = {account: person for account, person in kept.people.items() if person not in people}
            if stay != kept.people:
                self.write(Kept(kept.rule, stay))

    def forget(self, people: list[str]) -> None:
        """Takes people out who have left the register: a person who gets such an identifier later is somebody else."""
        try:
            self.erase(set(people))
        except Fault as fault:
            raise Fault(_("The accounts of those who are out of the register were not taken out of the list of accounts. Bring "
                          "this list in again, without those who have left.")) from fault

    def about(self, person: str) -> dict[str, str]:
        """The account of a person, if the list has one, or why that cannot be read."""
        try:
            return {"own": next((account for account, one in self.kept().people.items() if one == person), ""), "fault": ""}
        except Fault as fault:
            return {"own": "", "fault": str(fault)}

    def person_of(self, account: str) -> str:
        """Whose account this is, or nobody. The name counts sign by sign: one that differs only by capitals is another."""
        kept = self.kept()
        if kept.rule == LIST:
            return kept.people.get(account, "")
        if kept.rule == SAME and IDENTIFIER.fullmatch(account):
            return account
        if kept.rule == CAPITALS and SMALL.fullmatch(account):
            return account.upper()
        return ""


class ClerkRequests:
    """What clerks ask of accounts."""

    def __init__(self, accounts: Accounts, view: View, journal: Journal) -> None:
        self.accounts, self.view, self.journal = accounts, view, journal
        self.known = {"accounts": self.show, "set-accounts": self.put}

    def show(self, _job: dict[str, Any]) -> dict[str, Any]:
        """How the person of an account is found."""
        kept = self.accounts.kept()
        return {"rule": kept.rule, "count": len(kept.people)}

    def put(self, job: dict[str, Any]) -> dict[str, Any]:
        """Sets how the person of an account is found."""
        rule, text = job["rule"], job.get("list", "")
        if not isinstance(rule, str) or not isinstance(text, str):
            raise Fault("not understood: rule or list is no text")
        people = people_of(text, people_in(self.view.rows())) if rule == LIST else {}
        with self.journal.change(job["who"], f"accounts {rule}: {len(people)}"):
            self.accounts.put(rule, people)
        return self.show(job)


class KeyRequests:  # pylint: disable=too-few-public-methods  # there is one question
    """What is asked by the socket of signed_in.py: the key of an account's person, and nothing else."""

    def __init__(self, accounts: Accounts, copies: Copies) -> None:
        self.accounts, self.view = accounts, View(copies, keys_in)

    def answer(self, job: dict[str, Any]) -> dict[str, Any]:
        """The key; an empty one where nobody in the register has the account."""
        account = job.get("account")
        if job.get("ask") != "key" or not isinstance(account, str):
            raise Fault("not understood: by this socket only the key of an account is asked for")
        person = self.accounts.person_of(account)
        return {"key": self.view.rows().get(person, "") if person else ""}
