"""The language of each clerk on the office's page, and of each resident in slips, letters and mails.

The file `languages` beside the office's file is the keeper's own, and no part of the office or of its copies. A resident for
whom no language is set is written to in that of the office.

| ask | fields | answer |
|---|---|---|
| language | language, to choose it | language: of the clerk who asks, or none |
| languages | | office: of residents without one; residents: the others, by person |
| set-languages | languages: by person; or office: of all others; was: of one or of each, as the sender saw it | changed: how many |
"""

import json
import threading
from collections.abc import Callable, Iterable
from pathlib import Path
from typing import Any, NamedTuple

from job import Job, is_other
from journal import Journal
from languages import ENGLISH, N_, _, languages
from placing import replace_file
from register import people_in
from rows import View
from settings import Fault, cause_of, unwritten

OTHER = N_("the language was changed after you looked. Nothing was changed by you: decide again.")
MOST_CLERKS = 1000  # more is no office; the file stays small whichever clerk asks


class Kept(NamedTuple):
    """What the file says: languages by their codes, an empty one where none is set."""

    office: str
    clerks: dict[str, str]
    residents: dict[str, str]


def texts_in(found: Any) -> dict[str, str]:
    """Texts by text, as the file has them."""
    if not isinstance(found, dict) or not all(isinstance(one, str) for one in found.values()):
        raise ValueError("no texts")
    return found


class Languages:
    """The file. Each change is on the disk when it returns."""

    def __init__(self, file: Path) -> None:
        self.file, self.lock = file, threading.RLock()

    def kept(self) -> Kept:
        """What the file says. Of a file that is not there, nothing."""
        try:
            found = json.loads(self.file.read_bytes())
            return Kept(str(found["office"]), texts_in(found["clerks"]), texts_in(found["residents"]))
        except FileNotFoundError:
            return Kept("", {}, {})
        except (ValueError, KeyError, TypeError) as why:
            raise Fault(_("the file of the languages, {file}, is damaged. Tell the administrator: it has to be moved away. "
                          "Then set the languages again.", file=self.file)) from why

    def write(self, kept: Kept) -> None:
        """Puts another file in the place of this one."""
        try:
            replace_file(self.file, f"{json.dumps(kept._asdict(), ensure_ascii=False)}\n".encode())
        except OSError as fault:
            raise unwritten(_("the file of the languages"), fault) from fault

    # --- clerks

    def of_clerk(self, clerk: str) -> str:
        """The language that a clerk has chosen, or none."""
        return self.kept().clerks.get(clerk, "")

    def set_clerk(self, clerk: str, code: str) -> None:
        """Keeps the language that a clerk has chosen."""
        with self.lock:
            kept = self.kept()
            if len(kept.clerks) >= MOST_CLERKS and clerk not in kept.clerks:
                raise Fault(_("{count} clerks have chosen a language: more are not kept. Nothing was changed.", count=MOST_CLERKS))
            if kept.clerks.get(clerk) != code:
                self.write(kept._replace(clerks={**kept.clerks, clerk: code}))

    # --- residents

    def of(self, person: str) -> str:
        """The language of a resident, or else that of the office."""
        kept = self.kept()
        return kept.residents.get(person) or kept.office or ENGLISH

    def set_residents(self, codes: dict[str, str]) -> int:
        """Gives people these languages, and an empty one to take a person's away. Returns for how many this is another one."""
        with self.lock:
            kept = self.kept()
            changed = {person: code for person, code in codes.items() if kept.residents.get(person, "") != code}
            if changed:
                residents = {person: code for person, code in {**kept.residents, **changed}.items() if code}
                self.write(kept._replace(residents=residents))
            return len(changed)

    def set_office(self, code: str) -> None:
        """Sets the language of residents for whom none is set."""
        with self.lock:
            kept = self.kept()
            if kept.office != code:
                self.write(kept._replace(office=code))

    def erase(self, people: Iterable[str]) -> None:
        """Erases the languages of people who are out of the register: who gets such an identifier later is somebody else."""
        try:
            self.set_residents({person: "" for person in people})
        except Fault as fault:
            raise Fault(_("The languages of those who are out of the register were not erased ({why}).", why=cause_of(fault))
                        ) from fault

    def about(self, person: str) -> Job:
        """What is kept of a person here, or why that cannot be read."""
        try:
            kept = self.kept()
            return {"own": kept.residents.get(person, ""), "office": kept.office or ENGLISH, "fault": ""}
        except Fault as fault:
            return {"own": "", "office": ENGLISH, "fault": str(fault)}


def code_in(value: Any) -> str:
    """The code of a language in a request."""
    if not isinstance(value, str) or value not in languages():
        raise Fault(_("there is no language '{code}' here. If it is new, restart rooms-keeper and rooms-page. Nothing was changed.",
                      code=str(value)[:20]))
    return value


class LanguageRequests:
    """What can be asked of languages."""

    def __init__(self, kept: Languages, view: View, journal: Journal) -> None:
        self.kept, self.view, self.journal = kept, view, journal

    def requests(self) -> dict[str, Callable[[Job], Job]]:
        """What can be asked."""
        return {"language": self.of_clerk, "languages": self.show, "set-languages": self.set}

    def of_clerk(self, job: Job) -> Job:
        """The language of the clerk who asks, who may have chosen another one now."""
        if "language" in job:
            self.kept.set_clerk(job["who"], code_in(job["language"]))
        return {"language": self.kept.of_clerk(job["who"])}

    def show(self, job: Job) -> Job:  # pylint: disable=unused-argument  # as all that can be asked
        """The languages of residents."""
        kept = self.kept.kept()
        return {"office": kept.office or ENGLISH, "residents": kept.residents}

    def set(self, job: Job) -> Job:
        """Sets languages of people in the register, all or none; or that of the office."""
        if "office" in job:
            with self.kept.lock:
                self.set_office(job, code_in(job["office"]))
            return {"changed": 0}
        codes = job["languages"]
        if not isinstance(codes, dict):
            raise Fault("not understood: languages are no object")
        codes = {str(person): code_in(code) if code else "" for person, code in codes.items()}
        with self.kept.lock:
            return {"changed": self.set_residents(job, codes)}

    def set_office(self, job: Job, code: str) -> None:
        """Sets the language of residents without one, if it is as the sender saw it."""
        if is_other(job.get("was"), [self.kept.kept().office or ENGLISH]):
            raise Fault(_(OTHER))
        with self.journal.change(job["who"], f"language of residents without one: {code}"):
            self.kept.set_office(code)

    def set_residents(self, job: Job, codes: dict[str, str]) -> int:
        """Sets languages of people, if they are as the sender saw them. Returns of how many."""
        known, old = people_in(self.view.rows()), self.kept.kept().residents
        if strangers := [person for person, code in codes.items() if code and person not in known]:
            raise Fault(_("nobody has the identifier '{person}'. Nothing was changed.", person=strangers[0][:20]))
        if is_other(job.get("was"), [old.get(person, "") for person in codes]):
            raise Fault(_(OTHER))
        changed = [person for person, code in codes.items() if old.get(person, "") != code]
        if not changed:
            return 0
        with self.journal.change(job["who"], f"languages of {changed[0] if len(changed) == 1 else f'{len(changed)} people'}"):
            return self.kept.set_residents(codes)
