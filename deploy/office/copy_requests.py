"""What the keeper can be asked of the kept copies of the office, and of the way back to one.

| ask | fields | answer |
|---|---|---|
| backup, backups | | name; backups: name, bytes and reason of each; days: how long one stays at most; stays: of each |
| days | days, only_try; was: their number as the sender saw it | gone: how many copies are older, and are deleted |
| compare | name | what becomes of people by going back to a copy (`compared` in parting.py); forgotten: those of who comes back |
| | | who were forgotten since |
| | | date: whether that of the round is forgotten; mark: of what would be undone, as `back` takes it |
| given-up | name of a copy, or none | rounds: copy, number, phase of each; gone: numbers of those without a copy; or what |
| | | that one had, and what has changed since |
| take-out | name of a copy, people | nothing: who does not come back of that round |
| back | name, seen, mark, newer_keys | name: of the copy of the office of before; what has become of people, if it could be read; |
| | | forgotten: as `compare` |
| | | unkept: faults of figures |
"""

import functools
import threading
from collections.abc import Callable

from backups import ASKED_FOR, BACK, MOST_DAYS
from beside_register import BesideRegister
from branches import Branches, named_in
from change import Change
from dates import Dates
from figures_back import Brought
from figures_kept import Round
from given_up import given_up, take_out
from going_back import GoingBack, forgotten_in
from job import Job, is_other, seen_in, text
from languages import N_, _
from lines import IDENTIFIER
from office import Office
from parting import Parting
from program import is_refused
from rows import rows_of
from seen import why_stale
from settings import Fault
from told import mark_of
from worker import Worker

CHANGED = N_("The office was changed after you looked, so the way back would undo something else than you have read. Nothing was "
             "changed by you: look again, and decide again.")
RESTARTED = N_("The office's keeper was started anew after you looked, so nobody knows whether keys were changed meanwhile. "
               "Nothing was changed by you: look again, and decide again.")
OF_LISTS = ("lists", "newest", "lost")  # what becomes of residents' lists


class CopyRequests:
    """Answers what is asked of copies."""

    def __init__(self, office: Office, worker: Worker, dates: Dates, beside: BesideRegister) -> None:
        self.office, self.worker, self.dates, self.beside = office, worker, dates, beside
        self.backups, self.journal = office.backups, office.journal
        self.lock = threading.Lock()  # held from a look at the number of days until there is another one

    def requests(self) -> dict[str, Callable[[Job], Job]]:
        """What can be asked."""
        return {"backup": self.backup, "backups": self.list_backups, "days": self.set_days, "compare": self.compare,
                "given-up": self.given_up, "take-out": self.take_out, "back": self.put_back}

    def backup(self, job: Job) -> Job:
        """Keeps a copy of the office while the server runs."""
        name = self.backups.keep(ASKED_FOR, f"asked for by {job['who']}")
        self.journal.note_done(who=job["who"], line="backup", answer=name)
        return {"name": name}

    def list_backups(self, _job: Job) -> Job:
        """The kept copies."""
        days = self.backups.days()
        return {"backups": self.backups.listed(), "days": days, "stays": self.backups.stays(days)}

    def set_days(self, job: Job) -> Job:
        """For how many days a copy stays at most. With `only_try` only says how many copies go."""
        days = job["days"]
        if not isinstance(days, int) or isinstance(days, bool) or not 1 <= days <= MOST_DAYS:
            raise Fault(_("a copy stays for 1 to {days:,} days. Nothing was changed.", days=MOST_DAYS))
        with self.lock:
            if is_other(job.get("was"), [str(self.backups.days())]):
                raise Fault(_("the number of days was changed after you looked. Nothing was changed by you: decide again."))
            gone = len(self.backups.old(days))
            if not job.get("only_try"):
                with self.journal.change(job["who"], f"copies stay for {days} days: {gone} are deleted"):
                    self.backups.set_days(days)
        return {"gone": gone}

    def compare(self, job: Job) -> Job:
        """What becomes of people, if the office goes back to a kept copy."""
        return self.compared(text(job, "name"))

    def compared(self, name: str, still: bool = False) -> Job:
        """What becomes of people, with a mark of what would be undone.

        Residents hand in lists all the time. A list is in no mark, or no yes would come in time: the answer to it names whose list
        does not count any more. But if the office itself puts one on record, the mark is another one.
        """
        now, branches = self.worker.view.rows(still), Branches(self.journal.entries(whole=True))
        with self.backups.taken_out(name) as copy:
            then = rows_of(copy)
            found = Parting(self.office, branches, name).compared(then, now)
        gone, until = set(found["gone"]), self.dates.until
        goes = until is not None and not until.is_of(then)
        found |= {"gone": sorted(self.beside.with_something(gone)), "date": goes,
                  "forgotten": forgotten_in(branches, name, found.get("come"), then)}
        by_hand = sum(bool(named_in([entry], "choose")) for entry in branches.entries)
        seen = {**now, "choices": by_hand}, {**found, **dict.fromkeys(OF_LISTS)}
        return {**found, "mark": f"{mark_of([*seen, self.beside.kept_of(gone), until if goes else None])}-{now['run']}"}

    def why_other(self, name: str, seen: str | None, mark: str | None, still: bool = False) -> str:
        """Why the office does not go back, or nothing: its sender has read of another state of the round, or something else of what
        would be undone. Who says nothing of both may go back from an office that nobody can read."""
        why = why_stale(self.worker.rows(still), seen, None) if seen is not None else ""
        if why or mark is None or mark == (known := self.compared(name, still)["mark"]):
            return why
        return _(CHANGED if mark.partition("-")[2] == known.partition("-")[2] else RESTARTED)

    def given_up(self, job: Job) -> Job:
        """The rounds that were given up, or what one of them had."""
        return given_up(self.office, self.worker.view, text(job, "name") if "name" in job else None)

    def take_out(self, job: Job) -> Job:
        """Who does not come back of a round that was given up."""
        people = job["people"]
        if not isinstance(people, list) or not all(isinstance(one, str) and IDENTIFIER.fullmatch(one) for one in people):
            raise Fault("not understood: people are identifiers")
        take_out(self.office, self.worker.view, text(job, "name"), people, job["who"])
        return {}

    def put_back(self, job: Job) -> Job:
        """Puts a kept copy in the office's place. The present office is copied before, even if it is damaged."""
        name, seen = text(job, "name"), seen_in(job)
        look = functools.partial(self.why_other, name, seen, text(job, "mark") if "mark" in job else None)
        if why := look():
            raise Fault(why)
        way = GoingBack(self.office, self.beside, name, bool(job.get("newer_keys")))
        change = self.worker.change(Change(job["who"], way.line, way.carry_out, whole=True, kind=BACK, before=f"back {name}",
                                           damaged=True, why_not=lambda: look(still=True), before_put=way.prepare))
        if is_refused(change.answers):
            said = change.answers[-1].text.strip()
            raise Fault(_("the program does not take this copy ({said}). Nothing was changed.", said=said))
        self.dates.went_back(way.then)
        told = way.told()
        forgotten = forgotten_in(Branches(self.journal.entries(whole=True)), name, told.get("come"), way.then)
        return {"name": change.copy, **told, "forgotten": forgotten, **self.figures_back(name, change.copy)}

    def figures_back(self, name: str, before: str | None) -> Job:
        """Lets the figures be those of the office after the way back to a copy. Gives what went wrong, if anything."""
        def brought() -> dict[int, Round | None]:
            return Brought(self.journal, self.backups, name, before or "").figures(self.worker.view.rows())
        unkept = self.office.figures.went_back(brought)
        return {"unkept": unkept} if unkept else {}
