"""Until when lists are taken: the date that a clerk has set, what residents read of it, and the close at that time.

The date belongs to one round, and is forgotten when that is no longer open. It is in a file of its own beside the office's,
so it survives a restart. A machine that was off or slept at that time closes the round as soon as it runs again.
"""

import contextlib
import datetime
import json
import os
import re
import sqlite3
import threading
import time
import zoneinfo
from pathlib import Path
from typing import NamedTuple

import times
from change import Change
from job import Job
from languages import N_, Said, _, again, what_says
from mail_why import FAILED
from office import Office
from placing import replace_file
from program import is_refused
from seen import Rows, stamp, stamp_of, why_stale
from settings import Fault, unwritten
from told import mark_of
from worker import Worker

WRITTEN = re.compile(r"[0-9]{4}-[0-9]{2}-[0-9]{2}T[0-9]{2}:[0-9]{2}(:[0-9]{2})?")
LOCALTIME, ZONES = Path("/etc/localtime"), "zoneinfo/"
LONGEST = datetime.timedelta(days=2 * 366)
OFTEN, LONGEST_PAUSE = 1.0, 300.0  # seconds between two looks at the clock, and between two tries to close
CHANGED = N_("Another date was set since you opened the page. Nothing was changed: look again.")
NOT_OPEN = N_("No round is open, so no date can be set. Nothing was changed.")
LOST = N_("the date until which lists are taken is lost: the file {file} is damaged. Set the date again.")
ANSWERED = N_("the program answered: {answer}")


class Until(NamedTuple):
    """A date: the moment, how the office's clocks showed it when it was set, of which zone they were, the round, whether the
    keeper closes the round then, and who has set it."""

    at: str
    local: str
    zone: str
    round: int
    closes: bool
    who: str

    def moment(self) -> datetime.datetime:
        """The moment."""
        return datetime.datetime.fromisoformat(self.at)

    def local_in(self, zone: str) -> str:
        """How the clocks of a zone show it, as a form has it."""
        return self.local if zone == self.zone else f"{self.moment().astimezone(zone_of(zone)):%Y-%m-%dT%H:%M}"

    def is_of(self, rows: Rows) -> bool:
        """Whether its round is open in these rows."""
        return stamp(rows) == stamp_of(self.round, "open")

    def is_past(self) -> bool:
        """Whether the moment is over."""
        return datetime.datetime.now(datetime.timezone.utc) >= self.moment()


def zone_name() -> str:
    """The zone of the machine's clocks, by its name."""
    name = os.environ.get("TZ", "").lstrip(":")
    if not name:
        with contextlib.suppress(OSError):
            name = os.readlink(LOCALTIME).partition(ZONES)[2]
    try:
        return zoneinfo.ZoneInfo(name).key
    except (zoneinfo.ZoneInfoNotFoundError, ValueError, OSError):
        return "UTC"


def zone_of(name: str) -> datetime.tzinfo:
    """The zone of this name."""
    return datetime.timezone.utc if name == "UTC" else zoneinfo.ZoneInfo(name)


def moment_of(written: str, zone: str) -> datetime.datetime:
    """The moment at which the clocks of a zone show this. At a change of the clocks an hour is missing, or comes twice."""
    try:
        if not WRITTEN.fullmatch(written):
            raise ValueError
        local = datetime.datetime.fromisoformat(written)
    except ValueError as fault:
        raise Fault(_("this is no date with a time, such as 2027-05-31 and 12:00. Nothing was changed.")) from fault
    try:
        held = local.replace(tzinfo=zone_of(zone))
        first, second = (held.replace(fold=fold).astimezone(datetime.timezone.utc) for fold in (0, 1))
        shown = first.astimezone(held.tzinfo).replace(tzinfo=None)
    except (OverflowError, ValueError) as fault:
        raise Fault(_("this date is too far away. Nothing was changed.")) from fault
    day, clock = times.of_day(f"{local:%Y-%m-%d}"), f"{local:%H:%M}"
    if shown != local:
        raise Fault(_("there is no {time} on {day}: the clocks go forward then ({zone}). Nothing was changed: choose another time.",
                      time=clock, day=day, zone=zone))
    if first != second:
        raise Fault(_("{time} comes twice on {day}: the clocks go back then ({zone}). Nothing was changed: choose another time.",
                      time=clock, day=day, zone=zone))
    return first


class Damaged(Exception):
    """The file has no date in it."""


class Dates:
    """The date of the round, and the thread that keeps it."""

    def __init__(self, office: Office, worker: Worker) -> None:
        self.office, self.worker, self.lock = office, worker, threading.Lock()
        self.until: Until | None = None
        self.fault = ""  # why there is no date, or why the round could not be closed; a clerk reads it in their language
        self.pause, self.due = OFTEN, 0.0
        self.published: tuple[Until | None, int] | None = None  # what residents read, and when that was written
        try:
            self.until = self.read()
        except Damaged:
            self.fault = _(LOST, file=office.settings.until)

    # --- the file

    def read(self) -> Until | None:
        """The date, if there is one. It raises Damaged if there was one."""
        path = self.office.settings.until
        try:
            found = Until(**json.loads(path.read_text(encoding="utf-8")))
            if found.moment().tzinfo is None:
                raise ValueError("a moment has a zone")
            return found
        except FileNotFoundError:
            return None
        except (OSError, ValueError, TypeError) as fault:
            raise Damaged from fault

    def write(self, until: Until | None) -> None:
        """Keeps a date, or deletes it."""
        try:
            replace_file(self.office.settings.until, None if until is None else json.dumps(until._asdict()).encode())
        except OSError as fault:
            raise unwritten(N_("the date"), fault) from fault
        self.until, self.fault, self.pause, self.due = until, "", OFTEN, 0.0

    def publish(self) -> None:
        """Has residents read the date, without its author. If the administrator has put older texts back, they get it too."""
        until, told = self.until, self.office.told
        if self.published != (until, told.changed_at()):
            told.set_until(until and {"at": until.at, "local": until.local, "zone": until.zone})
            self.published = (until, told.changed_at())

    # --- what can be asked

    def shown(self) -> Job:
        """The date as clerks see it, why residents do not read it, if so, and what a form about it needs: the zone of the machine,
        which may be another one by now."""
        until, zone = self.until, zone_name()
        return {"until": until and {**until._asdict(), "past": until.is_past(), "here": until.local_in(zone)},
                "untold": self.untold(), "fault": again(self.fault), "zone": zone, "mark": mark_of(until)}

    def untold(self) -> str:
        """Why residents do not read what is so of the date, or nothing."""
        try:
            self.publish()
        except (Fault, OSError) as fault:
            return str(fault)
        return ""

    def set(self, job: Job) -> Job:
        """Sets the date of the open round, or takes it away if `at` is empty."""
        written, closes, zone = job["at"], job["closes"], zone_name()
        if not isinstance(written, str) or not isinstance(closes, bool):
            raise Fault(_("not understood: at is no text, or closes is not true or false"))
        with self.lock:
            rows = self.worker.rows()
            if why := why_stale(rows, job.get("seen"), None):
                raise Fault(why)
            if job.get("saw") is not None and job["saw"] != mark_of(self.until):
                raise Fault(_(CHANGED))
            if rows["phase"] != "open":
                raise Fault(_(NOT_OPEN))
            until = self.made(written, zone, rows["number"], closes, job["who"]) if written else None
            with self.office.journal.change(job["who"], spoken_of(until)):
                self.write(until)
        return {"untold": why} if (why := self.untold()) else {}

    @staticmethod
    def made(written: str, zone: str, number: int, closes: bool, who: str) -> Until:
        """A date to come, if that can be one."""
        moment, now = moment_of(written, zone), datetime.datetime.now(datetime.timezone.utc)
        if moment <= now:
            raise Fault(_("{day} {time} is past ({zone}). Nothing was changed: choose a later time.",
                          day=times.of_day(written[:10]), time=written[11:], zone=zone))
        if moment - now > LONGEST:
            raise Fault(_("this date is more than two years away. Nothing was changed: look at the year."))
        return Until(moment.isoformat(), written, zone, number, closes, who)

    # --- the thread

    def start(self) -> None:
        """Begins to look at the clock."""
        threading.Thread(target=self.keep, daemon=True).start()

    def keep(self) -> None:
        """Looks at the clock until the keeper ends."""
        while not self.worker.over:
            try:
                self.look()
                if isinstance(self.fault, Said) and self.fault.text == FAILED:
                    self.fault = ""
            except (Fault, OSError, sqlite3.Error):  # it looks again
                pass
            except Exception as fault:  # pylint: disable=broad-except  # whatever it is, the next look may close the round
                self.fault = _(FAILED, kind=type(fault).__name__)
            time.sleep(OFTEN)

    def look(self) -> None:
        """Closes the round if its time is over, and forgets the date of a round that is no longer open."""
        with self.lock:
            until = self.until
            if until is not None:
                rows = self.worker.view.rows()
                if not until.is_of(rows):
                    self.forget()
                elif until.closes and until.is_past() and time.monotonic() >= self.due:
                    self.close(until)
        self.publish()

    def went_back(self, then: Rows) -> None:
        """The office went back to a copy with these rows. If that has another round, or this one not open, the date is over, even
        if a round of the same number has been opened since."""
        with self.lock, contextlib.suppress(Fault, OSError):  # then the next look forgets it
            until = self.until
            if until is not None and not until.is_of(then):
                self.forget()

    def forget(self) -> None:
        """Forgets the date of a round that is no longer open."""
        self.office.journal.note(who="keeper", line="the date until which lists are taken is forgotten", answer="ok")
        self.write(None)

    def close(self, until: Until) -> None:
        """Closes the round, after a copy of the office, as if the clerk had done it now. If that fails, it tries again later."""
        program, who = self.office.program, f"the date that {until.who} set"
        change = Change(who, "close", lambda file: [program.tell("close", file)], kind="close", before="close",
                        seen=stamp_of(until.round, "open"))
        try:
            answers = self.worker.change(change).answers
            fault = _(ANSWERED, answer=answers[-1].text.strip()) if is_refused(answers) else ""
        except (Fault, OSError, sqlite3.Error) as why:
            fault = what_says(why)
        if not fault:
            self.forget()
            return
        self.fault, self.due = fault, time.monotonic() + self.pause
        self.pause = min(2 * self.pause, LONGEST_PAUSE)


def spoken_of(until: Until | None) -> str:
    """A date as the journal has it."""
    if until is None:
        return "no date until which lists are taken"
    then = "then the round is closed" if until.closes else "then the clerks are reminded"
    return f"lists are taken until {until.local.replace('T', ' ')} ({until.zone}), {then}"
