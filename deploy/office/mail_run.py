"""The run of the mail: a thread that sends one message after the other, and says why it stops."""

import contextlib
import sqlite3
import threading
import time

from languages import ENGLISH, speaking
from mail_book import ENDED, PAUSED, REFUSED, SENT, UNCERTAIN, WAITING, Book, Run
from mail_people import goes_to, planned_moves, told_by, values_of
from mail_send import Away, NotTaken, Unknown, message_of, send
from mail_settings import MailSettings, must_read
from mail_why import FAILED, GONE_ON, MANY_REFUSED, NOBODY_KNOWS, TAKES_NONE, kept
from mail_words import KINDS, Text, filled
from office import Office
from seen import Rows, stamp, stamp_of
from settings import Fault
from worker import Worker

IN_A_ROW = 3        # so many refusals one after the other are the mail server's, and no fault of addresses
LAST_WORDS = 2.0    # seconds for the message that is on its way when the keeper ends
OUTCOMES = (WAITING, SENT, REFUSED, UNCERTAIN)
STOPS = {WAITING: TAKES_NONE, UNCERTAIN: NOBODY_KNOWS}  # outcomes after which no message goes until a clerk says so, and why


def outcome_of(settings: MailSettings, address: str, message: bytes) -> tuple[str, str]:
    """Hands a message over to the mail server. Gives what became of it, and why; one that it does not take now waits."""
    try:
        send(settings, address, message)
    except NotTaken as why:
        return REFUSED, str(why)
    except Away as why:
        return WAITING, str(why)
    except Unknown as why:
        return UNCERTAIN, str(why)
    return SENT, ""


class Pace:  # pylint: disable=too-few-public-methods  # all that it does is to wait
    """Lets so many messages go in a minute, whichever thread sends them."""

    def __init__(self) -> None:
        self.lock, self.free = threading.Lock(), 0.0

    def wait(self, settings: MailSettings, halt: threading.Event) -> bool:
        """Waits until the next message may go. Whether it may: nothing has called a halt meanwhile."""
        with self.lock:
            at = max(self.free, time.monotonic())
            self.free = at + 60 / settings.per_minute
        return not halt.wait(max(0.0, at - time.monotonic()))


class Sender:
    """Sends the messages of the run that the file of the mail has."""

    def __init__(self, office: Office, worker: Worker, book: Book) -> None:
        self.office, self.worker, self.book, self.pace = office, worker, book, Pace()
        self.halt, self.in_a_row = threading.Event(), 0
        self.thread: threading.Thread | None = None
        self.planned: tuple[Rows, dict[str, list[str]]] = ({}, {})

    def moves(self, rows: Rows) -> dict[str, list[str]]:
        """The plan of moves, as long as it can be sent. It is worked out once for the rows that the keeper has read."""
        if self.planned[0] is not rows:
            self.planned = (rows, planned_moves(rows, self.office.program, self.office.copies))
        return self.planned[1]

    def count(self, run: Run) -> dict[str, int]:
        """How many messages of a run have which outcome, also of people who were erased since. Nobody of these waits."""
        states = [state for state, *_ in self.book.states(run.kind, run.round, run.turn).values()]
        gone = {**self.book.gone(run.kind, run.round, run.turn), WAITING: 0}
        return {state: states.count(state) + gone.get(state, 0) for state in OUTCOMES}

    def begin(self) -> None:
        """Starts the thread."""
        self.halt, self.in_a_row = threading.Event(), 0
        self.thread = threading.Thread(target=self.work, args=(self.halt,), daemon=True)
        self.thread.start()

    def is_at_work(self, patience: float = 0.0) -> bool:
        """Whether a message may be on its way. A thread that has just ended the run is waited for."""
        if self.thread is None:
            return False
        self.thread.join(patience)
        return self.thread.is_alive()

    def stop(self, seconds: float = LAST_WORDS) -> None:
        """Ends the thread after the message that is on its way, and waits for that, for a moment."""
        self.halt.set()
        self.is_at_work(seconds)

    def work(self, halt: threading.Event) -> None:
        """Sends one message after the other, until all are sent or something is in the way."""
        try:
            settings = must_read(self.office.settings.mail)
            while self.pace.wait(settings, halt) and self.go_on(settings):
                settings = must_read(self.office.settings.mail)
        except (Fault, OSError, sqlite3.Error) as fault:
            self.pause(str(fault))
        except Exception as fault:  # pylint: disable=broad-except  # whatever it is, the run must not seem to go on
            self.pause(kept(FAILED, kind=type(fault).__name__))

    def pause(self, why: str) -> None:
        """Notes why the run does not go on. If that cannot be noted, the next start finds a run without a thread."""
        with contextlib.suppress(Fault):
            self.book.set_run(PAUSED, why)

    def go_on(self, settings: MailSettings) -> bool:
        """Sends the next message. Whether another may come."""
        run, rows = self.book.run(), self.worker.view.rows()
        person = self.book.waiting()
        if run is None or not person:
            self.end_run(run, "")
        elif stamp(rows) != stamp_of(run.round, KINDS[run.kind].phase):
            self.end_run(run, GONE_ON)
        elif self.in_a_row >= IN_A_ROW:
            self.pause(kept(MANY_REFUSED, count=IN_A_ROW))
        else:
            return self.send_to(person, run, rows, settings)
        return False

    def send_to(self, person: str, run: Run, rows: Rows, settings: MailSettings) -> bool:
        """Sends one message, if it is still for this person. Whether another may come."""
        address, moves = self.book.address(person), self.moves(rows) if run.kind == "moves" else {}
        if not address or person not in goes_to(run.kind, rows, moves):
            self.book.skip(person)
            return True
        language, text = self.text_for(person, run)
        with speaking(language):
            message = message_of(settings, address, filled(text, values_of(run.kind, rows, person, run.link, moves)))
        self.book.begin_message(person, told_by(run.kind, rows, moves))
        outcome, why = outcome_of(settings, address, message)
        self.book.mark(person, outcome, why)
        if outcome in STOPS:
            self.pause(STOPS[outcome])
            return False
        self.in_a_row = self.in_a_row + 1 if outcome == REFUSED else 0
        return True

    def text_for(self, person: str, run: Run) -> tuple[str, Text]:
        """The language and the text of the run for a person: as they were when it began. An earlier version's run has one text,
        with English sentences in it."""
        texts, kept_of = self.book.run_texts(), self.office.languages.kept()
        for language in (kept_of.residents.get(person, ""), kept_of.office or ENGLISH):
            if language in texts:
                return language, texts[language]
        return ENGLISH, run.text

    def end_run(self, run: Run | None, why: str) -> None:
        """Ends the run, and notes it."""
        if run is None:
            return
        self.book.set_run(ENDED, why)
        now = self.count(run)
        said = ("how many were sent is not on record any more" if self.book.erased(run.kind, run.round) else
                f"sent {now[SENT]}, refused {now[REFUSED]}, uncertain {now[UNCERTAIN]}")
        with contextlib.suppress(Fault, OSError):
            self.office.journal.note(who=run.who, line=f"mail {run.kind} of round {run.round} ends{f': {why}' if why else ''}",
                              answer=said)
