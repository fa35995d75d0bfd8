"""Receipts of lists: the thread that looks whose list on record has changed, and tells these people by mail.

Who handed in a list, and when, the office's file does not say. So the keeper looks at the lists every few seconds while the
office wants receipts, and once a list has stayed as it is for some minutes, its owner gets one message. Several changes in a
row thus make one receipt.
"""

import contextlib
import datetime
import sqlite3
import threading

from languages import speaking
from languages_kept import Languages
from mail_book import REFUSED, WAITING, Book
from mail_people import receipt_of, values_of
from mail_receipt_book import AWAY as LEAVES, NONE, NOTHING, WITHDRAWN, Entry, ReceiptBook
from mail_run import IN_A_ROW, LAST_WORDS, STOPS, Pace, outcome_of
from mail_send import message_of
from mail_settings import MailSettings, read
from mail_why import FAILED, MANY_REFUSED, NOBODY_KNOWS, kept
from mail_words import RECEIPT, Text, filled, texts_of
from office import Office
from register import people_in
from seen import Rows
from settings import Fault
from times import now
from worker import Worker

MOST_PAUSE, LEAST_PAUSE, LOOKS = 15.0, 0.5, 10  # seconds between two looks, of which some come before a receipt is due
SET_BACK = 60.0  # seconds by which a clock may be set back unnoticed


def text_for(book: Book, languages: Languages, person: str) -> tuple[str, Text]:
    """The language and the text of a receipt for a person, as clerks have left it."""
    wanted = languages.of(person)
    texts = texts_of(RECEIPT, book.texts(RECEIPT), languages.kept().office)
    language = texts.language_for(wanted)
    return language, texts.each[language]


def receipt_to(rows: Rows, person: str, entry: Entry, link: str, worded: tuple[str, Text]) -> Text:
    """A receipt for a person of whom this is written down."""
    language, text = worded
    with speaking(language):
        told = receipt_of(rows, person, datetime.datetime.fromisoformat(entry.at or now()), entry.told == WITHDRAWN)
        return filled(text, {**values_of(RECEIPT, rows, person, link, {}), "list": told})


def is_due(entry: Entry, seconds: float) -> bool:
    """Whether a change is so old that a receipt is sent."""
    if entry.now == entry.told:
        return False
    age = (datetime.datetime.now(datetime.timezone.utc) - datetime.datetime.fromisoformat(entry.at)).total_seconds()
    return age >= seconds or age < -SET_BACK


class Receipts:  # pylint: disable=too-many-instance-attributes  # the parts of the office, and the thread
    """Looks at the lists, and sends receipts."""

    def __init__(self, office: Office, worker: Worker, book: Book, pace: Pace) -> None:
        self.office, self.worker, self.pace = office, worker, pace
        self.book = ReceiptBook(book)
        self.lock, self.halt, self.wake = threading.Lock(), threading.Event(), threading.Event()
        self.seen: Rows | None = None  # the rows that were looked at last
        self.in_a_row = 0
        self.thread: threading.Thread | None = None

    # --- asked by clerks

    def begin(self, who: str, link: str) -> None:
        """Begins with receipts. Lists that are on record already are known."""
        rows = self.worker.view.rows()
        with self.lock:
            self.book.begin(who, link)
            if rows["phase"] == "idle":
                self.book.end_round()
            else:
                self.book.begin_round(rows["number"], self.book.marks(rows))
        self.go_on()

    def end(self) -> None:
        """Ends with receipts."""
        with self.lock:
            self.book.end()

    def go_on(self) -> None:
        """Lets receipts go on that were stopped."""
        with self.lock:
            self.book.pause("")
            self.in_a_row, self.seen = 0, None
        self.wake.set()

    def opened(self) -> None:
        """A round was opened just now: whatever comes onto record in it is a change."""
        with self.lock:
            if self.book.wanted().on:
                self.book.begin_round(self.worker.view.rows()["number"], {})

    def going_back(self, before: Rows, then: Rows, others: list[str]) -> None:
        """The office is about to go back to a copy of the same round. Who changed something lately knows of that, and gets a
        receipt of what counts then, also if there was none yet of the change; not who may be somebody else there."""
        with self.lock:
            wanted = self.book.wanted()
            if not wanted.on or not wanted.round == before["number"] == then["number"] or before["phase"] == "idle":
                return
            saw, marks, at = self.book.marks(before), self.book.marks(then), now()
            known = people_in(then).difference(others)
            pairs = {one: (marks.get(one, NOTHING), saw.get(one, NOTHING)) for one in {**saw, **marks} if one in known}
            self.book.saw({one: Entry(mark, at, was) for one, (mark, was) in pairs.items() if was not in (mark, LEAVES)}, [])

    def waiting(self) -> list[str]:
        """Who waits for a receipt: not who has no address, or leaves, since they get none."""
        addresses = self.book.book.addresses()
        return [person for person, entry in self.book.entries().items()
                if entry.now not in (entry.told, LEAVES) and person in addresses]

    # --- the thread

    def start(self, uncertain: list[str]) -> None:
        """Begins to look. If the keeper was ended while receipts were on their way, a clerk has to say that it goes on."""
        if uncertain:
            self.pause(NOBODY_KNOWS)
        self.thread = threading.Thread(target=self.keep, daemon=True)
        self.thread.start()

    def stop(self) -> None:
        """Ends the thread after the message that is on its way, and waits for that, for a moment."""
        self.halt.set()
        self.wake.set()
        if self.thread:
            self.thread.join(LAST_WORDS)

    def keep(self) -> None:
        """Looks again and again, until the keeper ends."""
        while not self.halt.is_set():
            pause = MOST_PAUSE
            try:
                pause = self.go_round()
            except (Fault, OSError, sqlite3.Error):  # of the settings, a file or the disk: it looks again
                pass
            except Exception as fault:  # pylint: disable=broad-except  # whatever it is, receipts must not seem to go on
                self.pause(kept(FAILED, kind=type(fault).__name__))
            self.wake.wait(pause)
            self.wake.clear()

    def pause(self, why: str) -> None:
        """Notes why no receipt goes on, if that is not noted yet."""
        with contextlib.suppress(Fault):
            wanted = self.book.wanted()
            if wanted.on and not wanted.why:
                self.book.pause(why)

    def go_round(self) -> float:
        """One look, and the receipts that are due. Gives the seconds until the next look."""
        wanted = self.book.wanted()
        settings = read(self.office.settings.mail) if wanted.on else None
        if settings is None:
            return MOST_PAUSE
        entries = self.look(self.worker.view.rows())
        if not wanted.why:
            for person in [one for one, entry in entries.items() if is_due(entry, settings.receipt_seconds)]:
                if not (self.pace.wait(settings, self.halt) and self.send_to(person, settings)):
                    break
        return min(MOST_PAUSE, max(LEAST_PAUSE, settings.receipt_seconds / LOOKS))

    def look(self, rows: Rows) -> dict[str, Entry]:
        """Writes down whose list on record is another one than before, and gives what is written down."""
        with self.lock:
            wanted, entries = self.book.wanted(), self.book.entries()
            if not wanted.on:
                return {}
            if rows is self.seen:
                return entries
            self.seen = rows
            if rows["phase"] == "idle":
                if wanted.round is not None:
                    self.book.end_round()
                return {}
            marks = self.book.marks(rows)
            if wanted.round != rows["number"]:  # as after a way back to a copy
                self.book.begin_round(rows["number"], marks)
                return {}
            at = now()
            changed = {one: Entry(mark, at, entry.told) for one in dict.fromkeys([*entries, *marks])
                       if (mark := marks.get(one, NOTHING)) != (entry := entries.get(one, NONE)).now}
            known = people_in(rows)
            gone = [one for one in entries if one not in known]
            if changed or gone:
                self.book.saw({one: entry for one, entry in changed.items() if one in known}, gone)
            return {one: entry for one, entry in {**entries, **changed}.items() if one in known}

    def send_to(self, person: str, settings: MailSettings) -> bool:
        """Sends a receipt, if what is on record is still what it would tell. Whether another may come."""
        rows, wanted = self.worker.view.rows(), self.book.wanted()
        if rows is not self.seen:
            self.look(rows)
        entry = self.book.entry(person)
        if not wanted.on or self.in_a_row >= IN_A_ROW:
            if wanted.on:
                self.pause(kept(MANY_REFUSED, count=IN_A_ROW))
            return False
        if not is_due(entry, settings.receipt_seconds):
            return True
        address = self.book.book.address(person)
        if not address or entry.now == LEAVES:
            self.book.tell_nothing(person, entry)
            return True
        text = receipt_to(rows, person, entry, wanted.link, text_for(self.book.book, self.office.languages, person))
        message = message_of(settings, address, text)
        turn = self.book.begin_message(rows["number"], person, entry)
        return turn is None or self.hand_over(settings, (rows["number"], turn, person), entry, (address, message))

    def hand_over(self, settings: MailSettings, key: tuple[int, int, str], entry: Entry, letter: tuple[str, bytes]) -> bool:
        """Gives a receipt that is written down to the mail server, and writes down what became of it."""
        outcome, why = outcome_of(settings, *letter)
        if outcome == WAITING:
            self.book.take_back(*key, entry, why)
        else:
            self.book.mark(*key, outcome, why)
        if outcome in STOPS:
            self.pause(STOPS[outcome])
            return False
        self.in_a_row = self.in_a_row + 1 if outcome == REFUSED else 0
        return True
