"""Mail to residents: what the keeper can be asked of it, and the thread that sends.

| ask | fields | answer |
|---|---|---|
| mail | | from; per_minute; with, without: who has an address; strangers; run; kinds (mail_state.py) |
| mail-show | kind, link, person, language, subject, body | none: whether this person gets none, though it can be sent; |
| | | to, subject, body: the message as this person gets it, if in this |
| | | language; gets: in which one they get it; faults: of the text |
| mail-text | kind, language, subject, body, saw | nothing: the text is kept |
| mail-send | kind, mark, link, seen | to: to how many people it goes now |
| mail-run | act: pause, go-on or give-up | nothing |
| mail-receipts | act: on, off or go-on; mark, link, seen | nothing |
| mail-again | kind, turn, only: `uncertain`, or nothing | nothing: who has got this message can get it once more |
| mail-addresses | addresses: by person; was: of one person, or of each, as the sender saw it | changed: of how many |
| mail-list | | addresses: by person |

Without settings (mail_settings.py) all of these but `mail-addresses` and `mail-list` are refused. One run sends at a time, one
message after the other. If the mail server is away, or refuses several people in a row, the run pauses, and loses nothing.
"""

import contextlib
import sqlite3
import threading
from collections.abc import Callable

from job import Job, is_other
from languages import _, languages, ngettext, speaking
from mail_book import ENDED, PAUSED, RUNNING, Book, Run
from mail_people import goes_to, values_of
from mail_receipts import Receipts, receipt_to
from mail_run import LAST_WORDS, Sender
from mail_settings import must_read
from mail_state import State
from mail_why import GIVEN_UP, RESTARTED, STOPPED, kept
from mail_words import KINDS, RECEIPT, Text, faults_of, filled, is_address
from office import Office
from register import people_in
from seen import Rows, why_stale
from settings import Fault
from times import now
from told import mark_of
from worker import Worker

STEER_SECONDS = 10.0  # for the message that is on its way when a clerk stops the run


def changed_meanwhile() -> Fault:
    """The fault of a request whose sender saw other texts, or another turn."""
    return Fault(_("somebody else has begun this meanwhile, or changed a text. Nothing was changed by you: look again."))


def text_in(job: Job) -> Text:
    """The text in a request."""
    if not isinstance(job["subject"], str) or not isinstance(job["body"], str):
        raise Fault("not understood: subject and body are no texts")
    return Text(job["subject"], job["body"])


def kind_in(job: Job) -> str:
    """The kind of message in a request."""
    if job["kind"] not in KINDS:
        raise Fault("not understood: there is no such kind of message")
    return str(job["kind"])


def language_in(job: Job) -> str:
    """The language in a request."""
    if job["language"] not in languages():
        raise Fault("not understood: there is no such language")
    return str(job["language"])


def link_in(job: Job) -> str:
    """The address of the residents' page in a request."""
    link = job["link"]
    if not isinstance(link, str) or not link.startswith("https://") or not link.isprintable() or " " in link:
        raise Fault(_("the address of the residents' page is not known. Open the office's page by its name."))
    return link


def once_more(kind: str, number: int, only: bool) -> str:
    """What the journal says when people get a message of a round once more: everybody, or `only` the people who may not have it."""
    return f"mail {kind} of round {number} once more {'to those who may not have it' if only else 'to everybody'}"


class Post:  # pylint: disable=too-many-instance-attributes  # the parts of the mail
    """Addresses, texts, and the run."""

    def __init__(self, office: Office, worker: Worker) -> None:
        self.path, self.journal, self.worker, self.lock = office.settings.mail, office.journal, worker, threading.Lock()
        self.languages = office.languages
        self.book = Book(office.settings.mail_book)
        self.sender = Sender(office, worker, self.book)
        self.receipts = Receipts(office, worker, self.book, self.sender.pace)
        self.state = State(self.book, self.sender, self.receipts, office.languages)

    def start(self) -> None:
        """Begins: what was on its way when the keeper was ended is uncertain, a run waits for a clerk, and receipts go on."""
        uncertain: list[str] = []
        with contextlib.suppress(Fault):  # the pages of mail say what is wrong with the file
            uncertain = self.book.end_begun()
            if (run := self.book.run()) and run.state == RUNNING:
                self.book.set_run(PAUSED, RESTARTED)
        self.receipts.start(uncertain)

    def opened(self) -> None:
        """A round was opened just now."""
        with contextlib.suppress(Fault, OSError, sqlite3.Error):  # then lists of the first seconds bring no receipts
            self.receipts.opened()

    def going_back(self, before: Rows, then: Rows, others: list[str]) -> None:
        """The office is about to go back to a copy, in which `others` may be other people."""
        with contextlib.suppress(Fault, OSError, sqlite3.Error):  # then changes of the last minutes bring no receipts
            self.receipts.going_back(before, then, others)

    def stop(self) -> None:
        """Ends what sends."""
        self.sender.stop()
        self.receipts.stop()

    def requests(self) -> dict[str, Callable[[Job], Job]]:
        """What can be asked."""
        return {"mail": self.show, "mail-show": self.preview, "mail-text": self.set_text, "mail-send": self.send,
                "mail-run": self.steer, "mail-again": self.again, "mail-receipts": self.steer_receipts,
                "mail-addresses": self.set_addresses,
                "mail-list": lambda _job: {"addresses": self.book.addresses()}}

    def is_on(self) -> bool:
        """Whether the office has mail."""
        with contextlib.suppress(OSError):  # in a folder that is closed to the keeper it finds no settings
            return self.path.exists()
        return False

    # --- what is kept of people

    def about(self, person: str) -> Job:
        """All that is kept of a person here, or why that cannot be read."""
        try:
            return {**self.book.has(person), "fault": ""}
        except Fault as fault:
            return {"address": "", "sent": [], "fault": str(fault)}

    def erase(self, people: list[str]) -> None:
        """Erases people who are out of the register."""
        try:
            self.book.erase(people)
        except Fault as fault:
            who = people[0] if len(people) == 1 else ngettext("{count} person", "{count} people", len(people))
            raise Fault(_("The mail address, and which messages were sent, were not erased of {who}: {why}", who=who,
                          why=fault)) from fault

    def set_addresses(self, job: Job) -> Job:
        """Sets addresses of people in the register, all or none."""
        new = job["addresses"]
        if not isinstance(new, dict) or not all(isinstance(one, str) and (one == "" or is_address(one)) for one in new.values()):
            raise Fault(_("one of these is no mail address. Nothing was changed."))
        known = people_in(self.worker.view.rows())
        if strangers := [person for person in new if person not in known and new[person]]:
            raise Fault(_("nobody has the identifier {person}. Nothing was changed.", person=repr(strangers[0][:20])))
        with self.book.lock:
            old = self.book.addresses()
            if is_other(job.get("was"), [old.get(person, "") for person in new]):
                raise Fault(_("the mail address was changed after you looked. Nothing was changed by you: decide again."))
            changed = {person: one for person, one in new.items() if old.get(person, "") != one}
            if changed:
                who = next(iter(changed)) if len(changed) == 1 else f"{len(changed)} people"
                with self.journal.change(job["who"], f"mail addresses of {who}"):
                    self.book.set_addresses(changed)
        return {"changed": len(changed)}

    # --- reading

    def show(self, _job: Job) -> Job:
        """How it stands with mail."""
        settings, rows, addresses = must_read(self.path), self.worker.view.rows(), self.book.addresses()
        people = dict.fromkeys(row[0] for row in rows["people"])
        return {"from": settings.sender, "per_minute": settings.per_minute, "with": sum(one in addresses for one in people),
                "without": [one for one in people if one not in addresses],
                "strangers": [one for one in addresses if one not in people],
                "kinds": {kind: self.state.of_kind(kind, rows, addresses) for kind in KINDS}, "run": self.state.of_run()}

    def preview(self, job: Job) -> Job:
        """A message as one person would get it, in one language."""
        must_read(self.path)
        kind, language, text, rows = kind_in(job), language_in(job), text_in(job), self.worker.view.rows()
        if faults := faults_of(kind, text):
            return {"faults": faults}
        person, link = job["person"], link_in(job)
        if person not in people_in(rows):
            raise Fault(_("nobody has this identifier"))
        if kind == RECEIPT:
            shown = receipt_to(rows, person, self.receipts.book.entry(person), link, (language, text))
        else:
            with speaking(language):
                shown = filled(text, values_of(kind, rows, person, link, self.sender.moves(rows)))
        gets = self.state.texts(kind).language_for(self.languages.of(person))
        is_sent = kind != RECEIPT and rows["phase"] == KINDS[kind].phase
        return {"faults": [], "none": is_sent and person not in goes_to(kind, rows, self.sender.moves(rows)),
                "to": self.book.address(person), "subject": shown.subject, "body": shown.body, "gets": gets}

    # --- texts, and another turn

    def set_text(self, job: Job) -> Job:
        """Keeps the text of a kind of message in a language, if the text of before is as the sender saw it."""
        must_read(self.path)
        kind, language, text = kind_in(job), language_in(job), text_in(job)
        if faults := faults_of(kind, text):
            raise Fault(" ".join(faults))
        with self.book.lock:
            if job.get("saw") is not None and job["saw"] != mark_of(self.state.texts(kind).each.get(language)):
                raise Fault(_("Another clerk has changed this text after you looked. Open this page in another window to read "
                              "theirs, and enter there what you want to keep."))
            if self.book.texts(kind).get(language) != text:
                with self.journal.change(job["who"], f"mail text of {KINDS[kind].name} in {language}"):
                    self.book.set_text(kind, language, text)
        return {}

    def again(self, job: Job) -> Job:
        """Lets people get a message once more: everybody, or those of whom nobody knows whether they have it."""
        must_read(self.path)
        kind, number, turn = kind_in(job), self.worker.view.rows()["number"], job["turn"]
        with self.lock:
            if kind == RECEIPT:
                return self.receipts_again(job, number)
            self.fail_if_busy()
            if turn != self.book.turn(kind, number):
                raise changed_meanwhile()
            with self.journal.change(job["who"], once_more(kind, number, bool(job.get("only")))):
                if job.get("only"):
                    self.book.forget_uncertain(kind, number, turn)
                else:
                    self.book.begin_turn(kind, number, turn + 1)
        return {}

    def receipts_again(self, job: Job, number: int) -> Job:
        """Lets those get a receipt of whom nobody knows whether they have it."""
        if not job.get("only"):
            raise Fault("not understood: a receipt is for the one whose list has changed")
        wanted = self.receipts.book.wanted()
        if not wanted.on or wanted.round != number:
            raise Fault(_("no receipts are sent now, so none can be sent again. Nothing was changed."))
        with self.journal.change(job["who"], once_more(RECEIPT, number, True)):
            self.receipts.book.forget_uncertain(number)
        return {}

    # --- the run

    def fail_if_busy(self) -> None:
        """Refuses what does not go together with an unfinished run."""
        run = self.book.run()
        if run and run.state != ENDED or self.sender.is_at_work(LAST_WORDS):
            raise Fault(_("messages are being sent already. Wait, or give up the rest."))

    def send(self, job: Job) -> Job:
        """Begins to send a message to all who have not got it, with the texts that the clerk saw."""
        must_read(self.path)
        kind, link, rows = kind_in(job), link_in(job), self.worker.rows()
        if why := why_stale(rows, job["seen"], None):
            raise Fault(why)
        with self.lock:
            self.fail_if_busy()
            state, texts = self.state.of_kind(kind, rows, self.book.addresses()), self.state.texts(kind)
            if state["mark"] != job["mark"]:
                raise Fault(_("somebody else has begun this meanwhile, or changed a text. Nothing was sent by you: look again."))
            if not state["to"]:
                raise Fault(_("nobody is left who has an address and has not got this message. Nothing was sent."))
            run = Run(kind, rows["number"], state["turn"], *texts.each[texts.default], link, job["who"], RUNNING, "", now())
            with self.journal.change(job["who"], f"mail {kind} of round {rows['number']} begins: {len(state['to'])}"):
                self.book.start(run, texts.each, state["to"])
            self.sender.begin()
        return {"to": len(state["to"])}

    def steer(self, job: Job) -> Job:
        """Pauses the run, goes on with it, or gives up what waits."""
        self.sender.stop(STEER_SECONDS)
        with self.lock:
            run = self.book.run()
            if run is None or run.state == ENDED:
                raise Fault(_("no messages are being sent now."))
            if self.sender.is_at_work() and job["act"] != "pause":
                raise Fault(_("a message is on its way, and the mail server is slow. Nothing comes after it. Try again in a "
                              "minute."))
            if job["act"] == "go-on":
                must_read(self.path)
                self.book.end_begun(of_run=True)
                self.book.set_run(RUNNING, "")
                self.sender.begin()
            elif job["act"] == "pause":
                self.book.set_run(PAUSED, kept(STOPPED, who=job["who"]))
            elif job["act"] == "give-up":
                self.sender.end_run(run, kept(GIVEN_UP, who=job["who"]))
            else:
                raise Fault("not understood: there is no such act")
        return {}

    # --- receipts

    def steer_receipts(self, job: Job) -> Job:
        """Begins with receipts, ends with them, or lets them go on."""
        must_read(self.path)
        act = job["act"]
        if act not in ("on", "off", "go-on"):
            raise Fault("not understood: there is no such act")
        with self.lock:
            if act == "go-on":
                self.receipts.go_on()
                return {}
            if act == "on":
                link = link_in(job)
                if self.state.of_kind(RECEIPT, self.worker.view.rows(), {})["mark"] != job["mark"]:
                    raise changed_meanwhile()
                if self.receipts.book.wanted().on:
                    raise Fault(_("receipts are being sent already. Nothing was changed."))
            with self.journal.change(job["who"], f"mail receipts {act}"):
                if act == "on":
                    self.receipts.begin(job["who"], link)
                else:
                    self.receipts.end()
        return {}
