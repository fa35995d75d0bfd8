"""The worker: the one thread that owns `rooms serve`, and works on the office's file between two servings.

Changes wait in a queue. The server is stopped once for all that wait, and started again after them. The worker works
in the main thread: what it starts ends with this thread, even if the keeper is killed.
"""

import contextlib
import datetime
import queue
import sqlite3
import subprocess
import threading
import time
from collections.abc import Callable
from dataclasses import dataclass
from typing import Any

import times
from anew import Anew
from backups import BACK, Backups
from change import Change, besides
from copies import make_whole
from languages import _, in_english, speaking, what_says
from lines import ACCEPTED, NOT_TAKEN, is_copied_before
from meanings import failed
from office import Office
from program import Answer, NotOpened, Unanswered, is_refused
from register import people_in
from rows import View
from seen import Rows, why_stale
from settings import Fault

FIRST_PAUSE, LONGEST_PAUSE = 0.2, 5.0  # seconds before a server is started again that has ended by itself
LIVED = 2.0                            # a server that ran for so long has worked: the pause begins anew


def since(began: float) -> int:
    """Milliseconds."""
    return round(1000 * (time.monotonic() - began))


def is_untaken(change: Change) -> bool:
    """Whether the office has taken nothing of a change that was answered, since it was changed by hand in between, or the program
    never had the file."""
    return all(answer.status in NOT_TAKEN or isinstance(answer, NotOpened) for answer in change.answers)


def is_untouched(change: Change, fault: Exception) -> bool:
    """Whether the office has taken nothing of a change that ended by a fault."""
    return not change.reached or isinstance(fault, Unanswered) and not fault.unknown


def drop_copy(backups: Backups, change: Change) -> None:
    """Deletes the copy before a change of which the office has taken nothing: it would make an older one go. That before a way
    back stays, as nobody may be able to make another one."""
    if change.copy and not change.whole:
        with contextlib.suppress(OSError):
            backups.drop(change.copy)
            change.copy = ""


class Server:
    """One run of `rooms serve`."""

    def __init__(self, words: list[str]) -> None:
        self.process = subprocess.Popen(words, stdin=subprocess.DEVNULL)  # pylint: disable=consider-using-with
        self.began, self.ended = time.monotonic(), threading.Event()

    def wait(self) -> int:
        """Waits for its end, which gives its status. One thread alone does so."""
        status = self.process.wait()
        self.ended.set()
        return status

    def stop(self) -> None:
        """Ends it; kills it if it does not end within five seconds."""
        self.process.terminate()
        if not self.ended.wait(5):
            self.process.kill()
            self.ended.wait()


@dataclass
class Ended:
    """A server that has ended."""

    server: Server
    status: int


class Worker:  # pylint: disable=too-many-instance-attributes  # the parts of the office, and its server
    """Owns the server, and carries out one change after the other."""

    def __init__(self, office: Office) -> None:
        self.settings, self.program = office.settings, office.program
        self.copies, self.place = office.copies, office.copies.place
        self.backups, self.journal, self.view = office.backups, office.journal, View(office.copies)
        self.work: queue.Queue[Change | Ended | None] = queue.Queue()
        self.server: Server | None = None
        self.status: int | None = None       # of the last server that ended by itself
        self.ends, self.ended_at = 0, 0.0    # how many have done so since the keeper began, and when the last one did
        self.due: float | None = None        # when the server is to be started again
        self.pause, self.over = FIRST_PAUSE, False
        self.back = office.backups.before_back()  # by its name the last way back is known
        self.anew = Anew(office)

    # --- asked by other threads

    def change(self, change: Change) -> Change:
        """Tries a change on a copy, so that nobody notices a refusal. What would be accepted waits for its turn."""
        change.tried = self.copies.state()
        with self.copies.copied() as copy:
            change.answers = change.carry_out(copy)
        if is_refused(change.answers):
            return change
        self.work.put(change)
        if not change.done.wait(self.settings.turn_seconds) and change.wanted.acquire(blocking=False):
            raise Fault(_("other changes took too long. Nothing was changed: try again."))
        change.done.wait()
        if change.fault:
            raise besides(change.fault, change.left, change.unknown)
        return change

    def rows(self, still: bool = False) -> Rows:
        """The rows of the office as it is now, with the last way back."""
        return {**self.view.rows(still), "back": self.back}

    def ended(self) -> dict[str, Any] | None:
        """How many servers have ended by themselves, when the last one did, how many seconds ago, and with what status."""
        if not self.ends:
            return None
        at = times.noted(datetime.datetime.fromtimestamp(self.ended_at))
        return {"times": self.ends, "at": at, "ago": round(abs(time.time() - self.ended_at)), "status": self.status}

    def end(self) -> None:
        """Ends the worker after the change that it is carrying out."""
        self.over = True
        self.work.put(None)

    # --- the worker's own thread

    def keep(self) -> None:
        """Keeps the server running, and carries out changes, until the worker is ended."""
        if why := self.anew.finish():
            print(why, flush=True)
        self.start()
        while not self.over:
            item = self.next_work()
            if isinstance(item, Ended):
                self.handle_end(item)
            elif isinstance(item, Change):
                self.stop()
                self.work_off(item)
                self.start()
        self.stop()
        while not self.work.empty():
            left = self.work.get()
            if isinstance(left, Change):
                with speaking(left.language):
                    left.end(_("the keeper is being ended. Nothing was changed: try again."))

    def next_work(self) -> Change | Ended | None:
        """The next piece of work. Meanwhile a server is started again when its time has come."""
        while True:
            wait = None if self.due is None else max(0.0, self.due - time.monotonic())
            try:
                return self.work.get(timeout=wait)
            except queue.Empty:
                self.start()

    def work_off(self, change: Change) -> None:
        """Carries out a change, and those that wait behind it, until the server has been away for long enough."""
        end = time.monotonic() + self.settings.stop_seconds
        self.carry_out(change)
        while time.monotonic() < end and not self.over:
            try:
                item = self.work.get_nowait()
            except queue.Empty:
                return
            if isinstance(item, Change):
                self.carry_out(item)
            elif isinstance(item, Ended):
                self.handle_end(item)

    def carry_out(self, change: Change) -> None:
        """One change, if its sender still waits for it."""
        if not change.wanted.acquire(blocking=False):
            return
        # Until it is made, its answers are those of the copy on which it was tried. If nobody knows what went wrong,
        # its sender must not get them.
        with speaking(change.language):
            change.fault, change.unknown = _("the keeper failed at this line. Look whether it took effect."), True
            try:
                self.make(change)
                change.fault = ""
            except Fault as fault:
                change.fault, change.unknown = what_says(fault), fault.unknown
            except (OSError, sqlite3.Error) as fault:
                change.unknown = change.reached
                why = failed(fault, change.reached)
                change.fault = why if change.reached else _("{why} Nothing was changed.", why=why)
            finally:
                change.done.set()

    def make(self, change: Change) -> None:
        """Makes a change, if the office is as its sender saw it, with the copy before it and the journal.

        The worker has the file for itself meanwhile, but for the time in which the program carries out a line on it.
        """
        began = time.monotonic()
        self.place.finish()
        with contextlib.ExitStack() as holding:
            held = holding.enter_context(self.place.held())
            saw_something = change.seen is not None or change.saw is not None
            if saw_something and (why := why_stale(self.rows(still=True), change.seen, change.saw)):
                raise Fault(why)
            if change.why_not and (why := change.why_not()):
                raise Fault(why)
            if change.plan:
                with self.copies.copied(still=True) as copy:
                    change.lines = change.plan(copy)
            if self.has_to_copy(change):
                if self.is_refused_by_now(change):
                    return
                change.copy = self.backups.keep(change.kind, change.why, still=True, damaged=change.damaged)
                self.back = change.copy if change.kind == BACK else self.back
            number = ""
            try:
                number = self.journal.begin(change.who, change.line, change.copy)
                if change.whole:
                    change.answers = self.replaced(change, held)
                else:
                    self.prepare(change)
                    holding.close()
                    change.reached = True
                    change.answers = self.in_place(change)
            except (Fault, OSError, sqlite3.Error) as fault:
                change.answers = fault.answers if isinstance(fault, Unanswered) else []
                change.untouched = is_untouched(change, fault)
                if change.untouched:
                    drop_copy(self.backups, change)
                if number:
                    self.note_end(change, number, began, Answer(f"fault: {in_english(fault)}", 3), isinstance(fault, Unanswered))
                raise
        change.untouched = is_untaken(change)
        if change.untouched:
            drop_copy(self.backups, change)
        if change.copy and change.kind != BACK:
            with contextlib.suppress(OSError):
                self.backups.drop_old()
        self.note_end(change, number, began, change.answers[-1])

    def is_refused_by_now(self, change: Change) -> bool:
        """Whether a copy refuses a change that waited for its turn, since what came before it has changed the office. Then neither
        a copy of the office is kept nor an entry of the journal, as if the change had come now."""
        if change.whole or change.tried and change.tried.is_settled() and change.tried == self.copies.state():
            return False
        with self.copies.copied(still=True) as copy:
            change.answers = change.carry_out(copy)
        return is_refused(change.answers)

    def has_to_copy(self, change: Change) -> bool:
        """Whether the office is copied before a change. A list that a line would replace may have come while the line waited."""
        if change.plan:
            return bool(change.lines)
        lists = self.view.rows(still=True)["choices"] if change.kind == "choose" else {}
        return bool(change.kind) and (not change.lines or is_copied_before(change.lines, lists))

    def prepare(self, change: Change) -> None:
        """Notes who comes and who goes by a change, for what is beside the register, and that the file is to be written anew."""
        if change.register and (change.come or change.gone):
            now = people_in(self.view.rows(still=True))
            change.register(change.come - now, change.gone & now)
        if change.erases:
            self.anew.begin()

    def in_place(self, change: Change) -> list[Answer]:
        """Carries out a change in the office's file. If it erases something, the file is written anew afterwards, also if the
        program did not come to the end."""
        try:
            return change.carry_out(self.copies.file)
        finally:
            if change.erases:
                change.left = self.anew.finish()

    def note_end(self, change: Change, number: str, began: float, last: Answer, known: bool = True) -> None:
        """Notes in the journal how a change ended. Of several lines that were not all carried out it has those that were as
        this change, and the one after them as another, if it is `known` how far they came."""
        change.took = since(began)
        change.made = 0 if change.whole else sum(answer.status == ACCEPTED for answer in change.answers)
        other: dict[str, Any] = {"copy": ""} if change.copy == "" else {}  # that it was kept is noted already
        other |= {"taken": False} if change.untouched and last.status not in NOT_TAKEN else {}
        if known and len(change.lines) > 1 and last.status != ACCEPTED:
            other |= {"who": change.who, "line": change.speak(change.lines[change.made:change.made + 1])}
            if change.made:
                stands = change.speak(change.lines[:change.made])
                self.journal.end(number, change.answers[change.made - 1].text, 0, change.took, line=stands)
                number = self.journal.number()
        self.journal.end(number, last.text, last.status, change.took, **other)

    def replaced(self, change: Change, held: int) -> list[Answer]:
        """Carries out a change on a copy, which then takes the office's place, if the program takes it as an office."""
        with self.copies.copied(still=True) as copy:
            answers = change.carry_out(copy)
            if is_refused(answers):
                return answers
            looked = self.program.look(copy)
            if looked.status != ACCEPTED or not make_whole(copy):
                raise Fault(_("the office that comes of this is none ({said}). Nothing was changed.", said=looked.text.strip()))
            change.reached = True
            self.place.put(copy, held, change.before_put)
            return answers

    # --- the server

    def start(self) -> None:
        """Starts the server, unless the keeper is ending. What takes the office's place has to be there first."""
        self.due = None
        if self.over:
            return
        try:
            self.place.finish()
            self.server = Server(self.program.serve_words())
        except OSError as fault:
            print(f"rooms serve could not be started: {fault}", flush=True)
            self.start_later()
            return
        threading.Thread(target=self.wait_for, args=(self.server,), daemon=True).start()

    def wait_for(self, server: Server) -> None:
        """Reports the end of a server."""
        self.work.put(Ended(server, server.wait()))

    def start_later(self) -> None:
        """Has the server started again after a pause, which grows as long as that does not help."""
        self.due = time.monotonic() + self.pause
        self.pause = min(2 * self.pause, LONGEST_PAUSE)

    def stop(self) -> None:
        """Stops the server: what it has answered remains in effect."""
        self.due = None
        if self.server:
            self.server.stop()
            self.server = None

    def handle_end(self, ended: Ended) -> None:
        """Handles a server that has ended by itself. One that refuses the file would do so again, until a change."""
        if ended.server is not self.server:
            return
        served = time.monotonic() - ended.server.began > LIVED
        if served or ended.status != self.status:
            print(f"rooms serve has ended with status {ended.status}", flush=True)
        self.server, self.status = None, ended.status
        self.ends, self.ended_at = self.ends + 1, time.time()
        if served:
            self.pause = FIRST_PAUSE
        if ended.status not in NOT_TAKEN:
            self.start_later()


def change_followed(worker: Worker, change: Change, follow: Callable[[], str]) -> Change:
    """Makes a change, and then what follows on those of its lines that stand, whatever has become of the others. What `follow` says
    is left to be done, and hides neither answers nor a fault."""
    try:
        worker.change(change)
    except Fault as fault:
        if change.made and (left := follow()):
            raise besides(fault, left, fault.unknown) from fault
        raise
    if change.made:
        change.left = " ".join(filter(None, (change.left, follow())))
    return change
