"""What can be asked of the keeper. A request is an object of JSON with its name in `ask`, and so is the answer.

| ask | fields | answer |
|---|---|---|
| view | | the rows (rows.py); server: whether it runs; status, ended: of those that ended by themselves; until; disk (disk.py); |
| | | mail: whether there is mail; back: the copy before the last way back |
| watch | | faults: what is wrong with the server, the disk, the copies and erasures; age: of the newest copy, in seconds |
| try | lines, again | answers: of a copy, which is thrown away |
| do | lines, again, seen, saw | answers, done, took, copy; made: how many of the lines are in effect; unkept: faults of figures |
| | | and of what is beside the register, or why something that is to be erased may still be in the file |
| draw | seed, seen | as `do` |
| import | kind, label, body, only_try, again, seen, saw | as `do`; known: whether its label was taken; `body` in base 64 |
| export | kind | answers |
| figures | | rounds: number, day and tables of each published round (figures_counted.py); damaged: the file, if it is damaged |
| record | | body: the public record of the round |
| seeds | | found: the seeds that were noted in this round; drawn: that of the draw; since (all by `Seeds` in seeds.py) |
| blank, correct, keys, forget | | correcting.py has these |
| about | person | lists, moves, copies, journal: what names the person (about.py); mail; language; account: theirs; |
| | | texts: places that have their name (naming.py), looked, fault; backups: folder, most, days |
| note, journal | line; last | nothing; journal: the last entries; whole: whether no entry is too old to be had |
| blank-journal | | blanked: how many lines of the journal had wishes, or an answer that may have had names |
| told | | told: what residents read of rooms (told.py); marks: of its parts |
| set-until | at, closes, seen, saw | untold: why residents do not read the date that was set (dates.py), if so |
| tell-words, tell-rooms | notice, contact; rooms; saw | |
| add-picture, drop-picture | room, body, shows; room, file | file: its name; nothing |
| backup, backups, days, compare, given-up, back | | copy_requests.py has these |
| mail, mail-..; language, languages, set-languages | | mail.py and languages_kept.py have these |
| accounts | | rule: how the person of an account is found (accounts.py); count: of the accounts in the list |
| set-accounts | rule, list | as `accounts`; `list` for the rule `list` alone |

By `seen` and `saw` the sender says what it saw of the round and of people; if that is so no more, nothing is changed
(seen.py). An answer is a text and a status of the program. `fault` is why something cannot be done, in the language `speaks`; with
`unknown` nobody knows whether it was done, and `refused` is the answer of the program, if it has refused one line.
By `again` the sender says whose identifiers are those of the same people as before. If somebody else comes under a former
identifier, nothing is changed, and beside the fault `former` has each such identifier, with the name that it stood for (former.py).
"""

import collections
import importlib
from collections.abc import Callable
from pathlib import Path

from about import about
from accounts import Accounts, ClerkRequests
from beside_register import BesideRegister
from branches import Branches
from change import CarryOut, Change
from copy_requests import CopyRequests
from correcting import Corrections
from dates import Dates
from disk import short_of_room
from figures_kept import Before
from former import Former, WasAnothers
from given_up import round_in
from happened import Known
from history import history
from job import Job, again_in, body_of, identifier_in, lines_of, saw_in, seen_in, text
from journal import masked, masked_line, masked_note, spoken_of
from languages import ENGLISH, _, speaking
from languages_kept import LanguageRequests
from lines import BUNDLE, BY_SEED, erases, gone_by, named, only_reads, verb_of
from mail import Post
from office import Office
from program import NOT_UNDERSTOOD, Answer, is_refused
from register import takes_part
from rows import identifiers_in, rows_of
from seeds import noted_seeds
from seen import Rows
from settings import Fault
from watching import watch
from worker import Worker, change_followed

SHORT = 60     # signs of a line that a copy keeps


def short_of(lines: list[str]) -> str:
    """Lines as the copy before them has them: one line as in the journal, or how many there are of each verb."""
    if len(lines) == 1:
        return masked_line(lines[0])[:SHORT]
    return ", ".join(f"{verb} ({count})" for verb, count in collections.Counter(map(verb_of, lines)).items())


def has_label(rows: Rows, label: str) -> bool:
    """Whether a list was imported under this label."""
    return any(label == taken for taken, *_ in rows["lists"])


def known_of(rows: Rows) -> Known:
    """The number and the phase of the round."""
    return rows["number"], rows["phase"]


def only(answer: Answer) -> Job:
    """One answer that changed nothing."""
    return {"answers": [answer], "done": False}


# pylint: disable-next=too-many-public-methods,too-many-instance-attributes  # one for each request; the parts of the office
class Requests:
    """Answers what is asked of the keeper."""

    def __init__(self, office: Office, worker: Worker) -> None:
        self.office, self.program, self.copies, self.worker = office, office.program, office.copies, worker
        self.journal, self.dates = office.journal, Dates(office, worker)
        self.post, self.accounts, self.former = Post(office, worker), Accounts(office.settings.accounts), Former(office)
        self.beside = BesideRegister(office.settings.file, self.post, office.languages, self.accounts)
        self.known: dict[str, Callable[[Job], Job]] = {
            "view": self.view, "watch": lambda _job: watch(self.office, self.worker, self.beside), "try": self.try_out,
            "do": self.do_lines, "draw": self.draw, "import": self.bring_in, "export": self.export,
            "record": self.record, "seeds": self.seeds, "note": self.note, "journal": self.show_journal,
            "blank-journal": self.blank_journal, "about": self.about,
            **Corrections(office, worker, self.beside).requests(),
            **CopyRequests(office, worker, self.dates, self.beside).requests(),
            **office.told.requests(), "set-until": self.dates.set,
            **self.post.requests(),
            "figures": lambda _job: self.office.figures.shown(self.worker.view.rows()),
            **ClerkRequests(self.accounts, worker.view, office.journal).known,
            **LanguageRequests(office.languages, worker.view, office.journal).requests(),
        }

    def answer(self, job: Job) -> Job:
        """The answer to a request."""
        if job.get("ask") not in self.known:
            raise Fault(f"not understood: there is no request {job.get('ask')!r}")
        try:
            return self.known[job["ask"]](job)
        except WasAnothers as why:
            return {"fault": str(why), "former": why.former}
        except KeyError as missing:
            raise Fault(f"not understood: the field {missing} is missing") from missing

    # --- reading

    def view(self, _job: Job) -> Job:
        """The office as it is now."""
        rows = self.worker.rows()
        again = Branches(self.journal.entries()).removed_since_settled(known_of(rows)) if rows["left"] else set()
        return {**rows, "left": [row for row in rows["left"] if row[0] not in again],
                "server": self.worker.server is not None, "status": self.worker.status,
                "ended": self.worker.ended(), "until": self.dates.shown(), "mail": self.post.is_on(),
                "disk": short_of_room(self.copies.file)}

    def about(self, job: Job) -> Job:
        """All that is kept of a person."""
        person = identifier_in(job)
        return {**about(self.office, self.post.book, person), "mail": self.post.about(person),
                "language": self.office.languages.about(person), "account": self.accounts.about(person)}

    def try_out(self, job: Job) -> Job:
        """Questions, and what lines would do."""
        with self.copies.copied() as copy:
            return {"answers": self.told(job, lines_of(job), copy)}

    def told(self, job: Job, lines: list[str], file: Path, look: Callable[[str, Path], None] | None = None) -> list[Answer]:
        """What a file answers to lines, up to the first that is not accepted."""
        def carry_out() -> list[Answer]:
            return self.program.tell_all(lines, file, look)
        return self.former.watch(file, again_in(job), carry_out) if named(lines, "person") else carry_out()

    def export(self, job: Job) -> Job:
        """An export of a copy."""
        with self.copies.copied() as copy:
            return {"answers": [self.program.export(text(job, "kind"), copy)]}

    def record(self, job: Job) -> Job:
        """The public record of the round."""
        try:
            record = importlib.import_module("record")
        except ImportError as fault:
            raise Fault(_("the program of the public record (record.py) is not installed next to the keeper")) from fault
        with self.copies.copied() as copy:
            rows = rows_of(copy)
            try:
                with speaking(ENGLISH):
                    told_before = history(list(self.journal.entries()), self.journal.is_whole(), known_of(rows), rows["settled"],
                                          self.round_of)
                    body = record.record(copy, self.journal.seeds(), told_before)
            except record.Refused as why:  # record.py has its texts in English, since it also works without the keeper
                raise Fault(_("there is no record: {why}", why=_(why.text, **why.values))) from why
        self.journal.note(who=job["who"], line="the public record was taken")
        return {"body": body}

    def seeds(self, _job: Job) -> Job:
        """The seeds that were noted in the round of now."""
        now = known_of(self.worker.view.rows())
        return noted_seeds(list(self.journal.entries()), self.journal.is_whole(), now, self.round_of)._asdict()

    def round_of(self, copy: str) -> Known | None:
        """The number and the phase of the round in a kept copy, if it is still there."""
        return round_in(self.office.backups.file_of(copy))

    # --- changing

    def do_lines(self, job: Job) -> Job:
        """Lines that change the office. If a copy refuses one of them, nothing is changed. If the office itself does, since it
        was changed in between, the lines before it stand."""
        lines = lines_of(job)
        if any("\n" in line for line in lines):
            return only(NOT_UNDERSTOOD)
        if only_reads(lines):
            answers = self.try_out(job)["answers"]
            return {"answers": answers, "done": not is_refused(answers)}
        kind = BUNDLE if len(lines) > 1 else verb_of(lines[0])
        before, removed = Before(self.copies.file), named(lines, "remove")

        def look(line: str, file: Path) -> None:
            before.look(line, file)
            if file == self.copies.file and (again := named([line], "person") & removed):
                self.beside.prepare(again, set())  # the person before was removed by a line before this one

        change = self.change_of(job, (short_of(lines), spoken_of(lines)), kind,
                                lambda file: self.told(job, lines, file, look))
        change.lines, change.come, change.gone, change.erases = lines, named(lines, "person"), gone_by(lines), erases(lines)
        return change_followed(self.worker, change, lambda: self.follow(lines[:change.made], before)).told()

    def follow(self, lines: list[str], before: Before) -> str:
        """Brings figures, receipts, and what is beside the register up to lines that a change has carried out. Says what went
        wrong, if anything: the lines stand."""
        if "open" in map(verb_of, lines):
            self.post.opened()
        unkept = self.office.figures.follow(lines, before, self.worker.view.rows)
        return " ".join(filter(None, (unkept, self.beside.let_go(gone_by(lines)))))

    def draw(self, job: Job) -> Job:
        """The draw by a seed."""
        seed, count = text(job, "seed"), len(takes_part(self.worker.view.rows()))
        line = " ".join(["draw", *self.program.words(seed, count)])
        spoken = f"{BY_SEED} {seed} --count {count})"
        change = self.change_of(job, ("draw", spoken), "draw", lambda file: [self.program.tell(line, file)])
        return self.worker.change(change).told()

    def bring_in(self, job: Job) -> Job:
        """A list. With `only_try` it is tried alone, and so is one under a label that is taken: it changes nothing."""
        kind, label, body = text(job, "kind"), text(job, "label"), body_of(job)
        short, come, again = masked(f"import {kind} {label}"), set[str](), again_in(job)

        def carry_out(file: Path) -> list[Answer]:
            answers = self.former.watch(file, again, lambda: [self.program.bring_in(kind, label, body, file)])
            if kind == "people" and not is_refused(answers) and file != self.copies.file:
                come.update(identifiers_in(file))
            return answers

        if job.get("only_try") or has_label(self.worker.view.rows(), label):
            with self.copies.copied() as copy:
                known = has_label(rows_of(copy), label)
                answer = carry_out(copy)[0]
            if job.get("only_try") or known:
                return {**only(answer), "known": known}
        change = self.change_of(job, (short, f"{short} ({len(body)} bytes)"), "import", carry_out)
        change.come = come
        return self.worker.change(change).told()

    def change_of(self, job: Job, names: tuple[str, str], kind: str, carry_out: CarryOut) -> Change:
        """A change for the worker. The names are those of the copy before it and in the journal."""
        short, spoken = names
        return Change(job["who"], spoken, carry_out, kind=kind, before=short, seen=seen_in(job), saw=saw_in(job),
                      register=self.beside.prepare)

    # --- the journal

    def note(self, job: Job) -> Job:
        """Notes what a clerk does, as a seed before the draw."""
        self.journal.note(who=job["who"], note=masked_note(text(job, "line")))
        return {}

    def show_journal(self, job: Job) -> Job:
        """The last entries."""
        last = job.get("last", 200)
        if not isinstance(last, int) or last < 1:
            raise Fault("not understood: last is no number of entries")
        return {"journal": list(self.journal.entries())[-last:], "whole": self.journal.is_whole()}

    def blank_journal(self, job: Job) -> Job:
        """Takes out of the journal what earlier versions noted of names and wishes."""
        count = self.journal.blank()
        self.journal.note_done(who=job["who"], line="blank-journal", answer=f"{count} lines")
        return {"blanked": count}
