"""How it stands with the messages of each kind, for the page of mail.

A kind is an object of: now: whether it can be sent; turn; people: how many it is for; to: who would get it; gets: how many of these
in each language; no_address; sent, refused, uncertain: the person, the time and why of each; texts: subject and body by language;
own: the languages in which clerks have written one; default: the language of all others; mark: of texts and turn; erased: whether
messages of this round were sent and forgotten, before a way back to it; gone: by outcome, to how many people who were erased since.
That of receipts has also on, why and waiting; and,
in the form of sent, elsewhere: those of other rounds of which nobody knows whether they were sent. The others have, in the form of
sent: changed, whose message is no longer right since results were published anew, and who would get it again; and others, who has
it, and for whom it is not any more.
"""

import collections
import hashlib
import json
from typing import Any

from job import Job
from languages_kept import Languages
from mail_book import BEGUN, PAUSED, REFUSED, RUNNING, SENT, UNCERTAIN, WAITING, Book
from mail_people import goes_to, told_by
from mail_receipts import Receipts
from mail_run import STOPS, Sender
from mail_why import AWAY, UNKNOWN, UNWRITTEN, said
from mail_why import kept as written
from mail_words import KINDS, RECEIPT, Texts, texts_of
from seen import Rows

# What is said with the message at which it stopped, by how that one stands now.
OF_MESSAGE = {WAITING: AWAY, UNCERTAIN: UNKNOWN}
CHANGED, OTHERS = "changed", "others"  # what was sent, and is not right any more
ELSEWHERE = "elsewhere"  # receipts of other rounds of which nobody knows whether they were sent
HAVE = (SENT, UNCERTAIN, BEGUN, WAITING)  # a further press sends nothing to these


class State:
    """Reads the file of the mail for the page."""

    def __init__(self, book: Book, sender: Sender, receipts: Receipts, languages: Languages) -> None:
        self.book, self.sender, self.receipts, self.languages = book, sender, receipts, languages

    def texts(self, kind: str) -> Texts:
        """The texts of a kind of message."""
        return texts_of(kind, self.book.texts(kind), self.languages.kept().office)

    def of_kind(self, kind: str, rows: Rows, addresses: dict[str, str]) -> Job:
        """How it stands with a kind of message."""
        number, turn, texts = rows["number"], self.book.turn(kind, rows["number"]), self.texts(kind)
        now = rows["phase"] == KINDS[kind].phase
        people = goes_to(kind, rows, self.sender.moves(rows)) if now else []
        states = self.states(kind, rows, turn, people) if now else self.book.states(kind, number, turn)
        next_ones = [one for one in people if one in addresses and states.get(one, [""])[0] not in HAVE]
        found = {state: [[one, at, said(why)] for one, (was, at, why) in states.items() if was == state]
                 for state in (SENT, REFUSED, UNCERTAIN, CHANGED, OTHERS)}
        return {"now": now, "turn": turn, "people": len(people), "to": next_ones, "gets": self.gets(texts, next_ones),
                "no_address": [one for one in people if one not in addresses], "erased": self.book.erased(kind, number),
                "gone": self.book.gone(kind, number, None if kind == RECEIPT else turn),
                **(self.of_receipts(texts, rows, addresses) if kind == RECEIPT else found),
                "texts": texts.each, "own": sorted(texts.own), "default": texts.default,
                "mark": hashlib.sha256(json.dumps([texts.each, texts.default, turn]).encode()).hexdigest()[:16]}

    def states(self, kind: str, rows: Rows, turn: int, people: list[str]) -> dict[str, list[str]]:
        """What became of the messages to each person, now that they go to these people. What a message told may not be so any
        more, since results were published anew."""
        number, told = rows["number"], self.book.told(kind, rows["number"], turn)
        right = self.book.marks_of(told_by(kind, rows, self.sender.moves(rows))) if told else {}
        states = self.book.states(kind, number, turn)
        for person in told.keys() & states.keys():
            was, *rest = states[person]
            if was in (SENT, UNCERTAIN) and (person not in people or told[person] != right[person]):
                states[person] = [CHANGED if person in people else OTHERS, *rest]
        return states

    def gets(self, texts: Texts, people: list[str]) -> dict[str, int]:
        """How many of these people get the text of each language."""
        kept = self.languages.kept()
        wanted = [kept.residents.get(person) or kept.office for person in people]
        return dict(collections.Counter(map(texts.language_for, wanted)))

    def of_receipts(self, texts: Texts, rows: Rows, addresses: dict[str, str]) -> dict[str, Any]:
        """How it stands with receipts: who has an address can get one."""
        wanted, people = self.receipts.book.wanted(), [row[0] for row in rows["people"]]
        with_address = [one for one in people if one in addresses]
        states = {**self.receipts.book.states(rows["number"]), ELSEWHERE: self.receipts.book.uncertain_elsewhere(rows["number"])}
        found = {state: [[one, at, said(why)] for one, at, why in rest] for state, rest in states.items()}
        return {**found, "people": len(people), "gets": self.gets(texts, with_address),
                "no_address": [one for one in people if one not in addresses],
                "on": wanted.on, "who": wanted.who,
                "why": self.stopped(wanted.why, RECEIPT, rows["number"]) if wanted.on else "",
                "waiting": self.receipts.waiting() if wanted.on else []}

    def of_run(self) -> Job | None:
        """How far the run is. One whose pause could not be noted, as on a full disk, has no thread."""
        run = self.book.run()
        if run is None:
            return None
        lost = run.state == RUNNING and not self.sender.is_at_work()
        state, why = (PAUSED, UNWRITTEN) if lost else (run.state, run.why)
        waits = [one for one, (was, *_) in self.book.states(run.kind, run.round, run.turn).items() if was == WAITING]
        return {"gone": self.book.gone(run.kind, run.round, run.turn),
                "kind": run.kind, "round": run.round, "who": run.who, "state": state, "at": run.at, "waits": waits,
                "why": self.stopped(why, run.kind, run.round), "erased": self.book.erased(run.kind, run.round),
                **self.sender.count(run)}

    def stopped(self, why: str, kind: str, number: int) -> str:
        """Why messages of a kind do not go on, with whose message it was and what the mail server answered, if that is kept."""
        state = next((state for state, stops in STOPS.items() if stops == why), "")
        found = self.book.stopped_at(kind, number, state) if state else None
        return said(written(OF_MESSAGE[state], person=found[0], why=found[1]) if found else why)
