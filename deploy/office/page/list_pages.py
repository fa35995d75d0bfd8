"""Imports: a list is tried on a copy, all its faults are shown, and it is imported once the clerk says so."""

import base64
from collections.abc import Iterable
from typing import Any, NamedTuple, NoReturn

from journal import masked
from languages import N_, _
from lines import ACCEPTED, LONGEST_LIST
from meanings import REFUSALS
from seen import Saw

import known_people
import list_checks
import list_faults
import list_slips
import mail_lists
import plain
import understanding
from app import (app, ask, attempt, change, clerk, field, go_to, list_sent, memory, office_now, show, tell, tell_fault,
                 tell_unkept, text_of, ticked, why_not_read)
from columns import kind_name
from csv_list import CsvList
from keeper_client import Answer, KeeperFault, WasAnothers, answers_of
from known_people import Beside
from many_pages import KEYS, MOST_AT_ONCE, acts_for
from list_faults import Findings
from list_slips import Made
from mail_lists import NO_ADDRESSES, Addresses
from office_view import Office
from questions import Question, put_question
from slips import Key
from understanding import NotUnderstood, Understood

NOBODY = Beside(set(), [], [])
KEYS_ASKED = 20


NO_LONGER = N_("The page no longer holds this list. Nothing was imported now. If the list is not in yet, send it again, and "
               "destroy slips that you printed for it: they do not work.")


class Tried(NamedTuple):
    """What the page of a try with new keys shows, besides its list."""

    keys: list[Key]
    beside: Beside
    read: Understood | None


class Job(NamedTuple):
    """A list that was tried and waits for the clerk's yes."""

    kind: str
    label: str
    body: bytes
    saw: Saw | None = None  # what the list replaces, or of people that they are not in the register
    departed: tuple[str, ...] = ()  # of people: who is in the register, and not on the list
    mailed: Addresses = NO_ADDRESSES  # of people: their mail addresses, which the program does not get
    made: Made | None = None  # of people: the slips that this try made
    tried: Tried | None = None  # of people: its page
    known: int = 0  # how many lines were taken out of it, since the register has them
    former: tuple[tuple[str, str], ...] = ()  # of people: identifiers that were somebody else's, with the names of then

    def people(self) -> list[str]:
        """Who is on the list."""
        return [record.fields[0] for record in CsvList(self.body).records[1:]]

    def mail_of_new(self) -> Addresses:
        """The mail addresses and languages of the people who come in with the list."""
        return self.mailed.of(set(self.people()))

    def mail_of_known(self) -> Addresses:
        """Those of people who are in the register already, and whose address or language would be another one."""
        return mail_lists.what_changes(self.mailed.of(self.mailed.people() - set(self.people())))

    def mail_of_same(self, office: Office) -> Addresses:
        """Those of all of its people that would be other ones than now, but for who is out of the register, or has another name
        there: that may be another person."""
        names = self.names()
        same = {ident for ident in self.mailed.people() & office.people.keys()
                if office.people[ident].name == names.get(ident, office.people[ident].name)}
        return mail_lists.what_changes(self.mailed.of(same))

    def names(self) -> dict[str, str]:
        """The names of the people on the list."""
        return {record.fields[0]: record.fields[1] for record in CsvList(self.body).records[1:]}

    def fields(self, again: Iterable[str] = ()) -> dict[str, Any]:
        """The list as the keeper takes it, and which of its identifiers are those of the same people as before."""
        body = base64.b64encode(self.body).decode()
        return {"kind": self.kind, "label": self.label, "body": body, "saw": self.saw, "again": list(again)}


class Brought(NamedTuple):
    """A list that is in. It takes the place of its job, so that the pages of its try can say so. It has no key."""

    label: str
    slips: Made | None


class Departed(NamedTuple):
    """People of the register who are not on a list that has come in, and the name under which the page holds mail addresses of it
    that are not in yet."""

    idents: tuple[str, ...]
    mailed: str


def without(job: Job, idents: list[str]) -> Job:
    """A list without these people, or as it is if none of them is on it."""
    table, people = CsvList(job.body), set(idents)
    out = {number for number, record in enumerate(table.records) if number and record.fields[0] in people}
    return job._replace(body=table.body(without=out)) if out else job


def try_list(job: Job) -> Answer:
    """What the program answers to a list, on a copy, also if people on it have former identifiers."""
    return answers_of(ask("import", only_try=True, **job.fields(job.people())))[0]


def former_on(job: Job) -> tuple[tuple[str, str], ...]:
    """The identifiers on a list that fits that were somebody else's, with the names of then."""
    try:
        if job.kind == "people":
            ask("import", only_try=True, **job.fields())
    except WasAnothers as why:
        return why.former
    return ()


def what_is_wrong(office: Office, kind: str, label: str, body: bytes) -> str:
    """Why a list is not even tried, or nothing."""
    why = why_not_read(body if kind in plain.kinds(office.version) else b"")
    return why or (_(plain.LABEL_LIKE_A_KEY) if masked(label) != label else "")


@app.get("/office/lists")
def lists() -> str:
    """The forms for lists, and the imported lists."""
    return show("lists", office=office_now(), kind_name=kind_name)


@app.post("/office/lists")
def look_at_list() -> str:
    """Reads a file and tries its list. If it fits, the page holds it until the clerk says to import it."""
    office, kind, label, body = office_now(), text_of("kind"), text_of("label"), list_sent()
    if wrong := what_is_wrong(office, kind, label, body):
        tell("bad", wrong)
        go_to("/office/lists")
    try:
        read = understanding.read(kind, body)
    except NotUnderstood as fault:
        found = Findings([], fault.meaning, False)
        return show("faults", office=office, job=Job(kind, label, b""), found=found, answer="", beside=NOBODY, read=None)
    if len(read.body) > LONGEST_LIST:
        tell("bad", _(plain.TOO_LONG))
        go_to("/office/lists")
    if kind == "people" and not office.rooms and known_people.names_rooms(read.table):
        tell("bad", _("Nothing came in. The register has no room yet, and this list says who lives where. Bring in the list of "
                      "rooms first."))
        go_to("/office/lists")
    beside, mailed = NOBODY, NO_ADDRESSES
    if kind == "rooms":
        beside = known_people.known_rooms(office, read.table)
    if kind == "people":
        beside = known_people.compare(office, read.table)
        mailed, read = mail_lists.beside_people(office, body, read)
    return looked_at(office, Job(kind, label, read.body, mailed=mailed), read.table, beside, read)


def looked_at(office: Office, job: Job, table: CsvList, beside: Beside, read: Understood | None,
              keys: tuple[Key, ...] = ()) -> str:
    """The page of a list that was tried. Of people and rooms only those are tried that are not in the register. What the
    page read of the file is for the clerk to agree to, but not if the list is looked at again. Then `keys` are those that were
    made before, and are shown once more."""
    if office.has_label(job.label) and try_list(job).status == ACCEPTED:
        return known_list(office, job)
    if beside.known and len(beside.known) == len(table.records) - 1:
        held = memory.hold(clerk(), job.mailed) if job.mailed.people() else ""
        return show("already", office=office, kind=job.kind, beside=beside, read=read, mailed=held,
                    count=job.known + len(beside.known), **departed_form(office, tuple(beside.departed)))
    made = list(keys)
    if read and job.kind == "people" and field("keys"):
        made = table.fill_keys(beside.known)
    if made or beside.known:
        job = job._replace(body=table.body(without=beside.known), departed=tuple(beside.departed),
                           known=job.known + len(beside.known))
    answer = try_list(job)
    if answer.status == ACCEPTED and not any(list_checks.overwritten(job.kind, table)):
        return fitting_list(office, job, made, beside, read)
    found = list_faults.find(office, table, job.kind, lambda part: try_list(job._replace(body=part)), beside.known)
    return show("faults", office=office, job=job, found=found, answer=answer.text.strip() if answer.status else "",
                beside=beside, read=read)


def known_list(office: Office, job: Job) -> str:
    """The page of a list that was imported before: the program would answer as it did then, and change nothing."""
    return show("known", office=office, job=job, proposed=office.new_label(job.kind))


def fitting_list(office: Office, job: Job, made: list[Key], beside: Beside, read: Understood | None) -> str:
    """The page of a list that fits: what it replaces, who may be somebody else, the slips with new keys, and whether to import
    it."""
    job = job._replace(former=former_on(job))
    if made:  # a page of its own, so that loading it again makes no other keys
        slips = job.made or list_slips.made_for(ident for ident, *_rest in made)
        job = job._replace(made=slips, tried=Tried(made, beside, read))
        go_to(f"/office/lists/tried/{hold(office, job, job.people())}")
    wishes_of = dict(record.fields for record in CsvList(job.body).records[1:]) if job.kind == "choices" else {}
    replaced = [ident for ident, wishes in wishes_of.items() if office.choices.get(ident, wishes.split()) != wishes.split()]
    people = job.people()
    others = [person for person in people if person not in replaced]
    return show("fits", office=office, job=job, count=len(people), made=[], replaced=replaced, beside=beside,
                bare={ident: wishes for ident, wishes in wishes_of.items() if wishes and not office.choices.get(ident)},
                kind_name=kind_name, read=read, tries=[], held=hold(office, job, people),
                held_rest=hold(office, without(job, replaced), others) if replaced else "")


@app.get("/office/lists/tried/<name>")
def tried_list(name: str) -> str:
    """The page of a try with new keys, as long as the page holds the list, without slips that cannot work any more."""
    office = office_now()
    job = held_list(office, name, [])
    if job.tried is None:
        go_to("/office/lists")
    if office.has_label(job.label):
        tell("bad", label_taken(job))
        go_to("/office/lists")
    if office.phase not in plain.kinds(office.version)[job.kind].phases:
        tell("bad", _("This list cannot come in now. As long as it is not in, slips that you printed for it do not work."))
        go_to("/office/lists")
    if is_stale(office, job):
        return look_again(office, job, tuple(key for key in job.tried.keys if key[0] not in office.people))
    people = job.people()
    return show("fits", office=office, job=job, count=len(people), made=job.tried.keys, replaced=[], bare={},
                beside=job.tried.beside, kind_name=kind_name, read=job.tried.read, tries=list_slips.others(people, job.made),
                held=name, held_rest="")


def hold(office: Office, job: Job, people: list[str]) -> str:
    """Holds a list until the clerk says yes, with what it replaces of these people. Gives its name."""
    part = {"choices": "list", "grades": "grade", "people": "all"}.get(job.kind)
    return memory.hold(clerk(), job._replace(saw=office.saw(part, *people) if part else None))


def held_list(office: Office, name: str, out: list[str]) -> Job:
    """A list that waits for the clerk's yes, without whom the clerk leaves out. One that is in, or that the page does not hold,
    leads to the lists."""
    job: Any = memory.held(clerk(), name)
    if isinstance(job, Job):
        part = without(job, out)
        if not is_in(office, part):
            return part
        come_in(name, part)
    if isinstance(job, Brought):
        for text in list_slips.once_in(job.label, job.slips):
            tell("good", text)
    else:
        tell("bad", _(NO_LONGER))
    go_to("/office/lists")


@app.post("/office/lists/bring")
def bring_list() -> str:
    """Imports a list that was tried, without whom the clerk leaves out. If what it replaces has changed since, or nobody has said
    of people under former identifiers that they are the same ones, the clerk looks again."""
    office, name = office_now(), text_of("held")
    out = [ident for ident in ticked("out") if ident in office.people]
    job = held_list(office, name, out)
    if out:
        tell("good", _("You have left out {people}: this list changes nothing for them.", people=", ".join(out)))
    if out and not job.people():
        tell("bad", _("You have left out everybody. Nothing came in."))
        go_to("/office/lists")
    if is_stale(office, job):
        return look_again(office, job)
    if office.has_label(job.label):
        tell("bad", label_taken(job))
        go_to("/office/lists")
    again = [ident for ident, __ in job.former] if field("again") else []
    try:
        if change("import", **job.fields(again)):
            come_in(name, job, is_told=True)
    except WasAnothers as why:
        return look_again(office, job, says=str(why))
    if is_in(office := office_now(), job):
        come_in(name, job)
    if is_stale(office, job):
        return look_again(office, job)
    go_to("/office/lists")


def come_in(name: str, job: Job, is_told: bool = False) -> NoReturn:
    """What follows once a list is in. The clerk reads so now if nobody said it before: the keeper's answer may be lost. Or the list
    may be in for long, as by another clerk, and its addresses be changed since: then none comes in without a yes."""
    memory.replace(clerk(), name, Brought(job.label, job.made))
    if not is_told:
        tell("good", list_slips.once_in(job.label, None)[0])
    elif not mail_lists.bring(job.mail_of_new()):
        tell("bad", _("To bring them in later, send the list again under another label: nobody on it changes, and the page then "
                      "asks for the addresses and languages that are not in yet."))
    for kind, text in list_slips.which_work(job.people(), job.made) if job.kind == "people" else ():
        tell(kind, text)
    known = job.mail_of_known() if is_told else job.mail_of_same(office_now())
    held = memory.hold(clerk(), known) if known.people() else ""
    if held:
        tell("bad", _("The list has new mail addresses or languages of people who were in the register already: {people}. These "
                      "are not in yet.", people=plain.people(len(known.people()))))
    if job.departed:
        go_to(f"/office/departed/{memory.hold(clerk(), Departed(job.departed, held))}")
    go_to(f"/office/mail/addresses/{held}" if held else "/office/lists")


def is_in(office: Office, job: Job) -> bool:
    """Whether just this list came in under its label: the program answers as it did then. It cannot if somebody has blanked the
    list since: then keys of it tell, which nobody else has."""
    kept = next((kept for kept in office.lists if kept.label == job.label), None)
    if kept and kept.is_blank and kept.kind == job.kind == "people":
        keys = [record.fields[2] for record in CsvList(job.body).records[1:KEYS_ASKED + 1]]
        return any(answer.status == ACCEPTED for answer in attempt(*(f"me {key}" for key in keys)))
    return kept is not None and try_list(job).status == ACCEPTED


def label_taken(job: Job) -> str:
    """What a clerk reads if another list came in under the label of a list that was tried."""
    says = _("A list was imported under the label {label} meanwhile. Send yours under another label.", label=job.label)
    return f"{says} {list_slips.all_void(job.made)}" if job.made else says


def is_stale(office: Office, job: Job) -> bool:
    """Whether what a list replaces has changed since it was tried."""
    return job.saw is not None and job.saw != office.saw(job.saw.part, *job.saw.people)


def look_again(office: Office, job: Job, keys: tuple[Key, ...] = (), says: str = "") -> str:
    """The page of a list, as it is now that somebody else has changed what it replaces, or for the reason that is given. These keys
    are shown once more."""
    tell("bad", says or _("What this list replaces has changed since you tried it. Nothing came in: look again."))
    table, beside = CsvList(job.body), NOBODY
    if job.kind == "people":
        beside = known_people.compare(office, table)._replace(departed=list(job.departed))
    if beside.known:
        came = ", ".join(sorted(table.records[number].fields[0] for number in beside.known))
        tell("bad", list_slips.void(came, job.made))
    return looked_at(office, job, table, beside, None, keys)


# --- who is in the register, and not on the list

def departed_form(office: Office, idents: tuple[str, ...]) -> dict[str, Any]:
    """The form that offers to remove people, or to let them leave, as the page takes them at once, and no new keys."""
    left = [office.people[ident] for ident in idents if ident in office.people]
    acts = {act: text for act, text in acts_for(office).items() if act != KEYS}
    return {"departed": left, "text": "\n".join(person.ident for person in left[:MOST_AT_ONCE]), "acts": acts,
            "most": MOST_AT_ONCE}


@app.get("/office/departed/<name>")
def departed(name: str) -> str:
    """People of the register who are not on the list that has come in."""
    kept: Any = memory.held(clerk(), name)
    if not isinstance(kept, Departed):
        tell("bad", _("The page no longer knows who was not on the list. Send the list again: it changes nothing."))
        go_to("/office/lists")
    office = office_now()
    return show("departed", office=office, mailed=kept.mailed, **departed_form(office, kept.idents))


@app.get("/office/blank/<label>")
def ask_blank(label: str) -> str:
    """Asks before the bytes of a kept list are deleted."""
    office = office_now()
    if not office.has_label(label):
        tell("bad", _("Nothing was changed. {why}", why=REFUSALS[25].translated()))
        go_to("/office/lists")
    says = [_("The office keeps the list {label} as it was imported, with names, keys, homes or wishes. Blanking "
              "deletes what is in it. The register does not change, and the label stays taken.", label=label),
            _("You cannot take it back. Older copies still hold the list until they are deleted.")]
    title = _("Blank the list {label}?", label=label)
    return put_question(office, Question(title, says, _("Yes: blank it"), "/office/lists"))


@app.post("/office/blank/<label>")
def blank(label: str) -> None:
    """Deletes the bytes of a kept list."""
    try:
        reply = ask("blank", label=label, seen=field("seen"))
    except KeeperFault as fault:
        tell_fault(fault)
        go_to("/office/lists")
    tell("good", _("The list {label} is blank.", label=label))
    tell_unkept(reply)
    go_to("/office/lists")
