"""Many people at once, by a list of their identifiers."""

import re
import secrets
from typing import Any, NamedTuple, NoReturn

from journal import KEY, masked, masked_line
from languages import N_, _, ngettext
from lines import UNAVAILABLE, lines_to_remove
from seen import Saw

import keys_made
import plain
from app import app, ask, attempt, clerk, field, go_to, memory, not_done, office_now, show, tell, tell_unkept, text_of, ticked
from keeper_client import Answer, KeeperFault, Unsure, answers_of
from office_view import Office
from questions import must_be_sure
from slips import show_once

MOST_AT_ONCE = 300


class Bundle(NamedTuple):
    """Lines for people, and what was on record of these people when the lines were tried."""

    lines: list[str]
    saw: Saw


class Many(NamedTuple):
    """Lines for many people that were tried and wait for the clerk's yes, and the mark of what was on record of each. `unlisted` if
    those alone are meant who have no list on record."""

    act: str
    idents: list[str]
    bundle: Bundle
    marks: dict[str, str]
    unlisted: bool


class Proposed(NamedTuple):
    """People who may need new keys."""

    idents: list[str]


# New keys for many people are one change, with one copy before it, in any phase.
KEYS = "keys"
# What cannot be taken back within the round.
AWAY = ("withdraw", "going")
# What it is called, and the clerk's yes to it.
ACTS = {
    "withdraw": (N_("Withdraw them from the round"), N_("Yes: withdraw them from the round")),
    "going": (N_("Note that they leave the college at the end of the round"),
              N_("Yes: note that they leave the college at the end of the round")),
    "leave": (N_("Let them leave their rooms"), N_("Yes: let them leave their rooms")),
    "remove": (N_("Remove them from the register"), N_("Yes: remove them from the register")),
    KEYS: (N_("Make new keys for them"), N_("Yes: make new keys for them")),
}


def lines_for(office: Office, act: str, ident: str) -> list[str]:
    """The lines that do something to one person of many."""
    home = office.people[ident].home
    if act == "remove":
        return lines_to_remove(ident, home)
    return [f"{act} {ident}"] if act in AWAY or home else []


def bundle_of(office: Office, act: str, idents: list[str]) -> Bundle:
    """The lines for all of these people."""
    if act == KEYS:
        return Bundle([], office.saw("key", *idents))
    return Bundle([line for ident in idents for line in lines_for(office, act, ident)], office.saw("all", *idents))


def acts_for(office: Office) -> dict[str, str]:
    """What can be done to many people now."""
    return {act: _(text) for act, (text, __) in ACTS.items() if act == KEYS or office.may(act)}


def show_many(office: Office, acts: dict[str, str], text: str, faults: list[str], job: Many | None = None, act: str = "",
              unlisted: bool = False) -> str:
    """The form; or, if the identifiers were tried, whom they name, and the question. `unlisted` if those alone are meant who have
    no list on record."""
    held, yes = (memory.hold(clerk(), job), _(ACTS[job.act][1])) if job else ("", "")
    return show("many", office=office, acts=acts, text=text, faults=faults, job=job, held=held, yes=yes, chosen=act,
                unlisted=unlisted)


def tell_listed(office: Office, idents: list[str]) -> None:
    """Names those who are left out since they have handed in a list by now."""
    if listed := [one for one in idents if office.choices.get(one)]:
        tell("bad", _("Left out, since a list of theirs is on record now: {people}.", people=", ".join(listed)))


def unlisted_of(office: Office, idents: list[str]) -> list[str]:
    """Those of these people who have no list on record, or an empty one."""
    return [one for one in idents if not office.choices.get(one)]


@app.get("/office/many")
def many() -> str:
    """The form for a list of identifiers."""
    office = office_now()
    return show_many(office, acts_for(office), "", [])


def propose_keys(idents: list[str]) -> NoReturn:
    """Leads the clerk to the form for new keys, with these identifiers in it."""
    go_to(f"/office/many/{memory.hold(clerk(), Proposed(idents))}")


@app.get("/office/many/<name>")
def many_held(name: str) -> str:
    """The form with identifiers that the page holds: they are proposed for new keys, or wait for a yes and are sent again."""
    office, found = office_now(), memory.held(clerk(), name)
    if isinstance(found, Many):
        return show_many(office, acts_for(office), "\n".join(found.idents), [], act=found.act, unlisted=found.unlisted)
    if not isinstance(found, Proposed):
        go_to("/office/many")
    return show_many(office, {KEYS: _(ACTS[KEYS][0])}, "\n".join(found.idents), [])


@app.post("/office/many")
def look_at_many() -> str:
    """Shows whom the identifiers name, and tries the change on a copy."""
    office, act, text = office_now(), text_of("act"), masked(field("text") or " ".join(ticked("person")), _(KEY))
    acts, everybody = acts_for(office), bool(field("everybody")) and act == KEYS
    idents = list(dict.fromkeys(filter(None, re.split(r"[\s,;]+", text.upper()))))
    if everybody:
        idents, text = list(office.people), ""
    if unlisted := bool(field("unlisted")) and act == "withdraw":
        tell_listed(office, idents)
        idents = unlisted_of(office, idents)
    faults = wrong_with(office, act, idents, act in acts)
    job = None
    if not faults:
        bundle = bundle_of(office, act, idents)
        job = Many(act, idents, bundle, marks_of(office, bundle.saw.part, idents), unlisted)
        answers = attempt(*job.bundle.lines) if job.bundle.lines else []
        if answers and answers[-1].status:
            faults, job = [refused_at(job.bundle.lines[len(answers) - 1], answers[-1])], None
    return show_many(office, acts, text, faults[:20], job, act, unlisted)


def marks_of(office: Office, part: str, idents: list[str]) -> dict[str, str]:
    """The mark of what is on record of each of these people."""
    return {one: office.saw(part, one).mark for one in idents if one in office.people}


def changed_since(job: Many) -> list[str]:
    """Of whom something else is on record than when the clerk looked. After a start of the keeper nobody knows it of keys."""
    now = marks_of(office_now(), job.bundle.saw.part, job.idents)
    return [one for one, mark in job.marks.items()
            if now.get(one) != mark and mark.partition("-")[2] == now.get(one, mark).partition("-")[2]]


def wrong_with(office: Office, act: str, idents: list[str], can_be_done: bool) -> list[str]:
    """What is wrong with identifiers to which something is to be done."""
    faults = [_("No person has the identifier {person}.", person=ident[:20]) for ident in idents if ident not in office.people]
    if not can_be_done:
        faults = [_("This cannot be done now.")]
    elif not idents:
        faults = [_("You have named nobody.")]
    elif len(idents) > MOST_AT_ONCE and act != KEYS:
        faults = [_("These are {count} identifiers: send at most {most} at once.", count=len(idents), most=MOST_AT_ONCE)]
    known = [office.people[ident] for ident in idents if ident in office.people]
    if act in AWAY:
        faults += [_("{person} has withdrawn already.", person=person.ident) for person in known if person.withdrawn]
        faults += [_("{person} leaves the college already.", person=person.ident) for person in known if person.going]
    if act == "going":
        faults += [_("{person} has no room.", person=person.ident) for person in known if not person.home]
    return faults


@app.post("/office/many/do")
def do_many() -> None:
    """Carries out what was tried, as one bundle."""
    name = text_of("held")
    job: Any = memory.held(clerk(), name)
    if not isinstance(job, Many):
        tell("bad", _("The page no longer holds these identifiers. Nothing was changed: send them again."))
        go_to("/office/many")
    if job.act in AWAY:
        must_be_sure(f"/office/many/{name}")
    memory.let_go(clerk(), name)
    job = without_listed(job) if job.unlisted else job
    if job.act == KEYS:
        make_keys(job)
    came = carry_out(job.bundle) if job.bundle.lines else Came(len(job.idents), 0, "")
    if came.fault:
        tell("bad", ended_after(came, len(job.idents)))
        tell_changed(job, came)
        go_to("/office/register" if came.lines else sent_again(job))
    tell("good", ngettext("Done for one person.", "Done for {count} people.", len(job.idents)))
    go_to("/office/register")


def without_listed(job: Many) -> Many:
    """The same without those who have handed in a list since. If something else was changed of the others, all stay, and the keeper
    says so."""
    office, marks = office_now(), job.marks
    rest = unlisted_of(office, job.idents)
    if rest == job.idents or any(office.saw("all", one).mark != marks[one] for one in rest):
        return job
    tell_listed(office, job.idents)
    if not rest:
        go_to("/office/second")
    return job._replace(idents=rest, bundle=bundle_of(office, job.act, rest))


def sent_again(job: Many) -> str:
    """The address of the form with the same people."""
    return f"/office/many/{memory.hold(clerk(), job)}"


def make_keys(job: Many) -> None:
    """Makes the new keys in one step, and leads to the slips of those who got one, and to the form with the others."""
    office, keys = office_now(), {ident: secrets.token_hex(16) for ident in job.idents}
    try:
        reply = ask("keys", keys=keys, seen=field("seen"), saw=job.bundle.saw)
    except KeeperFault as fault:
        made = keys_made.after(fault, keys)
        if not made:
            tell_changed(job, Came(0, 0, str(fault), isinstance(fault, Unsure)))
            go_to(sent_again(job))
        reply = {"corrected": len(made)}
    made, onward = job.idents[:reply["corrected"]], "/office/register"
    if len(made) < len(job.idents):
        onward = sent_again(job._replace(idents=job.idents[len(made):]))
    if "refused" in reply:
        line, why = reply["refused"]
        tell("bad", _("New keys were made for the first {people} of {count} people, who have slips here. At the line {line} it "
                      "ended: {why} The form behind the slips has the others.", people=len(made), count=len(job.idents), line=line,
                      why=plain.begun(why)))
    show_once([(ident, office.people[ident].name, keys[ident]) for ident in made], onward)


def tell_changed(job: Many, came: "Came") -> None:
    """Names those of whom something was changed meanwhile, if that is why nothing was done."""
    if not came.lines and not came.unsure and (changed := changed_since(job)):
        tell("bad", _("Changed since you looked: {people}.", people=", ".join(changed)))


class Came(NamedTuple):
    """For how many people a bundle was carried out, how many of its lines were, and what ended it, or nothing. `unsure` if nobody
    knows whether it was carried out."""

    people: int
    lines: int
    fault: str
    unsure: bool = False


def carry_out(bundle: Bundle) -> Came:
    """Carries out a bundle. If one of its lines is refused in the office, those before it stand."""
    try:
        reply = ask("do", lines=bundle.lines, seen=field("seen"), saw=bundle.saw)
    except KeeperFault as fault:
        return Came(0, 0, not_done(fault), isinstance(fault, Unsure))
    tell_unkept(reply)
    answers, count = answers_of(reply), reply["made"]
    made, left = ({line.split()[1] for line in part} for part in (bundle.lines[:count], bundle.lines[count:]))
    return Came(len(made - left), count, "" if reply["done"] else refused_at(bundle.lines[len(answers) - 1], answers[-1]))


def refused_at(line: str, answer: Answer) -> str:
    """What the clerk reads of a line of many that was not carried out, or of which nobody knows it."""
    text = N_("At the line {line} it ended: {why}") if answer.status == UNAVAILABLE else N_("The line {line} is refused: {why}")
    return _(text, line=masked_line(line), why=plain.meaning(answer.text))


def ended_after(came: Came, count: int) -> str:
    """What the clerk reads of a bundle that was not carried out for all."""
    if not came.lines:
        return came.fault
    return _("This was done for the first {people} of {count} people, and not for the rest. {fault} Look how far it came before "
             "you go on.", people=came.people, count=count, fault=came.fault)
