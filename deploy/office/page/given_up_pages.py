"""Brings back into the round that is open what a round had that was given up: notes of who leaves, withdrawals, and lists."""

from dataclasses import dataclass, field as own
from typing import ClassVar, NamedTuple

from bottle import request  # type: ignore[import]  # Debian's bottle has no types

from languages import N_, _
from seen import Saw, why_other

import plain
from app import app, ask, clerk, field, go_to, is_done, memory, office_now, show, tell, ticked
from coming_back import (LISTS, TAKES_PART, Back, GivenUp, bodies, had_in, has_come_again, listed, rounds, said_later,
                         what_is_left)
from keeper_client import KeeperFault, answers_of
from list_pages import Job
from many_pages import bundle_of, carry_out
from office_view import Office
from questions import must_be_sure


class Row(NamedTuple):
    """Somebody who took no part in the round that was given up, as the form shows them."""

    ident: str
    name: str
    home: str
    is_ticked: bool
    note: str


class TakenOut(NamedTuple):
    """Whom the clerk has taken out of the form, and whose lists. They stay out when the form is shown again."""

    idents: list[str]
    lists: list[str]


def round_of(office: Office, copy: str) -> GivenUp:
    """The round that was given up after this copy was made. If there is none, leads to the overview."""
    found = next((one for one in rounds(office) if one.copy == copy), None)
    if found is None:
        tell("bad", _("Nothing of this round can come back now."))
        go_to("/office/")
    return found


def out_of(back: Back, later: list[str]) -> TakenOut:
    """Who is not ticked: the one person who is being undone, and who said something in a later round; or everybody whom the clerk
    has taken out before."""
    query = dict(request.query)
    if "out" not in query:
        return TakenOut([*query.get("but", "").split(), *(one for one in back.away if one in later)],
                        [one for one in back.lists if one in later])
    held = memory.held(clerk(), query["out"])
    if isinstance(held, TakenOut):
        return held
    tell("bad", _("The page no longer knows whom you had taken out. Tick again who is to come back."))
    return TakenOut(back.away, list(back.lists))


def rows_of(office: Office, back: Back, idents: list[str], out: list[str]) -> list[Row]:
    """The people of a part of the form. People who have handed in a list since are not ticked either."""
    found = []
    for ident in idents:
        has_list = office.choices.get(ident) and ident not in back.same and ident not in out
        note = (_("Has a list on record in this round") if has_list else
                _("Taken out: this does not come back") if ident in out or ident in back.out else "")
        person = office.people[ident]
        found.append(Row(ident, person.name, person.home or _("no room"), not note, note))
    return found


@app.get("/office/given-up/<copy>")
def given_up(copy: str) -> str:
    """What of a round can come back, for the clerk to choose from."""
    office = office_now()
    found, had = round_of(office, copy), had_in(copy)
    back = what_is_left(office, had)
    later = [one._replace(people=[ident for ident in one.people if ident in back.away or ident in back.lists])
             for one in said_later(office, copy, had)]
    out = out_of(back, [ident for one in later for ident in one.people])
    parts = {"going": rows_of(office, back, back.going, out.idents), "withdrawn": rows_of(office, back, back.withdrawn, out.idents)}
    away = [row.ident for rows in parts.values() for row in rows if row.is_ticked]
    return show("given_up", office=office, given_up=found, left=back, parts=parts, lists=back.lists, out=out.lists,
                later=[one for one in later if one.people or one.fault], listed=listed,
                rest=away or back.lists_but(away) or back.longer, saw=office.saw("all", *back.away, *back.longer).mark,
                others=[one for one in rounds(office) if one.copy != copy])


@app.post("/office/given-up/<copy>")
def bring_back(copy: str) -> None:
    """Brings back what the clerk has chosen, and says what came in and what did not."""
    office = office_now()
    round_of(office, copy)
    back, going, withdrawn = what_is_left(office, had_in(copy)), ticked("going"), ticked("withdrawn")
    lists = ticked("list") if field("lists") == "yes" else []
    out = TakenOut([ident for ident in back.away if ident not in going + withdrawn],
                   [ident for ident in back.lists if field("lists") == "yes" and ident not in lists])
    place = f"/office/given-up/{copy}?out={memory.hold(clerk(), out)}"
    must_be_sure(place)
    if not office.may("choose") or field("seen") != office.state:
        tell("bad", _("Nothing was changed. {phase}. Look again.", phase=_(plain.PHASES[office.phase].title)))
        go_to(place)
    if why := why_other(office.view, Saw("all", [*back.away, *back.longer], field("saw"))):
        tell("bad", why)
        go_to(place)
    leave = [one for one in out.idents if not has_come_again(office, one, back)]
    if (going or withdrawn or lists or field("longer")) and not is_done("take-out", name=copy, people=leave):
        go_to(place)
    came, before = Came(takes_part=out.idents), office
    if lists:  # before the withdrawals, as it was: nobody's list is lost by a way back later on
        office = office_now()
        came.take_lists(office, "lists", {ident: wishes for ident, wishes in back.lists.items()
                                          if ident in lists and not office.choices.get(ident)})
    if field("longer"):
        came.take_lists(before, "longer", back.longer)
    office = office_now()
    came.take_away(office, "going", [ident for ident in back.going if ident in going])
    came.take_away(office, "withdraw", [ident for ident in back.withdrawn if ident in withdrawn])
    came.report()
    go_to(place)


@dataclass
class Came:
    """What has come in so far, and the fault that has ended this, if any. `takes_part` are people whose note or withdrawal does not
    come back."""

    WORDS: ClassVar = {"going": N_("who leaves the college: {count} of {all}"), "withdraw": N_("withdrawals: {count} of {all}"),
                       "lists": N_("lists: {count} of {all}"), "longer": N_("rooms of lists: {count} of {all}")}

    takes_part: list[str]
    done: list[str] = own(default_factory=list)
    fault: str = ""

    def take_away(self, office: Office, act: str, idents: list[str]) -> None:
        """Withdraws people, or notes that they leave."""
        if not idents or self.fault:
            return
        came = carry_out(bundle_of(office, act, idents))
        self.fault = came.fault
        if came.people:
            self.done.append(_(self.WORDS[act], count=came.people, all=len(idents)))

    def take_lists(self, office: Office, part: str, lists: dict[str, list[str]]) -> None:
        """Imports lists, under a label each if they are too long for one, unless one was handed in after the office was so."""
        count, again = 0, {ident: wishes for ident, wishes in lists.items() if ident in self.takes_part}
        rest = {ident: wishes for ident, wishes in lists.items() if ident not in again}
        for stem, people, body in [*bodies(TAKES_PART, again), *bodies(LISTS, rest)]:
            job = Job("choices", office_now().new_label(stem), body, office.saw("list", *people))
            self.fault = self.fault or fault_of_list(job)
            if self.fault:
                break
            count += len(people)
        if count:
            self.done.append(_(self.WORDS[part], count=count, all=len(lists)))

    def report(self) -> None:
        """Tells the clerk."""
        if self.done:
            tell("good", _("Back in this round: {what}.", what=", ".join(self.done)))
        if self.fault:
            tell("bad", _("Then this came: {fault} What is not back yet stands below: look, and go on.", fault=self.fault))
        elif not self.done:
            tell("bad", _("You have chosen nothing. Nothing was changed."))


def fault_of_list(job: Job) -> str:
    """Imports a list, unless somebody of it has handed in one meanwhile. What went wrong, or nothing."""
    try:
        reply = ask("import", seen=field("seen"), **job.fields())
    except KeeperFault as fault:
        return str(fault)
    return "" if reply["done"] else str(plain.meaning(answers_of(reply)[-1].text))
