"""What leaves the office: exports, the public record, copies and the way back, and the journal."""

import csv
import io
import re
from collections.abc import Iterable
from pathlib import Path
from typing import Any, NamedTuple

import bottle  # type: ignore[import]  # Debian's bottle has no types

import times
from entries import merged
from journal import OWN_TEXTS
from languages import N_, _, ngettext
from lines import ACCEPTED

import explaining
import plain
import reasons
from app import HERE, app, ask, download, drawn_order, field, go_to, office_now, show, tell, tell_fault, text_of
from keeper_client import KeeperFault, answers_of
from many_pages import propose_keys
from office_view import Office
from questions import Fact, Question, put_question

SHOWN_ENTRIES = 1000
# Where a spreadsheet begins a formula: at the start of a field. It may read a comma or a semicolon in a name as the end
# of a field, if it expects other separators than the file has.
FORMULA = re.compile(r"(?:^|(?<=[,;\t]))(?=\s*[=+\-@＝＋－＠]|[\t\r\n])")


@app.get("/office/office.css")
def css() -> bottle.HTTPResponse:
    """The style of the page."""
    return bottle.static_file("office.css", root=str(HERE), mimetype="text/css")


# --- print and export

@app.get("/office/print")
def print_page() -> str:
    """All that can be printed or downloaded."""
    return show("print", office=office_now())


def csv_of(header: list[str], rows: Iterable[list[Any]]) -> str:
    """A list in CSV for a spreadsheet: an apostrophe comes before what would be a formula. No identifier, code or grade
    is one."""
    text = io.StringIO(newline="")
    guarded = ([FORMULA.sub("'", str(value)) for value in row] for row in rows)
    csv.writer(text, lineterminator="\n").writerows([header, *guarded])
    return text.getvalue()


def own_export(office: Office, name: str) -> str | None:
    """The exports that the program does not have, made of the rows that the page shows.

    No list of people has this first line: a name with an apostrophe before it cannot come in again by mistake.
    """
    if name == "register":
        return csv_of(["person", "name", "room", "grade"], (
            [one.ident, one.name, one.home or "", one.grade] for one in office.people.values()))
    if name == "results":
        return csv_of(["person", "name", "old", "new", "outcome"], (
            [ident, office.people[ident].name, office.people[ident].home or "", room or "", office.outcome(ident)]
            for ident, room in office.results.items()))
    if name == "choices":
        # With the list of somebody who takes no part the whole list could not be imported again.
        lists = [(ident, office.choices[ident]) for ident in sorted(office.choices) if office.people[ident].takes_part]
        return csv_of(["person", "choices"], ([ident, " ".join(rooms)] for ident, rooms in lists))
    if name == "order" and office.may("order"):
        return csv_of(["place", "person", "name", "grade", "word"], (
            [place, ident, office.people[ident].name if ident in office.people else "", grade, word]
            for place, word, ident, grade in drawn_order()))
    groups = {"missing": office.without_list, "withdrawn": office.withdrawn, "leavers": office.going,
              "without-room": office.without_room}
    if name not in groups:
        return None
    return csv_of(["person", "name", "home"], ([one.ident, one.name, one.home or ""] for one in groups[name]))


@app.get("/office/export/<name>.csv")
def export(name: str) -> bottle.HTTPResponse:
    """One export."""
    if name in (*plain.EXPORTS, plain.PEOPLE):
        text, status = answers_of(ask("export", kind=name))[0]
        if status == ACCEPTED:
            return download(text, f"{name}.csv")
    own = own_export(office_now(), name)
    return bottle.HTTPError(404) if own is None else download(own, f"{name}.csv")


# --- the public record

@app.get("/office/record")
def record_page() -> str:
    """What the public record is, and what it shows of people's wishes."""
    return show("record", office=office_now())


@app.post("/office/record")
def record() -> bottle.HTTPResponse:
    """The public record of the round."""
    return download(ask("record")["body"], f"round-{office_now().number}.txt", "text/plain; charset=utf-8")


@app.get("/office/<name:re:audit(_record)?>.py")
def audit_download(name: str) -> bottle.HTTPResponse:
    """The program of the audit, which is two files: the audit, and what reads the record."""
    module = explaining.audit_program()
    if module is None:
        return bottle.HTTPError(404)
    return download(Path(str(module.__file__)).with_name(f"{name}.py").read_bytes(), f"{name}.py", "text/plain; charset=utf-8")


@app.get("/office/check-draw.html")
def check_download() -> bottle.HTTPResponse:
    """The page that checks a draw. It has a script, so it is opened from a file: no page of the office's has one."""
    return download((HERE.parent / "check-draw.html").read_bytes(), "check-draw.html", "text/html; charset=utf-8")


# --- copies and the way back

# What the office is after the way back, by the phase of the copy.
THEN = {
    "idle": N_("Then this holds again: no round is under way."),
    "open": N_("Then this holds again: the round is open (round {number})."),
    "closed": N_("Then this holds again: the round is closed (round {number})."),
    "drawn": N_("Then this holds again: the order is drawn (round {number})."),
    "ran": N_("Then this holds again: the rooms are given (round {number})."),
    "published": N_("Then this holds again: the results are published (round {number})."),
}
# Whose list does not count after the way back, if no round is open then, and if one is.
LOST = {
    False: N_("These people had another list before, which does not count now: {people}. Tell them so. While no round is open, "
              "nobody can hand in a list."),
    True: N_("These people had another list before, which does not count now: {people}. Tell them to hand it in again."),
}


class Copy(NamedTuple):
    """A copy of the office: its name, when it was made, its size, and why it was taken; until which day it stays at most,
    and after how many more of its kind it goes earlier."""

    name: str
    made: str
    kilobytes: int
    why: str
    until: str
    more: int


def copies_of(kept: dict[str, Any]) -> list[Copy]:
    """The copies as the keeper lists them, the newest first. The name of each is the time when it was made, in UTC."""
    return [Copy(name, times.of_copy(name), size // 1024, reasons.of_copy(why), *kept["stays"].get(name, ("", 0)))
            for name, size, why in reversed(kept["backups"])]


@app.get("/office/copies")
def copies() -> str:
    """The copies that are kept, the newest first."""
    kept = ask("backups")
    return show("copies", office=office_now(), copies=copies_of(kept), days=kept["days"])


@app.post("/office/copies/days")
def look_at_days() -> None:
    """Leads to the question about a number of days."""
    days = text_of("days")
    if not re.fullmatch(r"[0-9]{1,4}", days):
        tell("bad", _("Write a number of days, such as 400. Nothing was changed."))
        go_to("/office/copies")
    go_to(f"/office/copies/days/{int(days)}")


@app.get("/office/copies/days/<days:int>")
def ask_days(days: int) -> str:
    """Asks before copies stay for another number of days."""
    now, gone = ask("backups")["days"], days_gone(days, only_try=True)
    says = [ngettext("Now a copy stays for one day at most.", "Now a copy stays for {count:,} days at most.", now),
            ngettext("One copy is older, and is deleted at once. You cannot take this back.",
                     "{count} copies are older, and are deleted at once. You cannot take this back.", gone)
            if gone else _("No copy is older now."),
            ngettext("From then on each copy is deleted when it is one day old, or earlier if there are enough newer ones of its "
                     "kind. Copies that the administrator has taken elsewhere stay there.",
                     "From then on each copy is deleted when it is {count:,} days old, or earlier if there are enough newer ones "
                     "of its kind. Copies that the administrator has taken elsewhere stay there.", days)]
    title = ngettext("Keep copies for one day at most?", "Keep copies for {count:,} days at most?", days)
    return put_question(office_now(), Question(title, says, _("Yes: keep them for so long"), "/office/copies", saw=str(now)))


@app.post("/office/copies/days/<days:int>")
def set_days(days: int) -> None:
    """Sets for how many days copies stay."""
    gone = days_gone(days, was=field("saw"))
    deleted = ngettext("{count} copy was deleted.", "{count} copies were deleted.", gone) if gone else _("No copies were deleted.")
    stay = ngettext("Copies stay for one day at most.", "Copies stay for {count:,} days at most.", days)
    tell("good", f"{stay} {deleted}")
    go_to("/office/copies")


def days_gone(days: int, **fields: Any) -> int:
    """How many copies are older than so many days, and are deleted unless this is only tried."""
    try:
        return int(ask("days", days=days, **fields)["gone"])
    except KeeperFault as fault:
        tell("bad", plain.begun(str(fault)))
        go_to("/office/copies")


@app.post("/office/copies")
def copy() -> None:
    """Makes a copy of the office."""
    tell("good", _("The copy of {time} is made.", time=times.of_copy(ask("backup")["name"])))
    go_to("/office/copies")


def facts_of(found: dict[str, Any]) -> tuple[Fact, ...]:
    """What becomes of people by going back to a copy."""
    named = {name: [f"{ident} {person}" for ident, person in found[name]] for name in ("come", "go")}
    facts = [Fact(_("People who have another key now than then"), found["keys"]),
             Fact(_("Of these, people whose key of the copy is the newer one: it works again in any case"),
                  found["newer_then"]),
             Fact(_("Identifiers that may be another person's in the copy than now: the key of the copy works again in any "
                    "case, and nothing of the person of now comes over"), found["others"]),
             Fact(_("Identifiers whose mail address, messages, language or account may be of another person than that of the "
                    "copy: this is erased, and does not come back"), found["gone"]),
             Fact(_("Names that become again what they were"),
                  [_("{person}: {old}, now {new}", person=ident, old=old, new=new) for ident, old, new in found["names"]]),
             Fact(_("People who come back into the register"), named["come"]),
             Fact(_("Of these, people who were forgotten since then: forget them again afterwards"), found["forgotten"]),
             Fact(_("People who go out of the register"), named["go"]),
             Fact(_("People whose lists of this round become again what they were"), found["lists"]),
             Fact(_("People whose withdrawal, or note that they leave the college, goes or comes back"), found["part"]),
             Fact(_("People whose grade becomes again what it was"), found["grades"]),
             Fact(_("Rooms that become again what they were"), found["rooms"], of_rooms=True)]
    return tuple(fact for fact in facts if fact.items)


@app.get("/office/copies/<name>/back")
def ask_back(name: str) -> str:
    """Asks before the office goes back to a copy."""
    office, found = office_now(), ask("compare", name=name)
    number, phase = found["round"]
    made = times.of_copy(name)
    says = [_("The office becomes again what it was when the copy was made, on {time}. All that happened since then is undone: "
              "lists that residents handed in, steps of the round, imports, and what you changed in the register.", time=made),
            _(THEN[phase], number=number),
            _("The keeper makes a copy of the present office first, so you can come back from this too."),
            _("Tell the residents if they handed in lists after the copy: they have to hand them in again.")]
    if found["come"]:
        says.append(_("Of people who were removed and come back into the register, the language of slips, letters and mails "
                      "does not come back, nor does their mail address. Set both again."))
    if found["date"]:
        says.append(_("The date until which lists are taken is forgotten."))
    title = _("Go back to the copy of {time}?", time=made)
    keys = ("newer", _("Keep the newer keys. Without this tick the old ones work again, also for somebody who has found or "
                       "copied one.")) if found["newer_now"] else None
    return put_question(office, Question(title, says, _("Yes: go back to this copy"), "/office/copies", saw=found["mark"],
                                         facts=facts_of(found), choice=keys, no=_("No: leave the office as it is now")))


@app.post("/office/copies/<name>/back")
def back(name: str) -> None:
    """Puts a copy back, if that undoes what the question has named. If it does not, the question comes again."""
    try:
        found = ask("back", name=name, seen=field("seen"), mark=field("saw"), newer_keys=bool(field("newer")))
    except KeeperFault as fault:
        tell_fault(fault)
        go_to(f"/office/copies/{name}/back")
    tell("good", _("The office is back at the copy of {time}. What it was before is in the copy of {before}.",
                   time=times.of_copy(name), before=times.of_copy(found["name"])))
    if gone := found.get("gone"):
        tell("bad", _("What was kept of these identifiers may have been of other people than those of the copy, and was erased: "
                      "{people}.", people=", ".join(gone)))
    if forgotten := found.get("forgotten"):
        tell("bad", _("These people were forgotten, and are in the register again: {people}. Forget them again.",
                      people=", ".join(forgotten)))
    if lost := found.get("lost"):
        tell("bad", _(LOST[found["round"][1] == "open"], people=", ".join(lost)))
    if part := found.get("part"):
        tell("bad", _("Of these people the withdrawal, or the note that they leave the college, is again as it was: {people}. Tell "
                      "them so.", people=", ".join(part)))
    if unkept := found.get("unkept"):
        tell("bad", unkept)
    if keys := [person for person in found.get("keys", []) if person not in found["newer_then"]]:
        tell("bad", ngettext("One person has the key of the copy again, and the key of before does not work. If a key was lost, or "
                             "others know it, make a new key now. Take out whoever needs none.",
                             "{count} people have the keys of the copy again, and the keys of before do not work. If a key was "
                             "lost, or others know it, make a new key now. Take out whoever needs none.", len(keys)))
        propose_keys(keys)
    go_to("/office/")


# --- the journal

@app.get("/office/journal")
def journal() -> str:
    """What was done, the newest first."""
    entries = merged(ask("journal", last=SHOWN_ENTRIES)["journal"])
    return show("journal", office=office_now(), entries=entries[::-1], own=OWN_TEXTS, told_who=reasons.told_who)
