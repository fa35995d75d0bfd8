"""What residents read of rooms: the notice and the contact, descriptions as a list, plans and pictures.

All of it is public, and can be changed at any time. None of it is in the office's file.
"""

import base64
import re
from collections.abc import Collection
from typing import Any, NamedTuple

from languages import N_, _, languages, ngettext
from lines import LONGEST_LIST
from meanings import Meaning
from told import FIELDS, LONGEST_CAPTION, LONGEST_CONTACT, LONGEST_NOTICE, MOST_OF_ROOM
from told_files import PICTURE

import pictures
import plain
import told_rooms
import understanding
from app import (app, ask, clerk, field, go_to, list_sent, memory, office_now, residents_page, show, tell, text_of, uploads_of,
                 why_not_read)
from keeper_client import KeeperFault
from list_faults import Fault
from office_view import Office
from questions import Question, put_question
from sheet_limits import Unreadable
from told_rooms import Rooms
from understanding import NotUnderstood

PLACE = "/office/told"
# The languages of the residents' page as it comes, and what a clerk reads of each. Any other has its name in itself.
LANGUAGES = {"en": N_("English"), "de": N_("German")}
SHOWN = 20  # rooms of a list that are shown before it is on the page


class Job(NamedTuple):
    """Descriptions that were understood and wait for the clerk's yes, with the mark of those that they replace."""

    rooms: Rooms
    mark: str


def told_now() -> tuple[dict[str, Any], dict[str, str]]:
    """What residents read now, and its marks."""
    found = ask("told")
    return found["told"], found["marks"]


def how_many_seen(office: Office, rooms: Collection[str]) -> int:
    """Of how many of these rooms residents see what is said: of those in the register."""
    return sum(code in office.rooms for code in rooms)


def languages_of(notice: dict[str, str]) -> dict[str, str]:
    """The languages in which there can be a notice, or is one, with their names."""
    others = {code: one.name for code, one in languages().items()}
    return {**{code: code for code in notice}, **others, **{code: _(name) for code, name in LANGUAGES.items()}}


def tell_keeper(question: str, good: str, **fields: Any) -> bool:
    """Has the keeper change what residents read, and says what came of it."""
    try:
        ask(question, **fields)
    except KeeperFault as fault:
        tell("bad", plain.begun(str(fault)))
        return False
    tell("good", good)
    return True


@app.get(PLACE)
def told_page() -> str:
    """What residents read now, and the forms."""
    office, (told, marks) = office_now(), told_now()
    without = [code for code, room in office.rooms.items() if code not in told["rooms"] and not room.shut]
    unknown = [code for code in {**told["rooms"], **told["pictures"]} if code not in office.rooms]
    return show("told", office=office, told=told, marks=marks, noticed=languages_of(told["notice"]), without=without,
                unknown=unknown, most_notice=LONGEST_NOTICE, most_contact=LONGEST_CONTACT, most_caption=LONGEST_CAPTION,
                most_pictures=MOST_OF_ROOM, address=residents_page())


# --- the notice and the contact

def lines_of(name: str) -> str:
    """A field of several lines, without spaces at the ends of lines and empty lines at its own ends."""
    return "\n".join(line.strip() for line in field(name).strip().splitlines())


@app.post(f"{PLACE}/words")
def tell_words() -> str:
    """Puts the notice and the contact on the residents' page. What cannot be put there stays in the form, with the mark of what
    its clerk saw: so a second press does not replace what another clerk has written meanwhile, either. What that is stands above
    the form, also that a notice was taken away: else it would look as if it were still there."""
    known = languages_of(told_now()[0]["notice"])
    notice, contact = {language: lines_of(f"notice-{language}") for language in known}, text_of("contact")
    if tell_keeper("tell-words", _("The notice and the contact are on the residents' page."), notice=notice, contact=contact,
                   saw=field("saw")):
        go_to(PLACE)
    told, marks = told_now()
    return show("told_words", office=office_now(), notice=notice, contact=contact,
                noticed={**known, **languages_of(told["notice"])}, told=told, is_other=marks["words"] != field("saw"),
                marks={"words": field("saw")}, most_notice=LONGEST_NOTICE, most_contact=LONGEST_CONTACT)


# --- descriptions

@app.post(f"{PLACE}/rooms")
def look_at_rooms() -> str:
    """Reads a list of descriptions. Nothing is on the residents' page before the clerk says so."""
    office, body = office_now(), list_sent()
    if why := why_not_read(body, plain.DESCRIPTIONS_TOO_LONG):
        tell("bad", why)
        go_to(PLACE)
    try:
        read = understanding.read(plain.DESCRIPTIONS, body)
    except NotUnderstood as fault:
        return show("told_faults", office=office, whole=fault.meaning, faults=list[Fault]())
    if len(read.body) > LONGEST_LIST:
        tell("bad", _(plain.DESCRIPTIONS_TOO_LONG))
        go_to(PLACE)
    said = told_rooms.described(read.table)
    if said.faults or not said.rooms:
        whole = None if said.faults else Meaning(_("This list says nothing of any room."),
                                                       _("Fill in one of the columns {columns}.", columns=", ".join(FIELDS)))
        return show("told_faults", office=office, whole=whole, faults=said.faults)
    told, marks = told_now()
    return show("told_rooms", office=office, read=read, rooms=said.rooms, shown=list(said.rooms.items())[:SHOWN],
                beside=told_rooms.beside(office, told["rooms"], said.rooms), now=told["rooms"], fields=told_rooms.NAMES,
                held=memory.hold(clerk(), Job(said.rooms, marks["rooms"])))


@app.post(f"{PLACE}/rooms/bring")
def bring_rooms() -> None:
    """Puts descriptions on the residents' page."""
    name = text_of("held")
    job: Any = memory.held(clerk(), name)
    if not isinstance(job, Job):
        tell("bad", _("The page no longer holds this list. Nothing was changed now: send it again."))
        go_to(PLACE)
    count = how_many_seen(office_now(), job.rooms)
    if tell_keeper("tell-rooms", ngettext("The description of {count} room is on the residents' page.",
                                          "The descriptions of {count} rooms are on the residents' page.", count),
                   rooms=job.rooms, saw=job.mark):
        memory.let_go(clerk(), name)
    go_to(PLACE)


@app.get(f"{PLACE}/rooms/drop")
def ask_drop_rooms() -> str:
    """Asks before all descriptions go."""
    office, (told, marks) = office_now(), told_now()
    count = how_many_seen(office, told["rooms"])
    says = [ngettext("The residents' page no longer says anything of {count} room. Pictures stay.",
                     "The residents' page no longer says anything of {count} rooms. Pictures stay.", count),
            _("You cannot take it back here: to have the descriptions again, send your list again.")]
    return put_question(office, Question(_("Take all descriptions away?"), says, _("Yes: take them away"), PLACE,
                                         saw=marks["rooms"]))


@app.post(f"{PLACE}/rooms/drop")
def drop_rooms() -> None:
    """Takes all descriptions away."""
    tell_keeper("tell-rooms", _("The descriptions are gone."), rooms={}, saw=field("saw"))
    go_to(PLACE)


# --- pictures

def room_of(office: Office, name: str) -> str:
    """The room that the name of a file begins with, such as N-101-2.jpg; nothing if the register has no such room."""
    stem = name.rpartition(".")[0].upper()
    found = [code for code in office.rooms if stem == code or re.match(rf"{re.escape(code)}[-_. ]", stem)]
    return max(found, key=len, default="")


def add_picture(office: Office, code: str, name: str, data: bytes) -> str:
    """Adds one picture. Gives why it could not be added, or nothing."""
    room = code or room_of(office, name)
    if room not in office.rooms:
        return (_("no room {room} is in the register.", room=code) if code else
                _("its name begins with no room code of the register."))
    try:
        body = base64.b64encode(pictures.small(data)).decode()
        ask("add-picture", room=room, body=body, shows=text_of("shows")[:LONGEST_CAPTION])
    except (Unreadable, KeeperFault) as fault:
        return str(fault)
    return ""


@app.post(f"{PLACE}/pictures")
def add_pictures() -> None:
    """Adds pictures. Each that cannot be added is named, with the reason; the others come in."""
    office, code, count = office_now(), text_of("room").upper(), 0
    files = [(name, data) for name, data in uploads_of("pictures") if data]
    if not files:
        tell("bad", _("Choose a picture first."))
    for name, data in files:
        why = add_picture(office, code, name, data)
        count += not why
        if why:
            tell("bad", _("{name} was not added: {why}", name=name, why=why))
    if count:
        tell("good", ngettext("{count} picture is on the residents' page.", "{count} pictures are on the residents' page.", count))
    go_to(PLACE)


@app.get(f"{PLACE}/room/<code>")
def room_page(code: str) -> str:
    """What residents read of one room, with its pictures."""
    told = told_now()[0]
    if code not in told["rooms"] and code not in told["pictures"]:
        tell("bad", _("Residents read nothing of this room."))
        go_to(PLACE)
    return show("told_room", office=office_now(), code=code, said=told["rooms"].get(code, {}), fields=told_rooms.NAMES,
                pictures=told["pictures"].get(code, []))


@app.get(f"{PLACE}/room/<code>/<file>/drop")
def ask_drop_picture(code: str, file: str) -> str:
    """Asks before a picture goes."""
    if not PICTURE.fullmatch(file):
        go_to(PLACE)
    says = [_("Residents no longer see this picture of {room}. Browsers that have shown it may keep it for a day.", room=code),
            _("You cannot take it back here: to have it again, send its file again.")]
    return put_question(office_now(), Question(_("Take a picture of {room} away?", room=code), says, _("Yes: take it away"),
                                               f"{PLACE}/room/{code}"))


@app.post(f"{PLACE}/room/<code>/<file>/drop")
def drop_picture(code: str, file: str) -> None:
    """Takes a picture away."""
    tell_keeper("drop-picture", _("The picture of {room} is gone.", room=code), room=code, file=file)
    go_to(PLACE)
