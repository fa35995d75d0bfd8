"""The people of the register: search, one person, and what can be done to one person."""

import re
import secrets
import unicodedata

from journal import masked
from languages import _
from lines import ACCEPTED, IDENTIFIER, MOST_CHOICES, lines_to_remove
from mail_words import LONGEST_ADDRESS
from plan_of_moves import NONE

import explaining
import keys_made
import plain
from app import app, ask, attempt, change, clerk, field, go_to, is_done, memory, office_now, saw, show, tell, text_of, ticked
from keeper_client import KeeperFault, WasAnothers
from kept_beside import erased_with
from mail_lists import address_of
from office_view import Office, Person
from resident_languages import own_of
from questions import Question, must_be_sure, put_question
from slips import show_once

MOST_SHOWN = 200
# Letters that are no letter with a mark.
LIKE = {"þ": "th", "ð": "d", "đ": "d", "ø": "o", "æ": "ae", "œ": "oe", "ł": "l", "ı": "i"}


def plain_letters(text: str) -> str:
    """A text in small letters without marks, as somebody types it who has no such letters on the keyboard."""
    apart = unicodedata.normalize("NFKD", text.casefold())
    return "".join(LIKE.get(sign, sign) for sign in apart if not unicodedata.combining(sign))


def is_found(searched: str, text: str) -> bool:
    """Whether a text has what is searched for, with its marks, without them, or with `ue` for `ü`."""
    spelled_out = re.sub("[äöüÄÖÜ]", lambda sign: f"{sign[0]}e", text)
    return any(plain_letters(searched) in plain_letters(one) for one in (text, spelled_out))


@app.get("/office/register")
def register() -> str:
    """The people whom the clerk last searched for. What was searched for is in no address, and so in no log."""
    office, text = office_now(), memory.search(clerk())
    found = [person for person in office.people.values()
             if is_found(text, f"{person.ident} {person.name} {person.home or ''}")]
    return show("register", office=office, text=text, found=found[:MOST_SHOWN], count=len(found))


@app.post("/office/register")
def search() -> None:
    """Keeps what the clerk searches for."""
    memory.search(clerk(), text_of("text")[:100])
    go_to("/office/register")


def person_of(office: Office, ident: str) -> str:
    """The address of a person's page, or the register with the news that there is no such person."""
    if ident not in office.people:
        tell("bad", _("No person has the identifier {person}.", person=masked(ident)[:12]))
        go_to("/office/register")
    return f"/office/person/{ident}"


@app.get("/office/person/<ident>")
def person_page(ident: str) -> str:
    """One person: room, list, result and how it came about, and what can be changed."""
    office = office_now()
    person_of(office, ident)
    told = explaining.about(office, ident) if office.results else []
    return show("person", office=office, person=office.people[ident], told=told, address=address_of(office, ident),
                language=own_of(ident), longest_address=LONGEST_ADDRESS)


def why_no_list(codes: list[str]) -> str:
    """Why the program would not understand these rooms as a list, as far as their number goes, or nothing."""
    if len(codes) > MOST_CHOICES:
        return _("This list has {count} rooms. A list has up to {most}.", count=len(codes), most=MOST_CHOICES)
    twice = next((code for code in codes if codes.count(code) > 1), "")
    return _("{room} stands twice on this list.", room=masked(twice)) if twice else ""


def wishes_entered() -> str:
    """The rooms that a clerk has entered as they stand on paper, with one space between two."""
    return " ".join(re.findall(r"[^\s,;]+", field("text").upper()))


def tell_entered(wishes: str) -> None:
    """Says what a clerk has entered that leads to nothing: the form does not have it any more."""
    tell("bad", _("You had entered: {wishes}.", wishes=masked(wishes)) if wishes else _("You had entered: an empty list."))


@app.post("/office/person/<ident>/whatif")
def what_if(ident: str) -> None:
    """Asks which room another list would have given."""
    place, wishes = person_of(office_now(), ident), wishes_entered()
    answer = attempt(f"whatif {ident} {wishes}".strip())[0]
    if answer.status != ACCEPTED:
        tell("bad", why_no_list(wishes.split()) or str(plain.meaning(answer.text)))
        tell_entered(wishes)
        go_to(place)
    listed, room = wishes or _("(empty)"), answer.text.split()[-1]  # it answers `would get ROOM`, or `would get none`
    tell("good", _("By the list {wishes} this person would get none.", wishes=listed) if room == NONE else
         _("By the list {wishes} this person would get {room}.", wishes=listed, room=room))
    go_to(place)


@app.post("/office/person/<ident>/home")
def move_in(ident: str) -> None:
    """Records where a person lives."""
    change("do", lines=[f"home {ident} {text_of('text').upper()}"], saw=saw("home", ident))
    go_to(person_of(office_now(), ident))


@app.post("/office/person/<ident>/choose")
def choose(ident: str) -> None:
    """Puts a person's list on record. If that is not done, the clerk reads both lists: the page shows the other one."""
    wishes = wishes_entered()
    why = why_no_list(wishes.split())
    if why:
        tell("bad", _("Nothing was changed. {why}", why=why))
    if why or not change("do", lines=[f"choose {ident} {wishes}".strip()], saw=saw("list", ident)):
        tell_entered(wishes)
    go_to(person_of(office_now(), ident))


@app.post("/office/person/<ident>/grade")
def set_grade(ident: str) -> None:
    """Records a person's grade."""
    change("do", lines=[f"grade {ident} {text_of('grade')}"], saw=saw("grade", ident))
    go_to(person_of(office_now(), ident))


@app.post("/office/person/<ident>/name")
def correct_name(ident: str) -> None:
    """Corrects a person's name."""
    place = person_of(office_now(), ident)
    if is_done("correct", person=ident, seen=field("seen"), saw=saw("name", ident), name=text_of("name")):
        tell("good", _("The name is corrected."))
    go_to(place)


def question_of(office: Office, ident: str, act: str) -> Question | None:
    """The question before something is done to a person."""
    person = office.people[ident]
    who, place = f"{person.name} ({ident})", f"/office/person/{ident}"
    copied = plain.copy_first(f"{act} {ident}")
    if act == "leave" and person.home:
        says = [_("{room} becomes free. The person stays in the register.", room=person.home),
                _("To take it back, let the person move in again, as long as nobody else lives there."), *copied]
        title = _("Does {who} leave {room}?", who=who, room=person.home)
        return Question(title, says, _("Yes: leave the room"), place)
    if act == "remove":
        says = [_("The room becomes free, and the program forgets name and key. Recorded moves stay.") if person.home else
                _("The program forgets name and key. Recorded moves stay."),
                *copied, *erased_with(ident), _(plain.STILL_KEPT)]
        return Question(_("Remove {who} from the register?", who=who), says, _("Yes: remove this person"), place)
    if act == "withdraw":
        says = [_("The person takes no part in this round and keeps {room}, and nobody else can get it.", room=person.home)
                if person.home else _("The person takes no part in this round and gets no room in it."),
                _(plain.NOT_WITHIN), *copied]
        return Question(_("Does {who} withdraw from the round?", who=who), says, _("Yes: withdraw from the round"), place,
                        tick=right_person(person))
    if act == "going" and person.home:
        says = [_("The person takes no part in this round. {room} is given out in it, and the person moves out when the round is "
                  "settled.", room=person.home), _("A list that is on record of this person counts no more."),
                _(plain.NOT_WITHIN), *copied]
        return Question(_("Does {who} leave the college?", who=who), says, _("Yes: leaves the college"), place,
                        tick=right_person(person))
    if act == "key":
        says = [_("The old key stops working. The next page shows the new key, once."),
                _("Identifier, name, room, grade and list stay as they are.")]
        return Question(_("Make a new key for {who}?", who=who), says, _("Yes: make a new key"), place)
    return None


def right_person(person: Person) -> str:
    """What a clerk ticks before a step that cannot be taken back within the round."""
    if person.home:
        return _("I have checked that this is the right person: {name}, identifier {person}, who lives in {room}.",
                 name=person.name, person=person.ident, room=person.home)
    return _("I have checked that this is the right person: {name}, identifier {person}, who has no room.",
             name=person.name, person=person.ident)


@app.get("/office/person/<ident>/<act>")
def ask_person(ident: str, act: str) -> str:
    """Asks before something is done to a person."""
    office = office_now()
    place = person_of(office, ident)
    question = question_of(office, ident, act)
    if question is None:
        go_to(place)
    part = "key" if act == "key" else "all"
    return put_question(office, question._replace(saw=office.saw(part, ident).mark))


@app.post("/office/person/<ident>/<act>")
def change_person(ident: str, act: str) -> None:
    """Lets a person leave the room, withdraw, leave the college, be removed, or get a new key."""
    office = office_now()
    place = person_of(office, ident)
    person = office.people[ident]
    if act in ("withdraw", "going"):
        must_be_sure(f"{place}/{act}")
    if act in ("leave", "withdraw", "going"):
        change("do", lines=[f"{act} {ident}"], saw=saw("all", ident))
    elif act == "remove" and change("do", lines=lines_to_remove(ident, person.home), saw=saw("all", ident)):
        go_to("/office/register")
    elif act == "key":
        make_key(person, place)
    go_to(place)


def make_key(person: Person, place: str) -> None:
    """Makes a new key for somebody, and shows the slip. If the keeper did not answer, the page looks whether it was made."""
    key = secrets.token_hex(16)
    try:
        ask("correct", person=person.ident, key=key, seen=field("seen"), saw=saw("key", person.ident))
    except KeeperFault as fault:
        if not keys_made.after(fault, {person.ident: key}):
            return
    show_once([(person.ident, person.name, key)], place)


@app.post("/office/person")
def new_person() -> str:
    """Adds a person, and shows the key. If the identifier was somebody else's, the clerk gives another one, or says that it is the
    same person: the box has the identifier that it speaks of. If the person is not added, the form still has what was entered."""
    ident, name, home, key = text_of("ident").upper(), text_of("name"), text_of("room").upper(), secrets.token_hex(16)
    entered, again = {"ident": ident, "called": name, "room": home}, ticked("again")
    lines = [f"person {ident} {key} {name}", *([f"home {ident} {home}"] if home else [])]
    try:
        if not IDENTIFIER.fullmatch(ident):
            tell("bad", _("Nothing was changed. {what_to_do}", what_to_do=_(plain.IDENTIFIER)))
        elif change("do", lines=lines, again=again):
            show_once([(ident, name, key)], f"/office/person/{ident}")
    except WasAnothers as why:
        return show("former", office=office_now(), why=why, **entered)
    return show("new_person_again", office=office_now(), asked=bool(again), **entered)
