"""The languages: which one each clerk reads, and in which one each resident is written to."""

import re
from collections import Counter

from languages import _, ngettext

from app import app, ask, clerk, field, go_to, is_done, memory, office_now, show, tell, tell_fault, text_of, ticked
from keeper_client import KeeperFault
from people_pages import person_of
from resident_languages import residents

HOME = "/office/languages"
SET = "set-languages"
# A page of this office, as an address may name it, with what its form has taken out.
OWN = re.compile(r"/office/(?:[A-Za-z0-9_.~%-]+/)*[A-Za-z0-9_.~%-]*(?:\?[a-z]+=[A-Za-z0-9_.~%+-]*)?")


# --- clerks

@app.post("/office/language")
def choose_language() -> None:
    """Keeps the language that the clerk chooses, and leads back to the page."""
    code, back = field("language"), field("back")
    try:
        memory.language(clerk(), str(ask("language", language=code)["language"]))
    except KeeperFault as fault:
        tell_fault(fault)
    go_to(back if OWN.fullmatch(back) else "/office/")


# --- residents

@app.get(HOME)
def languages_page() -> str:
    """In which languages residents are written to."""
    office, found = office_now(), residents()
    counts = Counter(found.of(ident) for ident in office.people)
    strangers = [ident for ident in found.own if ident not in office.people]
    return show("languages", office=office, found=found, counts=counts, strangers=strangers)


@app.post(f"{HOME}/office")
def set_office() -> None:
    """Sets the language of residents without one."""
    if is_done(SET, office=field("language"), was=field("was")):
        tell("good", _("The language of everybody without one is set."))
    go_to(HOME)


@app.post(f"{HOME}/many")
def set_many() -> None:
    """Sets the language of many people, by their identifiers."""
    idents = list(dict.fromkeys(filter(None, re.split(r"[\s,;]+", field("text").upper()))))
    if not idents:
        tell("bad", _("You have named nobody. Nothing was changed."))
    elif is_done(SET, languages={ident: field("language") for ident in idents}):
        tell("good", ngettext("The language of one person is set.", "The language of {count} people is set.", len(idents)))
    go_to(HOME)


@app.post(f"{HOME}/strangers")
def erase_strangers() -> None:
    """Erases the languages of people who are not in the register, of those whom the clerk saw alone."""
    known, seen = office_now().people, ticked("person")
    try:
        erased = ask(SET, languages={ident: "" for ident in seen if ident not in known})["changed"]
    except KeeperFault as fault:
        tell_fault(fault)
        go_to(HOME)
    if here := [ident for ident in seen if ident in known]:
        tell("bad", _("These people are in the register again, and keep their language: {people}.", people=", ".join(here)))
    if erased or not here:
        tell("good", ngettext("The language of one person is erased.", "The language of {count} people is erased.", erased))
    go_to(HOME)


@app.post(f"{HOME}/person/<ident>")
def set_language(ident: str) -> None:
    """Sets the language of one person."""
    place = person_of(office_now(), ident)
    if is_done(SET, languages={ident: text_of("language")}, was=field("was")):
        tell("good", _("The language is set."))
    go_to(place)
