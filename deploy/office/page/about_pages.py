"""All about one person on a page to print, and what is done to forget a person."""

from typing import Any, NamedTuple

from journal import OWN_TEXTS, masked
from languages import N_, _, languages, ngettext
from lines import IDENTIFIER
from mail_words import ALL, KINDS
from naming import CONTACT, DESCRIPTION, MAIL, NOTICE, PICTURE

import explaining
import plain
import reasons
from app import app, ask, drawn_order, field, go_to, office_now, saw, show, tell, tell_fault, tell_unkept, text_of
from columns import kind_name
from keeper_client import KeeperFault, answers_of
from kept_beside import erased
from office_view import Office
from questions import Question, put_question


# The words of the keeper for what became of a message.
WORDS = (N_("waiting"), N_("begun"), N_("sent"), N_("refused"), N_("uncertain"))


class Kept(NamedTuple):
    """What the keeper has found of a person, beside what every page shows."""

    records: list[Any]
    moves: list[Any]
    copies: list[Any]
    unsure: list[Any]
    entries: list[Any]
    mail: dict[str, Any]
    language: dict[str, Any]
    account: dict[str, str]
    texts: dict[str, Any]
    backups: dict[str, Any]

    @property
    def labels(self) -> list[str]:
        """The kept lists that name the person."""
        return list(dict.fromkeys(label for label, _, _ in self.records))

    @property
    def last(self) -> str:
        """The day on which the last copy that has the person goes at the latest; or nothing."""
        return max((until for _, until in self.copies), default="")

    def said_of_unsure(self) -> str:
        """How many copies may have the person."""
        return ngettext(
            "{count} copy may have this person, and nobody can look: it is damaged, or may have what was deleted before, since "
            "the keeper did not make it, or made it in a version up to 3.1.0.",
            "{count} copies may have this person, and nobody can look: they are damaged, or may have what was deleted before, "
            "since the keeper did not make them, or made them in a version up to 3.1.0.", len(self.unsure))

    def texts_named(self) -> list[tuple[str, str]]:
        """The texts that have the person's name, and the page on which each is changed."""
        return [(said_of_text(*place), page_of_text(*place)) for place in self.texts["places"]]

    def said_of_backups(self) -> str:
        """What backups of the machine have, and for how long."""
        return _("Backups of this machine, in {folder}, may have this person, too, with what no copy has. One stays until there "
                 "are {most} newer ones, and for {days:,} days at most, as long as one is made each night.", **self.backups)


def said_of_text(what: str, of: str, language: str) -> str:
    """A text that clerks have written, as the page calls it."""
    known = languages().get(language)
    spoken = known.name if known else language if language != ALL else _("all languages")
    if what == DESCRIPTION:
        return _("the description of {room}", room=of)
    if what == PICTURE:
        return _("the text of a picture of {room}", room=of)
    if what == NOTICE:
        return _("the notice ({language})", language=spoken)
    if what == CONTACT:
        return _("the contact")
    kind = _(KINDS[of].name)
    return (_("the text of mails: {kind} ({language})", kind=kind, language=spoken) if what == MAIL else
            _("the messages that were sent last, until others are sent: {kind}", kind=kind))


def page_of_text(what: str, of: str, language: str) -> str:
    """The page on which a text is changed; or nothing, if it only stays until the next one."""
    if what == MAIL:
        return f"/office/mail/{of}/in/{language}" if language != ALL else f"/office/mail/{of}"
    if what == PICTURE:
        return f"/office/told/room/{of}"
    return "/office/told" if what in (DESCRIPTION, NOTICE, CONTACT) else ""


def kept_of(ident: str) -> Kept:
    """What is kept of a person. An identifier that is none leads back."""
    if not IDENTIFIER.fullmatch(ident):
        tell("bad", f"{_('{word} is no identifier.', word=masked(ident)[:12])} {_(plain.IDENTIFIER)}")
        go_to("/office/register")
    found = ask("about", person=ident)
    return Kept(found["lists"], found["moves"], found["copies"], found["unsure"], found["journal"], found["mail"],
                found["language"], found["account"], found["texts"], found["backups"])


def place_of(office: Office, ident: str) -> str:
    """A person's place in the drawn order, and their word; or nothing."""
    if not office.may("order"):
        return ""
    order = drawn_order()
    return next((_("{place} of {count}, by the word {word}", place=place, count=len(order), word=word)
                 for place, word, one, *_grade in order if one == ident), "")


@app.post("/office/about")
def find() -> str:
    """All about an identifier. What a clerk types is in no address: it may be a name."""
    return page_about(text_of("about").upper())


@app.get("/office/about/<ident>")
def all_about(ident: str) -> str:
    """All about one person."""
    return page_about(ident)


def page_about(ident: str) -> str:
    """The page of all that the office keeps of a person."""
    kept, office = kept_of(ident), office_now()
    explainer = explaining.explainer_of(office) if ident in office.results else None
    facts = explainer.facts_of(ident) if explainer else None
    told = explaining.to_resident(facts) if facts else []  # as in a letter: the page may go to the person, and names nobody else
    return show("about", office=office, ident=ident, person=office.people.get(ident), kept=kept, told=told,
                place=place_of(office, ident), kind_name=kind_name, told_who=reasons.told_who, own=OWN_TEXTS, kinds=KINDS)


def question_of(office: Office, ident: str, kept: Kept) -> Question:
    """The question before a person is forgotten."""
    person, place = office.people.get(ident), f"/office/about/{ident}"
    who = f"{person.name} ({ident})" if person else ident
    says = []
    if person:
        says.append(_("At once the person goes out of the register: name, key, room and grade.")
                    + (" " + _("{room} becomes free.", room=person.home) if person.home else ""))
    if kept.labels:
        says.append(_("At once the lists that name the person are blanked: {lists}. This deletes what they say of everybody; the "
                      "register stays as it is. Their labels stay taken.", lists=", ".join(kept.labels)))
    says += erased({"mail": kept.mail, "language": kept.language, "account": kept.account})
    if texts := kept.texts_named():
        says.append(_("A name that the office has had under this identifier is in these texts: {texts}. This does not change them: "
                      "take it out yourself.", texts=", ".join(text for text, _page in texts)))
    says += said_of_copies(kept, bool(person or kept.labels))
    says += [kept.said_of_backups(),
             _("The moves and the journal stay. They have the identifier, and no name but one that a clerk has noted.")]
    return Question(_("Forget {person}?", person=who), says, _("Yes: forget this person"), place, saw=office.saw("all", ident).mark)


def said_of_copies(kept: Kept, is_made: bool) -> list[str]:
    """What becomes of the person in copies of the office: in that of before, if it `is_made`, and in older ones."""
    older = len(kept.copies)
    said = said_of_this_copy(older) if is_made else said_of_older(older) if older else ""
    return [*filter(None, [said]), *([kept.said_of_unsure()] if kept.unsure else [])]


def said_of_older(older: int) -> str:
    """What becomes of the person in so many older copies, if no other one is made."""
    return ngettext(
        "One older copy has the person, until it is too old. The page about the person says until when. You can also keep copies "
        "for fewer days (page Copies).",
        "{count} older copies have the person, until they are too old. The page about the person says until when. You can also "
        "keep copies for fewer days (page Copies).", older)


def said_of_this_copy(older: int) -> str:
    """What becomes of the person in the copy of before, and in so many older ones."""
    if not older:
        return _("The keeper makes a copy of the office first, so you can come back from this. This copy has the person, until it "
                 "is too old. The page about the person says until when. You can also keep copies for fewer days (page Copies).")
    return ngettext(
        "The keeper makes a copy of the office first, so you can come back from this. This copy has the person, and so does one "
        "older copy, until it is too old. The page about the person says until when. You can also keep copies for fewer days "
        "(page Copies).",
        "The keeper makes a copy of the office first, so you can come back from this. This copy has the person, and so do {count} "
        "older copies, until it is too old. The page about the person says until when. You can also keep copies for fewer days "
        "(page Copies).", older)


@app.get("/office/forget/<ident>")
def ask_forget(ident: str) -> str:
    """Asks before a person is forgotten."""
    kept, office = kept_of(ident), office_now()
    if ident in office.people and not office.may("remove"):
        tell("bad", f"{_(plain.PHASES[office.phase].title)}. {_('A person can be forgotten only between two rounds.')}")
        go_to(f"/office/about/{ident}")
    return put_question(office, question_of(office, ident, kept))


@app.post("/office/forget/<ident>")
def forget(ident: str) -> None:
    """Forgets a person, and leads to what is left."""
    place = f"/office/about/{ident}"
    try:
        reply = ask("forget", person=ident, seen=field("seen"), saw=saw("all", ident))
    except KeeperFault as fault:
        tell_fault(fault)
        go_to(place)
    if reply["done"]:
        tell("good", _("{person} is forgotten, as far as this can be done at once. This page says what is left.", person=ident))
    else:
        tell("bad", plain.not_done(reply["made"], *answers_of(reply)[-1]))
    tell_unkept(reply)
    go_to(place)
