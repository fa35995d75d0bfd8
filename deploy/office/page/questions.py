"""The question before a change that cannot be taken back."""

from typing import NamedTuple

from languages import _

from app import field, go_to, show, tell
from office_view import Office, Person


class Fact(NamedTuple):
    """Something that would change, and each person or thing with which it does."""

    title: str
    items: list[str]
    of_rooms: bool = False  # they are rooms, and no people


class Question(NamedTuple):
    """What happens, what the button of yes says, and where no leads. Yes goes to the question's own address. `saw` is
    the mark of what the clerk saw of a person, `tick` what the clerk has to tick before the yes counts, and `choice` the name
    and the text of a box that the clerk may tick or not. `no` is what the other button says, where "No, go back" could be taken for
    a yes."""

    title: str
    says: list[str]
    yes: str
    back: str
    links: tuple[tuple[str, str], ...] = ()
    saw: str = ""
    tick: str = ""
    facts: tuple[Fact, ...] = ()
    choice: tuple[str, str] | None = None
    no: str = ""


def put_question(office: Office, question: Question) -> str:
    """The page of a question."""
    return show("question", office=office, question=question)


def away_facts(office: Office) -> tuple[Fact, ...]:
    """Who takes no part in the round, by name."""
    facts = [Fact(_("Have withdrawn"), named(office.withdrawn)), Fact(_("Leave the college"), named(office.going))]
    return tuple(fact for fact in facts if fact.items)


def named(people: list[Person]) -> list[str]:
    """People with identifier, name and room."""
    return [f"{person.ident} {person.name}, {person.home or _('no room')}" for person in people]


def must_be_sure(back: str) -> None:
    """Leads back if the clerk has not ticked the box of a question: a browser sends no such form by itself."""
    if not field("sure"):
        tell("bad", _("Nothing was changed. First tick the box that says what you have checked."))
        go_to(back)
