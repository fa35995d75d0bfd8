"""How one person's result came about: facts out of the independent audit, and two sets of sentences made of them.

The office reads who got a room that somebody asked for. A letter to a resident names nobody else.
"""

import importlib
import threading
from typing import TYPE_CHECKING, Any, NamedTuple

from languages import _

import audit_words
from office_view import Office

if TYPE_CHECKING:
    import audit


class Gone(NamedTuple):
    """A better room that another person got, as the audit found it, with that person's place in the order.

    `tenant` is the person who lived there and gave it up in an exchange, in which that person got `new`; if it is the own room of
    the person who got it, that person.
    """

    found: "audit.Gone"
    place: int
    tenant: str
    new: str


class Facts(NamedTuple):
    """How the result of one participant came about, as the audit found it, and what its sentences need beside that. `out` has the
    rooms that were not in the round, of those that the person would rather have had. `own_first` says that no room on the list
    stood above the own one: then none on it counts."""

    ident: str
    found: "audit.Facts"
    places: int
    home: str | None
    has_list: bool
    own_first: bool
    out: list[str]
    gone: list[Gone]
    got: str | None


class LastAudit:  # pylint: disable=too-few-public-methods  # it keeps what it has worked out
    """The audit of the rows that were shown last. At 2,000 people an audit takes most of a second."""

    def __init__(self) -> None:
        self.lock = threading.Lock()
        self.view: dict[str, Any] = {}
        self.audit: Any = None

    def audit_of(self, module: Any, office: Office) -> Any:
        """The audit of an office."""
        with self.lock:
            if self.audit is None or self.view != office.view:
                self.view, self.audit = office.view, module.Audit(office.view)
            return self.audit


LAST = LastAudit()


def audit_program() -> Any | None:
    """The program of the audit, if it is installed."""
    try:
        return importlib.import_module("audit")
    except ImportError:
        return None


def audit_of(office: Office) -> Any | None:
    """The audit of the office's results, if the program of the audit is installed."""
    module = audit_program()
    return None if module is None else LAST.audit_of(module, office)


def faults_of(office: Office) -> list[str] | None:
    """What the audit finds wrong with the office's results; None if it is not installed, or if there are no results."""
    found = audit_of(office) if office.results else None
    return None if found is None else [audit_words.told(fault) for fault in found.faults()]


class Explainer:
    """Gives the facts of the participants of a round."""

    def __init__(self, found: "audit.Audit") -> None:
        self.audit = found
        self.place = {person: place for place, person in enumerate(found.order, 1)}

    def facts_of(self, ident: str) -> Facts | None:
        """The facts of one person; nothing if the person takes no part."""
        found = self.audit.facts(ident)
        if found is None:
            return None
        home, got, wishes = self.audit.home[ident], self.audit.got[ident], self.audit.handed_in[ident]
        end = min((wishes.index(room) for room in (got, home) if room in wishes), default=len(wishes))
        out = [room for room, _cause in found.struck if room in wishes[:end]]
        own_first = bool(wishes) and not self.audit.list[ident] and not out
        return Facts(ident, found, len(self.place), home, bool(wishes), own_first, out, list(map(self.gone, found.gone)), got)

    def gone(self, found: "audit.Gone") -> Gone:
        """A better room, with what its sentence needs."""
        tenant = found.giver if self.audit.home[found.giver] == found.room else ""
        return Gone(found, self.place[found.to], tenant, self.audit.got[found.giver] or "")


def explainer_of(office: Office) -> Explainer | None:
    """What explains the office's results, if the program of the audit is installed."""
    found = audit_of(office)
    return Explainer(found) if found else None


def about(office: Office, ident: str) -> list[str]:
    """The sentences for the office. They end with what the office has, if that is something else."""
    explainer = explainer_of(office)
    facts = explainer.facts_of(ident) if explainer else None
    if facts is None:
        return []
    said = [in_order(facts)]
    said += [_("{room}, on the list, was not in the round.", room=room) for room in facts.out]
    said += [to_whom(gone) for gone in facts.gone]
    said.append(outcome_of(facts))
    other = office.results.get(ident)
    if other == facts.got:
        return said
    return said + [_("But the office has {room} for {person}.", room=other, person=ident) if other else
                   _("But the office has no room for {person}.", person=ident)]


def in_order(facts: Facts) -> str:
    """Somebody's place in the order and room, for the office."""
    if not facts.home:
        return _("{person} had place {place} of {places} in the order, and had no room.",
                 person=facts.ident, place=facts.found.place, places=facts.places)
    return _("{person} had place {place} of {places} in the order, and lived in {home}, which nobody could take away.",
             person=facts.ident, place=facts.found.place, places=facts.places, home=facts.home)


def outcome_of(facts: Facts) -> str:
    """What somebody gets, for the office."""
    if facts.found.choice:
        return _("In step {step}, {person} got {room}, choice {choice}.",
                 step=facts.found.step, person=facts.ident, room=facts.got, choice=facts.found.choice)
    if not facts.got:
        return (_("Nothing on the list was left, so {person} gets no room.", person=facts.ident) if facts.has_list else
                _("No list of {person} was on record, or an empty one, so {person} gets no room.", person=facts.ident))
    if facts.own_first:
        return _("No room on the list stood above {room}, the own room, so {person} keeps it. What stands below the own room does "
                 "not count.", person=facts.ident, room=facts.got)
    return (_("Nothing better on the list was left, so {person} keeps {room}.", person=facts.ident, room=facts.got)
            if facts.has_list else
            _("No list of {person} was on record, or an empty one, so {person} keeps {room}.", person=facts.ident, room=facts.got))


def to_whom(gone: Gone) -> str:
    """Who got a room, for the office."""
    found = gone.found
    values = {"room": found.room, "choice": found.choice, "step": found.step, "other": found.to}
    if gone.tenant == found.to:
        return _("{room}, choice {choice}, stayed in step {step} with {other}, who lives there.", **values)
    if gone.tenant:
        return _("{room}, choice {choice}, went in step {step} to {other}, at place {place}, in an exchange in which {tenant}, who "
                 "lived there, got {new}.", **values, place=gone.place, tenant=gone.tenant, new=gone.new)
    return _("{room}, choice {choice}, went in step {step} to {other}, at place {place}.", **values, place=gone.place)


def to_a_resident(gone: Gone) -> str:
    """Who got a room, for a letter."""
    values = {"room": gone.found.room, "choice": gone.found.choice}
    if gone.tenant == gone.found.to:
        return _("{room}, your choice {choice}, stayed with the resident who lives there.", **values)
    if gone.tenant:
        return _("{room}, your choice {choice}, went to the resident at place {place}, in an exchange in which the resident who "
                 "lived there got another room.", **values, place=gone.place)
    return _("{room}, your choice {choice}, went to the resident at place {place}.", **values, place=gone.place)


def to_resident(facts: Facts) -> list[str]:
    """The sentences of a letter. Other people appear by their place in the order alone."""
    said = [_("Your place in the order was {place} of {places}. You lived in {home}, and nobody could take it from you.",
              place=facts.found.place, places=facts.places, home=facts.home) if facts.home else
            _("Your place in the order was {place} of {places}.", place=facts.found.place, places=facts.places)]
    said += [_("{room}, on your list, was not in the exchange.", room=room) for room in facts.out]
    said += [to_a_resident(gone) for gone in facts.gone]
    return said + [your_outcome(facts)]


def your_outcome(facts: Facts) -> str:
    """What somebody gets, for a letter."""
    if facts.found.choice:
        return _("{room}, your choice {choice}, was the best room on your list that you could get.",
                 room=facts.got, choice=facts.found.choice)
    if not facts.got:
        return (_("You get no room, since nothing on your list was left.") if facts.has_list else
                _("You get no room, since no list of yours was on record, or an empty one."))
    if facts.own_first:
        return _("You keep {room}, since no room on your list stood above it, your own room. What stands below your own room does "
                 "not count.", room=facts.got)
    return (_("You keep {room}, since nothing better on your list was left.", room=facts.got) if facts.has_list else
            _("You keep {room}, since no list of yours was on record, or an empty one.", room=facts.got))
