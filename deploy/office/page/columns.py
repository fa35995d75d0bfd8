"""Which column of a clerk's list is which: by its first line, whose names may be those that offices have."""

import re
from typing import NamedTuple

from journal import KEY, masked
from languages import N_, _
from meanings import Meaning
from told import FIELDS

import plain
from sheet_text import LOOKED_AT

FIRST, LAST = "first name", "last name"
# What a column may be called, in small letters and without spaces and signs.
NAMES = {
    "person": "person id ident identifier personid studentno studentid studentnr studentnumber matriculationno "
              "matriculationnumber matrikelnummer matrikelnr matrnr personalnummer kennung",
    "name": "name fullname wholename displayname",
    FIRST: "firstname first forename givenname givennames vorname vornamen",
    LAST: "lastname last surname familyname nachname familienname",
    "key": "key",
    "home": "home room roomcode roomno roomnumber roomnr currentroom zimmer zimmernummer zimmernr raum",
    "room": "room roomcode roomno roomnumber roomnr code home zimmer zimmernummer zimmernr raum",
    "grade": "grade priority stufe",
    "choices": "choices choice wishes list rooms wünsche wunschliste",
    "house": "house building block wing haus gebäude trakt",
    "floor": "floor storey story level etage stock stockwerk geschoss",
    "size": "size area sizem² aream² m² m2 sqm grösse grösseinm² grössem² fläche flächeinm² flächem² qm",
    "rent": "rent price monthlyrent rentpermonth miete monatsmiete warmmiete kaltmiete gesamtmiete preis",
    "text": "text description notes note remarks comment beschreibung bemerkung bemerkungen ausstattung hinweis",
    "language": "language lang preferredlanguage sprache",
    "email": "email mail emailaddress mailaddress studentemail studentmail emailadresse mailadresse",
}
KNOWN = {target: frozenset(names.split()) for target, names in NAMES.items()}
NUMBERED = re.compile(r"(choice|wish|wunsch)\d{1,2}")  # one column for each choice
# Mail addresses are no kind of list of the program's.
ADDRESSES = "addresses"
# The columns that a list may be without.
OPTIONAL = ("key", "home", *FIELDS, "language")
# What a list has, in a sentence. The program has these words too, so they are the names of kinds.
KINDS = {"rooms": N_("rooms"), "people": N_("people"), "grades": N_("grades"), "choices": N_("choices"),
         plain.DESCRIPTIONS: N_("descriptions"), ADDRESSES: N_("addresses")}


class Columns(NamedTuple):
    """Where the columns of a kind of list are: for each the places whose texts are put together, and the row that names
    them."""

    at: int
    places: dict[str, list[int]]
    left_out: list[int]


class Ambiguous(Exception):
    """Two columns may be the same. The text names them."""


def bare(name: str) -> str:
    """The name of a column in small letters, without spaces and signs."""
    return "".join(sign for sign in name.casefold() if sign.isalnum())


def kind_name(kind: str) -> str:
    """What a kind of list has, for a sentence."""
    return _(KINDS.get(kind, kind))


def targets_of(kind: str) -> list[str]:
    """The columns of a kind of list, as the program has them; or those of addresses."""
    return ["person", "email", "language"] if kind == ADDRESSES else plain.header_of(kind).split(",")


def is_known_as(target: str, name: str) -> bool:
    """Whether a column of this name is such a column."""
    return bare(name) in KNOWN[target]


def is_known(kind: str, name: str) -> bool:
    """Whether a kind of list may have a column of this name."""
    more = [FIRST, LAST] if kind == "people" else []
    numbered = kind == "choices" and NUMBERED.fullmatch(bare(name))
    return bool(numbered) or any(bare(name) in KNOWN[target] for target in [*targets_of(kind), *more])


def place_of(names: list[str], target: str) -> list[int]:
    """Where a column is: nowhere, or at one place."""
    exact = [place for place, name in enumerate(names) if name == target]
    found = exact or [place for place, name in enumerate(names) if name in KNOWN[target]]
    if len(found) > 1:
        raise Ambiguous(target)
    return found


def places_of_name(names: list[str]) -> list[int]:
    """Where the whole name is, or the first name and the last name. Beside a first name, `name` is the last name."""
    first, last, whole = place_of(names, FIRST), place_of(names, LAST), place_of(names, "name")
    if first and last:
        return first + last
    return first + whole if whole else []


def places_of_choices(names: list[str]) -> list[int]:
    """Where the choices are: in one column, or in one for each."""
    numbered = [place for place, name in enumerate(names) if NUMBERED.fullmatch(name)]
    return place_of(names, "choices") or sorted(numbered, key=lambda place: int(re.sub(r"\D", "", names[place])))


def columns_in(kind: str, at: int, fields: list[str]) -> Columns | None:
    """The columns that a row names, if it names all that a list of this kind needs."""
    names = [bare(field) for field in fields]
    special = {"name": places_of_name, "choices": places_of_choices}
    places = {target: special[target](names) if target in special else place_of(names, target)
              for target in targets_of(kind)}
    if any(not places[target] for target in places if target not in OPTIONAL):
        return None
    used = {place for found in places.values() for place in found}
    return Columns(at, places, [place for place in range(len(fields)) if place not in used and names[place]])


def find(kind: str, rows: list[tuple[int, list[str]]]) -> Columns | Meaning:
    """The columns of a list, by the first row that names them; or why they are not known."""
    for at, (__, fields) in enumerate(rows[:LOOKED_AT]):
        try:
            if found := columns_in(kind, at, fields):
                return found
        except Ambiguous as target:
            return Meaning(_("Two columns may be the column {target}: {columns}.", target=target, columns=listed(fields)),
                           _("Leave the name {target} to one of them, and call the other something else.", target=target))
    return Meaning(_("The first line does not name the columns of a list of {kind}. It has: {columns}.", kind=kind_name(kind),
                     columns=listed(rows[0][1])), to_do_for(kind))


def to_do_for(kind: str) -> str:
    """How the columns have to be called."""
    targets = targets_of(kind)
    others = {"people": _("The name may be in two columns, first name and last name. A list without the columns key and home "
                          "is taken too."),
              "choices": _("The choices may be in one column for each: choice 1, choice 2, and so on."),
              plain.DESCRIPTIONS: _("Only the room is needed, and one column more.")}
    says = [_("Check that you chose the right kind. Write the names of the columns into the first line: {columns}.",
              columns=", ".join(targets)), others.get(kind, ""),
            _("For {target} the page also takes {names} and the like.", target=targets[0],
              names=", ".join(sorted(KNOWN[targets[0]] - {targets[0]})[:4]))]
    return " ".join(filter(None, says))


def listed(fields: list[str]) -> str:
    """The names of columns for the screen. A row that is no first line may have keys."""
    return masked(", ".join(field.strip()[:30] or _("(empty)") for field in fields[:12]), _(KEY))
