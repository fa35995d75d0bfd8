"""In which language each resident is written to: slips, letters and mails."""

from typing import NamedTuple

from languages import ENGLISH, languages

from app import ask
from keeper_client import KeeperFault


class Residents(NamedTuple):
    """The language of each resident: of those who have one, of all others, and why nobody knows, if so."""

    own: dict[str, str] = {}
    office: str = ENGLISH
    fault: str = ""

    def of(self, ident: str) -> str:
        """In which language somebody is written to. One that there is no more counts as none."""
        return next((code for code in (self.own.get(ident), self.office) if code in languages()), ENGLISH)


def residents() -> Residents:
    """The languages of residents."""
    try:
        found = ask("languages")
    except KeeperFault as fault:
        return Residents(fault=str(fault))
    return Residents(found["residents"], found["office"])


def own_of(ident: str) -> str | None:
    """The language that is set for a person, or an empty text; None where there is but one, or nobody knows."""
    found = residents()
    return None if found.fault or len(languages()) < 2 else found.own.get(ident, "")
