"""Mail addresses in a clerk's file: alone, or in a column of a list of people, which the program does not get. Beside them may
be the language in which a person is written to.
"""

from collections import Counter
from typing import NamedTuple

from languages import _, languages, ngettext
from mail_words import is_address

import columns
import list_faults
import plain
import understanding
from app import ask, tell
from keeper_client import KeeperFault
from office_view import Office
from understanding import NotUnderstood, Understood

Pairs = tuple[tuple[str, str], ...]
SHOWN = 60


class AddressFault(NamedTuple):
    """A line without a good address or language, which is left out: its row, the person, what it has, and what is wrong."""

    row: int
    ident: str
    text: str
    says: str


class Addresses(NamedTuple):
    """The addresses of a file: those that can come in, the faults, the people who share an address with another one, and the
    language of each person for whom the file has one."""

    pairs: Pairs = ()
    faults: tuple[AddressFault, ...] = ()
    shared: tuple[str, ...] = ()
    languages: Pairs = ()

    def people(self) -> set[str]:
        """Who has an address or a language here."""
        return {ident for ident, _text in (*self.pairs, *self.languages)}

    def of(self, people: set[str]) -> "Addresses":
        """The addresses of these people alone. Lines with a fault stay."""
        return Addresses(tuple(pair for pair in self.pairs if pair[0] in people), self.faults,
                         tuple(ident for ident in self.shared if ident in people),
                         tuple(pair for pair in self.languages if pair[0] in people))


NO_ADDRESSES = Addresses()


def of_rows(read: Understood, known: set[str]) -> Addresses:
    """The addresses in the lines of a file. An empty field says nothing."""
    found: dict[str, str] = {}
    spoken: dict[str, str] = {}
    faults = []
    for record in read.table.records[1:]:
        if len(record.fields) != len(columns.targets_of(columns.ADDRESSES)):
            faults.append(AddressFault(record.row, "", "", _(plain.CAUSES["fields"].says)))
            continue
        ident, text, language = record.fields
        says = fault_of(ident, text, known, found)
        if wrong := says or fault_of_language(language, spoken.get(ident, "")):
            ident, shown = list_faults.fields_shown([ident, text if says else language], "")
            faults.append(AddressFault(record.row, ident[:SHOWN], shown[:SHOWN], wrong))
            continue
        found.update({ident: text} if text else {})
        spoken.update({ident: code_of(language)} if language else {})
    times = Counter(text.casefold() for text in found.values())
    shared = tuple(ident for ident, text in found.items() if times[text.casefold()] > 1)
    return Addresses(tuple(found.items()), tuple(faults), shared, tuple(spoken.items()))


def fault_of(ident: str, text: str, known: set[str], found: dict[str, str]) -> str:
    """What is wrong with a line, or nothing."""
    if ident not in known:
        return _("Nobody has this identifier.")
    if text and not is_address(text):
        return _("This is not one mail address, as name@college.example.")
    if text and found.get(ident, text) != text:
        return _("This person is on the list with another address already.")
    return ""


def code_of(language: str) -> str:
    """The code of a language by its code or its name, or nothing."""
    small = language.casefold()
    return next((code for code, one in languages().items() if small in (code.casefold(), one.name.casefold())), "")


def fault_of_language(language: str, before: str) -> str:
    """What is wrong with a language, beside the one that a line before has for the person; or nothing."""
    if language and before and code_of(language) not in ("", before):
        return _("This person is on the list with another language already.")
    if not language or code_of(language):
        return ""
    return _("There is no such language here. There are: {languages}.",
             languages=", ".join(f"{code} ({one.name})" for code, one in languages().items()))


def in_file(office: Office, body: bytes) -> Addresses:
    """The addresses of a file that has nothing else, or whose other columns are left out."""
    return of_rows(understanding.read(columns.ADDRESSES, body), set(office.people))


def beside_people(office: Office, body: bytes, read: Understood) -> tuple[Addresses, Understood]:
    """The addresses of a list of people, and what the page understood of it. Without mail the column is left out."""
    if not office.view.get("mail"):
        return NO_ADDRESSES, read
    try:
        rows = understanding.read(columns.ADDRESSES, body)
    except NotUnderstood:  # no column has addresses
        return NO_ADDRESSES, read
    known = set(office.people) | {record.fields[0] for record in read.table.records[1:]}
    beside = {"email": _("mail address, kept beside the register"), "language": _("language, kept beside the register")}
    names = [(name, next((text for target, text in beside.items() if columns.is_known_as(target, name)), taken))
             for name, taken in read.names]
    return without_others(of_rows(rows, known), office, read), read._replace(names=names)


def without_others(found: Addresses, office: Office, read: Understood) -> Addresses:
    """The addresses and languages without those of lines that have another name for a person than the register: they may be another
    person's. A line that has neither says nothing of mail, so it has no fault here."""
    address = _("The register has another name for this identifier, so the address may be another person's.")
    language = _("The register has another name for this identifier, so the language may be another person's.")
    says = {**{ident: language for ident, _code in found.languages}, **{ident: address for ident, _text in found.pairs}}
    others = {}
    for record in read.table.records[1:]:
        if record.fields[0] in says and has_another_name(office, record.fields):
            ident, name = list_faults.fields_shown(record.fields[:2], "")
            others[record.fields[0]] = AddressFault(record.row, ident[:SHOWN], name[:SHOWN], says[record.fields[0]])
    left = found._replace(faults=(*found.faults, *others.values()))
    return left.of(found.people() - set(others))


def has_another_name(office: Office, fields: list[str]) -> bool:
    """Whether a record of a list of people has another name for somebody than the register."""
    return len(fields) > 1 and fields[0] in office.people and bool(fields[1]) and fields[1] != office.people[fields[0]].name


def now_of(found: Addresses) -> tuple[list[str], list[str]]:
    """The addresses and the languages that the people of a file have now."""
    addresses, spoken = ask("mail-list")["addresses"], ask("languages")["residents"]
    return ([addresses.get(ident, "") for ident, _text in found.pairs],
            [spoken.get(ident, "") for ident, _code in found.languages])


def what_changes(found: Addresses) -> Addresses:
    """The addresses and languages that are not those of now; all of them if nobody can say what they are now."""
    if not found.people():
        return found
    try:
        addresses, spoken = now_of(found)
    except KeeperFault:
        return found
    pairs = [*zip(found.pairs, addresses), *zip(found.languages, spoken)]
    return found.of({ident for (ident, text), was in pairs if text != was})


def bring(found: Addresses, was: tuple[list[str] | None, list[str] | None] = (None, None)) -> bool:
    """Brings addresses and languages in, if there are any and those of before are these, and says so. Whether they are in."""
    try:
        if found.pairs:
            changed = ask("mail-addresses", addresses=dict(found.pairs), was=was[0])["changed"]
            tell("good", ngettext("{count} mail address is new or changed.", "{count} mail addresses are new or changed.", changed))
        if found.languages:
            changed = ask("set-languages", languages=dict(found.languages), was=was[1])["changed"]
            tell("good", ngettext("{count} language is new or changed.", "{count} languages are new or changed.", changed))
    except KeeperFault as fault:
        tell("bad", _("Not all of the mail addresses and languages came in: {why}", why=fault))
        return False
    return True


def address_of(office: Office, ident: str) -> str | None:
    """A person's address, or nothing; None in an office without mail, or where the file of the mail is damaged."""
    try:
        return str(ask("mail-list")["addresses"].get(ident, "")) if office.view.get("mail") else None
    except KeeperFault:
        return None
