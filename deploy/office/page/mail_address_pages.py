"""Mail addresses: a list of them, those of one person, and the file of all."""

from bottle import HTTPResponse  # type: ignore[import]  # Debian's bottle has no types

from languages import _, ngettext
from told import mark_of

import columns
import plain
from app import (app, ask, clerk, download, field, go_to, list_sent, memory, office_now, show, tell, text_of, ticked,
                 why_not_read)
from csv_list import line_of
from keeper_client import KeeperFault
from list_faults import Findings
from mail_lists import Addresses, bring, in_file, now_of
from people_pages import person_of
from questions import must_be_sure
from understanding import NotUnderstood

HOME = "/office/mail"


@app.get(f"{HOME}/addresses.csv")
def export() -> HTTPResponse:
    """All addresses, as they can come in again."""
    spoken = ask("languages")["residents"]
    rows = [columns.targets_of(columns.ADDRESSES),
            *([ident, text, spoken.get(ident, "")] for ident, text in ask("mail-list")["addresses"].items())]
    return download("".join(map(line_of, rows)), "addresses.csv")


@app.post(f"{HOME}/addresses")
def look_at_addresses() -> str:
    """Reads a file of addresses. Nothing is changed before the clerk says yes."""
    office, body = office_now(), list_sent()
    if why := why_not_read(body, plain.ADDRESSES_TOO_LONG):
        tell("bad", why)
        go_to(HOME)
    try:
        found = in_file(office, body)
    except NotUnderstood as fault:
        tell("bad", _("Nothing came in. {why}", why=Findings([], fault.meaning, False).whole))
        go_to(HOME)
    go_to(f"{HOME}/addresses/{memory.hold(clerk(), found)}")


@app.get(f"{HOME}/addresses/<name>")
def addresses(name: str) -> str:
    """What a file of addresses would change."""
    found = memory.held(clerk(), name)
    if not isinstance(found, Addresses):
        tell("bad", _("The page no longer holds this list. Nothing came in now."))
        go_to(HOME)
    had, spoken = now_of(found)
    new = [ident for (ident, _text), was in zip(found.pairs, had) if not was]
    other = [(ident, was, text) for (ident, text), was in zip(found.pairs, had) if was not in ("", text)]
    tongues = [ident for (ident, code), was in zip(found.languages, spoken) if was != code]
    return show("mail_addresses", office=office_now(), found=found, new=new, other=other, tongues=tongues, held=name,
                saw=mark_of([had, spoken]))


@app.post(f"{HOME}/addresses/bring")
def bring_addresses() -> None:
    """Brings addresses in, if nobody has changed what they replace after the clerk looked."""
    name = text_of("held")
    found = memory.held(clerk(), name)
    if not isinstance(found, Addresses):
        tell("bad", _("The page no longer holds this list. Nothing came in now: send it again."))
        go_to(HOME)
    was = now_of(found)
    if mark_of(was) != field("saw"):
        tell("bad", _("What this list replaces has changed since you tried it. Nothing came in: look again."))
        go_to(f"{HOME}/addresses/{name}")
    if bring(found, was):
        memory.let_go(clerk(), name)
    go_to(HOME)


@app.post(f"{HOME}/strangers")
def erase_strangers() -> None:
    """Erases the addresses of people who are not in the register, of those whom the clerk saw alone."""
    must_be_sure(HOME)
    strangers = set(ask("mail")["strangers"])
    set_addresses({ident: "" for ident in ticked("person") if ident in strangers})
    go_to(HOME)


@app.post(f"{HOME}/person/<ident>")
def set_address(ident: str) -> None:
    """Sets one person's address."""
    place = person_of(office_now(), ident)
    set_addresses({ident: text_of("email")}, was=field("was"))
    go_to(place)


def set_addresses(pairs: dict[str, str], was: str | None = None) -> None:
    """Sets addresses, and tells the clerk. An empty one is none."""
    try:
        changed = ask("mail-addresses", addresses=pairs, was=was)["changed"]
    except KeeperFault as fault:
        tell("bad", _("The mail address was not changed: {why}", why=fault))
        return
    tell("good", ngettext("The mail address is changed.", "{count} mail addresses are changed.", changed))
