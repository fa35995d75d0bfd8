"""What can come back of a round that was given up into the round that is open: notes of who leaves the college, withdrawals,
and lists of choices. The keeper has them in the copy that it made before the round was given up.
"""

from typing import NamedTuple

from languages import N_, _
from lines import LONGEST_LIST

import plain
from app import ask
from csv_list import line_of
from keeper_client import KeeperFault
from office_view import Office

MOST_NAMED = 10
NOT_HERE = N_("its copy is not on this machine, or is damaged")
GONE = N_("nobody knows here what of it is not back: the copy from before it was given up is not on this machine, or is damaged")
# The labels of lists that come back. The lists of people whom the clerk has taken out, so that they take part again, have a label
# of their own: so the office's file says whose list came back without a note or a withdrawal after it.
LISTS, TAKES_PART = "choices", "takes-part"


class GivenUp(NamedTuple):
    """A round that was given up: the copy that was made before, its number, and its phase then."""

    copy: str
    number: int
    phase: str


class Had(NamedTuple):
    """What a round had when it was given up, but for `others`, whose identifiers may be another person's by now; the rooms that
    were brought back into use since; and the lists that were imported since, by label, with the choices of each person, if they are
    known; and whom a clerk has taken out of what comes back."""

    number: int
    withdrawn: list[str]
    going: list[str]
    choices: dict[str, list[str]]
    others: list[str]
    reopened: set[str]
    imported: dict[str, dict[str, list[str]] | None]
    taken_out: set[str]

    @property
    def people(self) -> set[str]:
        """Of whom the round has something."""
        return {*self.going, *self.withdrawn, *self.choices}

    def came_in(self, ident: str, now: list[str]) -> bool:
        """Whether this list of somebody came in by an import since. Another one says what the person wants."""
        return any(lists is not None and lists.get(ident) == now for lists in self.imported.values())

    def may_be_away(self, ident: str, now: list[str], newer: "Had | None" = None) -> bool:
        """Whether this list of somebody may have come in by an import that was to be followed by a note or a withdrawal; with a
        newer round, before that one was given up."""
        later = newer.imported if newer else {}
        found = {label: lists for label, lists in self.imported.items()
                 if label not in later and (lists is None or ident in lists)}
        return (any(lists is None or lists[ident] == now for lists in found.values())
                and not any(lists and label.startswith(TAKES_PART) for label, lists in found.items()))


class Later(NamedTuple):
    """A round that was given up later than another one: who said something in it, too, or why nobody knows that."""

    number: int
    people: list[str]
    fault: str = ""


class Back(NamedTuple):
    """What can come back, what is here already, and what cannot come back, with the reason of each.

    `lists` has also the lists of those who may withdraw or leave again: they come back before that, as it was. Their people
    have no list on record now, or an empty one: the office's file has the same rows of both. `old` has all lists of that
    round, without rooms that nobody may list now. `longer` has those of which only a part is on record, since a room was
    out of use when they came back, and is in use again. `same` are people whose list on record is the one of that round, which
    came in by an import: it says nothing of what they want now. `out` are people whose note or withdrawal a clerk has taken out.
    """

    going: list[str]
    withdrawn: list[str]
    lists: dict[str, list[str]]
    here: list[str]
    never: list[str]
    old: dict[str, list[str]]
    longer: dict[str, list[str]]
    same: list[str]
    out: set[str]

    @property
    def away(self) -> list[str]:
        """Everybody who may leave or withdraw again."""
        return self.going + self.withdrawn

    def lists_but(self, away: list[str]) -> dict[str, list[str]]:
        """The lists that come back if these people take no part."""
        return {ident: wishes for ident, wishes in self.lists.items() if ident not in away}


def rounds(office: Office) -> list[GivenUp]:
    """The rounds that were given up since the last one was settled, the newest first, as long as something can come back."""
    if not (office.may("open") or office.may("choose")):
        return []
    try:
        return [GivenUp(*found) for found in ask("given-up")["rounds"]]
    except KeeperFault:  # no copy can be read, and the page Copies says why; what the clerk asked for goes on
        return []


def without_copy(office: Office) -> list[int]:
    """The numbers of the rounds that were given up, and whose copies are not here, the newest first."""
    if not (office.may("open") or office.may("choose")):
        return []
    try:
        return [int(number) for number in ask("given-up")["gone"]]
    except KeeperFault:  # as above
        return []


def had_in(copy: str) -> Had:
    """What a round had when it was given up."""
    found = ask("given-up", name=copy)
    others = set(found["others"])
    withdrawn, going = ([ident for ident in found[part] if ident not in others] for part in ("withdrawn", "going"))
    choices = {ident: wishes for ident, wishes in found["choices"].items() if ident not in others}
    lost = sorted(others.intersection(found["withdrawn"] + found["going"] + list(found["choices"])))
    return Had(found["number"], withdrawn, going, choices, lost, set(found["reopened"]), found["imported"], set(found["taken_out"]))


def what_is_left(office: Office, had: Had) -> Back:
    """What of a round can come back into the round of now."""
    back = Back([], [], {}, [], [], {ident: usable(office, wishes) for ident, wishes in had.choices.items()}, {}, [],
                had.taken_out)
    back.never.extend(_("{person}: the identifier may be another person's by now.", person=ident) for ident in had.others)
    for ident in had.going:
        sort_in(ident, back.going, back, why_not(office, ident, "going"))
    for ident in had.withdrawn:
        sort_in(ident, back.withdrawn, back, why_not(office, ident, "withdrawn"))
    for ident, wishes in had.choices.items():
        person = office.people.get(ident)
        if person is None:
            back.never.append(_("{person}: the list; the person is not in the register any more.", person=ident))
        elif person.takes_part and not office.choices.get(ident):
            take_list(ident, wishes, back)
        elif person.takes_part:
            compare_list(ident, wishes, office.choices[ident], had, back)
    return back


def sort_in(ident: str, can: list[str], back: Back, why: str | None) -> None:
    """Puts somebody who took no part where they belong."""
    if why is None:
        back.here.append(ident)
    elif why:
        back.never.append(f"{ident}: {why}")
    else:
        can.append(ident)


def why_not(office: Office, ident: str, part: str) -> str | None:
    """Why a withdrawal, or a note that somebody leaves, cannot come back. An empty text if it can, nothing if it is here."""
    person = office.people.get(ident)
    if person is None:
        return _("the person is not in the register any more.")
    if getattr(person, part):
        return None
    if person.going:
        return _("the withdrawal; the person leaves the college in this round.")
    if person.withdrawn:
        return _("the note; the person has withdrawn from this round.")
    if part == "going" and not person.home:
        return _("the note; the person has no room any more. Withdraw them instead.")
    return ""


def usable(office: Office, wishes: list[str]) -> list[str]:
    """A list without the rooms that nobody may list now. In a round these count for nothing."""
    return [code for code in wishes if code in office.rooms and not office.rooms[code].shut]


def take_list(ident: str, wishes: list[str], back: Back) -> None:
    """A list that can come back, as far as it can."""
    if back.old[ident]:
        back.lists[ident] = back.old[ident]
    name_lost(ident, [code for code in wishes if code not in back.old[ident]], back)


def name_lost(ident: str, rooms: list[str], back: Back) -> None:
    """Names the rooms of a list that cannot come back."""
    if rooms:
        back.never.append(_("{person}: of the list {rooms}, out of use.", person=ident, rooms=" ".join(rooms)))


def compare_list(ident: str, wishes: list[str], now: list[str], had: Had, back: Back) -> None:
    """A list of somebody who has one on record. If that came back, and is a part of it, the rest was out of use then; but if the
    rest was in use all the time, or the person has handed in a list since, the person has taken it out."""
    back.here.append(_("{person}: a list", person=ident))
    if not is_part(now, wishes):
        return
    lacks = set(back.old[ident]).difference(now)
    if lacks and lacks <= had.reopened and had.came_in(ident, now):
        back.longer[ident] = back.old[ident]
    if lacks <= had.reopened and had.may_be_away(ident, now):
        back.same.append(ident)
    name_lost(ident, [code for code in wishes if code not in now and code not in back.old[ident]], back)


def is_part(now: list[str], wishes: list[str]) -> bool:
    """Whether a list is another one, maybe without some of its rooms."""
    return now == [code for code in wishes if code in now]


def said_in(newer: Had, office: Office, older: Had, ident: str) -> bool:
    """Whether somebody said something in a newer round that was given up, too: withdrew, was to leave, or handed in a list. A list
    of the older round that came back by an import says nothing: what was to follow it may have been stopped."""
    if ident in newer.withdrawn + newer.going:
        return True
    now, wishes = (had.choices.get(ident, []) for had in (newer, older))
    is_same = is_part(now, wishes) and older.reopened.issuperset(set(usable(office, wishes)).difference(now))
    return bool(now) and not (is_same and older.may_be_away(ident, now, newer))


def has_come_again(office: Office, ident: str, back: Back) -> bool:
    """Whether somebody who took no part has a list now, and no empty one: they seem to want to take part; or a clerk has said so. A
    list that came back says nothing: what was to follow it may have been stopped."""
    return ident in back.out or bool(office.choices.get(ident)) and ident not in back.same


def said_later(office: Office, copy: str, had: Had) -> list[Later]:
    """The rounds that were given up after the one of this copy, which had this. What their people said last is there, and would be
    replaced by what they had said before. A copy that is damaged has nothing that could come back, and keeps nothing else from
    coming back."""
    later: list[Later] = []
    for given_up in rounds(office):
        if given_up.copy == copy:
            later += [Later(number, [], _(NOT_HERE)) for number in without_copy(office) if number > given_up.number]
            break
        try:
            newer = had_in(given_up.copy)
            later.append(Later(given_up.number, sorted(one for one in had.people if said_in(newer, office, had, one))))
        except KeeperFault as fault:
            later.append(Later(given_up.number, [], str(fault).rstrip(".")))
    return later


def all_missing(office: Office) -> list[tuple[GivenUp, str]]:
    """What of the rounds that were given up is not back in the round that is open, but could be, the newest round first. A clerk
    has to know it before the round is closed. Somebody who said something in a newer round is named with that one alone."""
    found: list[tuple[GivenUp, str]] = []
    newer: list[Had] = []
    for given_up in rounds(office) if office.may("choose") else []:
        try:
            had = had_in(given_up.copy)
        except KeeperFault as fault:
            found.append((given_up, _("nobody knows what is not back ({fault})", fault=str(fault).rstrip("."))))
            continue
        if missing := missing_of(office, had, newer):
            found.append((given_up, missing))
        newer.append(had)
    if office.may("choose"):
        found += [(GivenUp("", number, ""), _(GONE)) for number in without_copy(office)]
    return sorted(found, key=lambda one: one[0].number, reverse=True)


def missing_of(office: Office, had: Had, newer: list[Had]) -> str:
    """What of a round is not back in the round of now, but could be, without what newer ones have; or nothing."""
    back = what_is_left(office, had)
    said = {ident for ident in had.people if any(said_in(one, office, had, ident) for one in newer)}
    named = said.union(*(one.people for one in newer))  # with a list, be it the same one
    away = {N_("were to leave the college, and take part now ({people})"): back.going,
            N_("had withdrawn, and take part now ({people})"): back.withdrawn}
    left = {what: [one for one in idents if not has_come_again(office, one, back)] for what, idents in away.items()}
    left[N_("lists that are not back ({people})")] = [one for one in back.lists_but(back.away) if one not in named]
    left[N_("lists without rooms that are in use again ({people})")] = list(back.longer)
    people = {what: [one for one in idents if one not in said] for what, idents in left.items()}
    return "; ".join(_(what, people=listed(idents)) for what, idents in people.items() if idents)


def listed(idents: list[str]) -> str:
    """A few people by identifier, and of many the number."""
    return ", ".join(idents) if len(idents) <= MOST_NAMED else plain.people(len(idents))


def bodies(stem: str, lists: dict[str, list[str]]) -> list[tuple[str, list[str], bytes]]:
    """Lists of choices as the program imports them, each with the stem of its label and its people, and none longer than the
    program takes."""
    parts: list[tuple[str, list[str], bytes]] = []
    people: list[str] = []
    body = head = line_of(plain.KINDS["choices"].header.split(",")).encode()
    for ident, wishes in lists.items():
        line = line_of([ident, " ".join(wishes)]).encode()
        if people and len(body) + len(line) > LONGEST_LIST:
            parts.append((stem, people, body))
            people, body = [], head
        people, body = [*people, ident], body + line
    return [*parts, (stem, people, body)] if people else parts
