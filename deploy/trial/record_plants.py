"""Wrong results, planted into a record, and a plain search that says whether results may be."""

import random
import re
from typing import NamedTuple

from audit import Audit

KINDS = ("exchange", "worse", "twice", "taken over")


class Plant(NamedTuple):
    """Wrong results: of whom, in place of what."""

    kind: str
    changed: dict[str, str | None]


def plant(rng: random.Random, audit: Audit, kind: str) -> Plant | None:
    """One wrong result of this kind, where the round has room for it."""
    got = audit.got
    people = rng.sample(audit.order, len(audit.order))
    if kind == "worse":
        left = [*(audit.rooms - set(got.values())), None]
        worse = [(person, room) for person in people for room in left
                 if audit.rank(person, room) > audit.rank(person, got[person])]
        return Plant(kind, dict([rng.choice(sorted(worse, key=str))])) if worse else None
    pairs = [(one, two) for one in people[:20] for two in people
             if got[one] != got[two] and (kind == "exchange" or got[one])]
    if not pairs:
        return None
    one, two = rng.choice(pairs)
    if kind == "exchange":
        return Plant(kind, {one: got[two], two: got[one]})
    return Plant(kind, {two: got[one]} if kind == "twice" else {two: got[one], one: None})


def planted(record: str, changed: dict[str, str | None]) -> str:
    """The record with these results in place of its own."""
    for person, room in changed.items():
        record, count = re.subn(f"^# result {person} .*$", f"# result {person} {room or 'none'}", record, flags=re.M)
        assert count == 1, (person, count)
    return record


def may_be(audit: Audit) -> bool:
    """Whether the recorded results break no promise, by a plain search over all assignments of the round's rooms."""
    given = [room for room in audit.result.values() if room]
    if len(set(given)) < len(given) or not audit.rooms.issuperset(given):
        return False
    if any(ranked(audit, person, room) > len(audit.list[person]) for person, room in audit.result.items()):
        return False
    return not improves(audit, audit.order, set(audit.rooms), False)


def ranked(audit: Audit, person: str, room: str | None) -> int:
    """How a person ranks a room, worked out here once more: the list that counts, the own room or none, all else."""
    wishes = [*audit.list[person], audit.home[person]]
    return wishes.index(room) if room in wishes else len(wishes)


def improves(audit: Audit, people: list[str], rooms: set[str], better: bool) -> bool:
    """Whether some assignment of these rooms leaves none of these people worse off, and makes somebody better off.

    With `better` it has done so already.
    """
    if not people:
        return better
    person, *others = people
    before = ranked(audit, person, audit.result[person])
    for room in [*sorted(rooms), None]:
        after = ranked(audit, person, room)
        if after <= before and improves(audit, others, rooms - {room}, better or after < before):
            return True
    return False
