#!/usr/bin/python3
"""audit.py RECORD [PERSON ..] [--seed HEX]: checks the results of a room exchange, apart from the program `rooms`.

It needs nothing but Python (3.10 or later), and audit_record.py beside it, which reads the record. It works the
results out anew from the definition (Abdulkadiroglu and Sonmez, House Allocation with Existing Tenants, Journal of
Economic Theory 88, 1999, as top trading cycles in steps):

    In each step everybody who remains asks for the best room on their list that is left, and else for their own
    room or, without one, for no room. A room comes from its tenant as long as the tenant remains, and else from
    the first person in the drawn order who remains. So each person points to one person, and some are in
    circles. Everybody in a circle gets the room that they ask for, and leaves with it, until nobody remains.

The drawn order goes by the grade, a smaller one first, then by the drawn word. Somebody who leaves the college has no
part in the round, and their room has no tenant. It compares these results with the recorded ones, and looks for what
may never be: a room given twice, somebody with less than their own room, a better room that nobody got, people who
would all gain by passing on their rooms. With the seed it works out the words of the draw. It explains how the result
of each PERSON came about. The record - is standard input, and the arguments may come in any order.

Exit status: 0 all is right, 1 faults, 2 the record cannot be read, 3 no faults, but no seed: the draw was not checked.
"""

import argparse
import signal
import sys
from collections.abc import Mapping
from pathlib import Path
from typing import Any, NamedTuple

try:
    from audit_record import Record, Unreadable, read_hex
except ModuleNotFoundError:
    if __name__ != "__main__":
        raise
    print("audit.py: audit_record.py is missing: put it into the folder of audit.py", file=sys.stderr)
    sys.exit(2)


class Gone(NamedTuple):
    """A better room that another person got. It came from its tenant, or from the first of those left in the order."""

    choice: int
    room: str
    to: str
    step: int
    giver: str


class Facts(NamedTuple):
    """How the result of one person came about. Choices count from 1, by the list as it was handed in."""

    place: int                            # in the drawn order, from 1
    struck: list[tuple[str, str]]         # rooms on the list that did not count, and why
    gone: list[Gone]
    step: int                             # when the person left
    circle: list[tuple[str, str | None]]  # with whom, and who got what; each room came from the next person
    choice: int | None                    # which choice the room is; None for the own room, or no room


class Audit:  # pylint: disable=too-many-instance-attributes  # others read what it found
    """The results of a round by the definition (`got`), next to those that were recorded (`result`).

    The rows are `rooms` (code, shut, ..), `people` (identifier, name, home, withdrawn, ..), `choices` (the list of each
    identifier), `words` (identifier, word) and `results` (identifier, room). None is no home, or no room. There may be
    `grades` (identifier, grade; who is not there has 0) and `going` (the identifier of who leaves the college).
    """

    def __init__(self, rows: Mapping[str, Any]) -> None:
        self.word, self.result = dict(rows["words"]), dict(rows["results"])
        self.grade = dict(rows.get("grades", []))
        going = {row[0] for row in rows.get("going", [])}
        self.going = {person: home for person, _, home, *_ in rows["people"] if person in going}
        self.home = {person: home for person, _, home, withdrawn, *_ in rows["people"]
                     if not withdrawn and person not in self.going}
        self.kept = {home: person for person, _, home, withdrawn, *_ in rows["people"] if withdrawn and home}
        self.rooms = {code for code, shut, *_ in rows["rooms"] if not shut} - set(self.kept)
        self.order = sorted(self.home, key=self.turn)
        self.handed_in = {person: list(rows["choices"].get(person, [])) for person in self.home}
        self.list = {person: [room for room in listed if not self.cause(person, room)]
                     for person, listed in self.handed_in.items()}
        self.got: dict[str, str | None] = {}
        self.step: dict[str, int] = {}                # in which step somebody left
        self.taken: dict[str, tuple[str, int]] = {}   # who got a room, and in which step
        self.giver: dict[str, str] = {}               # from whom a room came
        self.asked: dict[str, list[tuple[int, str | None]]] = {person: [] for person in self.home}  # from which step on
        self.exchange()

    def turn(self, person: str) -> tuple[int, str, str]:
        """By what the order goes: the grade, the word, then the identifier."""
        return self.grade.get(person, 0), self.word.get(person, "").lower(), person

    def cause(self, person: str, room: str) -> str:
        """Why a room on the list does not count, or nothing if it counts."""
        listed, home = self.handed_in[person], self.home[person]
        if home in listed and listed.index(home) <= listed.index(room):
            return f"it is {person}'s own room" if room == home else "it comes after the own room"
        if room in self.kept:
            return f"{self.kept[room]}, who lives there, has withdrawn"
        return "" if room in self.rooms else "it is out of use"

    def exchange(self) -> None:
        """The steps of the definition."""
        tenant = {home: person for person, home in self.home.items() if home}
        remaining, best, step = dict.fromkeys(self.order), dict.fromkeys(self.order, 0), 0
        while remaining:
            step, first = step + 1, next(iter(remaining))
            asks: dict[str, str | None] = {}
            points: dict[str, str] = {}
            for person in remaining:
                wishes = self.list[person]
                while best[person] < len(wishes) and wishes[best[person]] in self.taken:
                    best[person] += 1
                room = wishes[best[person]] if best[person] < len(wishes) else self.home[person]
                holder = tenant.get(room) if room else person
                asks[person], points[person] = room, holder if holder in remaining else first
                if not self.asked[person] or self.asked[person][-1][1] != room:
                    self.asked[person].append((step, room))
            for person in in_circles(points):
                room = self.got[person] = asks[person]
                self.step[person] = step
                del remaining[person]
                if room:
                    self.taken[room], self.giver[room] = (person, step), points[person]

    def rank(self, person: str, room: str | None) -> int:
        """How a person ranks a room, 0 being the best: the list, then the own room (or no room), then all else."""
        wishes = self.list[person]
        return wishes.index(room) if room in wishes else len(wishes) + int(room != self.home[person])

    def better(self, person: str) -> list[str]:
        """The rooms that a person ranks above the recorded result."""
        rank, wishes, home = self.rank(person, self.result[person]), self.list[person], self.home[person]
        return wishes[:rank] + ([home] if home and rank > len(wishes) else [])

    def faults(self) -> list[str]:
        """All that is wrong, as sentences; none if the results are right."""
        said = [f"{person} has {what}" for person in sorted({*self.home, *self.word, *self.result})
                for what, holds in (("no word", person not in self.word), ("no result", person not in self.result),
                                    ("a word or a result, and takes no part", person not in self.home)) if holds]
        return said or self.differences() + self.broken()

    def differences(self) -> list[str]:
        """Who has another result than by the definition, and how that one comes about."""
        return [f"{person} has {self.result[person] or 'no room'}, and by the definition gets "
                f"{self.got[person] or 'no room'}: {self.how(person)}"
                for person in self.order if self.result[person] != self.got[person]]

    def broken(self) -> list[str]:
        """Which promises do not hold, whatever the definition gives."""
        found, owner = [], {room: person for person, room in self.result.items() if room}
        for person in self.order:
            room, home = self.result[person], self.home[person]
            if room and owner[room] != person:
                found.append(f"{room} was given twice: to {person} and to {owner[room]}")
            if room and room not in self.rooms:
                found.append(f"{person} has {room}, which takes no part in the round")
            if self.rank(person, room) > len(self.list[person]):
                found.append(f"{person} has {room or 'no room'}, which is "
                             + (f"less than the own room {home}" if home else "not on the list"))
            found += [f"{person} would rather have {wish}, which nobody got"
                      for wish in self.better(person) if wish not in owner]
        circle = circle_in({person: [owner[room] for room in self.better(person) if room in owner]
                            for person in self.order})
        gains = [f"{person} would rather have {self.result[other]}, which {other} has"
                 for person, other in zip(circle, circle[1:] + circle[:1])]
        return found + (["all of these would gain by passing on their rooms: " + "; ".join(gains)] if circle else [])

    def facts(self, person: str) -> Facts | None:
        """How a person's result came about; None for somebody who takes no part."""
        if person not in self.home:
            return None
        got, wishes = self.got[person], self.list[person]
        choice = {room: number for number, room in enumerate(self.handed_in[person], 1)}
        struck = [(room, self.cause(person, room)) for room in choice if room not in wishes]
        gone = [Gone(choice[room], room, *self.taken[room], self.giver[room])
                for room in wishes[:self.rank(person, got)]]
        circle, other = [(person, got)], self.giver.get(got or "", person)
        while other != person:
            circle.append((other, self.got[other]))
            other = self.giver[self.got[other] or ""]
        return Facts(self.order.index(person) + 1, struck, gone, self.step[person], circle,
                     choice[got] if got in wishes else None)

    def claim(self, room: str) -> str:
        """Why a room came from the person from whom it came."""
        return "who lived there" if self.home[self.giver[room]] == room else "the first in the order of those left"

    def how(self, person: str) -> str:
        """How a person got the room, in one sentence."""
        found, got = self.facts(person), self.got[person]
        if found is None or got is None or got == self.home[person]:
            return f"in step {self.step[person]} nothing was left to ask for" + (" but the own room" if got else "")
        links = [f"{one}, {self.claim(room)}, asked for {room}" if self.giver[room] == one else
                 f"{one} asked for {room}, which came from {self.giver[room]}, {self.claim(room)}"
                 for one, room in found.circle if room]
        return f"in step {found.step} " + "; ".join(links)

    def explain(self, person: str) -> list[str]:
        """How a person's result came about, as sentences."""
        found = self.facts(person)
        if found is None:
            room = self.going.get(person)
            return [f"{person} " + ("takes no part in the round." if person not in self.going else "leaves the college"
                                    + (f", and gives the room {room} to the round." if room else "."))]
        home, got, listed = self.home[person], self.got[person], self.handed_in[person]
        grade = f", with grade {self.grade.get(person, 0)}" if self.grade else ""
        said = [f"{person} was number {found.place} of {len(self.order)} in the drawn order{grade}, and had "
                + (f"the room {home}, which nobody could take away." if home else "no room."),
                f"The list of {person} was {' '.join(listed)}." if listed else f"{person} had no list, or an empty one."]
        said += [f"{room} did not count: {cause}." for room, cause in found.struck]
        for gone in found.gone:
            said.append(f"{gone.room}, choice {gone.choice}, went in step {gone.step} to {gone.to}, " + (
                f"{self.claim(gone.room)}." if gone.giver == gone.to else
                f"and came from {gone.giver}, {self.claim(gone.room)}, in exchange for {self.got[gone.giver]}."))
        end = f"got {got}, choice {found.choice}" if found.choice else f"kept {got}" if got else "got no room"
        how = self.how(person)
        said += [f"{how[:1].upper()}{how[1:]}.", f"So {person} {end}."]
        other = self.result.get(person, got)
        return said + ([f"But the record has {other or 'no room'} for {person}."] if other != got else [])


def in_circles(points: dict[str, str]) -> list[str]:
    """The people who are in a circle, if each person points to one person."""
    inside, seen = list[str](), set[str]()
    for person in points:
        walk: list[str] = []
        while person not in seen:
            seen.add(person)
            walk.append(person)
            person = points[person]
        inside += walk[walk.index(person):] if person in walk else []
    return inside


def circle_in(points: dict[str, list[str]]) -> list[str]:
    """A circle, if each person points to several; nobody if there is none."""
    inside = set(points)
    while ends := {person for person in inside if not inside.intersection(points[person])}:
        inside -= ends  # who points to nobody inside is in no circle
    walk = sorted(inside)[:1]
    while walk and walk[-1] not in walk[:-1]:
        walk.append(next(person for person in points[walk[-1]] if person in inside))
    return walk[walk.index(walk[-1]):-1] if walk else []


QUARTERS = ((0, 4, 8, 12), (1, 5, 9, 13), (2, 6, 10, 14), (3, 7, 11, 15),
            (0, 5, 10, 15), (1, 6, 11, 12), (2, 7, 8, 13), (3, 4, 9, 14))


def seed_words(seed: str, count: int) -> list[str]:
    """The words of a seed: the keystream of ChaCha20 (RFC 8439) with this key and all else zero, eight bytes a word."""
    key = [int.from_bytes(bytes.fromhex(seed[place:place + 8]), "little") for place in range(0, 64, 8)]
    stream: list[int] = []
    for block in range((count + 7) // 8):
        start = [0x61707865, 0x3320646E, 0x79622D32, 0x6B206574, *key, block, 0, 0, 0]
        mixed = start[:]
        for one, two, three, four in QUARTERS * 10:
            for left, right, turned, bits in ((one, two, four, 16), (three, four, two, 12),
                                              (one, two, four, 8), (three, four, two, 7)):
                mixed[left] = (mixed[left] + mixed[right]) & 0xFFFFFFFF
                both = mixed[turned] ^ mixed[left]
                mixed[turned] = (both << bits | both >> 32 - bits) & 0xFFFFFFFF
        stream += [(one + two) & 0xFFFFFFFF for one, two in zip(mixed, start)]
    return [f"{high:08x}{low:08x}" for low, high in zip(stream[::2], stream[1::2])][:count]


RIGHT = ["the results are those of the definition", "nobody has less than their own room", "no room was given twice",
         "no other rooms would make somebody better off and nobody worse"]
NO_SEED = "the record names no seed, and no seed was given (--seed): the office may have chosen the order"


def verdict(record: Record, found: Audit, given: str) -> tuple[int, list[str]]:
    """The exit status, and what is reported about a round. The seed that a record names is the office's own word for it."""
    seeds = {seed: said for seed, said in ((record.seed, ", which the record names"), (given, "")) if seed}
    words = [word for _, word in sorted(record.words.items())]
    drawn = {f"the seed {seed}{source}": seed_words(seed, len(words)) == words for seed, source in seeds.items()}
    faults = found.faults() + [f"the words of the draw are not those of {seed}" for seed, fits in drawn.items() if not fits]
    said = (faults or RIGHT + [f"the words of the draw are those of {seed}" for seed in drawn]) + [NO_SEED] * (not seeds)
    headline = ("not right" if faults else "the draw was not checked; all else is right" if not seeds else "all is right" if given
                else "all is right, if the witnesses' seed is the one that the record names")
    return (1 if faults else 0 if seeds else 3,
            [f"Round {record.number}, {len(found.order)} people: {headline}", *(f"- {line}" for line in said)])


def main(words: list[str]) -> int:
    """Says what was found, and gives the exit status."""
    parser = argparse.ArgumentParser(prog="audit.py", description="Checks the results of a room exchange.")
    parser.add_argument("record", help="the record of the round, as the office wrote it; - is standard input")
    parser.add_argument("person", nargs="*", help="an identifier: how this person's result came about")
    parser.add_argument("--seed", default="", help="the seed of the draw, in quotes if there are spaces in it")
    asked = parser.parse_intermixed_args(words)
    reads, people = "the seed", [asked.record, *asked.person]
    file = next((word for word in people if word == "-" or Path(word).is_file()), asked.record)
    people.remove(file)
    try:
        given, reads = read_hex(asked.seed, 64, "it") if asked.seed else "", file
        record = Record((sys.stdin.buffer.read() if file == "-" else Path(file).read_bytes()).decode("utf-8-sig"))
    except (Unreadable, OSError, ValueError) as why:
        print(f"audit.py: {reads} cannot be read: {why}", file=sys.stderr)
        return 2
    found = Audit(record.rows())
    status, said = verdict(record, found, given)
    said += ["", "Of the office's journal the record says:", *record.history] if record.history else []
    print("\n".join([*said, *(line for person in people for line in ["", *found.explain(person)])]))
    return status


if __name__ == "__main__":
    if hasattr(signal, "SIGPIPE"):  # if nobody reads on, as after `| head`, the audit ends like other commands
        signal.signal(signal.SIGPIPE, signal.SIG_DFL)
    sys.exit(main(sys.argv[1:]))
