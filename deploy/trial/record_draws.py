"""Rounds drawn by chance, as lines of the office.

They have tenants, newcomers, shut rooms, withdrawals, leavers, grades, and lists of all kinds.
"""

import random
from collections.abc import Sequence
from typing import NamedTuple

from audit import seed_words

LISTED = 40  # rooms on a list at most


class Round(NamedTuple):
    """The lines of a round, until its results are there. `seed` is None where the words are no seed's."""

    lines: list[str]
    number: int
    people: list[str]
    displaced: set[str]
    seed: str | None


def key_of(person: str) -> str:
    """The key of a person in the trial's offices: `key`, a small `x` up to 16 signs, and the identifier."""
    return "key" + person.lower().rjust(13, "x")


class Drawing:  # pylint: disable=too-many-instance-attributes  # what a round is made of
    """Draws one round. It keeps what the lists have to know: who lives where, and which rooms are in use."""

    def __init__(self, rng: random.Random, people: int, rooms: int, listed: int) -> None:
        self.rng, self.listed = rng, min(listed, LISTED)
        self.rooms = distinct(rng, rooms, "ABCDEFGH", 3)
        self.people = distinct(rng, people, "PQRS01", 4)
        self.lines: list[str] = []
        self.number = 0
        self.home: dict[str, str] = {}
        self.shut: set[str] = set()
        self.withdrawn: set[str] = set()
        self.going: set[str] = set()
        self.displaced: set[str] = set()
        self.waiting: list[str] = []
        self.hot = rng.sample(self.rooms, min(len(self.rooms), max(2, rooms // 3))) if self.rooms else []

    def round(self, cancelled: Sequence[int]) -> Round:
        """The whole round, with what went before it: one of these numbers of rounds was cancelled."""
        self.register()
        for _ in range(self.rng.choice(cancelled)):
            self.begin()
            self.wishes()
            self.end("cancel")
        if self.rng.random() < 0.2 and len(self.people) < 20:
            self.begin()
            self.wishes()
            self.draw()
            self.lines += ["run", "publish", "settle"]
            self.home.clear()  # who lives where now is not followed: lists need not name the own room
            self.end()
        self.begin()
        self.wishes()
        seed = self.draw()
        self.lines += ["run", "publish"] if self.rng.random() < 0.8 else ["run"]
        return Round(self.lines, self.number, self.people, self.displaced, seed)

    def register(self) -> None:
        """The rooms, and people of whom some live in them. A few rooms are out of use already."""
        rng = self.rng
        self.lines += [f"room {room}" for room in self.rooms]
        self.lines += [f"person {person} {key_of(person)} Name of {person}" for person in self.people]
        tenants = rng.randint(0, min(len(self.people), len(self.rooms)))
        self.home = dict(zip(rng.sample(self.people, tenants), rng.sample(self.rooms, tenants)))
        self.lines += [f"home {person} {room}" for person, room in self.home.items()]
        if rng.random() < 0.5:
            self.lines += [f"grade {person} {rng.choice('0112239')}" for person in self.people if rng.random() < 0.6]
        for room in [room for room in self.rooms if room not in self.home.values() and rng.random() < 0.1]:
            self.put_out_of_use(room)

    def begin(self) -> None:
        """Opens a round."""
        self.lines.append("open")
        self.number += 1
        self.displaced.clear()

    def end(self, *lines: str) -> None:
        """Ends a round, and with it all withdrawals; nobody is about to leave any more."""
        self.lines += lines
        self.withdrawn.clear()
        self.going.clear()

    def put_out_of_use(self, room: str) -> None:
        """Shuts a room; the person who lives there has no home any more."""
        self.lines.append(f"shut {room}")
        self.shut.add(room)
        self.displaced |= {person for person, home in self.home.items() if home == room}
        self.home = {person: home for person, home in self.home.items() if home != room}

    def wishes(self) -> None:
        """What happens while a round is open, in any order."""
        rng = self.rng
        happens = [self.choose for person in self.people if rng.random() < 0.9]
        happens += [self.withdraw for person in self.people if rng.random() < 0.08]
        happens += [self.leave_college for person in self.people if rng.random() < 0.08]
        happens += [self.shut_one for room in self.rooms if rng.random() < 0.06]
        happens += [self.reopen] * rng.choice([0, 0, 1])
        happens += [self.newcomer] * rng.choice([0, 0, 0, 1])
        rng.shuffle(happens)
        self.waiting = rng.sample(self.people, len(self.people))
        for one in happens:
            one()

    def choose(self) -> None:
        """Somebody hands in a list; mostly somebody who has handed in none."""
        takers = [person for person in self.people if person not in self.withdrawn | self.going]
        if takers:
            person = self.waiting.pop() if self.waiting and self.rng.random() < 0.9 else self.rng.choice(takers)
            if person in takers:
                self.lines.append(" ".join(["choose", person, *self.listed_by(person)]))

    def listed_by(self, person: str) -> list[str]:
        """A list: any rooms, those that many want, lived-in or vacant ones; the own room at any place; or empty."""
        rng = self.rng
        free = [room for room in self.rooms if room not in self.shut]
        homes = set(self.home.values())
        among = rng.choice([free, free, [room for room in self.hot if room not in self.shut],
                            [room for room in free if room in homes], [room for room in free if room not in homes]])
        listed = rng.sample(among, min(len(among), rng.choice([0, 1, 2, 3, self.listed, self.listed])))
        home = self.home.get(person)
        if home and rng.random() < 0.4:
            listed = [room for room in listed if room != home][:LISTED - 1]
            listed.insert(rng.randint(0, len(listed)), home)
        return listed

    def withdraw(self) -> None:
        """Somebody withdraws; now and then for the second time. Of somebody who leaves it is refused."""
        person = self.rng.choice(self.people)
        if person not in self.going:
            self.withdrawn.add(person)
        self.lines.append(f"withdraw {person}")

    def leave_college(self) -> None:
        """Somebody who has a room leaves the college; now and then for the second time, or after having withdrawn."""
        tenants = sorted({*self.home, *self.going})
        if tenants:
            person = self.rng.choice(tenants)
            if person not in self.withdrawn:
                self.going.add(person)
            self.lines.append(f"going {person}")

    def shut_one(self) -> None:
        """Shuts a room, lived in or not, wished for or not."""
        rooms = [room for room in self.rooms if room not in self.shut]
        if rooms:
            self.put_out_of_use(self.rng.choice(rooms))

    def reopen(self) -> None:
        """A room comes back, and nobody lives there."""
        if self.shut:
            room = self.rng.choice(sorted(self.shut))
            self.shut.remove(room)
            self.lines.append(f"reopen {room}")

    def newcomer(self) -> None:
        """Adds a person, or a room, while the round is open."""
        person, room = f"Z{len(self.lines)}", f"Z{len(self.lines)}"
        if self.rng.random() < 0.5 and len(self.people) < 2000:
            self.people.append(person)
            self.lines.append(f"person {person} {key_of(person)} Late {person}")
        elif len(self.rooms) < 2000:
            self.rooms.append(room)
            self.lines.append(f"room {room}")

    def draw(self) -> str | None:
        """Closes the round and draws: by a seed, or by words of which many are the same."""
        self.lines.append("close")
        count = len(set(self.people) - self.withdrawn - self.going)
        seed = None
        if self.rng.random() < 0.8:
            seed = f"{self.rng.getrandbits(256):064x}"
            words = seed_words(seed, count)
        else:
            words = [f"{self.rng.randrange(3) * 0xABCDEF:016X}" for _ in range(count)]
        self.lines.append(" ".join(["draw", *words]))
        return seed


def distinct(rng: random.Random, count: int, signs: str, most: int) -> list[str]:
    """So many different texts out of these signs. Above some 200 they are numbered."""
    found: set[str] = set()
    while len(found) < count:
        found.add("".join(rng.choices(signs, k=rng.randint(1, most))) if count < 200 else f"{signs[0]}{len(found)}")
    return rng.sample(sorted(found), count)
