"""The college of the guides' pictures: three houses, 66 rooms and 60 people. All of it is made up."""

import contextlib
import csv
import io
import random
import sqlite3

from stand import key_of

HOUSES = {"G": "Garden", "N": "North", "S": "South"}
FIRST = "Ada Ben Cleo Dora Emil Finn Gita Hugo Iris Juri Kira Levi Mona Nils Olga Piet Rosa Sven Tara Wim".split()
LAST = ["Abelard", "Brandt", "Castell", "Dorn", "Eschner", "Falk", "Grebe", "Holm", "Ilves", "Jansen", "Kersten", "Lindt"]
NOTICE = '<p id="notice"><span lang="en">Lists are taken until 31 May, noon. Questions: rooms@college.example</span></p>'
WITHOUT_ROOM, WITHOUT_LIST, LONGEST = 8, 7, 6


def csv_of(header, rows):
    """A list, as a spreadsheet saves it."""
    text = io.StringIO(newline="")
    csv.writer(text).writerows([header, *rows])
    return text.getvalue()


class College:
    """Rooms, people, and the lists of this year: the same ones each time."""

    def __init__(self):
        chance = random.Random(2027)
        self.rooms = [f"{house}-{floor}{number:02}" for house in HOUSES for floor in (1, 2) for number in range(1, 12)]
        names = [f"{first} {last}" for last in LAST for first in FIRST]
        self.people = {f"R{101 + number}": name for number, name in enumerate(sorted(chance.sample(names, 60)))}
        tenants = chance.sample(list(self.people), len(self.people) - WITHOUT_ROOM)
        self.homes = dict(zip(tenants, chance.sample(self.rooms, len(tenants))))
        # Some rooms are wanted by many.
        wanted = {room: chance.random() for room in self.rooms}
        self.choices = {
            person: sorted(chance.sample([room for room in self.rooms if room != self.homes.get(person)],
                                         chance.randint(2, LONGEST)), key=lambda room: wanted[room] + chance.random() / 2)
            for person in chance.sample(list(self.people), len(self.people) - WITHOUT_LIST)
        }

    def put_into(self, file):
        """Puts rooms and people into the office's file, by SQLite itself."""
        with contextlib.closing(sqlite3.connect(file)) as database:
            database.executemany("INSERT INTO room VALUES (?, 0)", [(room,) for room in self.rooms])
            database.executemany("INSERT INTO person VALUES (?, ?, ?, ?, 0)",
                                 [(person, name, key_of(person), self.homes.get(person)) for person, name in self.people.items()])
            database.commit()

    def newcomers(self):
        """A list of new people with a fault of each kind that a clerk makes."""
        free = [room for room in self.rooms if room not in self.homes.values()]
        taken = next(iter(self.homes))
        return csv_of(["person", "name", "key", "home"], [
            ["R161", "Bela Castell", "", free[0]], ["R162", "", "", free[1]], ["R163", "Jule Falk", "", "N-999"],
            ["R164", "Arne Holm", "", free[2]], ["R.165", "Lotte Grebe", "", ""], ["R164", "Mika Ilves", "", free[3]],
            ["R167", "Runa Dorn", "", self.homes[taken]], ["R168", "Timo Lindt", "", free[4]]])

    def lists(self):
        """The lists of choices that residents hand in."""
        return csv_of(["person", "choices"], ([person, " ".join(rooms)] for person, rooms in sorted(self.choices.items())))

    def described(self):
        """What the residents' page says of each room."""
        return csv_of(["room", "house", "floor", "size"], (
            [room, HOUSES[room[0]], room[2], f"{12 + sum(map(ord, room)) % 9} m²"] for room in self.rooms))
