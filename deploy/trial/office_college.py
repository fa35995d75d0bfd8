"""The college of the trial: its rooms and people, and their lists as files."""

import csv
import io
import random

PEOPLE, HOMELESS, HOUSES, ROOMS_A_HOUSE = 300, 40, "ABCD", 80
FIRST = "Ann Bo Zoë Li Mia Jo Ola Tim Ömer Ida Kai Eva Nell Siân Ravi Noor".split()
LAST = "Ash O'Neill Žák Wei Mo Kern Öz Tan Çelik Berg Lund Ng Diaz Smith-Jones Ødegård <b>Kaur</b>".split()


class College:
    """The people and rooms of the trial, and their lists as files."""

    def __init__(self, folder):
        chance = random.Random(2027)
        self.folder = folder
        self.rooms = [f"{house}-{number}" for house in HOUSES for number in range(101, 101 + ROOMS_A_HOUSE)]
        self.people = [f"R{number:03}" for number in range(1, PEOPLE + 1)]
        self.names = {person: f"{chance.choice(FIRST)} {chance.choice(LAST)}" for person in self.people}
        settled = chance.sample(self.people, PEOPLE - HOMELESS)
        self.homes = dict(zip(settled, chance.sample(self.rooms, len(settled))))
        wanted = sorted(self.rooms, key=lambda room: chance.random())
        self.choices = {
            person: sorted(chance.sample(self.rooms, chance.randint(1, 12)), key=wanted.index)
            for person in self.people[:270]
        }
        self.keys = {}
        self.leavers = [person for person in self.people[265:289] if person in self.homes][:3]

    def write(self, name, header, rows):
        """Writes a list as a spreadsheet does."""
        text = io.StringIO(newline="")
        csv.writer(text).writerows([header, *rows])
        (self.folder / name).write_bytes(text.getvalue().encode())
        return self.folder / name

    def people_rows(self):
        """The list of people, without keys."""
        return [[person, self.names[person], "", self.homes.get(person, "")] for person in self.people]
