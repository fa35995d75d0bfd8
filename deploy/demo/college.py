"""A made-up college for rooms-demo: sixty people, their rooms, and how far their round is. It is the same each time but for
the keys, so that nobody else of the machine can sign in."""

import csv
import io
import random
import secrets

FIRST = ("Ada Amir Anouk Bela Carla Chidi Dora Elif Emil Esra Finn Greta Hana Ida Ines Ivo Jana Jonas Kofi Lena Leo Lin Luca Maja "
         "Marek Mina Nils Noor Olga Oskar Pia Ravi Rosa Samir Selma Sven Tara Theo Uma Vera").split()
LAST = ("Abel Bauer Costa Demir Eriksen Fuchs Garcia Hoang Ibrahim Jansen Keller Lindqvist Moreau Novak Okafor Petrov Quist Rossi "
        "Sato Tanaka Urban Vogel Weiss Yilmaz Zeller").split()
PEOPLE = 60
WITHOUT_ROOM = 11  # newcomers, who have a room to win: of grade 1, so the others choose before them
HOUSES = {"N": ("North House", (1, 2, 3)), "S": ("South House", (1, 2, 3)), "G": ("Garden House", (0, 1))}
ROOMS_A_FLOOR = 8
SIZES = (11, 12, 14, 16, 18, 21)
NOTICE = ('<span lang="en">This is a made-up college, to try things out. Lists are taken until Friday, 12:00.</span>\n'
          '<span lang="de">Dies ist ein erfundenes Wohnheim zum Ausprobieren. Wunschlisten bis Freitag, 12:00 Uhr.</span>')


def table(*rows: list[str]) -> bytes:
    """Rows as CSV."""
    text = io.StringIO(newline="")
    csv.writer(text).writerows(rows)
    return text.getvalue().encode()


class College:  # pylint: disable=too-many-instance-attributes  # each is a part of the college
    """The rooms and people, with their lists."""

    def __init__(self) -> None:
        chance = random.Random(1974)
        self.rooms = [f"{house}{floor}{number:02}" for house, (_, floors) in HOUSES.items() for floor in floors
                      for number in range(1, ROOMS_A_FLOOR + 1)]
        self.sizes = {room: chance.choice(SIZES) for room in self.rooms}
        self.people = [f"S{number}" for number in range(2301, 2301 + PEOPLE)]
        pairs = chance.sample([f"{first} {last}" for first in FIRST for last in LAST], PEOPLE)
        self.names = dict(zip(self.people, pairs))
        self.newcomers = self.people[-WITHOUT_ROOM:]
        tenants = self.people[:-WITHOUT_ROOM]
        self.homes = dict(zip(tenants, chance.sample(self.rooms, len(tenants))))
        self.grades = {person: int(person in self.newcomers) for person in self.people}
        self.leavers = chance.sample(tenants, 3)
        self.withdrawn = chance.choice([person for person in tenants if person not in self.leavers])
        self.keys = {person: secrets.token_hex(8) for person in self.people}
        self.lists = self.made_lists(chance)

    def made_lists(self, chance: random.Random) -> dict[str, list[str]]:
        """The lists that are in: of two people in three. Large rooms and gardens are liked best, but not by everybody."""
        away = {*self.leavers, self.withdrawn}
        likes = {room: size + 6 * room.startswith("G") for room, size in self.sizes.items()}
        found = {}
        for person in self.people:
            if person not in away and chance.random() < 0.66:
                home = self.homes.get(person, "")
                wished = sorted(self.rooms, key=lambda room: -likes[room] + chance.uniform(-9, 9))
                found[person] = [room for room in wished if room != home][:chance.randint(2, 9)]
        return found

    def shown(self) -> list[tuple[str, str]]:
        """Three people whose keys are shown, each with what is worth to be seen of them."""
        rest = [person for person in self.people if person not in {*self.leavers, self.withdrawn}]
        tenants = [person for person in rest if person in self.homes]
        return [(next(person for person in tenants if person in self.lists), "has a room, and has handed in a list"),
                (next(person for person in tenants if person not in self.lists), "has a room, and no list is in yet"),
                (next(person for person in rest if person not in self.homes), "is new, and has no room yet")]

    def imports(self) -> list[tuple[str, bytes]]:
        """The lists that come in before the round is open, by their kind."""
        people = [[person, self.names[person], self.keys[person], self.homes.get(person, "")] for person in self.people]
        grades = [[person, str(grade)] for person, grade in self.grades.items() if grade]
        return [("rooms", table(["room"], *([room] for room in self.rooms))),
                ("people", table(["person", "name", "key", "home"], *people)),
                ("grades", table(["person", "grade"], *grades))]

    def choices(self) -> bytes:
        """The lists of rooms that are in, as CSV."""
        return table(["person", "choices"], *([person, " ".join(rooms)] for person, rooms in self.lists.items()))

    def descriptions(self) -> bytes:
        """What the residents' page says of rooms."""
        rows = []
        for room in self.rooms:
            house, floor, size = HOUSES[room[0]][0], room[1], self.sizes[room]
            more = "balcony" if size > 16 else "shared kitchen" if size < 14 else ""
            rows.append([room, house, floor, f"{size} m²", f"{220 + 9 * size} €", more])
        return table(["room", "house", "floor", "size", "rent", "more"], *rows)
