"""The record of a round, as audit.py reads it. It needs nothing but Python (3.10 or later)."""

from typing import Any


class Unreadable(Exception):
    """This is not the record of a round; says why."""


def read_hex(text: str, length: int, what: str) -> str:
    """A seed or a word in small letters. There may be spaces around it and in it, as on the office's page."""
    found = "".join(text.split()).lower()
    if len(found) != length or set(found) - set("0123456789abcdef"):
        raise Unreadable(f"{what} has to have {length} signs out of 0 to 9 and a to f, and is {text[:64]!r}")
    return found


# The order of the lines of a record. Rounds that were opened and cancelled may come before them.
LINES = ["room", "person", "home", "grade", "open", "cancel", "choose", "withdraw", "going", "shut", "close", "draw",
         "run", "publish", "round", "order", "results"]
COMMENTS, NEEDED = (["round"], ["seed"], ["result"]), ["# round", "open", "close", "draw", "run"]


class Record:  # pylint: disable=too-many-instance-attributes  # a list for each kind of line
    """What a record says. Comments have the number, the results, the seed, and what the journal says (`history`). A sign that
    a terminal carries out counts as a space: by such signs a record could replace what is found wrong in it."""

    def __init__(self, text: str) -> None:
        self.number, self.seed, self.last, self.history = 0, "", 0, list[str]()
        self.lines: set[str] = set()  # those that were read, by their first words: each of them comes once
        self.homes, self.results = dict[str, str | None](), dict[str, str | None]()
        self.withdrawn, self.going = set[str](), set[str]()
        self.rooms, self.grades = dict[str, bool](), dict[str, int]()
        self.choices, self.words = dict[str, list[str]](), dict[str, str]()
        for number, line in enumerate(text.split("\n"), 1):
            try:
                self.read("".join(sign if sign.isprintable() else " " for sign in line).split())
            except Unreadable as why:
                raise Unreadable(f"line {number}: {why}") from why
            except (KeyError, ValueError) as why:
                raise Unreadable(f"line {number} is none of a record, or in a wrong place: {line[:60]!r}") from why
        missing = [name for name in NEEDED if name not in self.lines] + ["# result"] * (not self.results and bool(self.words))
        if missing:
            raise Unreadable(f"it has no line `{missing[0]}`")

    def note(self, words: list[str]) -> None:
        """Notes that a line is there: once, and in its order."""
        name = " ".join(words[:1 if words[0] == "draw" else 3 if words[1:2] == ["result"] else 2])
        if name in self.lines:
            raise Unreadable(f"there is a second line `{name}`")
        self.lines.add(name)
        if words[0] != "#":
            if LINES.index(words[0]) < self.last:
                raise ValueError
            self.last = LINES.index(words[0])

    def read(self, words: list[str]) -> None:
        """One line. One that is unknown or out of order ends in a KeyError or a ValueError."""
        if not words or (words[0].startswith("#") and words[1:2] not in COMMENTS):
            self.history += [f"- {' '.join(words[2:])}"] if words[1:2] == ["journal:"] else []
            return
        self.note(words)
        match words:
            case ["cancel"]:
                self.last, self.lines = 0, self.lines - {"open", "cancel"}
            case ["#", "round", number, "ran" | "published"]:
                self.number = int(number)
            case ["#", "seed", seed]:
                self.seed = read_hex(seed, 64, "a seed")
            case ["#", "result", person, room]:
                self.results[person] = None if room == "none" else room
            case ["room", room]:
                self.rooms[room] = False
            case ["person", person, _, _, *_]:
                self.homes[person] = None
            case ["home", person, room] if not (self.homes[person] or self.rooms[room] or room in self.homes.values()):
                self.homes[person] = room
            case ["choose", person, *rooms] if person in self.homes and len(self.rooms.keys() & {*rooms}) == len(rooms):
                self.choices[person] = rooms
            case ["withdraw", person] if person in self.homes:
                self.withdrawn.add(person)
            case ["going", person] if self.homes[person] and person not in self.withdrawn:
                self.going.add(person)
            case ["grade", person, grade] if person in self.homes and grade in {*"0123456789"}:
                self.grades[person] = int(grade)
            case ["shut", room] if not self.rooms[room] and room not in self.homes.values():
                self.rooms[room] = True
            case ["draw", *drawn]:
                part = sorted(self.homes.keys() - self.withdrawn - self.going)
                if len(part) != len(drawn):
                    raise Unreadable(f"{len(part)} people take part, and the draw has {len(drawn)} words")
                self.words = {person: read_hex(word, 16, "a word of a draw") for person, word in zip(part, drawn)}
            case ["open" | "close" | "run" | "publish" | "round" | "order" | "results"]:
                pass
            case _:
                raise ValueError

    def rows(self) -> dict[str, Any]:
        """The plain rows of the round."""
        return {"rooms": list(self.rooms.items()), "choices": self.choices, "words": list(self.words.items()),
                "people": [(person, person, home, person in self.withdrawn) for person, home in self.homes.items()],
                "results": list(self.results.items()), "grades": list(self.grades.items()),
                "going": [(person,) for person in self.going]}
