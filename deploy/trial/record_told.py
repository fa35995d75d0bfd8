"""What the program says of an office after a round, and a file that holds just that."""

import collections
import contextlib
import random
import shutil
import sqlite3
import subprocess
from collections.abc import Callable
from pathlib import Path
from typing import NamedTuple

from record_draws import Round, key_of

MARK = "mark"  # no line of the program: its answer is between two others
MARKED = "not understood\n"
ASKED = 50  # up to so many people the program is asked what each of them sees

Person = tuple[str, str | None, bool, bool]  # the identifier, the home, whether they have withdrawn, whether they leave


class NotSo(Exception):
    """Something is not as it should be."""


class Trial:  # pylint: disable=too-few-public-methods  # others build on it
    """Counts what was tried, and ends at the first thing that is not as it should be."""

    def __init__(self, program: str, seed: str, folder: Path) -> None:
        self.program, self.folder, self.rng = program, folder, random.Random(seed)
        self.counts: collections.Counter[str] = collections.Counter()

    def check(self, holds: bool, what: str, *shown: object) -> None:
        """Ends the trial where something does not hold."""
        if not holds:
            raise NotSo("\n".join([f"not so: {what}", *map(str, shown)]))


class Told(NamedTuple):
    """What the program answered once the results were there."""

    round: str
    order: str
    results: str
    moves: str
    rooms: list[tuple[str, bool]]
    people: list[Person]
    choices: dict[str, list[str]]
    words: dict[str, str]
    result: dict[str, str | None]
    grades: dict[str, int]


def answers(program: str, lines: list[str], questions: list[str]) -> tuple[str, list[str]]:
    """The answers of a rehearsal to these lines, and the answer to each of these questions after them."""
    asked = lines + [line for question in questions for line in (MARK, question)]
    text = subprocess.run([program, "rehearse"], input="".join(f"{line}\n" for line in asked), text=True,
                          capture_output=True, check=False).stdout
    first, *others = text.split(MARKED)
    return first, others


def to_moves(published: bool, number: int) -> list[str]:
    """The further lines that lead from the results of a round to its moves."""
    return [*([] if published else ["publish"]), "settle", f"moves {number}"]


def table(text: str) -> list[list[str]]:
    """The rows of a table."""
    return [line.split() for line in text.splitlines()[1:]]


def or_none(text: str) -> str | None:
    """A room or a home of an answer."""
    return None if text == "none" else text


def told_of(drawn: Round, ask: Callable[[list[str]], tuple[str, list[str]]]) -> Told:
    """All that the program knows, by its answers to questions. They end with the end of the round."""
    keys = [key_of(person) for person in drawn.people] if len(drawn.people) <= ASKED else []
    first, found = ask(["rooms", "people", "round", "order", "results", *(f"me {key}" for key in keys),
                        *to_moves(drawn.lines[-1] == "publish", drawn.number)])
    rooms, homes, asked, order, results = found[:5]
    people, choices = seen_by(found[5:5 + len(keys)]) if keys else followed(drawn.lines, first.splitlines(), homes)
    words = {person: word for _, word, person, *_ in (line.split() for line in order.splitlines())}
    result = {person: or_none(room) for person, room in table(results)}
    return Told(asked, order, results, found[-1], [(code, state == "shut") for code, state, _ in table(rooms)],
                sorted(people), choices, words, result, grades_in(drawn.lines))


def grades_in(lines: list[str]) -> dict[str, int]:
    """The grades that these lines give, but 0."""
    given = {line.split()[1]: int(line.split()[2]) for line in lines if line.startswith("grade ")}
    return {person: grade for person, grade in given.items() if grade}


def graded(order: str) -> dict[str, int]:
    """The grades in a drawn order."""
    return {words[2]: int(words[4]) for words in map(str.split, order.splitlines()) if len(words) > 3}


def seen_by(answers_to_me: list[str]) -> tuple[list[Person], dict[str, list[str]]]:
    """The people and their lists, by what each of them sees."""
    people, choices = [], {}
    for answer in answers_to_me:
        said = {line.split(" ")[0]: line.split(" ")[1:] for line in answer.splitlines()}
        person = said["person"][0]
        people.append((person, or_none(said["home"][0]), said["withdrawn"] == ["yes"], said["going"] == ["yes"]))
        if said["choices"]:
            choices[person] = said["choices"]
    return people, choices


def followed(lines: list[str], said: list[str], homes: str) -> tuple[list[Person], dict[str, list[str]]]:
    """The same of many people, by the table of people and the answers to the lines of the round, one for each line."""
    choices: dict[str, list[str]] = {}
    withdrawn: set[str] = set()
    going: set[str] = set()
    for line, answer in zip(lines, said, strict=True):
        if line in ("cancel", "settle"):
            choices, withdrawn, going = {}, set(), set()
        elif answer.startswith("chosen"):
            choices[line.split()[1]] = answer.split()[1:]
        elif answer == "withdrawn":
            withdrawn.add(line.split()[1])
        elif answer == "going":
            going.add(line.split()[1])
    people = [(person, or_none(home), person in withdrawn, person in going) for person, home, *_ in table(homes)]
    return people, {person: listed for person, listed in choices.items() if listed}


def file_of(empty: Path, told: Told, target: Path) -> Path:
    """A file of the office, made of an empty one."""
    for end in ("", "-wal"):
        target.with_name(target.name + end).unlink(missing_ok=True)
        with contextlib.suppress(FileNotFoundError):
            shutil.copyfile(empty.with_name(empty.name + end), target.with_name(target.name + end))
    _, number, phase, *_ = told.round.split()
    people = [(person, f"Name of {person}", key_of(person), home, withdrawn)
              for person, home, withdrawn, _ in told.people]
    going = [(person,) for person, _, _, leaves in told.people if leaves]
    choices = [(person, place, room) for person, rooms in told.choices.items() for place, room in enumerate(rooms)]
    with contextlib.closing(sqlite3.connect(target)) as database:
        database.execute("PRAGMA synchronous = OFF")
        database.executemany("INSERT INTO room(code, shut) VALUES(?, ?)", told.rooms)
        database.executemany("INSERT INTO person(id, name, passkey, home, withdrawn) VALUES(?, ?, ?, ?, ?)", people)
        database.executemany("INSERT INTO choice(person, place, room) VALUES(?, ?, ?)", choices)
        database.executemany("INSERT INTO grade(person, value) VALUES(?, ?)", told.grades.items())
        database.executemany("INSERT INTO going(person) VALUES(?)", going)
        database.executemany("INSERT INTO word(person, hex) VALUES(?, ?)", told.words.items())
        database.executemany("INSERT INTO result(person, room) VALUES(?, ?)", told.result.items())
        database.execute("UPDATE round SET number = ?, phase = ?", (int(number), phase))
        database.commit()
    return target
