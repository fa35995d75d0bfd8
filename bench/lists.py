"""Imports large lists, and exports the outcome; bench/lists.sh says what is compared and measured."""

import csv
import io
import os
import random
import subprocess
import sys
import tempfile
import time
from dataclasses import dataclass
from pathlib import Path

from faults import content_of, opened

COUNT = 2000
# How many people's choices are in a list, which has 262,144 bytes at most.
PART = {20: COUNT, 40: COUNT // 2}


@dataclass
class Ran:
    """What a run of the program printed, on either output, and what it took."""

    text: str
    status: int
    seconds: float
    processor: float
    kilobytes: int


class Office:
    """An office in a file, which the program works on."""

    def __init__(self, program, file):
        self.program, self.file = program, file
        assert self.run("new").text == "ok\n"

    def run(self, verb, *words, given=None):
        """Runs a line of the program over the file, with these bytes on standard input."""
        line = [self.program, verb, "--db", str(self.file), *map(str, words)]
        with tempfile.TemporaryFile() as told:
            begun = time.perf_counter()
            with subprocess.Popen(line, stdin=subprocess.PIPE, stdout=told, stderr=subprocess.STDOUT) as run:
                assert run.stdin
                if given:
                    run.stdin.write(given)
                run.stdin.close()
                _, ended, used = os.wait4(run.pid, 0)
                run.returncode = os.waitstatus_to_exitcode(ended)
            seconds = time.perf_counter() - begun
            told.seek(0)
            text = told.read().decode()
        return Ran(text, run.returncode, seconds, used.ru_utime + used.ru_stime, used.ru_maxrss)

    def do(self, line, answer):
        """Runs a line, which has to get this answer. Returns what it took."""
        ran = self.run("do", *line.split())
        assert ran.text == answer + "\n", (line[:40], ran.text)
        return ran

    def bring(self, kind, label, path):
        """Imports a list."""
        return self.run("import", kind, label, path)

    def export(self, kind):
        """The records of an export, without its header."""
        ran = self.run("export", kind)
        assert ran.status == 0, ran
        return list(csv.reader(io.StringIO(ran.text, newline="")))[1:]


def person_of(number):
    return f"P{number:04d}"


def room_of(number):
    return f"R{number:04d}"


def key_of(number):
    return f"key000000000{number:04d}"


def name_of(number):
    """A name, some of which a list has to quote."""
    return f"Person, {number}" if number % 3 == 0 else f'Pérsön "{number}"' if number % 3 == 1 else f"Person {number}"


@dataclass
class SentList:
    """A list in a file, with its label and how many records it has."""

    kind: str
    label: str
    path: Path
    count: int


def write_list(folder, kind, number, header, rows):
    """A list as Python's csv writes it."""
    path = folder / f"{kind}-{number}.csv"
    with open(path, "w", encoding="utf-8", newline="") as file:
        writer = csv.writer(file, lineterminator="\n")
        writer.writerow(header.split(","))
        writer.writerows(rows)
    return SentList(kind, f"{kind}-{number}", path, len(rows))


def write_choices(folder, choices, part):
    """The lists of choices."""
    rows = [(person, " ".join(codes)) for person, codes in choices.items()]
    return [write_list(folder, "choices", at // part + 1, "person,choices", rows[at:at + part]) for at in range(0, COUNT, part)]


def rooms_of_all():
    """The codes of all rooms."""
    return [room_of(n) for n in range(COUNT)]


def people_of_all(housed):
    """The records of all people, of whom the first so many live somewhere."""
    return [(person_of(n), name_of(n), key_of(n), room_of(n) if n < housed else "") for n in range(COUNT)]


def choices_of_all(longest):
    """A drawn list of so many rooms for each person."""
    draws, rooms = random.Random(1999), rooms_of_all()
    return {person_of(n): draws.sample(rooms, longest) for n in range(COUNT)}


def register_lists(folder, housed):
    """The lists of rooms and people."""
    return [write_list(folder, "rooms", 1, "room", [(room,) for room in rooms_of_all()]),
            write_list(folder, "people", 1, "person,name,key,home", people_of_all(housed))]


def furnish(program, folder, housed, longest):
    """An office in whose open round everybody has a list of so many rooms, and the first so many people live somewhere."""
    office = Office(program, folder / "office.db")
    for sent in [*register_lists(folder, housed), *write_choices(folder, choices_of_all(longest), PART[longest])]:
        if sent.label == "choices-1":
            office.do("open", "round 1 open")
        ran = office.bring(sent.kind, sent.label, sent.path)
        assert ran.text == f"added {sent.count}\n", ran.text
    return office


def words_by_seed(program):
    """The words of a draw for everybody, by a seed of zeros."""
    words = [program, "words", "--seed", "0" * 64, "--count", str(COUNT)]
    return subprocess.run(words, check=True, capture_output=True, text=True).stdout


def bring_twice(office, sent):
    """Imports a list twice; the second time it changes nothing."""
    for turn in ("first", "again"):
        before = content_of(office.file)
        ran = office.bring(sent.kind, sent.label, sent.path)
        assert (ran.text, ran.status) == (f"added {sent.count}\n", 0), ran
        assert turn == "first" or content_of(office.file) == before
        tell(f"{sent.label}, {sent.path.stat().st_size} bytes, {turn}", ran)


def tell(what, ran):
    print(f"{what:36} {ran.seconds:6.3f} s, {ran.processor:6.3f} s of a processor, {ran.kilobytes // 1024:3} MB", flush=True)


def recorded_choices(office):
    """The recorded lists, by person."""
    lists: dict[str, list[str]] = {}
    with opened(office.file) as database:
        for person, room in database.execute("SELECT person, room FROM choice ORDER BY person, place"):
            lists.setdefault(person, []).append(room)
    return lists


def compare(what, got, wanted):
    assert got == wanted, f"{what} is not what it has to be"
    print(f"{what}: {len(got)} records, each field as it has to be")


def carry_out_round(office, longest):
    """From the lists to the day of moving. Gives how many moved."""
    person, codes = person_of(COUNT - 1), " ".join(room_of(n) for n in range(longest))
    tell("round", office.do("round", f"round 1 open people {COUNT} withdrawn 0"))
    tell("choose", office.do(f"choose {person} {codes}", f"chosen {codes}"))
    tell("close", office.do("close", f"closed {COUNT}"))
    tell("draw", office.do("draw " + words_by_seed(office.program), f"drawn {COUNT}"))
    tell("run", office.do("run", f"ran {COUNT}"))
    tell("publish", office.do("publish", f"published {COUNT}"))
    settled = office.run("do", "settle")
    tell("settle", settled)
    return settled.text


def main(program, longest):
    """Times a year by lists, and compares each export with what it has to have."""
    choices = choices_of_all(longest)
    with tempfile.TemporaryDirectory() as name:
        folder = Path(name)
        office = Office(program, folder / "office.db")
        for sent in register_lists(folder, COUNT):
            bring_twice(office, sent)
        office.do("open", "round 1 open")
        for sent in write_choices(folder, choices, PART[longest]):
            bring_twice(office, sent)
        people = [[person, name, room] for person, name, _, room in people_of_all(COUNT)]
        compare("export of rooms", office.export("rooms"), [[room, "occupied", person] for person, _, room in people])
        compare("export of people", office.export("people"), people)
        compare("recorded choices", recorded_choices(office), choices)
        settled = carry_out_round(office, longest)
        after = office.export("people")
        moved = [[p, old, new] for (p, _, old), (_, _, new) in zip(people, after) if old != new]
        assert settled == f"settled {len(moved)}\n", settled
        moves = office.export("moves")
        assert all(row[0] == "1" for row in moves)
        compare("export of moves", [[p, old, new] for _, _, p, old, new in moves], moved)


if __name__ == "__main__":
    main(sys.argv[1], int(sys.argv[2]))
