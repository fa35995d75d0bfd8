"""How the opening of a file by the database engine alone grows with the office; bench/engine.sh says what is measured.

Python's sqlite3 makes the files, so that an office may be larger than the program's limits.
"""

import math
import random
import shutil
import sys
import tempfile
from pathlib import Path

from floor import CHECK, READ
from foreign.tables import declare, opened
from growth import instructions
from lists import key_of, person_of, room_of
from versions import timed

# How many people there are in files without lists, whose openings are counted, and in files with lists, which are timed.
COUNTED = (500, 1000, 2000)
TIMED = 10_000
LENGTHS = (20, 40)
TURNS = 3


def write_office(file, count, housed, listed):
    """An office of so many people and rooms, with a list of so many rooms for each person."""
    draws, numbers = random.Random(1999), range(count)
    rooms = [room_of(number) for number in numbers]
    file.unlink(missing_ok=True)
    with opened(file) as database:
        declare(database)
        database.execute("BEGIN")
        database.executemany("INSERT INTO room VALUES (?, 0)", [(room,) for room in rooms])
        database.executemany("INSERT INTO person VALUES (?, ?, ?, ?, 0)", [
            (person_of(number), f"Person {number}", key_of(number), rooms[number] if housed else None)
            for number in numbers])
        database.executemany("INSERT INTO choice VALUES (?, ?, ?)", [
            (person_of(number), place, room) for number in numbers for place, room in enumerate(draws.sample(rooms, listed))])
        database.execute("COMMIT")


def tell_growth(engine, file, housed):
    """The instructions of opening and reading files without lists, and by which exponent they grow."""
    counts = []
    for count in COUNTED:
        write_office(file, count, housed, 0)
        counts.append(instructions([engine, str(file)], ""))
    told = ", ".join(f"{size:,} people {count:5.3f} G" for size, count in zip(COUNTED, counts))
    growth = " ".join(f"{math.log2(large / small):4.2f}" for small, large in zip(counts, counts[1:]))
    print(f"  without lists: {told} instructions; exponents {growth}", flush=True)


def tell_large(engine, file, housed, listed):
    """The least processor time to open and read a large file, and that of SQLite itself, which also checks the file whole."""
    write_office(file, TIMED, housed, listed)
    given = ";\n".join([*CHECK, *READ, ""]).encode()
    runs = (([engine, str(file)], b""), (["sqlite3", "-batch", "-bail", str(file)], given))
    bare, floor = (min(timed(*run)[1] for _ in range(TURNS)) for run in runs)
    print(f"  {TIMED:,} people, lists of {listed}, {file.stat().st_size / 1e6:.0f} MB: {bare:5.2f} s of a processor, "
          f"SQLite in C with a full check {floor:4.2f} s", flush=True)


def main(engine):
    """Measures files in which everybody is housed, and those in which nobody is."""
    with tempfile.TemporaryDirectory() as name:
        file = Path(name) / "office.db"
        for what, housed in (("everybody housed", True), ("nobody housed", False)):
            print(f"opened and read by the engine alone, {what}:")
            if shutil.which("valgrind"):
                tell_growth(engine, file, housed)
            for listed in LENGTHS:
                tell_large(engine, file, housed, listed)


if __name__ == "__main__":
    main(sys.argv[1])
