"""Times lines over a large office's file, and the engine alone; bench/engine.sh says what is timed."""

import shutil
import statistics
import subprocess
import sys
import tempfile
import time
from dataclasses import dataclass
from pathlib import Path

from faults import copy_office, opened
from floor import floors
from foreign.tables import documented_tables, name_of
from growth import instructions
from lists import COUNT, furnish, person_of, room_of, words_by_seed

LISTED = 40
TURNS = 5
MADE_ANEW = ("word", "result", "choice", "going")  # the tables that a settlement drops and makes again, as it does


def copied(file, name):
    """A copy of the file and its log under another name."""
    copy = file.with_name(name)
    copy_office(file, copy)
    return copy


def timed(line, given=""):
    """How long a program takes that has to end well."""
    begun = time.perf_counter()
    subprocess.run(line, input=given, text=True, check=True, capture_output=True)
    return time.perf_counter() - begun


@dataclass
class Line:
    """A line of `rooms do`, the statements that change the same rows, and whether the engine alone carries them out."""

    words: list[str]
    statements: list[str]
    carried: bool


@dataclass
class Run:
    """A run of a program on a copy of the file, with this on standard input."""

    words: list[str]
    copy: str
    given: str


def runs_of(programs, file, line):
    """The run of the program for a line, and that of the engine alone."""
    program, engine = programs
    doing = [program, "do", "--db", str(file.with_name("program.db")), *line.words]
    alone = [engine, str(file.with_name("engine.db")), *(["do"] if line.carried else [])]
    return Run(doing, "program.db", ""), Run(alone, "engine.db", in_one(line.statements) if line.carried else "")


def median_times(file, runs):
    """The median times of two runs that take turns."""
    times: list[list[float]] = [[], []]
    for _ in range(TURNS):
        for taken, run in zip(times, runs):
            copied(file, run.copy)
            taken.append(timed(run.words, run.given))
    return [statistics.median(taken) for taken in times]


def counted(file, run):
    """How many thousands of millions of instructions a run takes."""
    copied(file, run.copy)
    return instructions(run.words, run.given)


def compare(programs, file, line):
    """Times a line and the engine by turns, each on a copy of the file, and prints the medians; then counts instructions."""
    runs = runs_of(programs, file, line)
    taken, bare = median_times(file, runs)
    print(f"{line.words[0]:8} rooms do {taken:6.3f} s, the engine alone {bare:6.3f} s, {taken / bare:4.2f} times", flush=True)
    if shutil.which("valgrind"):
        copies = [copied(file, f"sqlite-{number}.db") for number in range(3)]
        tell_counts(counted(file, runs[0]), counted(file, runs[1]), floors(copies, line.statements))


def tell_counts(this, engine, sqlite):
    """Prints the instructions of a line, of the engine alone, and of SQLite itself."""
    told = f"{'':8} rooms do {this:6.3f} G instructions, the engine alone {engine:6.3f} G, {this / engine:4.2f} times"
    for what, count in zip(("the statements in C", "with a reading of each row", "and with a full check"), sqlite):
        told += f"; {what} {count:6.3f} G, {this / count:5.1f} times"
    print(told, flush=True)


def text_of(value):
    return "NULL" if value is None else f"'{value}'" if isinstance(value, str) else str(value)


def results(file):
    """The statements of a run, from what it left."""
    with opened(file) as database:
        rows = database.execute("SELECT person, room FROM result ORDER BY person").fetchall()
    return [f"INSERT INTO result(person, room) VALUES('{person}', {text_of(room)})" for person, room in rows] + \
        ["UPDATE round SET phase = 'ran'"]


def settlement(file):
    """The statements of a settlement, from what it left."""
    with opened(file) as database:
        moves = database.execute("SELECT round, person, from_room, to_room, wave FROM move ORDER BY person").fetchall()
    # those who swap leave first, and then everybody arrives wave by wave, a swap having no number
    leave = [f"UPDATE person SET home = NULL WHERE id = '{move[1]}'" for move in moves if move[4] is None]
    by_wave = sorted(moves, key=lambda move: (move[4] is None, move[4] or 0, move[1]))
    arrive = [f"UPDATE person SET home = '{move[3]}' WHERE id = '{move[1]}'" for move in by_wave]
    record = [f"INSERT INTO move VALUES({', '.join(map(text_of, move))})" for move in moves]
    documented = {name_of(text): text for text in documented_tables()}
    clear = [*(f"DROP TABLE {table}" for table in reversed(MADE_ANEW)), *(documented[table] for table in MADE_ANEW)]
    return leave + arrive + record + clear + ["UPDATE person SET withdrawn = 0 WHERE withdrawn = 1",
                                              "UPDATE round SET phase = 'idle'"]


def in_one(statements):
    """The statements in one transaction."""
    return ";\n".join(["BEGIN", *statements, "COMMIT"])


def compare_lines(programs, office):
    """Compares lines over a file with the engine's own calls, and with SQLite's. `round` is little more than an opening."""
    compare(programs, office.file, Line(["round"], [], False))
    rooms = [room_of(n) for n in range(LISTED)]
    listed = [f"INSERT INTO choice VALUES('{person_of(7)}', {place}, '{room}')" for place, room in enumerate(rooms)]
    choosing = [f"DELETE FROM choice WHERE person = '{person_of(7)}'", *listed]
    compare(programs, office.file, Line(["choose", person_of(7), *rooms], choosing, False))
    office.do("close", f"closed {COUNT}")
    office.do("draw " + words_by_seed(programs[0]), f"drawn {COUNT}")
    before = copied(office.file, "before.db")
    office.do("run", f"ran {COUNT}")
    compare(programs, before, Line(["run"], results(office.file), True))
    office.do("publish", f"published {COUNT}")
    before = copied(office.file, "before.db")
    assert office.run("do", "settle").status == 0
    compare(programs, before, Line(["settle"], settlement(office.file), True))


def main(*programs):
    """Compares lines, first with everybody housed, and then with nobody."""
    for what, housed in (("everybody housed", COUNT), ("nobody housed", 0)):
        print(f"lines over a file, {what}:")
        with tempfile.TemporaryDirectory() as name:
            compare_lines(programs, furnish(programs[0], Path(name), housed, LISTED))


if __name__ == "__main__":
    main(*sys.argv[1:])
