"""Records of offices that the program keeps in files, and files of which no record can be made."""

import contextlib
import shutil
import sqlite3
import subprocess
import sys
from collections.abc import Callable
from pathlib import Path

import record  # pylint: disable=wrong-import-order  # it is in deploy/office, which the trial puts on the path
from record_draws import Round
from record_told import Told, Trial, told_of

COMMAND = str(Path(record.__file__))
ENDS = ("", "-wal")


def beside(file: Path, end: str) -> Path:
    """The file, or its log."""
    return file.with_name(file.name + end)


def bytes_of(file: Path) -> list[bytes]:
    """All of a file and its log."""
    return [beside(file, end).read_bytes() for end in ENDS if beside(file, end).exists()]


def run(*words: str | Path) -> tuple[int, str]:
    """Runs a command; its status, and what it wrote."""
    done = subprocess.run(list(words), capture_output=True, text=True, check=False)
    return done.returncode, done.stdout + done.stderr


def bring_in(trial: Trial, file: Path, register: list[str]) -> None:
    """Brings the rooms, the people and the grades of these lines into the file, as lists."""
    words = [line.split(" ") for line in register]
    home = {line[1]: line[2] for line in words if line[0] == "home"}
    rooms = ["room", *(line[1] for line in words if line[0] == "room")]
    people = ["person,name,key,home", *(f"{line[1]},{' '.join(line[3:])},{line[2]},{home.get(line[1], '')}"
                                        for line in words if line[0] == "person")]
    grades = ["person,grade", *(f"{line[1]},{line[2]}" for line in words if line[0] == "grade")]
    for kind, lines in (("rooms", rooms), ("people", people), ("grades", grades)):
        path = trial.folder / f"{kind}.csv"
        path.write_text("".join(f"{line}\n" for line in lines), encoding="utf-8")
        status, said = run(trial.program, "import", "--db", file, kind, f"{kind}-1", path)
        trial.check(status == 0, f"{kind} are imported", said)


def try_file(trial: Trial, drawn: Round) -> tuple[Told, str]:
    """A round in a file of the program's own, before, while and after it has results; what the program says, and the record."""
    file = trial.folder / "office.db"
    for end in ENDS:
        beside(file, end).unlink(missing_ok=True)
    status, said = run(trial.program, "new", "--db", file)
    trial.check(status == 0, "a new file", said)

    def tell(line: str) -> str:
        return run(trial.program, "do", "--db", file, *line.split(" "))[1]

    first = drawn.lines.index("open")
    register = [line for line in drawn.lines[:first] if not line.startswith("shut")]
    bring_in(trial, file, register)
    for line in [line for line in drawn.lines if line not in register]:
        said = tell(line)
        trial.check("not understood" not in said and "unavailable" not in said, line, said)
        if line.split(" ")[0] in ("open", "cancel", "close", "draw"):
            no_results(trial, file)
    before = bytes_of(file)
    text = record.record(file, [drawn.seed] if drawn.seed else [])
    words = ["--seed", drawn.seed] if drawn.seed else []
    trial.check(run(sys.executable, "-B", COMMAND, file, *words) == (0, text), "the command writes the same", text)
    trial.check(bytes_of(file) == before, "the file stays as it was")
    told = told_of(drawn, lambda questions: ("", [tell(question) for question in questions]))
    no_results(trial, file)
    return told, text


def no_results(trial: Trial, file: Path) -> None:
    """No record is made as long as there are no results."""
    try:
        text = record.record(file)
    except record.NoResults as why:
        trial.check(why.status == 1 and "until `settle`" in str(why), "why there is no record", why)
        trial.counts["phases without a record"] += 1
    else:
        trial.check(False, "no record without results", text)


def changed(statement: str) -> Callable[[Path], None]:
    """A change of a file by SQLite."""
    def change(file: Path) -> None:
        with contextlib.closing(sqlite3.connect(file)) as database:
            database.execute(statement)
            database.commit()
    return change


def cut(file: Path) -> None:
    """Leaves half of the file, and no log."""
    beside(file, "-wal").unlink(missing_ok=True)
    file.write_bytes(file.read_bytes()[:file.stat().st_size // 2])


def replace(file: Path) -> None:
    """Puts a text in the place of the file. (Beside a log that has all pages it would not matter.)"""
    beside(file, "-wal").unlink()
    file.write_text("room\nH1\n", encoding="ascii")


def leaves_withdrawn(file: Path) -> None:
    """Somebody has withdrawn and leaves the college as well."""
    changed("INSERT INTO going(person) VALUES('P1')")(file)
    changed("UPDATE person SET withdrawn = 1 WHERE id = 'P1'")(file)


REFUSED: dict[str, tuple[Callable[[Path], None], str]] = {
    "another version": (changed("UPDATE round SET version = 2"), "no office's file of version 3"),
    "no round": (changed("DELETE FROM round"), "no office's file of version 3"),
    "a table that is not there": (changed("DROP TABLE word"), "no such table: word"),
    "a column that is not there": (changed("ALTER TABLE person RENAME COLUMN withdrawn TO away"), "no such column"),
    "a line feed in an identifier": (changed("UPDATE person SET id = 'P' || char(10) WHERE id = 'P1'"), "for a person"),
    "a person without a word": (changed("DELETE FROM word WHERE person = 'P1'"), "its words and results"),
    "a person without a result": (changed("DELETE FROM result WHERE person = 'P1'"), "its words and results"),
    "a leaver who has withdrawn": (leaves_withdrawn, "has withdrawn and leaves"),
    "a home that is no room": (changed("UPDATE person SET home = 'NONE' WHERE id = 'P1'"), "a home or a list"),
    "a word that is none": (changed("UPDATE word SET hex = 'close' WHERE person = 'P1'"), "for a word"),
    "a file cut off": (cut, "damaged"),
    "no log next to it": (lambda file: beside(file, "-wal").unlink(), "its log is not beside it"),
    "no file": (lambda file: file.unlink(), "cannot be read"),
    "a text": (replace, "is no office's file"),
}


def try_refusals(trial: Trial) -> None:
    """Files of which no record can be made: one sentence says why, and nothing is written."""
    whole, file = trial.folder / "whole.db", trial.folder / "changed.db"
    for line in ("new", "room H1", "room H2", "person P1 key00000000000p1 Pat", "person P2 key00000000000p2 Pia",
                 "home P1 H1", "open", "choose P2 H1 H2", "close", "draw 0000000000000001 0000000000000002", "run"):
        words = line.split(" ") if line == "new" else ["do", *line.split(" ")]
        status, said = run(trial.program, words[0], "--db", whole, *words[1:])
        trial.check(status == 0, line, said)
    text = record.record(whole)
    for what, (change, why) in REFUSED.items():
        for end in ENDS:
            shutil.copyfile(beside(whole, end), beside(file, end))
        change(file)
        status, said = run(sys.executable, "-B", COMMAND, file)
        trial.check(status == 2 and why in said, what, status, said)
        trial.check(said.startswith("record.py: ") and said.count("\n") == 1, "one sentence", said)
        trial.counts["files refused"] += 1
    for end in ENDS:
        shutil.copyfile(beside(whole, end), beside(file, end))
    changed("ALTER TABLE person ADD COLUMN further TEXT")(file)
    changed("CREATE TABLE further(one TEXT)")(file)
    trial.check(record.record(file) == text, "what is next to the tables that are read does not matter")
    status, said = run(sys.executable, "-B", COMMAND, whole, "--seed", f"{5:064x}")
    trial.check(status == 2 and "not those of this seed" in said, "a seed that is not the draw's", said)
