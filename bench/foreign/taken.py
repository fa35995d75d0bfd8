"""Lawful offices that sqlite3 wrote: each is accepted, answers as its rows are, and carries out a command."""

import tempfile
from pathlib import Path

from foreign.offices import LABEL, LIST, OFFICES, Office
from foreign.program import Cases, Program
from foreign.tables import WAYS, Way, expect_rows


def try_list(program: Program, folder: Path, file: Path) -> None:
    """The kept list comes again, and another one under its label, which changes nothing."""
    again, other = folder / "again.csv", folder / "other.csv"
    again.write_bytes(LIST)
    other.write_bytes(LIST + b"X\n")
    program.answers(file, f"import rooms {LABEL} {again}", "added 2")
    program.answers(file, f"import rooms {LABEL} {other}", "refused 14 ListDiffers")


def try_office(program: Program, folder: Path, office: Office, way: Way) -> None:
    """The program and sqlite3 by turns on one office: what it holds, a command, and what the tables hold then."""
    file = folder / "office.db"
    way(program, file, office.rows)
    for line, answer in office.told.items():
        program.answers(file, line, answer)
    program.answers(file, office.command, office.answer)
    due = {**office.rows, **office.changed}
    expect_rows(file, due)
    program.answers(file, "do round", office.then)
    if office.has_list:
        try_list(program, folder, file)
    expect_rows(file, due)


def try_all(program: Program) -> int:
    """Every office, written in every way. Gives how many held a surprise."""
    cases = Cases("an office that sqlite3 wrote")
    for way_name, way in WAYS.items():
        for name, office in OFFICES.items():
            with tempfile.TemporaryDirectory() as folder, cases.case(f"{name}, {way_name}"):
                try_office(program, Path(folder), office, way)
    return cases.tell(f"sqlite3 wrote {len(OFFICES)} offices in {len(WAYS)} ways, each was taken, and is whole after a command")
