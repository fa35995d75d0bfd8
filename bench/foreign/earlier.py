"""Offices of earlier versions that sqlite3 wrote: each is refused, migrated, and then goes on to the end of its round."""

import tempfile
from pathlib import Path

from foreign.offices import OFFICES, Office
from foreign.program import Cases, Program, left_alone
from foreign.tables import Rows, declare, documented_tables, expect_rows, fill_some, name_of, opened

NAMES = [name_of(table) for table in documented_tables()]
# The tables of each earlier version, in the documented order and as the program made them.
ORDERS = {
    "version 1 as documented": (1, NAMES[:8]),
    "version 1 of the program": (1, ["room", "person", "round", "move", "list", "word", "result", "choice"]),
    "version 2 as documented": (2, NAMES[:9]),
}
# The lines that lead from each phase of the third round to its end.
WORDS = "00000000000000ab ffffffffffffffff 0000000000000001 0000000000000002"
STEPS = [("open", "do close", "closed 4"), ("closed", f"do draw {WORDS}", "drawn 4"), ("drawn", "do run", "ran 4"),
         ("ran", "do publish", "published 4"), ("published", "do settle", "settled 3")]


def as_earlier(office: Office, version: int) -> Rows:
    """The rows of the office as one of this version: nobody leaves, and in version 1 nobody has a grade."""
    _, _, number, phase = office.rows["round"][0]
    grades = office.rows["grade"] if version > 1 else []
    return {**office.rows, "round": [(1, version, number, phase)], "grade": grades, "going": []}


def try_office(program: Program, folder: Path, office: Office, version: int, tables: list[str]) -> None:
    """The office is of another version until it is migrated; then it has the same rows, and its round goes on."""
    file, rows = folder / "office.db", as_earlier(office, version)
    with opened(file) as database:
        declare(database, *tables)
        fill_some(database, rows, tables)
    with left_alone(folder):
        program.answers(file, "do round", f"refused 22 OtherVersion {version}")
        program.answers(file, "export people", f"refused 22 OtherVersion {version}")
    program.answers(file, "migrate", "ok")
    _, _, number, phase = rows["round"][0]
    expect_rows(file, {**rows, "round": [(1, 3, number, phase)]})
    program.answers(file, "migrate", "refused 22 OtherVersion 3")
    begun = [place for place, (before, _, _) in enumerate(STEPS) if before == phase and number == 3]
    for _, line, answer in STEPS[begun[0]:] if begun else []:
        program.answers(file, line, answer)
    if begun:
        expect_rows(file, {**OFFICES["published"].rows, **OFFICES["published"].changed, "grade": rows["grade"]})


def try_all(program: Program) -> int:
    """Each office in each order of an earlier version. Gives how many held a surprise."""
    cases = Cases("an earlier version")
    for order, (version, tables) in ORDERS.items():
        for name, office in OFFICES.items():
            if name == "open, nobody has withdrawn" or office.rows["going"]:
                continue
            with tempfile.TemporaryDirectory() as folder, cases.case(f"{name}, {order}"):
                try_office(program, Path(folder), office, version, tables)
    return cases.tell("offices of earlier versions, each migrated")
