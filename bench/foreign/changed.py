"""Offices in which sqlite3 has changed rows: the program refuses those that break a law, and leaves the file as it was."""

import shutil
import sqlite3
import tempfile
from collections.abc import Callable
from pathlib import Path

from foreign.constraints import BROKEN, VERSIONS
from foreign.laws import LAWFUL, LAWS, Changed, Changes
from foreign.offices import OFFICES
from foreign.program import NOT_AN_OFFICE, UNAVAILABLE, Cases, Program, Surprise, expect, left_alone
from foreign.tables import WAYS, Rows, expect_rows, killed_with_a_log, opened, rows_in

Attempt = Callable[[Program, Path, Path, Changed], None]

JOURNALS = ("journal_mode delete", "journal_mode wal")

# No offices, whose rows are in a log alone.
IN_A_LOG: dict[str, tuple[Rows, str]] = {
    "a round too many": ({**OFFICES["idle"].rows, "round": [(1, 3, 10000, "idle")]}, NOT_AN_OFFICE),
    "no row of the round": ({**OFFICES["empty"].rows, "round": []}, NOT_AN_OFFICE),
    "a result is missing": ({**OFFICES["ran"].rows, "result": OFFICES["ran"].rows["result"][1:]}, NOT_AN_OFFICE),
    "another version": ({**OFFICES["ran"].rows, "round": [(1, 9, 3, "ran")]}, "refused 22 OtherVersion 9"),
}


def write_offices(program: Program, folder: Path) -> None:
    """Each office in each of the two journal modes, to be copied."""
    for journal in JOURNALS:
        for name, office in OFFICES.items():
            WAYS[journal](program, folder / f"{name}, {journal}.db", office.rows)


def change(file: Path, changed: Changed) -> None:
    """Changes the rows, each step at least one, without a look at checks and references."""
    with opened(file) as database:
        database.execute("PRAGMA ignore_check_constraints = ON")
        for sql, values in changed.steps:
            try:
                done = database.execute(sql, values)
            except sqlite3.Error as error:
                raise Surprise(f"sqlite3 says of {sql}: {error}") from None
            expect(done.rowcount != 0, f"no row was changed by {sql}")


def refused(program: Program, file: Path, answer: str, log_may_change: bool = False) -> None:
    """Each line gets this answer, and the file and the files next to it stay as they were."""
    with left_alone(file.parent, log_may_change):
        program.answers(file, "do round", answer)
        program.answers(file, "export people", answer)
        if answer == UNAVAILABLE:  # the file is not even opened
            program.answers(file, "new", answer)
            program.answers(file, "migrate", answer)


def try_refused(program: Program, folder: Path, source: Path, changed: Changed) -> None:
    """The office with these changes is refused."""
    file = folder / "office.db"
    shutil.copyfile(source, file)
    change(file, changed)
    refused(program, file, changed.answer)


def try_lawful(program: Program, folder: Path, source: Path, changed: Changed) -> None:
    """The office with these changes is taken, and keeps its rows."""
    file = folder / "office.db"
    shutil.copyfile(source, file)
    change(file, changed)
    rows = rows_in(file)
    program.answers(file, "do round", changed.answer)
    expect_rows(file, rows)


def try_changes(program: Program, group: str, text: str, changes: Changes, attempt: Attempt = try_refused) -> int:
    """Each of these changes, in both journal modes. Gives how many held a surprise."""
    cases = Cases(group)
    with tempfile.TemporaryDirectory() as name:
        write_offices(program, Path(name))
        for journal in JOURNALS:
            for what, changed in changes.items():
                with tempfile.TemporaryDirectory() as folder, cases.case(f"{what}, {journal}"):
                    attempt(program, Path(folder), Path(name) / f"{changed.office}, {journal}.db", changed)
    return cases.tell(f"{text}, {len(changes)} in {len(JOURNALS)} journal modes")


def try_logs(program: Program) -> int:
    """Rows of no office in the log of a killed writer. Gives how many held a surprise."""
    cases = Cases("a log")
    for what, (rows, answer) in IN_A_LOG.items():
        with tempfile.TemporaryDirectory() as folder, cases.case(what):
            file = Path(folder) / "office.db"
            killed_with_a_log(program, file, rows)
            refused(program, file, answer, log_may_change=True)
    return cases.tell("no offices in the log of a killed writer, each refused")


def try_all(program: Program) -> int:
    """All changes. Gives how many cases held a surprise."""
    return (try_changes(program, "a law", "laws broken, each refused", LAWS)
            + try_changes(program, "a constraint", "references and checks broken, each refused", BROKEN)
            + try_changes(program, "a version", "other versions, each reported", VERSIONS)
            + try_logs(program)
            + try_changes(program, "no law", "rows at the edge of the laws, each taken", LAWFUL, try_lawful))
