"""Files that are no database, no office's, or not to be had: each is refused and stays as it was."""

import os
import shutil
import sqlite3
import subprocess
import tempfile
from collections.abc import Callable
from pathlib import Path

from foreign.declared import DECLARED
from foreign.earlier import ORDERS, as_earlier
from foreign.offices import OFFICES
from foreign.program import NOT_AN_OFFICE, UNAVAILABLE, Cases, Program, expect, left_alone
from foreign.tables import Rows, begin_large, by_pragmas, declare, fill_some, killed_while, opened

Case = Callable[[Program, Path], None]
OFFICE = OFFICES["ran"]
PAGE = 4096
NOBODY = ("setpriv", "--reuid=65534", "--regid=65534", "--clear-groups")
MADE = by_pragmas("journal_mode = delete")
MADE_IN_WAL = by_pragmas("journal_mode = wal")


def refused(program: Program, file: Path, answer: str = UNAVAILABLE) -> None:
    """Each line is answered so, and all files stay as they were."""
    with left_alone(file.parent):
        program.answers(file, "do results", answer)
        program.answers(file, "export rooms", answer)


def served(program: Program, file: Path) -> None:
    """The office answers as its rows say."""
    for line, answer in OFFICE.told.items():
        program.answers(file, line, answer)


def new_refused(program: Program, file: Path, answer: str = UNAVAILABLE) -> None:
    """No office is made there either."""
    with left_alone(file.parent):
        program.answers(file, "new", answer)


def holding(content: bytes, answer: str = UNAVAILABLE) -> Case:
    """A file with these bytes."""

    def attempt(program: Program, folder: Path) -> None:
        file = folder / "office.db"
        file.write_bytes(content)
        refused(program, file, answer)
        new_refused(program, file)

    return attempt


def a_folder(program: Program, folder: Path) -> None:
    """A folder in place of the file."""
    file = folder / "office.db"
    file.mkdir()
    refused(program, file)
    new_refused(program, file)


def a_missing_file(program: Program, folder: Path) -> None:
    """A missing file is not made."""
    refused(program, folder / "office.db")


def a_missing_folder(program: Program, folder: Path) -> None:
    """A folder that is missing is not made either."""
    file = folder / "none" / "office.db"
    with left_alone(folder):
        program.answers(file, "do results", UNAVAILABLE)
        program.answers(file, "new", UNAVAILABLE)


def a_pipe(program: Program, folder: Path) -> None:
    """A pipe in which nobody writes."""
    file = folder / "office.db"
    os.mkfifo(file)
    refused(program, file)
    new_refused(program, file)


def an_empty_file(program: Program, folder: Path) -> None:
    """A file without bytes is an empty database, of which the engine writes the first page."""
    file = folder / "office.db"
    file.write_bytes(b"")
    program.answers(file, "do results", NOT_AN_OFFICE)
    with opened(file) as database:
        expect(database.execute("SELECT * FROM sqlite_schema").fetchall() == [], "there are tables in it")
        expect(database.execute("PRAGMA integrity_check").fetchall() == [("ok",)], "it is not whole")


def damaged(spoil: Callable[[bytes], bytes]) -> Case:
    """An office's file in which something is spoilt."""

    def attempt(program: Program, folder: Path) -> None:
        file = folder / "office.db"
        MADE(program, file, OFFICE.rows)
        file.write_bytes(spoil(file.read_bytes()))
        refused(program, file)

    return attempt


def cut_at(half_pages: int) -> Case:
    """The file is cut after so many halves of a page."""
    return damaged(lambda content: content[:half_pages * PAGE // 2])


def zeros_in(page: int) -> Case:
    """One page is overwritten with zeros."""
    return damaged(lambda content: content[:(page - 1) * PAGE] + bytes(PAGE) + content[page * PAGE:])


def declaring(statements: tuple[str, ...], answer: str) -> Case:
    """Other tables than an office's, or more, or fewer."""

    def attempt(program: Program, folder: Path) -> None:
        file = folder / "office.db"
        with opened(file) as database:
            for statement in statements:
                database.execute(statement).fetchall()
        refused(program, file, answer)

    return attempt


def held_by(made: Callable[[Program, Path, Rows], None], *statements: str) -> Case:
    """Another program has the file: it has run these statements and goes on to hold it."""

    def attempt(program: Program, folder: Path) -> None:
        file = folder / "office.db"
        made(program, file, OFFICE.rows)
        before = file.read_bytes()
        with opened(file) as database:
            for statement in statements:
                database.execute(statement).fetchall()
            program.answers(file, "do results", UNAVAILABLE)
            program.answers(file, "export rooms", UNAVAILABLE)
            program.answers(file, "new", UNAVAILABLE)
            expect(file.read_bytes() == before, "the file was changed")
        expect(file.read_bytes() == before, "the file was changed")
        served(program, file)

    return attempt


def open_once(file: Path) -> None:
    """Opens the file once, with SQLite's shell if there is one, and else with Python's sqlite3."""
    if shutil.which("sqlite3"):
        done = subprocess.run(["sqlite3", str(file), ".tables"], capture_output=True, text=True, check=False)
        expect(done.returncode == 0 and "choice" in done.stdout, f"sqlite3 says: {done.stdout}{done.stderr}")
    else:
        with opened(file) as database:
            database.execute("SELECT count(*) FROM room").fetchall()


def a_hot_journal(program: Program, folder: Path) -> None:
    """A writer was killed when parts of its transaction were in the file: sqlite3 has to undo them."""
    file, journal = folder / "office.db", folder / "office.db-journal"
    MADE(program, file, OFFICE.rows)
    before = file.read_bytes()
    killed_while(lambda path: begin_large(sqlite3.connect(path, isolation_level=None)), file)
    expect(journal.exists() and journal.read_bytes()[:1] not in (b"", b"\0"), "the killed writer has left no journal")
    expect(file.read_bytes() != before, "the killed writer has written nothing into the file")
    refused(program, file)
    new_refused(program, file)
    open_once(file)
    expect(file.read_bytes() == before, "sqlite3 did not put the file back")
    served(program, file)


def a_second_name(program: Program, folder: Path) -> None:
    """The file has another name, until that is taken away."""
    file, other = folder / "office.db", folder / "other.db"
    MADE(program, file, OFFICE.rows)
    other.hardlink_to(file)
    refused(program, file)
    refused(program, other)
    other.unlink()
    served(program, file)


def a_name_is_taken(end: str) -> Case:
    """A folder has the name of the log, or of the journal."""

    def attempt(program: Program, folder: Path) -> None:
        file = folder / "office.db"
        MADE(program, file, OFFICE.rows)
        Path(f"{file}{end}").mkdir()
        refused(program, file)
        Path(f"{file}{end}").rmdir()
        served(program, file)

    return attempt


def by_nobody(program: Program, folder: Path) -> Program:
    """The program as the user nobody has it, who may read a copy of it."""
    copy = folder / "rooms"
    shutil.copy(program.words[0], copy)
    copy.chmod(0o755)
    return Program((*NOBODY, str(copy), *program.words[1:]))


def not_permitted(mode: int, folder_mode: int = 0o777) -> Case:
    """The user may not read the file, not write it, or make no log next to it; once all may, it is an office. Its tables are in
    the documented order, so that the line that accepts it writes it."""

    def attempt(program: Program, folder: Path) -> None:
        file, other = folder / "office.db", by_nobody(program, folder)
        MADE(program, file, OFFICE.rows)
        file.chmod(mode)
        folder.chmod(folder_mode)
        refused(other, file)
        file.chmod(0o666)
        folder.chmod(0o777)
        served(other, file)

    return attempt


def not_migrated(order: str) -> Case:
    """An office of an earlier version that the user may only read; once all may write, it is migrated."""

    def attempt(program: Program, folder: Path) -> None:
        file, other = folder / "office.db", by_nobody(program, folder)
        version, tables = ORDERS[order]
        with opened(file) as database:
            declare(database, *tables)
            fill_some(database, as_earlier(OFFICE, version), tables)
        file.chmod(0o444)
        folder.chmod(0o777)
        with left_alone(folder):
            other.answers(file, "migrate", UNAVAILABLE)
        file.chmod(0o666)
        other.answers(file, "migrate", "ok")

    return attempt


READ = "SELECT * FROM room"
CASES: dict[str, Case] = {
    "a folder": a_folder,
    "a missing file": a_missing_file,
    "a missing folder": a_missing_folder,
    "a pipe": a_pipe,
    "a short text": holding(b"Dear Tim,\n"),
    "a long text": holding(b"Dear Tim, how are you?\n" * 1000),
    "a text with SQLite's first letter": holding(b"Salut!\n"),
    "a long text with SQLite's first letter": holding(b"SQLite format 3 is what I write in.\n" * 1000),
    "a file of zeros": holding(bytes(2 * PAGE)),
    "an empty file": an_empty_file,
    "cut to half of its pages": cut_at(20),
    "cut in the middle of a page": cut_at(21),
    "cut in its last page": cut_at(39),
    "cut after its first page": cut_at(2),
    "cut in its first page": cut_at(1),
    **{f"page {page} of zeros": zeros_in(page) for page in range(1, 21)},
    **{what: declaring(statements, answer) for what, (statements, answer) in DECLARED.items()},
    "another program writes": held_by(MADE, "BEGIN IMMEDIATE"),
    "another program writes, and has written": held_by(MADE, "BEGIN IMMEDIATE", "UPDATE room SET shut = 1"),
    "another program has the file alone": held_by(MADE, "BEGIN EXCLUSIVE"),
    "another program reads": held_by(MADE, "BEGIN", READ),
    "another program writes, in wal": held_by(MADE_IN_WAL, "BEGIN IMMEDIATE"),
    "another program has the file alone, in wal": held_by(MADE_IN_WAL, "BEGIN EXCLUSIVE"),
    "another program reads, in wal": held_by(MADE_IN_WAL, "BEGIN", READ),
    "another program has read and waits, in wal": held_by(MADE_IN_WAL, READ),
    "a hot journal": a_hot_journal,
    "a second name": a_second_name,
    "the log's name is taken": a_name_is_taken("-wal"),
    "the journal's name is taken": a_name_is_taken("-journal"),
}
BY_NOBODY: dict[str, Case] = {
    "may be read alone": not_permitted(0o444),
    **{f"{order}, may be read alone": not_migrated(order) for order in ORDERS},
    "may be written alone": not_permitted(0o222),
    "may not be touched": not_permitted(0),
    "a folder in which no log may be made": not_permitted(0o666, 0o555),
}


def try_cases(program: Program, text: str, attempts: dict[str, Case]) -> int:
    """Each case in a folder of its own. Gives how many held a surprise."""
    cases = Cases("a file")
    for name, attempt in attempts.items():
        with tempfile.TemporaryDirectory() as folder, cases.case(name):
            attempt(program, Path(folder))
    return cases.tell(text)


def try_all(program: Program) -> int:
    """All files. Gives how many held a surprise."""
    surprises = try_cases(program, "files that are no office or not to be had, each refused", CASES)
    if os.geteuid() == 0 and shutil.which("setpriv"):
        return surprises + try_cases(program, "files that another user may not have, each refused", BY_NOBODY)
    print("left out, for want of root and setpriv: files that another user may not have")
    return surprises
