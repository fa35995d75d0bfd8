"""The documented tables, and the ways in which sqlite3 makes and fills them in a file."""

import multiprocessing
import sqlite3
import time
from collections.abc import Callable, Iterator, Sequence
from contextlib import closing, contextmanager
from pathlib import Path

from foreign.program import SECONDS, Program, Surprise, expect

Value = str | int | bytes | None
Row = tuple[Value, ...]
Rows = dict[str, list[Row]]
Way = Callable[[Program, Path, Rows], None]

DOCUMENT = Path(__file__).resolve().parents[2] / "docs" / "formats.md"
HEADING = "## Tables of the database, version 3"
# The order in which the program makes the tables.
OWN_ORDER = ("room", "person", "round", "move", "list", "grade", "word", "result", "choice", "going")


def documented_tables() -> list[str]:
    """The statements of docs/formats.md that declare the tables, in their order."""
    _, found, rest = DOCUMENT.read_text(encoding="utf-8").partition(HEADING)
    if not found:
        raise ValueError(f"{DOCUMENT} has no heading: {HEADING}")
    return [text.strip() for text in rest.split("```")[1].split(";") if text.strip()]


def name_of(table: str) -> str:
    """The name of a table, by the statement that declares it."""
    return table.removeprefix("CREATE TABLE ").partition("(")[0]


@contextmanager
def opened(file: Path) -> Iterator[sqlite3.Connection]:
    """The file, opened by sqlite3, which commits after each statement and waits for nobody."""
    with closing(sqlite3.connect(file, timeout=0, isolation_level=None)) as database:
        database.execute("PRAGMA synchronous = OFF")
        yield database


def fill(database: sqlite3.Connection, rows: Rows) -> None:
    """Puts the rows of an office into its tables, in one transaction, and looks after references."""
    fill_some(database, rows, list(map(name_of, documented_tables())))


def fill_some(database: sqlite3.Connection, rows: Rows, tables: list[str]) -> None:
    """The same, with these tables alone."""
    database.execute("PRAGMA foreign_keys = ON")
    database.execute("BEGIN")
    for table in sorted(tables, key=("room", "person").__contains__, reverse=True):
        for row in rows[table]:
            database.execute(f"INSERT INTO {table} VALUES ({', '.join('?' * len(row))})", row)
    database.execute("COMMIT")


def declare(database: sqlite3.Connection, *names: str) -> None:
    """Declares the documented tables, or those of these names, in their order."""
    tables = {name_of(table): table for table in documented_tables()}
    for name in names or tables:
        database.execute(tables[name])


def by_pragmas(*pragmas: str) -> Way:
    """The tables are made and filled after these pragmas."""

    def write(_: Program, file: Path, rows: Rows) -> None:
        with opened(file) as database:
            for pragma in pragmas:
                database.execute(f"PRAGMA {pragma}").fetchall()
            declare(database)
            fill(database, rows)

    return write


def in_own_order(_: Program, file: Path, rows: Rows) -> None:
    """The tables are as the program makes them, and sqlite3 makes them."""
    with opened(file) as database:
        declare(database, *OWN_ORDER)
        fill(database, rows)


def with_a_gap(_: Program, file: Path, rows: Rows) -> None:
    """The tables are filled, half emptied and filled again, so that pages are free and rows are numbered otherwise."""
    with opened(file) as database:
        declare(database)
        database.execute("PRAGMA foreign_keys = ON")
        database.executemany("INSERT INTO room VALUES (?, 0)", [(f"GAP{number}",) for number in range(2000)])
        fill(database, rows)
        database.execute("DELETE FROM room WHERE code GLOB 'GAP*'")


def vacuumed(program: Program, file: Path, rows: Rows) -> None:
    """The file is compacted."""
    with_a_gap(program, file, rows)
    with opened(file) as database:
        database.execute("VACUUM")


def made_by_the_program(program: Program, file: Path, rows: Rows) -> None:
    """The program makes the tables, and sqlite3 fills them."""
    program.answers(file, "new", "ok")
    with opened(file) as database:
        database.execute("DELETE FROM round")
        fill(database, rows)


def killed_while(work: Callable[[Path], sqlite3.Connection], file: Path) -> None:
    """A process does this work on the file, and is killed before it lets the file go."""
    ours, theirs = multiprocessing.Pipe(duplex=False)

    def do() -> None:
        with closing(work(file)):
            theirs.send("done")
            time.sleep(SECONDS)

    process = multiprocessing.get_context("fork").Process(target=do)
    process.start()
    theirs.close()
    try:
        expect(ours.poll(SECONDS) and ours.recv() == "done", "the writer that was to be killed is not done yet")
    except EOFError:
        raise Surprise("the writer that was to be killed has ended by itself") from None
    finally:
        process.kill()
        process.join()


def begin_large(database: sqlite3.Connection) -> sqlite3.Connection:
    """Begins a transaction that is too large for memory, so that its pages go to the disk before it ends."""
    database.execute("PRAGMA cache_size = 1")
    database.execute("PRAGMA synchronous = FULL")
    database.execute("BEGIN")
    database.executemany("INSERT INTO room VALUES (?, 1)", [(f"LARGE{number}",) for number in range(900)])
    return database


def killed_with_a_log(_: Program, file: Path, rows: Rows) -> None:
    """All rows are in the log alone, and after them what a killed writer had not committed."""

    log = Path(f"{file}-wal")

    def work(path: Path) -> sqlite3.Connection:
        database = sqlite3.connect(path, isolation_level=None)
        database.execute("PRAGMA journal_mode = wal").fetchall()
        database.execute("PRAGMA wal_autocheckpoint = 0").fetchall()
        declare(database)
        fill(database, rows)
        committed = log.stat().st_size
        begin_large(database)
        expect(log.stat().st_size > committed, "no part of the large transaction has come into the log")
        return database

    killed_while(work, file)
    expect(log.stat().st_size > file.stat().st_size, "the rows are not in the log")


WAYS: dict[str, Way] = {
    "journal_mode delete": by_pragmas("journal_mode = delete"),
    "journal_mode truncate": by_pragmas("journal_mode = truncate"),
    "journal_mode persist": by_pragmas("journal_mode = persist"),
    "journal_mode wal": by_pragmas("journal_mode = wal"),
    "a writer in wal that was killed": killed_with_a_log,
    "pages of 512 bytes": by_pragmas("page_size = 512"),
    "pages of 65,536 bytes": by_pragmas("page_size = 65536", "journal_mode = wal"),
    "free pages": with_a_gap,
    "vacuum": vacuumed,
    "the order of the program": in_own_order,
    "tables made by the program": made_by_the_program,
}


def rows_of(database: sqlite3.Connection, tables: Sequence[str]) -> Rows:
    """The rows of these tables, as sqlite3 finds them; the database has to be whole, and its references kept."""
    try:
        whole = database.execute("PRAGMA integrity_check").fetchall()
        broken = database.execute("PRAGMA foreign_key_check").fetchall()
        found = {table: database.execute(f"SELECT * FROM {table}").fetchall() for table in tables}
    except sqlite3.Error as error:
        raise Surprise(f"sqlite3 says: {error}") from None
    expect(whole == [("ok",)], f"integrity_check: {whole}")
    expect(not broken, f"foreign_key_check: {broken}")
    return found


def rows_in(file: Path) -> Rows:
    """The rows of each documented table in a file."""
    with opened(file) as database:
        return rows_of(database, list(map(name_of, documented_tables())))


def expect_same(found: Rows, due: Rows) -> None:
    """These rows were found and no others, in any order."""
    for table, rows in due.items():
        expect(sorted(found[table], key=repr) == sorted(rows, key=repr), f"{table} has {found[table][:20]}, and not {rows[:20]}")


def expect_rows(file: Path, rows: Rows) -> None:
    """The file has these rows and no others, in any order."""
    expect_same(rows_in(file), rows)
