"""Databases in which other tables are declared than an office's, or more, fewer, or in another order."""

from foreign.program import NOT_AN_OFFICE, UNAVAILABLE
from foreign.tables import documented_tables, name_of

Declared = dict[str, tuple[tuple[str, ...], str]]

TABLES = documented_tables()
NAMES = [name_of(table) for table in TABLES]
ROUND = "INSERT INTO round VALUES (1, 3, 0, 'idle')"


def all_tables(*more: str) -> tuple[str, ...]:
    """The tables of the empty office, and what comes behind."""
    return (*TABLES, ROUND, *more)


def in_order(*names: str) -> tuple[str, ...]:
    """The tables of the empty office in another order."""
    return (*(TABLES[NAMES.index(name)] for name in names), ROUND)


def without(name: str) -> tuple[str, ...]:
    """The tables of the empty office but one."""
    kept = tuple(table for table in TABLES if name_of(table) != name)
    return kept if name == "round" else (*kept, ROUND)


def answer_without(name: str) -> str:
    """Without a table it is no office. But without the rooms or the people nothing tells the version in the row of the round."""
    return UNAVAILABLE if name in ("room", "person") else NOT_AN_OFFICE


DECLARED: Declared = {
    "a database without tables": (("PRAGMA user_version = 7",), NOT_AN_OFFICE),
    "tables of another program": (("CREATE TABLE book(id INTEGER PRIMARY KEY, title TEXT)", "INSERT INTO book VALUES (1, 'Emma')"),
                                  NOT_AN_OFFICE),
    "tables of another program, one of them of an office's name": (("CREATE TABLE round(id INTEGER PRIMARY KEY, players INTEGER)",
                                                                    "INSERT INTO round VALUES (1, 4)"), UNAVAILABLE),
    "the tables in turned order": (in_order(*reversed(NAMES)), UNAVAILABLE),
    "the lists before the moves": (in_order(
        "room", "person", "round", "choice", "word", "result", "list", "move", "grade", "going"), UNAVAILABLE),
    "the leavers before the grades": (in_order("room", "person", "round", "choice", "word", "result", "move", "list", "going",
                                               "grade"), UNAVAILABLE),
    "grades and leavers behind version 1 of the program": (in_order("room", "person", "round", "move", "list", "word", "result",
                                                                    "choice", "grade", "going"), UNAVAILABLE),
    "the round first": (in_order("round", "room", "person", *NAMES[3:]), UNAVAILABLE),
    **{f"no table {name}": (without(name), answer_without(name)) for name in NAMES},
    "the table of the round alone": ((TABLES[NAMES.index("round")], ROUND), UNAVAILABLE),
    "a view in place of the round": (("CREATE VIEW round AS SELECT 1 AS version",), UNAVAILABLE),
    "an eleventh table": (all_tables("CREATE TABLE note(text TEXT)"), UNAVAILABLE),
    "one more column": (all_tables("ALTER TABLE move ADD COLUMN note TEXT"), NOT_AN_OFFICE),
    "an index": (all_tables("CREATE INDEX names ON person(name)"), UNAVAILABLE),
    "a view": (all_tables("CREATE VIEW homes AS SELECT id, home FROM person"), UNAVAILABLE),
    "a trigger": (all_tables("CREATE TRIGGER gone AFTER DELETE ON room BEGIN DELETE FROM move; END"), UNAVAILABLE),
    "the figures of ANALYZE": (all_tables("ANALYZE"), UNAVAILABLE),
    "UTF-16": (("PRAGMA encoding = 'UTF-16le'", *all_tables()), UNAVAILABLE),
    "auto_vacuum": (("PRAGMA auto_vacuum = FULL", *all_tables()), UNAVAILABLE),
}
