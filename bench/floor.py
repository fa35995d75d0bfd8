"""What SQLite itself, written in C, takes for statements over an office's file: the floor below the proved engine.

Counts instructions of `sqlite3`, which runs the statements in one process: alone, with a reading of each row before them, and
with a full check of the file as well. bench/engine.sh says what this is compared with.
"""

from foreign.tables import OWN_ORDER
from growth import instructions

CHECK = ["PRAGMA integrity_check", "PRAGMA foreign_key_check"]
# The rows are written out, since anybody who reads an office needs the values.
READ = [f"SELECT * FROM {table}" for table in OWN_ORDER]


def sqlite_count(file, statements):
    """The thousands of millions of instructions of `sqlite3` for these statements over the file."""
    given = ";\n".join(["PRAGMA foreign_keys = ON", *statements]) + ";\n"
    return instructions(["sqlite3", "-batch", "-bail", str(file)], given)


def floors(copies, statements):
    """These counts for one transaction, each over a copy of its own: alone, after a reading, and after a full check, too."""
    change = ["BEGIN", *statements, "COMMIT"]
    ways = (change, [*READ, *change], [*CHECK, *READ, *change])
    return [sqlite_count(copy, way) for copy, way in zip(copies, ways)]
