"""Migrates a large office of version 1, and imports grades; bench/migrate.sh says what is compared and timed."""

import sys
import tempfile
from pathlib import Path

from foreign.earlier import ORDERS
from foreign.tables import declare, expect_rows, fill_some, opened
from lists import COUNT, Office, compare, key_of, name_of, person_of, room_of, tell, write_list

LISTED = 40
MOST_SECONDS = {"migrate": 5.0, "import": 1.0}


class WrittenOffice(Office):
    """An office in a file that sqlite3 writes, with these tables."""

    # pylint: disable-next=super-init-not-called  # that one has the program make the file
    def __init__(self, program, file, rows, tables):
        self.program, self.file = program, file
        with opened(file) as database:
            declare(database, *tables)
            fill_some(database, rows, tables)


def rows_of_office():
    """Everybody lives somewhere, and lists the next 40 rooms."""
    codes = [room_of(n) for n in range(COUNT)]
    return {
        "room": [(code, 0) for code in codes],
        "person": [(person_of(n), name_of(n), key_of(n), codes[n], 0) for n in range(COUNT)],
        "round": [(1, 1, 1, "open")],
        "choice": [(person_of(n), k, codes[(n + k + 1) % COUNT]) for n in range(COUNT) for k in range(LISTED)],
        **{table: [] for table in ("word", "result", "move", "list", "grade", "going")},
    }


def took(what, kind, ran, answer):
    """Prints what a line took, which has to get this answer within its time of a processor."""
    assert (ran.text, ran.status) == (answer + "\n", 0), ran
    tell(what, ran)
    assert ran.processor < MOST_SECONDS[kind], f"{what} took more than {MOST_SECONDS[kind]} s of a processor"


def main(program):
    """Migrates the office in each order of its tables, and imports grades."""
    rows = rows_of_office()
    for order in ("version 1 as documented", "version 1 of the program"):
        with tempfile.TemporaryDirectory() as name:
            folder = Path(name)
            office = WrittenOffice(program, folder / "office.db", rows, ORDERS[order][1])
            took(order, "migrate", office.run("migrate"), "ok")
            expect_rows(office.file, {**rows, "round": [(1, 3, 1, "open")]})
            for turn in (1, 2):
                grades = [(person_of(n), str((n + turn) % 10)) for n in range(COUNT)]
                sent = write_list(folder, "grades", turn, "person,grade", grades)
                ran = office.bring(sent.kind, sent.label, sent.path)
                took(f"{COUNT} grades, list {turn}", "import", ran, f"added {COUNT}")
                compare("export of grades", office.export("grades"), [list(row) for row in grades])


if __name__ == "__main__":
    main(sys.argv[1])
