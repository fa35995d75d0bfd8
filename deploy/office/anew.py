"""Writes the office's file anew, with the same rows, so that nothing stays in it of what a line has overwritten or deleted.

The program writes no row twice: what a row was before may stay in free pages of the file, and in its log. So after lines that
erase something the keeper has SQLite copy all rows into a new file. Once the program takes this as an office, and each row is the
same, it takes the office's place, as a copy does at a way back. From before such lines until then a file beside the office's says
that this is to be done. A keeper that was ended meanwhile does it at its next start.
"""

import contextlib
import itertools
import sqlite3
from pathlib import Path

from copies import make_whole, rewrite
from languages import N_, _
from lines import ACCEPTED
from office import Office
from placing import InUse, beside, part_of, replace_file
from settings import Fault, cause_of, unwritten

SCHEMA = "SELECT type, name, tbl_name, sql FROM sqlite_schema ORDER BY type, name"
TABLES = "SELECT name FROM sqlite_schema WHERE type = 'table' ORDER BY name"


class Anew:
    """The office's file, as it is to be written anew."""

    def __init__(self, office: Office) -> None:
        self.program, self.copies, self.place = office.program, office.copies, office.copies.place
        self.mark = beside(self.copies.file, ".anew")
        self.failed = False  # the last time

    def begin(self) -> None:
        """Notes on the disk that the file is to be written anew. If that fails, nothing may be erased yet."""
        try:
            replace_file(self.mark, b"")
        except OSError as fault:
            raise unwritten(N_("the office"), fault) from fault

    def finish(self) -> str:
        """Writes the file anew, if that is to be done. Says why it could not be done, or nothing."""
        part_of(self.mark).unlink(missing_ok=True)
        if not self.mark.exists():
            return ""
        try:
            self.write()
            replace_file(self.mark, None)
            self.failed = False
        except (Fault, OSError, sqlite3.Error) as fault:
            self.failed = True
            return _("what was erased may still be in free pages of the office's file, since the file could not be written anew "
                     "({why}). The keeper tries it again when it starts, and after the next list that is blanked.",
                     why=reason_of(fault))
        return ""

    def write(self) -> None:
        """Puts a file with the same rows in the office's place, while no other program has the office's file."""
        self.place.finish()
        with self.place.held() as held, self.copies.copied(still=True) as copy:
            new = beside(copy, ".new")
            rewrite(copy, new)
            looked = self.program.look(new)
            if looked.status != ACCEPTED or not make_whole(new) or not are_same(copy, new):
                raise Fault(_("the new file is not the same office: {said}", said=looked.text.strip()))
            self.place.put(new, held)


def reason_of(fault: Exception) -> object:
    """Why the file could not be written anew."""
    if isinstance(fault, InUse):
        return _("another program has it open: as root, `lslocks` shows who has locked it, and `fuser -v FILE` also who only reads "
                 "it")
    return cause_of(fault)


def are_same(file: Path, other: Path) -> bool:
    """Whether two files have the same tables, and in each the same rows in the same order."""
    with contextlib.closing(sqlite3.connect(file)) as one, contextlib.closing(sqlite3.connect(other)) as two:
        tables = [name for name, in one.execute(TABLES)]
        queries = [SCHEMA, *(f'SELECT * FROM "{name}"' for name in tables)]
        return all(row == same for query in queries
                   for row, same in itertools.zip_longest(one.execute(query), two.execute(query)))
