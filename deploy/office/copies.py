"""Copies the office's file while the server runs.

SQLite cannot read the file while the server holds it; but file and log can be copied meanwhile. A copy is the office
of one moment if neither the file nor the head of its log has changed in between. For the server only adds to the log,
until it has copied the log into the file (then the file's time changes) and begins the log anew (then the log's head
changes). If the server was adding a line, the copy has a part of it at its end. That part fails its checksum, and the
program ignores it. Copying takes no locks, so the server does not notice.

This needs a file system with times in nanoseconds, so none of another machine: /var/lib/rooms is to be on a disk of
this one.
"""

import contextlib
import errno
import os
import shutil
import sqlite3
import tempfile
import time
from collections.abc import Iterator
from pathlib import Path
from typing import NamedTuple
from urllib.parse import quote

from languages import _
from placing import Place, beside
from settings import Fault, Settings

ENDS = ("", "-wal")
HEAD = 32             # bytes: the head of a log, with what is drawn anew whenever the log begins anew
COARSE = 50_000_000   # nanoseconds: two changes within one tick of the clock of files have the same time
TRIES = 100
# What SQLite says of the machine, and not of the file; of these, where there is no room.
OF_MACHINE = (sqlite3.SQLITE_FULL, sqlite3.SQLITE_IOERR, sqlite3.SQLITE_CANTOPEN, sqlite3.SQLITE_BUSY, sqlite3.SQLITE_LOCKED,
              sqlite3.SQLITE_READONLY, sqlite3.SQLITE_PERM)
NO_ROOM = (sqlite3.SQLITE_FULL, sqlite3.SQLITE_IOERR_SHMSIZE)


def is_recent(moment: int) -> bool:
    """Whether a file was changed just now. A time to come is none of now: the clock was set back since."""
    return abs(time.time_ns() - moment) < COARSE


class State(NamedTuple):
    """What the system says of the file and its log."""

    file_time: int
    file_size: int
    head: bytes
    log_time: int
    log_size: int

    def same_file(self, other: "State") -> bool:
        """Whether the file, and the head of the log, are as they were: what was added to the log does not matter."""
        return (self.file_time, self.file_size, self.head) == (other.file_time, other.file_size, other.head)

    def is_settled(self) -> bool:
        """Whether the last change is so long ago that one more would be seen by its time."""
        return not is_recent(self.file_time) and not is_recent(self.log_time)


def is_whole(database: sqlite3.Connection) -> bool:
    """Whether a database is whole."""
    return (database.execute("PRAGMA integrity_check").fetchall() == [("ok",)]
            and not database.execute("PRAGMA foreign_key_check").fetchall())


def raise_if_of_machine(fault: sqlite3.Error) -> None:
    """Where the memory for copies is full, or a file there cannot be used, says so: the copy is none the worse for it."""
    code = getattr(fault, "sqlite_errorcode", sqlite3.SQLITE_CORRUPT)
    if code in NO_ROOM:
        raise OSError(errno.ENOSPC, os.strerror(errno.ENOSPC)) from fault
    if code & 0xff in OF_MACHINE:
        raise OSError(errno.EIO, str(fault)) from fault


def make_whole(file: Path, look: bool = True) -> bool:
    """Puts the log of a copy into the copy, which then is one file. With `look`, whether that is a whole database."""
    try:
        with contextlib.closing(sqlite3.connect(file)) as database:
            if look and not is_whole(database):
                return False
            return bool(database.execute("PRAGMA wal_checkpoint(TRUNCATE)").fetchone()[0] == 0)
    except sqlite3.DatabaseError as fault:
        raise_if_of_machine(fault)
        return False


def rewrite(file: Path, new: Path) -> None:
    """Makes a new file with the rows of a copy, and nothing of what they were before. It has a log, as that of the program has."""
    with contextlib.closing(sqlite3.connect(file)) as database:
        database.execute("VACUUM INTO ?", (str(new),))
    with contextlib.closing(sqlite3.connect(new)) as database:
        database.execute("PRAGMA journal_mode = WAL")


def keep_rows_alone(copy: Path) -> bool:
    """Puts a file with the same rows in the place of a copy that is one file: what a line has overwritten or deleted may stand in
    free pages of the office's file. Whether the rows could be read."""
    new = beside(copy, ".new")
    try:
        rewrite(copy, new)
    except sqlite3.DatabaseError as fault:
        raise_if_of_machine(fault)
        return False
    new.replace(copy)
    return True


@contextlib.contextmanager
def copied_beside(file: Path) -> Iterator[Path]:
    """A copy of a copy of the office that the program has open while it waits for a line, for as long as the block runs."""
    with tempfile.TemporaryDirectory(dir=file.parent) as folder:
        for end in ENDS:
            with contextlib.suppress(FileNotFoundError):
                shutil.copyfile(beside(file, end), beside(Path(folder) / file.name, end))
        yield Path(folder) / file.name


@contextlib.contextmanager
def kept_copy(file: Path) -> Iterator[sqlite3.Connection]:
    """A kept copy, which stays as it is: it is read without a lock. One that was damaged has its log beside it, and is an error of
    SQLite's."""
    if beside(file, "-wal").exists():
        raise sqlite3.DatabaseError("a log is beside the copy")
    with contextlib.closing(sqlite3.connect(f"file:{quote(str(file))}?mode=ro&immutable=1", uri=True)) as database:
        yield database


class Copies:
    """Makes copies of the office in memory."""

    def __init__(self, settings: Settings) -> None:
        self.file, self.scratch = settings.file, settings.scratch
        self.place = Place(settings.file)

    def state(self) -> State:
        """What the file is known by at this moment."""
        found = os.stat(self.file)
        with contextlib.suppress(FileNotFoundError), open(beside(self.file, "-wal"), "rb") as log:
            seen = os.fstat(log.fileno())
            return State(found.st_mtime_ns, found.st_size, log.read(HEAD), seen.st_mtime_ns, seen.st_size)
        return State(found.st_mtime_ns, found.st_size, b"", 0, 0)

    def copy_to(self, folder: Path, still: bool = False) -> Path:
        """Copies file and log into a folder. With `still` nobody writes: the file is held."""
        for __ in range(TRIES):
            if self.copy_once(folder, still):
                return folder / self.file.name
            time.sleep(COARSE / 1e9)
        raise Fault(_("the file changes all the time. Try again."))

    def copy_once(self, folder: Path, still: bool) -> bool:
        """Copies the log, and then the file. Whether the copy is sure to be that of one moment."""
        with self.place.lock:
            before = self.state()
            if not still and is_recent(before.file_time):
                return False
            for end in reversed(ENDS):
                target = beside(folder / self.file.name, end)
                target.unlink(missing_ok=True)
                with contextlib.suppress(FileNotFoundError):
                    shutil.copyfile(beside(self.file, end), target)
            return self.state().same_file(before)

    @contextlib.contextmanager
    def copied(self, still: bool = False) -> Iterator[Path]:
        """A copy of the office, for as long as the block runs."""
        with tempfile.TemporaryDirectory(dir=self.scratch) as folder:
            yield self.copy_to(Path(folder), still)

    def clear(self) -> None:
        """Makes the folder for copies, and empties it of what a keeper left that was killed."""
        self.scratch.mkdir(mode=0o700, parents=True, exist_ok=True)
        for left in self.scratch.iterdir():
            if left.is_dir():
                shutil.rmtree(left)
            else:
                left.unlink()
