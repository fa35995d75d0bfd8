"""Puts a file into the office's place, so that no line by hand (`rooms do --db FILE`) is accepted and lost.

The program opens the file, looks whether it has this name and no other, and locks it; if another program has the lock,
it fails at once. Then it opens the log by the file's name. So nobody may get the lock of the old file once the new file
has the name: that line would go into a file without a name, and its log would lie beside the new file. Two things
prevent it.

- The old file is locked, as the program locks it, from before it is copied until no other program has it open.
- Before the new file comes, the old one gets a second name, by which the program refuses it, and the new file waits
  until no other program has the old one open. If the keeper is killed, the second name stays, until `finish` has
  completed what was begun.
"""

import contextlib
import fcntl
import functools
import os
import shutil
import signal
import struct
import tempfile
import threading
import time
from collections.abc import Callable, Iterator
from pathlib import Path

from languages import N_, _
from settings import Fault, unwritten

# The bytes by which SQLite locks a database, as `struct flock`. The lock is that of an open file, and not of a process:
# it stays when the process opens and closes the same file once more.
LOCK = struct.pack("hhqqi4x", fcntl.F_WRLCK, os.SEEK_SET, 1 << 30, 512, 0)
PATIENCE = 5.0  # seconds until other programs have to have closed the file
IN_USE = N_("another program has the office's file open. As root, `lslocks` shows who has locked the file, and `fuser -v FILE` "
            "also who only reads it. Nothing was changed. End that program, and try again.")


def beside(file: Path, end: str) -> Path:
    """The file with something behind its name, as its log."""
    return file.with_name(file.name + end)


def to_disk(*paths: Path) -> None:
    """Has files, or the names in folders, on the disk before it returns."""
    for path in paths:
        held = os.open(path, os.O_RDONLY)
        try:
            os.fsync(held)
        finally:
            os.close(held)


def part_of(file: Path) -> Path:
    """What a file is called until it is whole."""
    return beside(file, ".part")


def replace_file(file: Path, data: bytes | None, mode: int = 0o600, part: Path | None = None) -> None:
    """Puts a file with these bytes in the place of another one, or takes that one away: on the disk before it returns, and whole or
    not at all. `part` is what it is called until it is whole, if that is another name than the usual one."""
    part = part or part_of(file)
    try:
        if data is None:
            file.unlink(missing_ok=True)
        else:
            with open(os.open(part, os.O_WRONLY | os.O_CREAT | os.O_TRUNC | os.O_CLOEXEC, mode), "wb") as held:
                os.fchmod(held.fileno(), mode)  # the umask would keep a public file from the others
                held.write(data)
            to_disk(part)
            part.rename(file)
        to_disk(file.parent)
    except OSError:
        with contextlib.suppress(OSError):
            part.unlink()
        raise


HALF = ".part-"  # how the name of a folder begins that is not whole yet


@contextlib.contextmanager
def half_made(folder: Path) -> Iterator[Path]:
    """A new folder below this one, to be filled and renamed in the block. If that fails, nothing of it remains."""
    part = Path(tempfile.mkdtemp(dir=folder, prefix=HALF))
    try:
        yield part
    except BaseException:
        shutil.rmtree(part, ignore_errors=True)
        raise


def drop_half_made(folder: Path) -> None:
    """Deletes what was left half made by somebody who was killed."""
    for part in folder.glob(f"{HALF}*"):
        shutil.rmtree(part)


def is_done(held: int, command: int, value: int | bytes) -> bool:
    """Whether the system does something with an open file that it refuses where others have the file."""
    with contextlib.suppress(BlockingIOError):
        fcntl.fcntl(held, command, value)
        return True
    return False


def is_alone(held: int) -> bool:
    """Whether nobody else has this file open: only then the system gives a lease, which is given back at once."""
    if not is_done(held, fcntl.F_SETLEASE, fcntl.F_WRLCK):
        return False
    fcntl.fcntl(held, fcntl.F_SETLEASE, fcntl.F_UNLCK)
    return True


class InUse(Fault):
    """Another program has the office's file open."""


def wait_until(holds: Callable[[], bool]) -> None:
    """Waits for other programs, but not for long."""
    end = time.monotonic() + PATIENCE
    while not holds():
        if time.monotonic() > end:
            raise InUse(_(IN_USE))
        time.sleep(0.001)


class Place:
    """The place of the office's file."""

    def __init__(self, file: Path) -> None:
        self.file = file
        self.part, self.next, self.second = (beside(file, end) for end in (".part", ".next", ".second"))
        self.lock = threading.Lock()  # between the old log's end and the new file nobody may copy
        self.replaced: list[int] = []  # files that had this place, still locked, since another program has them open

    @contextlib.contextmanager
    def held(self) -> Iterator[int]:
        """Keeps every other program from the office's file, as long as the block runs."""
        self.close_replaced()
        try:
            held = os.open(self.file, os.O_RDWR)
        except OSError as fault:
            raise unwritten(N_("the office"), fault) from fault
        try:
            # Who opens the file in the moment of a lease has the system send a signal. This one ends no process.
            fcntl.fcntl(held, fcntl.F_SETSIG, signal.SIGURG)
            wait_until(lambda: is_done(held, fcntl.F_OFD_SETLK, LOCK))
            yield held
        finally:
            os.close(held)

    def close_replaced(self) -> None:
        """Closes the files that had this place, and that no other program has open any more."""
        for held in [one for one in self.replaced if is_alone(one)]:
            self.replaced.remove(held)
            os.close(held)

    def put(self, copy: Path, held: int | None, before: Callable[[], None] | None = None) -> None:
        """Makes a whole copy the office. `held` is the old file, if there is one. A kill at any point leaves the one or
        the other, and no line by hand gets through in between. `before` is done once the disk has had room for the copy and no
        other program has the old file: so nothing but its own fault can come between it and the copy."""
        try:
            shutil.copyfile(copy, self.part)
            to_disk(self.part)
            if held is not None:
                os.link(self.file, self.second)
                wait_until(functools.partial(self.has_alone, held))
            if before:
                before()
            self.part.rename(self.next)
        except (Fault, OSError) as fault:
            for one in (self.part, self.second):
                one.unlink(missing_ok=True)
            raise unwritten(N_("the office"), fault) if isinstance(fault, OSError) else fault
        to_disk(self.file.parent)
        self.finish()
        if held is not None and not self.has_alone(held):
            self.replaced.append(os.dup(held))

    def has_alone(self, held: int) -> bool:
        """Whether no other program has the file open, while the keeper itself copies nothing."""
        with self.lock:
            return is_alone(held)

    def finish(self) -> None:
        """Ends what `put` has begun. The old log goes first: its lines would be added to the new file."""
        with self.lock:
            self.part.unlink(missing_ok=True)
            if self.next.exists():
                for end in ("-wal", "-shm", "-journal"):
                    beside(self.file, end).unlink(missing_ok=True)
                to_disk(self.file.parent)
                self.next.rename(self.file)
                to_disk(self.file.parent)
            self.second.unlink(missing_ok=True)
