"""How much room the disk of the office has."""

import contextlib
import os
from pathlib import Path

from job import Job
from placing import beside

NEXT = 10  # copies that have to find room: those of the next nights and steps


def fault_of_disk(probe: Path) -> str:
    """What is wrong with the disk of the office's file, if anything: a small file is written, flushed and removed."""
    try:
        with open(probe, "wb") as held:
            held.write(bytes(4096))
            held.flush()
            os.fsync(held.fileno())
        return ""
    except OSError as why:
        return f"the disk of {probe.parent} takes no writes ({why.strerror})"
    finally:
        with contextlib.suppress(OSError):
            probe.unlink()


def short_of_room(file: Path) -> Job | None:
    """How many bytes are free on the disk of the office's file, if the next copies need more, and whether it takes writes."""
    found = os.statvfs(file.parent)
    # The log goes into the file of a copy, but is beside it until then.
    free, needed = found.f_bavail * found.f_frsize, NEXT * size_of(file) + size_of(beside(file, "-wal"))
    if free >= needed:
        return None
    return {"free": free, "needed": needed, "copies": NEXT, "writes": not fault_of_disk(beside(file, ".watch"))}


def size_of(file: Path) -> int:
    """The bytes of a file, of which there are none if it is not there."""
    with contextlib.suppress(FileNotFoundError):
        return file.stat().st_size
    return 0
