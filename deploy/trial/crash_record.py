"""Records what a program does to the files of a folder, call by call and with the bytes, and what it says: by strace.

crash_states.py makes of this record what a disk may hold after a power cut. A call that changes a file in a way that is
not listed here ends the trial, so that none is overlooked.
"""

import re
from collections.abc import Iterator
from pathlib import Path
from typing import NamedTuple, NoReturn

from stand import fail


class Write(NamedTuple):
    """These bytes come to this place of a file."""

    path: str
    offset: int
    data: bytes


class Resize(NamedTuple):
    """A file gets this length."""

    path: str
    length: int


class Make(NamedTuple):
    """A file is made, or opened where it is."""

    path: str


class Remove(NamedTuple):
    """A file loses its name."""

    path: str


class Flush(NamedTuple):
    """What was written to a file has to be on the disk, or the names of a folder."""

    path: str


class Say(NamedTuple):
    """Something is said to whom the program works for."""

    data: bytes


Event = Write | Resize | Make | Remove | Flush | Say

SAYING = ("write", "writev", "sendto", "sendmsg")
FLUSHING = ("fsync", "fdatasync")
# Each call that changes a file or its name. What `changes` does not know of them ends the trial.
CHANGING = (
    "open,openat,openat2,creat,pwrite64,pwritev,pwritev2,ftruncate,truncate,fallocate,copy_file_range,sendfile,"
    "splice,rename,renameat,renameat2,link,linkat,symlink,symlinkat,unlink,unlinkat,mkdir,mkdirat,rmdir"
)
CALL = re.compile(r"^(\w+)\((.*)\) += (\d+)(?:<.*>)?$")
TEXT = re.compile(r'"((?:\\x[0-9a-f]{2})*)"(\.\.\.)?')
HANDLE = re.compile(r"^\d+<([^>]*)>")


def words_of_strace(trace: Path) -> tuple[str, ...]:
    """The beginning of a command: strace writes a program's calls into a file, with all data in hexadecimal."""
    calls = ",".join([CHANGING, *SAYING, *FLUSHING])
    return "strace", "-qq", "-y", "-xx", "-s", "10000000", "-e", "signal=none", "-e", f"trace={calls}", "-o", f"{trace}"


def plain(text: str) -> bytes:
    """The bytes of a text of strace."""
    return bytes.fromhex(text.replace("\\x", ""))


def texts_of(line: str) -> list[bytes]:
    """The texts in a line of strace."""
    found = []
    for text in TEXT.finditer(line):
        if text[2]:
            fail(f"strace has cut off what was written: {line[:200]}")
        found.append(plain(text[1]))
    return found


def unknown(line: str) -> NoReturn:
    """Ends the trial."""
    fail(f"this call of the program is not known to the trial: {line[:300]}")


def opened(line: str, words: str) -> Make | Resize | None:
    """What an open does to the file: it may make it, or empty it."""
    path = texts_of(words)[0].decode()
    if "O_TRUNC" in words:
        return Resize(path, 0)
    if "O_TMPFILE" in words or "O_APPEND" in words:
        unknown(line)
    return Make(path) if "O_CREAT" in words else None


def changed(name: str, words: str, result: int, line: str) -> Event | None:
    """What a call does to a file of the folder, whose handle or name comes first."""
    handle = HANDLE.match(words)
    path = plain(handle[1]).decode() if handle else ""
    if name in ("open", "openat"):
        return opened(line, words)
    if name == "unlink":
        return Remove(texts_of(words)[0].decode())
    if name in FLUSHING:
        return Flush(path)
    if name == "ftruncate":
        return Resize(path, int(words.rsplit(", ", 1)[1]))
    if name in ("pwrite64", "pwritev"):
        return Write(path, int(words.rsplit(", ", 1)[1]), b"".join(texts_of(words))[:result])
    return unknown(line)


def events_of(trace: Path, folder: Path) -> Iterator[Event]:
    """What a program did to the files of a folder, and what it said, in the order of its calls.

    Files that are not written (`-shm`, which SQLite keeps in memory) are left out: after a power cut nobody needs them.
    """
    inside = "".join(f"\\x{byte:02x}" for byte in f"{folder}".encode())
    for line in trace.read_text(encoding="ascii").splitlines():
        found = CALL.match(line)
        if not found:
            continue
        name, words, result = found[1], found[2], int(found[3])
        is_ours = inside in (words.split(", ", 1)[0] if name in SAYING else words)
        if name in SAYING:
            if is_ours:
                unknown(line)
            yield Say(b"".join(texts_of(words.split(", ", 1)[1]))[:result])
        elif is_ours and (event := changed(name, words, result, line)):
            if isinstance(event, Say) or not event.path.endswith("-shm"):
                yield event
