"""What a disk may hold after a power cut, by what programs did to their files: for crash_states.py.

Nothing but what was flushed is certain. Each later write may be there or not, whatever came after it, and each may be
torn: of its sectors of 512 bytes any may be there. The same holds for lengths, and for names in the folder until the
folder is flushed.
"""

import random
from collections.abc import Iterable, Iterator
from typing import NamedTuple

from crash_record import Event, Flush, Make, Remove, Resize, Say, Write
from stand import fail

SECTOR = 512
# At each power cut so many drawn sets of sectors may be left, and each write may be torn at so many places.
DRAWN = 8
TEARS = 4
Files = dict[str, bytes]


class Data(NamedTuple):
    """Bytes for a file, whatever its name."""

    file: int
    offset: int
    data: bytes


class Length(NamedTuple):
    """A length for a file."""

    file: int
    length: int


class Named(NamedTuple):
    """A name gets this file, or none."""

    path: str
    file: int | None


Change = Data | Length | Named


def apply(names: dict[str, int], contents: dict[int, bytearray], changes: Iterable[Change]) -> None:
    """Carries out changes, in their order."""
    for change in changes:
        if isinstance(change, Named):
            names.pop(change.path, None)
            if change.file is not None:
                names[change.path] = change.file
            continue
        content = contents[change.file]
        end = change.length if isinstance(change, Length) else change.offset + len(change.data)
        content.extend(bytes(max(0, end - len(content))))
        if isinstance(change, Data):
            content[change.offset : end] = change.data
        else:
            del content[end:]


class Disk:
    """A disk, from the files that are on it for certain."""

    def __init__(self, files: Files, ignored: str | None = None) -> None:
        """`ignored` is a word of those files whose flushes do nothing, for the control: the empty word means all."""
        self.ignored = ignored
        self.contents = {number: bytearray(content) for number, content in enumerate(files.values())}
        self.names = {path: number for number, path in enumerate(files)}
        self.now = dict(self.names)
        self.pending: list[Change] = []

    def take(self, event: Event) -> None:
        """Notes what a program did."""
        if isinstance(event, Flush):
            self.flush(event.path)
        elif isinstance(event, Make):
            if event.path not in self.now:
                self.contents[len(self.contents)] = bytearray()
                self.name(event.path, len(self.contents) - 1)
        elif isinstance(event, Remove):
            self.name(event.path, None)
        elif isinstance(event, Write):
            self.pending.append(Data(self.file_of(event.path), event.offset, event.data))
        elif isinstance(event, Resize):
            self.pending.append(Length(self.file_of(event.path), event.length))

    def file_of(self, path: str) -> int:
        """The file that has this name now."""
        if path not in self.now:
            fail(f"something is written to {path}, which has no name")
        return self.now[path]

    def name(self, path: str, file: int | None) -> None:
        """Gives a name, or takes it."""
        change = Named(path, file)
        apply(self.now, {}, [change])
        self.pending.append(change)

    def flush(self, path: str) -> None:
        """What was written to this file is certain from now on, or the names in this folder."""
        if self.ignored is not None and path.endswith(self.ignored):
            return
        file = self.now.get(path)
        certain: list[Change] = []
        pending: list[Change] = []
        for change in self.pending:
            is_certain = (None if isinstance(change, Named) else change.file) == file
            (certain if is_certain else pending).append(change)
        apply(self.names, self.contents, certain)
        self.pending = pending

    def files(self, kept: Iterable[Change]) -> Files:
        """What is there after a power cut that has left these changes."""
        names, contents = dict(self.names), {number: bytearray(content) for number, content in self.contents.items()}
        apply(names, contents, kept)
        return {path: bytes(contents[file]) for path, file in names.items()}


def sectors(change: Change) -> list[Change]:
    """The parts of a change that reach the disk each by itself."""
    if not isinstance(change, Data):
        return [change]
    first, end = change.offset // SECTOR, -(-(change.offset + len(change.data)) // SECTOR)
    bounds = [max(change.offset, number * SECTOR) for number in range(first, end)]
    bounds.append(change.offset + len(change.data))
    return [
        Data(change.file, begin, change.data[begin - change.offset : stop - change.offset])
        for begin, stop in zip(bounds, bounds[1:])
    ]


def torn(change: Change, chance: random.Random) -> Iterator[list[Change]]:
    """A write of which the beginning came to the disk, the end, or some drawn sectors, a few times each."""
    parts = sectors(change)
    for cut in chance.sample(range(1, len(parts)), min(TEARS, len(parts) - 1)):
        yield parts[:cut]
        yield parts[cut:]
        yield [part for part in parts if chance.random() < 0.5]


def left_overs(pending: list[Change], chance: random.Random) -> Iterator[list[Change]]:
    """What may be left of the changes that are not certain: all, none, the first ones, all but one, one alone, one
    torn, and drawn sectors of all of them."""
    yield pending
    yield []
    for number, change in enumerate(pending):
        before, after = pending[:number], pending[number + 1 :]
        yield before
        yield before + after
        yield [change]
        for parts in torn(change, chance):
            yield before + parts
            yield before + parts + after
    for _ in range(DRAWN if pending else 0):
        yield [part for change in pending for part in sectors(change) if chance.random() < 0.5]


class Cut(NamedTuple):
    """A power cut: how much had been said before, and what may be on the disk after it."""

    said: int
    files: list[Files]


def cuts(disk: Disk, events: Iterable[Event], limit: int, chance: random.Random) -> Iterator[Cut]:
    """The power cuts just before each flush and just after each answer, with at most `limit` disks for each.

    What a cut between two of these may leave, a cut before the next flush may leave as well.
    """
    said = 0
    for event in events:
        if isinstance(event, Flush):
            yield Cut(said, drawn(disk, limit, chance))
        disk.take(event)
        if isinstance(event, Say):
            said += 1
            yield Cut(said, drawn(disk, limit, chance))


def drawn(disk: Disk, limit: int, chance: random.Random) -> list[Files]:
    """Disks after a power cut now: all is there, nothing is, and some others, drawn."""
    found = list(left_overs(disk.pending, chance))
    if len(found) > limit:
        found = found[:2] + chance.sample(found[2:], limit - 2)
    return [disk.files(kept) for kept in found]
