"""What a workbook may cost: it is an archive of XML, and a small one may hold far more than the memory.

All of it is looked through by expat, in chunks, before a library reads it: how large it is unpacked, how many elements
and attributes it has, how deep they are, and that it declares no entities.
"""

import io
import zipfile
from typing import IO, Any
from xml.parsers import expat

from languages import N_

LONGEST_FILE = 1_000_000
MOST_PARTS, MOST_BYTES, MOST_NODES, DEEPEST = 500, 8_000_000, 150_000, 60
LIKE_XML = (".xml", ".rels")


class Unreadable(Exception):
    """A file that cannot be read as a list: why, and what to do. Both are translated where they are shown."""

    def __init__(self, says: str, to_do: str = "") -> None:
        super().__init__(f"{says} {to_do}".strip())
        self.says, self.to_do = says, to_do


TOO_BIG = Unreadable(N_("This workbook is too large to be read here."),
                     N_("Copy the rows of the list alone into a new workbook, or save the list as CSV."))
DAMAGED = Unreadable(N_("This workbook is damaged, or it has a password."),
                     N_("Save it again without a password, or save the list as CSV."))


class Counter:
    """Counts what one part of a workbook has, up to a limit."""

    def __init__(self, most: int) -> None:
        self.most, self.nodes, self.depth = most, 0, 0

    def start(self, _: str, attributes: list[str]) -> None:
        """An element begins."""
        self.nodes += 1 + len(attributes) // 2
        self.depth += 1
        if self.nodes > self.most or self.depth > DEEPEST:
            raise TOO_BIG

    def end(self, _: str) -> None:
        """An element ends."""
        self.depth -= 1

    def count(self, part: IO[bytes]) -> int:
        """How many elements and attributes a part has."""
        parser = expat.ParserCreate()
        parser.ordered_attributes = True
        parser.StartElementHandler, parser.EndElementHandler = self.start, self.end
        parser.StartDoctypeDeclHandler = refuse
        parser.ParseFile(part)
        return self.nodes


def refuse(*_: Any) -> None:
    """No workbook declares a type of document, with which entities come."""
    raise DAMAGED


def parts_of(data: bytes) -> set[str]:
    """The names of a workbook's parts, if it costs no more than a workbook may."""
    try:
        with zipfile.ZipFile(io.BytesIO(data)) as archive:
            parts = archive.infolist()
            if len(parts) > MOST_PARTS or sum(part.file_size for part in parts) > MOST_BYTES:
                raise TOO_BIG
            left = MOST_NODES
            for part in parts:
                left -= nodes_of(archive, part, left)
    except (zipfile.BadZipFile, OSError, EOFError, ValueError, NotImplementedError) as fault:
        raise DAMAGED from fault
    return {part.filename for part in parts}


def nodes_of(archive: zipfile.ZipFile, part: zipfile.ZipInfo, most: int) -> int:
    """How many elements and attributes a part has. What is no XML, such as a picture, has those before its fault."""
    if part.flag_bits & 1 or part.compress_type not in (zipfile.ZIP_STORED, zipfile.ZIP_DEFLATED):
        raise DAMAGED
    counter = Counter(most)
    try:
        with archive.open(part) as opened:
            return counter.count(opened)
    except zipfile.zlib.error as fault:  # type: ignore[attr-defined]
        raise DAMAGED from fault
    except expat.ExpatError as fault:
        if part.filename.lower().endswith(LIKE_XML):
            raise DAMAGED from fault
        return counter.nodes
