"""A backup of the machine: a folder with all that a new machine needs. `rooms-backup` makes it, and `rooms-restore` brings it.

    rooms.db, why   a copy of the office, as the keeper keeps it
    state/          what lies beside the office's file: the journal, and for how many days copies stay
    told/           what residents read of rooms: told.json.gz, and the pictures
    files/          files of the machine, each under its path: the texts of the residents' page, HAProxy's configuration
    about.json      when and where the backup was made; each file of the three folders, with its part, mode and time
    SHA256SUMS      the checksum of each file, for `sha256sum -c SHA256SUMS`

SHA256SUMS and about.json name the same files. So a backup of which a part is gone is found out, and so is one that was cut
off while somebody copied it.
"""

import hashlib
import json
import re
from dataclasses import asdict, dataclass, field
from pathlib import Path
from typing import Any, NamedTuple

from backups import WHY
from settings import Fault
from told_files import is_own

FILE, ABOUT, SUMS = "rooms.db", "about.json", "SHA256SUMS"
STATE, TOLD, FILES = "state", "told", "files"
FORMAT = 1
KEPT = 7  # backups in the machine's own folder for them
# What `rooms-restore --with` brings beside the office's file.
PARTS = {
    "journal": "the journal: who changed what, and the seeds of the draws",
    "settings": "what the office has set, as for how many days copies stay",
    "mail": "mail addresses, the texts of mails, and which were sent to whom",
    "accounts": "whose the college's accounts are",
    "told": "what residents read of rooms, with the pictures",
    "portal": "the texts of the residents' page",
    "proxy": "HAProxy's configuration, with the clerks' passwords, and the certificate with its key",
    "units": "changes of the units, and the bound of HAProxy's log",
}
# Where files of the machine may come from, and go to.
PLACES = ("etc", "srv/rooms")
LINE = re.compile(r"([0-9a-f]{64})  (.+)")


class Kept(NamedTuple):
    """A file beside the copy of the office: its part, its mode, and when it was changed."""

    part: str
    mode: int
    time: float


@dataclass
class About:
    """What a backup says of itself."""

    made: str      # when
    host: str      # on which machine
    version: str   # by which version of rooms
    copy: str      # the name of the kept copy of the office
    clerks: list[str] = field(default_factory=list)     # who is in the group of the clerks' command
    absent: list[str] = field(default_factory=list)     # what the machine does not have, of what others have
    files: dict[str, Kept] = field(default_factory=dict)
    house: str = ""  # of which house the office is, if it is of one


def checksum(path: Path) -> str:
    """The SHA-256 of a file. A link is not followed."""
    if path.is_symlink():
        raise Fault(f"{path} is a link, and no file")
    with open(path, "rb") as held:
        return hashlib.file_digest(held, "sha256").hexdigest()


def write_list(folder: Path, about: About) -> None:
    """Writes what the backup says of itself, and then the checksums of all its files."""
    said = {name: value for name, value in asdict(about).items() if name != "house" or value}  # 3.1.0 knows no house
    text = json.dumps({"format": FORMAT, **said}, ensure_ascii=False, indent=1)
    (folder / ABOUT).write_text(text + "\n", encoding="utf-8")
    names = sorted(str(one.relative_to(folder)) for one in folder.rglob("*") if one.is_file())
    lines = [f"{checksum(folder / name)}  {name}\n" for name in names]
    (folder / SUMS).write_text("".join(lines), encoding="utf-8")


def is_backup(folder: Path) -> bool:
    """Whether a folder is such a backup, or what is left of one; another one may be a kept copy of the office alone."""
    return any((folder / name).exists() for name in (SUMS, ABOUT, STATE, TOLD, FILES))


def sums_in(folder: Path) -> dict[str, str]:
    """The checksums that a backup names."""
    found = {}
    try:
        text = (folder / SUMS).read_text(encoding="utf-8")
    except (OSError, UnicodeError) as why:
        raise Fault(f"the backup is not whole: {folder / SUMS} cannot be read") from why
    for number, line in enumerate(text.split("\n")[:-1], 1):
        match = LINE.fullmatch(line)
        if match is None:
            raise Fault(f"the backup is damaged: line {number} of {SUMS} is no checksum")
        found[match[2]] = match[1]
    return found


def is_placed(name: str, kept: Kept) -> bool:
    """Whether a file may be in a backup: below one of its folders, and for a place that is this one's."""
    words = name.split("/")
    if any(word in ("", ".", "..") for word in words) or kept.part not in PARTS:
        return False
    if words[0] == TOLD:
        return len(words) == 2 and is_own(words[1])
    return words[0] == STATE or any(name.startswith(f"{FILES}/{place}/") for place in PLACES)


def about_in(folder: Path) -> About:
    """What a backup says of itself."""
    try:
        values: dict[str, Any] = json.loads((folder / ABOUT).read_text(encoding="utf-8"))
        made_by = values.pop("format")
        files = {str(name): Kept(*kept) for name, kept in values.pop("files").items()}
        about = About(files=files, **values)
    except (OSError, ValueError, TypeError, AttributeError, KeyError) as why:
        raise Fault(f"the backup is damaged: {ABOUT} cannot be read") from why
    if made_by != FORMAT:
        raise Fault(f"the backup was made by another version of rooms ({about.version}), in a form that this one cannot read")
    return about


def read(folder: Path) -> tuple[About, dict[str, str]]:
    """What a backup says of itself, and its checksums, once each file has been found as it is to be."""
    sums = sums_in(folder)
    for name in (ABOUT, *sums):
        if name not in sums:
            raise Fault(f"the backup is not whole: {SUMS} does not name {name}")
        if not (folder / name).is_file():
            raise Fault(f"the backup is not whole: {name} is missing")
        if checksum(folder / name) != sums[name]:
            raise Fault(f"the backup is damaged: {name} is not what was saved")
    about = about_in(folder)
    for name in (FILE, WHY, *about.files):
        if name not in sums:
            raise Fault(f"the backup is not whole: {SUMS} does not name {name}")
    for name in sums.keys() - {FILE, WHY, ABOUT, *about.files}:
        raise Fault(f"the backup is damaged: {ABOUT} does not name {name}")
    for left in folder.glob(f"{FILE}-*"):
        raise Fault(f"{left} was not saved with the backup, as sqlite3 leaves it: the office may have been changed since")
    for name, kept in about.files.items():
        if not is_placed(name, kept):
            raise Fault(f"the backup is damaged: {name} has no place on a machine")
    return about, sums
