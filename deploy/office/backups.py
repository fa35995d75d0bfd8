"""The kept copies of the office: those that are asked for, as each night, and those taken before lines that cannot be
taken back.

Each is a folder below `backups` with the time of the copy as its name. In it are `rooms.db`, which is the whole
office in one file, and `why`, a line of JSON that says why the copy was taken. The file has the rows of that moment, and
nothing of what was overwritten or deleted before: then `why` has `rows`. Versions up to 3.1.0 copied the file with its free pages.
If the office was damaged, the copy has file and log as they were.
Beside the folders `days` says for how many days a copy stays at most, if the office has set that.
"""

import contextlib
import datetime
import json
import re
import shutil
import tempfile
import time
from collections.abc import Callable, Iterator
from pathlib import Path
from typing import Any, NamedTuple

import times
from copies import ENDS, Copies, keep_rows_alone, make_whole
from languages import N_, _
from placing import beside, drop_half_made, half_made, replace_file, to_disk
from settings import Fault, Settings, unwritten

NAME = re.compile(r"[0-9]{8}T[0-9]{6}Z(-[0-9]{2})?")
ASKED_FOR, BACK, RESTORE = "backup", "back", "restore"
# What versions up to 3.1.0 wrote into the reason of a copy: the list that somebody handed in.
WISHES = re.compile(r"\b(choose [^ ,;]+)(?: [^ ,;(]+)+")
DAYS, WHY = "days", "why"
MOST_DAYS = 3650
DOUBT = datetime.timedelta(days=2)  # so much older than a copy may be none of the last two nights is, unless they failed


class Stay(NamedTuple):
    """Until which day a copy stays at most, and after how many more of its kind it goes earlier."""

    until: str
    more: int


def names_in(folder: Path) -> list[str]:
    """The names of the copies in a folder, the oldest first."""
    if not folder.exists():
        return []
    return sorted(one.name for one in folder.iterdir() if NAME.fullmatch(one.name) and one.is_dir())


def why_in(folder: Path) -> dict[str, Any]:
    """What the file `why` of a kept copy has; nothing if it cannot be read."""
    with contextlib.suppress(OSError, ValueError):
        entry = json.loads((folder / WHY).read_text(encoding="utf-8"))
        return entry if isinstance(entry, dict) else {}
    return {}


class Backups:
    """The folder of the kept copies."""

    def __init__(self, settings: Settings, copies: Copies) -> None:
        self.settings, self.copies, self.folder = settings, copies, settings.backups

    def keep(self, kind: str, why: str, still: bool = False, damaged: bool = False) -> str:
        """Keeps a copy of the office, on the disk, and gives its name; with `damaged` also a copy that is not whole."""
        try:
            return self.taken(kind, why, still, damaged)
        except OSError as fault:
            raise unwritten(N_("a copy of the office"), fault) from fault

    def taken(self, kind: str, why: str, still: bool, damaged: bool) -> str:
        """Takes the copy. Before a line, while residents wait, nobody looks: the program has just read all of it."""
        self.folder.mkdir(mode=0o700, exist_ok=True)
        with self.copies.copied(still) as copy:
            if make_whole(copy, look=damaged or not still) and keep_rows_alone(copy):
                return self.store([copy], {"kind": kind, "why": why, "whole": True, "rows": True}, drops=not still)
        if not damaged:
            raise Fault(_("the office's file is damaged, so nothing was done. Put a copy back: {command}",
                          command=self.settings.place.command("rooms-office back NAME")))
        with self.copies.copied(still) as copy:  # anew: to look at the first one may have changed it
            return self.store([one for end in ENDS if (one := beside(copy, end)).exists()],
                              {"kind": kind, "why": why, "whole": False}, drops=not still)

    def store(self, files: list[Path], entry: dict[str, Any], drops: bool) -> str:
        """Writes a copy to the disk, and then `drops` those that are too old. Before a line the worker does that once the line has
        taken effect: the copy that is about to be put back may be the oldest one, and a copy before nothing replaces none."""
        name = put_down(self.folder, files, entry, self.free_name)
        if drops and entry["kind"] != BACK:
            with contextlib.suppress(OSError):
                self.drop_old()
        return name

    def free_name(self) -> str:
        """The time as a name. Names are in order: if the last copy has this time, or a later one since the clock was set
        back, its name is counted on."""
        now = times.as_name()
        last = (self.names() or [""])[-1]
        if last[:len(now)] < now:
            return now
        number = int(last[len(now) + 1:] or 1) + 1
        if number < 100:
            return f"{last[:len(now)]}-{number:02}"
        return (times.made_at(last) + datetime.timedelta(seconds=1)).strftime(times.COPY)

    def names(self) -> list[str]:
        """The names of the kept copies, the oldest first."""
        return names_in(self.folder)

    def before_back(self) -> str:
        """The newest copy that was made before the office went back to another one; nothing if there is none."""
        return next((name for name in reversed(self.names()) if self.entry(name)["kind"] in (BACK, RESTORE)), "")

    def file_of(self, name: str) -> Path:
        """The office's file in a kept copy."""
        return self.folder / name / self.settings.file.name

    def age(self) -> float | None:
        """How old the newest copy that was asked for is, in seconds; below zero if its time is to come."""
        name = next((name for name in reversed(self.names()) if self.entry(name)["kind"] == ASKED_FOR), None)
        return time.time() - (self.folder / name).stat().st_mtime if name else None

    def entry(self, name: str) -> dict[str, str]:
        """Why a copy was taken. One that was put there by hand counts as asked for."""
        entry = why_in(self.folder / name)
        if "kind" in entry and "why" in entry:
            return {"kind": str(entry["kind"]), "why": WISHES.sub(r"\1", str(entry["why"]))}
        return {"kind": ASKED_FOR, "why": ""}

    def has_rows_alone(self, name: str) -> bool:
        """Whether the keeper says of a copy that it has rows alone. One that a version up to 3.1.0 made, though it is whole, that
        `rooms-restore` has kept, or that was put there by hand, may have free pages with what its rows were before."""
        return why_in(self.folder / name).get("rows") is True

    def listed(self) -> list[tuple[str, int, str]]:
        """The kept copies: name, bytes, and why each was taken."""
        return [(name, sum(one.stat().st_size for one in (self.folder / name).iterdir()), self.entry(name)["why"])
                for name in self.names()]

    def days(self) -> int:
        """For how many days a copy stays at most."""
        with contextlib.suppress(OSError, ValueError):
            return int((self.folder / DAYS).read_text(encoding="ascii"))
        return self.settings.kept_days

    def set_days(self, days: int) -> None:
        """Sets for how many days a copy stays at most, and deletes the older ones."""
        try:
            self.folder.mkdir(mode=0o700, exist_ok=True)
            replace_file(self.folder / DAYS, f"{days}\n".encode())
        except OSError as fault:
            raise unwritten(N_("the number of days"), fault) from fault
        self.drop_old()

    def stays(self, days: int) -> dict[str, Stay]:
        """How long each copy stays, if a copy stays for so many days at most. Those taken before lines make none of those of
        the nights go."""
        kinds: dict[str, list[str]] = {}
        for name in self.names():
            kinds.setdefault(self.entry(name)["kind"], []).append(name)
        found = {}
        for kind, names in kinds.items():
            count = self.settings.kept_backups if kind == ASKED_FOR else self.settings.kept_before
            for newer, name in enumerate(reversed(names)):
                until = times.made_at(name) + datetime.timedelta(days=days)
                found[name] = Stay(until.astimezone().date().isoformat(), count - newer)
        return found

    def old(self, days: int) -> list[str]:
        """The copies that go, if a copy stays for so many days at most."""
        stays = self.stays(days)
        gone = too_old(list(stays), [name for name in stays if self.entry(name)["kind"] == ASKED_FOR], days)
        return [name for name, stay in stays.items() if stay.more <= 0 or name in gone]

    def drop_old(self) -> None:
        """Deletes the copies that are too old, and the oldest ones of each kind."""
        for name in self.old(self.days()):
            self.drop(name)

    def drop(self, name: str) -> None:
        """Deletes a copy."""
        shutil.rmtree(self.folder / name)

    def take(self, name: str, target: Path) -> None:
        """Puts a kept copy over another copy, as one file."""
        source = self.file_of(name)
        if not NAME.fullmatch(name) or not source.is_file():
            raise Fault(_("there is no copy {name}. See them all: {command}", name=repr(name),
                          command=self.settings.place.command("rooms-office backups")))
        for end in (*ENDS, "-shm"):
            beside(target, end).unlink(missing_ok=True)
        for end in ENDS:
            with contextlib.suppress(FileNotFoundError):
                shutil.copyfile(beside(source, end), beside(target, end))
        if not make_whole(target):
            raise Fault(_("the copy {name} is damaged, and was not put back", name=name))

    @contextlib.contextmanager
    def taken_out(self, name: str) -> Iterator[Path]:
        """A kept copy as one file, for as long as the block runs."""
        with tempfile.TemporaryDirectory(dir=self.settings.scratch) as folder:
            file = Path(folder) / self.settings.file.name
            self.take(name, file)
            yield file

    def clear(self) -> None:
        """Deletes what a keeper left that was killed while it wrote a copy."""
        if self.folder.exists():
            drop_half_made(self.folder)
            with contextlib.suppress(OSError):
                self.drop_old()


def put_down(folder: Path, files: list[Path], entry: dict[str, Any], free_name: Callable[[], str]) -> str:
    """Writes files and why they are kept to the disk, as a copy in this folder, and gives its name. If that fails, nothing of it
    remains."""
    with half_made(folder) as part:
        for one in files:
            shutil.copyfile(one, part / one.name)
        (part / WHY).write_text(json.dumps(entry) + "\n", encoding="utf-8")
        to_disk(*part.iterdir(), part)
        name = free_name()
        part.rename(folder / name)
        to_disk(folder)
    return name


def too_old(names: list[str], nights: list[str], days: int) -> set[str]:
    """Those of these copies that are older than so many days. None, if one of the last two that were asked for is much older
    itself: then the clock may be set far ahead, and nobody knows how old any copy is."""
    last = datetime.datetime.now(datetime.timezone.utc) - datetime.timedelta(days=days)
    if any(times.made_at(name) < last - DOUBT for name in sorted(nights or names)[-2:]):
        return set()
    return {name for name in names if times.made_at(name) < last}
