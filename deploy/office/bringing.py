"""Brings the parts of a machine's backup that are beside the office's file, one file after the other.

Nothing that is there is lost: a file that differs gets a second name beside it, for its owner alone, and what was there is named,
with a word if it is newer than the backup's.
"""

import contextlib
import hashlib
import json
import os
import pwd
import re
import shutil
import subprocess
from collections.abc import Callable
from contextlib import AbstractContextManager
from pathlib import Path
from typing import NamedTuple

import house_list
import times
import told_files
from house_places import Place
from journal import Journal
from machine_backup import FILES, STATE, TOLD, About, Kept
from machine_files import MACHINE, on_machine, version
from placing import to_disk
from settings import Fault

Owner = Callable[[], AbstractContextManager[None]]
OPENSSL = ("openssl", "x509", "-noout", "-enddate", "-ext", "subjectAltName", "-in")
SECONDS = 60
UNTIL = "until"
# The files that name people, and what an administrator has to know of an older one.
WARNINGS = {
    "mail.db": "whoever was erased since has an address again, and what was sent since is not known and can be sent a second time",
    "accounts": "whoever was removed since is on the list again: bring the newest list in (rooms-office accounts)",
    "languages": "set the languages again that were changed since",
}
OF_PEOPLE = set(WARNINGS)
OF_MACHINE = {"portal", "proxy", "units"}  # parts that name places of one office


class Goal(NamedTuple):
    """A file of the backup, its checksum, where it goes, and the mode of a folder that has yet to be made there."""

    source: Path
    sum: str
    target: Path
    kept: Kept
    folder_mode: int


def aside(target: Path) -> Path:
    """A name beside a file for what is there."""
    return next(one for name in times.names() if not os.path.lexists(one := target.with_name(f"{target.name}.before-{name}")))


def make_folder(folder: Path, mode: int) -> None:
    """Makes a folder, and those above it, with this mode."""
    if not folder.is_dir():
        make_folder(folder.parent, mode)
        folder.mkdir()
        folder.chmod(mode)


def write(goal: Goal, owner: Owner) -> Path:
    """Copies a file next to its place, on the disk; it has to be the one that was looked at."""
    part = goal.target.with_name(f".{goal.target.name}.part")
    with open(goal.source, "rb") as held, owner():
        make_folder(goal.target.parent, goal.folder_mode)
        part.unlink(missing_ok=True)
        with open(os.open(part, os.O_RDWR | os.O_CREAT | os.O_EXCL | os.O_NOFOLLOW, 0o600), "w+b") as copy:
            shutil.copyfileobj(held, copy)
            copy.seek(0)
            if hashlib.file_digest(copy, "sha256").hexdigest() != goal.sum:
                part.unlink()
                raise Fault(f"{goal.source} was changed meanwhile, and was not brought")
            os.fchmod(copy.fileno(), goal.kept.mode)
            os.utime(copy.fileno(), (goal.kept.time, goal.kept.time))
        to_disk(part)
    return part


def is_same(goal: Goal) -> bool:
    """Whether the file is in its place already."""
    target = goal.target
    return target.is_file() and not target.is_symlink() and hashlib.sha256(target.read_bytes()).hexdigest() == goal.sum


def bring(goal: Goal, owner: Owner) -> str:
    """Puts a file in its place, and says what became of what was there."""
    with owner():
        there = os.path.lexists(goal.target)
        if is_same(goal):
            return f"as it was: {goal.target}"
    part = write(goal, owner)
    with owner():
        said = f"in place: {goal.target}"
        if there:
            newer = ", which is newer than the backup's," if goal.target.lstat().st_mtime > goal.kept.time else ""
            old = aside(goal.target)
            os.link(goal.target, old, follow_symlinks=False)
            said += f"; what was there{newer} is kept: {old}"
        part.rename(goal.target)
        if there and not old.is_symlink():  # it may name somebody who is forgotten since
            old.chmod(0o600)
        to_disk(goal.target.parent)
    return said


def bring_journal(goal: Goal, owner: Owner, copy: str) -> str:
    """Puts the journal in its place, unless the one that is there has all of it; and notes that the office went back."""
    size, there = goal.source.stat().st_size, b""
    with owner(), contextlib.suppress(FileNotFoundError):
        with open(os.open(goal.target, os.O_RDONLY | os.O_NOFOLLOW), "rb") as held:
            there = held.read(size)
    goes_on = hashlib.sha256(there).hexdigest() == goal.sum
    said = f"as it was: {goal.target}, which begins as the backup's" if goes_on else bring(goal, owner)
    with owner():
        journal = Journal(goal.target)
        journal.end(journal.begin("rooms-restore", f"back {copy}"), "ok", 0, 0)
    return f"{said}\nthe journal says that the office went back to the copy {copy}"


def keep_pictures(folder: Path, brought: set[str], owner: Owner) -> None:
    """Gives the pictures that are not brought a second name, as their texts get one: the keeper deletes those that no room has."""
    with owner():
        others = [one for one in folder.iterdir() if told_files.PICTURE.fullmatch(one.name) and one.name not in brought]
        for one in others:
            old = aside(one)
            os.link(one, old, follow_symlinks=False)
            print(f"the backup does not have the picture {one}, which is kept: {old}", flush=True)


def date_in(until: Path) -> str:
    """The date until which lists are taken, as the keeper's file has it; nothing if there is none."""
    with contextlib.suppress(OSError, ValueError, KeyError, TypeError):
        found = json.loads(until.read_text(encoding="utf-8"))
        return f"{found['local']} ({found['zone']})".replace("T", " ", 1)
    return "a date that cannot be read" if until.exists() else ""


class Rest:
    """What is to be brought beside the office's file."""

    def __init__(self, folder: Path, about: About, sums: dict[str, str], parts: set[str], place: Place) -> None:
        self.folder, self.about, self.sums, self.parts, self.place = folder, about, sums, parts, place
        self.brought: set[str] = set()  # the files of people, in which somebody may be who was erased since
        if parts & OF_MACHINE and about.house != place.house:
            whose = Place(about.house)
            name = whose.of("the plain office", "the house {}")
            raise Fault(f"the backup is that of {name}, and {', '.join(sorted(OF_MACHINE))} have their places there: "
                        f"{whose.command('rooms-restore')}. Without these parts it may come here")

    def goals(self, top: str, target: Path, folder_mode: int) -> list[Goal]:
        """What is to be brought out of one folder of the backup."""
        return [Goal(self.folder / name, self.sums[name], target / Path(name).relative_to(top), kept, folder_mode)
                for name, kept in self.about.files.items() if name.startswith(f"{top}/") and kept.part in self.parts]

    def bring_state(self, data: Path, owner: Owner) -> None:
        """What lies beside the office's file, by its owner. The keeper is stopped. A date until which lists are taken is not
        brought, since the keeper would close the round at once if it is past."""
        goals = [goal for goal in self.goals(STATE, data, 0o700) if goal.target.name != UNTIL]
        with owner():
            there = {name for name in OF_PEOPLE if (data / name).exists()}
        for goal in goals:
            name = goal.target.name.removesuffix("-journal")
            if goal.kept.part == "journal":
                print(bring_journal(goal, owner, self.about.copy), flush=True)
            elif name in there:
                print(self.left(goal, owner), flush=True)
            else:
                print(bring(goal, owner), flush=True)
                self.brought |= {name} & OF_PEOPLE

    @staticmethod
    def left(goal: Goal, owner: Owner) -> str:
        """The remark on a file of people where one is already. It stays, and none gets a second name: a person who was erased from
        one would be in the other, and what was sent since stands in it alone."""
        with owner():
            same = is_same(goal)
        return (f"as it was: {goal.target}" if same else
                f"not brought: {goal.target} is another one here. To have the backup's, move it away and begin again")

    def bring_told(self, folder: Path, owner: Owner, account: str) -> None:
        """What residents read of rooms, by its owner, who is this account. The keeper is stopped. The names of pictures are made
        of what is in them, so a picture that is there is the same."""
        goals = self.goals(TOLD, folder, 0o755)
        if goals and not folder.is_dir():
            folder.mkdir(mode=0o755)
            folder.chmod(0o755)
            shutil.chown(folder, account, pwd.getpwnam(account).pw_gid)
        texts = [goal for goal in goals if goal.target.name == told_files.FILE]
        with owner():
            differs = any(os.path.lexists(goal.target) and not is_same(goal) for goal in texts)
        if differs:
            keep_pictures(folder, {goal.target.name for goal in goals}, owner)
        for goal in goals:
            said = bring(goal, owner)
            if goal in texts:
                print(said, flush=True)
        if len(goals) > len(texts):
            print(f"in place: {len(goals) - len(texts)} pictures of rooms in {folder}", flush=True)

    def bring_files(self) -> None:
        """The files of the machine, by root."""
        for goal in self.goals(FILES, MACHINE, 0o755):
            print(bring(goal, contextlib.nullcontext), flush=True)

    def remains(self) -> list[str]:
        """What an administrator has to do by hand."""
        has = {kept.part for kept in self.about.files.values()}
        left = []
        if until := date_in(self.folder / STATE / UNTIL):
            left.append(f"lists were to be taken until {until}. This date was not brought: set it again on the office's page")
        left += [f"{name} is as it was when the backup was made: {WARNINGS[name]}" for name in sorted(self.brought)]
        if not has <= self.parts:
            left.append(f"the backup also has {', '.join(sorted(has - self.parts))}: rooms-restore --with all brings these too")
        if "proxy" in self.parts:
            left += [f"the backup lacks {one}: set it up by hand" for one in self.about.absent]
            left += [*proxy_faults(self.place), *port_words(self.place), *certificate_words(self.place),
                     f"run systemctl restart {self.place.proxy_unit.removesuffix('.service')}",
                     "clerks sign in with the passwords of the backup: take out those who have left since"]
        if "portal" in self.parts and any(name.startswith(f"{FILES}/etc/rooms/sign-in/") for name in self.about.files):
            left.append("residents sign in by the college's accounts: sign-in/README.md, \"On a new machine\"")
        if "units" in self.parts & has:
            left.append("run systemctl daemon-reload, and start the keeper and the page again; systemctl restart rsyslog")
        if self.parts & {"portal", "proxy"} and self.about.version != version():
            left.append(f"the backup is of {self.about.version}, and here is {version()}: compare haproxy.cfg and the texts with "
                        "those of the package, as docs/upgrading.md says")
        left += [f"{one} was in the group of the clerks' command: usermod -aG {self.place.clerks} {one}"
                 for one in self.about.clerks]
        return left


def said_by(*words: str) -> tuple[int, str]:
    """The status and the words of a command; if it is not there, none."""
    with contextlib.suppress(OSError, subprocess.TimeoutExpired):
        done = subprocess.run(words, text=True, check=False, timeout=SECONDS, stdout=subprocess.PIPE, stderr=subprocess.STDOUT)
        return done.returncode, done.stdout.strip()
    return -1, ""


def proxy_faults(place: Place) -> list[str]:
    """What HAProxy first says against its configuration."""
    status, said = said_by("haproxy", "-c", "-f", str(on_machine(place.proxy)))
    alert = next((line for line in said.splitlines() if "[ALERT]" in line), "")
    return [] if status in (0, -1) else [f"HAProxy does not take {place.proxy}: {alert}"]


def port_words(place: Place) -> list[str]:
    """Whether HAProxy's configuration of a house has another port than the house has on this machine."""
    with contextlib.suppress(OSError):
        port = house_list.read(on_machine(place.settings)).port
        text = on_machine(place.proxy).read_text(encoding="utf-8", errors="replace")
        if place.house and (found := re.search(r"server one 127\.0\.0\.1:(\d+)", text)) and int(found[1]) != port:
            return [f"{place.proxy} has the port {found[1]} of another machine: write {port} into its line `server one`"]
    return []


def certificate_words(place: Place) -> list[str]:
    """Whose the certificate is, and until when: the names have to lead here, and somebody has to renew it."""
    certificate = on_machine(place.certificate)
    status, said = said_by(*OPENSSL, str(certificate))
    until, names = re.search("notAfter=(.*)", said), re.findall("DNS:([^,\\s]+)", said)
    held = f"until {until[1]}" if status == 0 and until else "for a time that could not be read"
    left = [f"the certificate holds {held}: have it renewed on this machine"] if certificate.exists() else []
    return [*left, f"{' and '.join(names) or 'the name of the site'} has to lead to this machine"]
