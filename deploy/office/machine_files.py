"""What rooms-backup saves beside the copy of the office: what lies beside the office's file, what residents read of rooms, and
files of the machine."""

import contextlib
import os
import re
import shutil
import stat
import time
from collections.abc import Callable, Iterator
from pathlib import Path

from house_places import Place
from house_proxy import OWN
from machine_backup import FILES, PLACES, STATE, TOLD, Kept
from placing import beside
from settings import Fault, Settings
from told_files import is_own

MACHINE = Path(os.environ.get("ROOMS_MACHINE", "/"))  # the trial has a machine of its own
# The files of each part of the plain office, as patterns.
WANTED = {
    "portal": ["etc/rooms/**/*", *(f"srv/rooms/portal/{name}" for name in OWN)],
    "units": ["etc/systemd/system/rooms-*.d/*.conf", "etc/systemd/system/haproxy.service.d/*.conf",
              "etc/rsyslog.d/48-rooms.conf"],
}
# The same of a house, by its name. What `rooms-house` writes is none of it: a new machine has that already.
OF_HOUSE = {
    "portal": ["etc/rooms/houses/{}/portal/**/*", "etc/rooms/houses/{}/mail.conf"],
    "units": ["etc/systemd/system/rooms-*@{}.*.d/*.conf", "etc/systemd/system/rooms-*@.*.d/*.conf", "etc/rsyslog.d/48-rooms.conf"],
}
# What is a house's, and in no backup of the plain office.
HOUSES = re.compile(r"etc/rooms/houses/|.*@")
# What dpkg, an editor or rooms-restore has put aside, and the port of a house, which rooms-house writes.
ASIDE = re.compile(r".*(\.dpkg-\w+|~|\.before-.*)|house-port\.conf")
CERTIFICATES = re.compile(r"""(?<!\S)(crt|crt-list|crt-base)\s+["']?([^\s"']+)""")
TRIES, PAUSE = 50, 0.1  # until nobody changes a file while it is copied


def on_machine(path: Path) -> Path:
    """A path on this machine, or on that of the trial."""
    return MACHINE / path.relative_to("/")


def save(source: str | Path, target: Path, folder: int | None = None) -> None:
    """Copies a file for root alone. In an open folder, which may be another account's, no link is followed."""
    flags = os.O_RDONLY | os.O_NONBLOCK | (0 if folder is None else os.O_NOFOLLOW)
    target.parent.mkdir(mode=0o700, parents=True, exist_ok=True)
    with open(os.open(source, flags, dir_fd=folder), "rb") as held, open(target, "xb") as copy:
        if not stat.S_ISREG(os.fstat(held.fileno()).st_mode):
            raise Fault(f"{source} is no file")
        shutil.copyfileobj(held, copy)


def version() -> str:
    """The installed version."""
    with contextlib.suppress(OSError):
        return Path("/usr/lib/rooms/release").read_text(encoding="utf-8").partition("\n")[0]
    return "rooms without a version"


def state_files(settings: Settings) -> Iterator[tuple[str, str, int, os.stat_result]]:
    """What lies beside the office's file, but for copies, for what rooms-restore has put aside, and for what is yet to be renamed:
    the path in the backup, the name, the open folder, and what the system says of the file."""
    top = settings.file.parent
    for folder, folders, names, held in os.fwalk(top, follow_symlinks=False):
        place = Path(folder).relative_to(top)
        folders[:] = [] if place == Path(settings.backups.name) else [one for one in folders if not one.startswith(".")]
        for name in sorted(names):
            with contextlib.suppress(FileNotFoundError):
                found = os.stat(name, dir_fd=held, follow_symlinks=False)
                passing = name.startswith((".", settings.file.name)) or name.endswith(".part") or ASIDE.fullmatch(name)
                if stat.S_ISREG(found.st_mode) and not passing:
                    yield str(Path(STATE) / place / name), name, held, found


def told_files(settings: Settings) -> Iterator[tuple[str, str, int, os.stat_result]]:
    """The same of what residents read of rooms, if somebody has written something there."""
    for _folder, folders, names, held in os.fwalk(settings.told, follow_symlinks=False):
        folders.clear()
        for name in filter(is_own, sorted(names)):
            with contextlib.suppress(FileNotFoundError):
                found = os.stat(name, dir_fd=held, follow_symlinks=False)
                if stat.S_ISREG(found.st_mode):
                    yield f"{TOLD}/{name}", name, held, found


Walk = Callable[[Settings], Iterator[tuple[str, str, int, os.stat_result]]]


def stamps(walk: Walk, settings: Settings) -> dict[str, tuple[int, int, int]]:
    """By what a change of these files is known."""
    return {path: (found.st_ino, found.st_mtime_ns, found.st_size) for path, _name, _held, found in walk(settings)}


def save_all(walk: Walk, settings: Settings, folder: Path, top: Path) -> dict[str, float]:
    """Copies files as they are at one moment, and gives the time of each."""
    for _try in range(TRIES):
        with contextlib.suppress(FileNotFoundError):
            before, kept = stamps(walk, settings), {}
            for path, name, held, found in walk(settings):
                save(name, folder / path, held)
                kept[path] = found.st_mtime
            if stamps(walk, settings) == before:
                return kept
        for one in {path.partition("/")[0] for path in before}:
            shutil.rmtree(folder / one, ignore_errors=True)
        time.sleep(PAUSE)
    raise Fault(f"files in {top} change all the time. Try again")


def save_state(settings: Settings, folder: Path) -> dict[str, Kept]:
    """Copies what lies beside the office's file."""
    parts = {settings.journal: "journal", settings.mail_book: "mail", beside(settings.mail_book, "-journal"): "mail",
             settings.accounts: "accounts"}
    names = {f"{STATE}/{file.name}": part for file, part in parts.items()}
    return {path: Kept(names.get(path, "settings"), 0o600, time_of)
            for path, time_of in save_all(state_files, settings, folder, settings.file.parent).items()}


def save_told(settings: Settings, folder: Path) -> dict[str, Kept]:
    """Copies what residents read of rooms."""
    return {path: Kept("told", 0o644, time_of)
            for path, time_of in save_all(told_files, settings, folder, settings.told).items()}


def named_in(text: str) -> list[str]:
    """The certificates of a configuration of HAProxy, and the lists of certificates, without the first `/`."""
    found = [pair for line in text.splitlines() for pair in CERTIFICATES.findall(line.partition("#")[0])]
    base = Path("/", *(place for word, place in found if word == "crt-base"))
    named = [str(base / place) for word, place in found if word == "crt"]
    for path in [MACHINE / place.lstrip("/") for word, place in found if word == "crt-list"]:
        named.append(f"/{path.relative_to(MACHINE)}")
        with contextlib.suppress(OSError):
            rows = [line.partition("#")[0].split() for line in path.read_text(encoding="utf-8", errors="replace").splitlines()]
            named += [str(base / row[0]) for row in rows if row]
    return [one.lstrip("/") for one in dict.fromkeys(named)]


def certificates(proxy: str) -> list[str]:
    """The certificates that HAProxy's configuration names, as patterns: it may name a folder."""
    with contextlib.suppress(OSError):
        found = named_in((MACHINE / proxy).read_text(encoding="utf-8", errors="replace"))
        return [f"{one.rstrip('/')}/*" if (MACHINE / one).is_dir() else one for one in found]
    return []


def has_place(path: str) -> bool:
    """Whether a backup may have a file of this path."""
    return path.startswith(tuple(f"{place}/" for place in PLACES)) and ".." not in path.split("/")


def wanted(place: Place, pattern: str) -> Iterator[Path]:
    """The files of an office that a pattern names, but for those of other offices."""
    for found in MACHINE.glob(pattern.format(place.house)):
        if found.is_file() and not ASIDE.fullmatch(found.name):
            if place.house or not HOUSES.match(str(found.relative_to(MACHINE))):
                yield found


def save_machine(place: Place, folder: Path) -> tuple[dict[str, Kept], list[str]]:
    """Copies the files of the machine, and names what is absent."""
    kept: dict[str, Kept] = {}
    proxy = str(place.proxy.relative_to("/"))
    named = certificates(proxy) or [str(place.certificate.relative_to("/"))]
    for part, patterns in {**(OF_HOUSE if place.house else WANTED), "proxy": [proxy, *filter(has_place, named)]}.items():
        for source in sorted({one for pattern in patterns for one in wanted(place, pattern)}):
            path = f"{FILES}/{source.relative_to(MACHINE)}"
            if path not in kept:
                found = source.stat()
                save(source, folder / path)
                kept[path] = Kept(part, stat.S_IMODE(found.st_mode) & 0o755, found.st_mtime)
    return kept, [f"/{one}" for one in (proxy, *named) if not (has_place(one) and any(MACHINE.glob(one)))]
