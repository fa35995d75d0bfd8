"""Where an office has its things on a machine: the plain office, or that of a house, of which a machine may have several.

The units of a house (`package/house-units` makes them), `rooms-house` and the keeper go by these places, so that each house has
accounts, folders, sockets and a port of its own.
"""

import os
import re
import sys
from collections.abc import Sequence
from dataclasses import dataclass
from pathlib import Path

VARIABLE = "ROOMS_HOUSE"
OPTION = "--house"
NAME = re.compile(r"[a-z0-9]+(-[a-z0-9]+)*")
LONGEST = 16  # the system takes 31 signs for the name of an account, and `rooms-keeper-` comes before it
PLAIN = "plain"  # what rooms-house calls the office without a house
# The port of the residents' server of the plain office, and those of houses: below 512, and /etc/services gives them to nothing
# else. 291 and 292 are taken (haproxy.cfg).
PLAIN_PORT, PORTS = 290, range(293, 308)
RULE = (f"A house has a name of at most {LONGEST} small letters, digits and hyphens between them, as north or house-2; "
        f"{PLAIN} is the office without a house")


class NoHouse(Exception):
    """A name of a house that is none. The text says why."""


def checked(name: str) -> str:
    """The name of a house, or nothing; any other is refused."""
    if name and (len(name) > LONGEST or not NAME.fullmatch(name) or name == PLAIN):
        raise NoHouse(f"{name!r} is no name of a house. {RULE}")
    return name


@dataclass(frozen=True)
class Place:
    """The places, accounts and units of the office of a house, or, without a name, of the plain office."""

    house: str = ""

    def of(self, plain: str, houses: str) -> str:
        """One of two texts; a house's has its name in place of the braces."""
        return houses.format(self.house) if self.house else plain

    @property
    def folder(self) -> Path:
        """The folder of the office's file, the journal and the copies."""
        return Path(self.of("/var/lib/rooms", "/var/lib/rooms-houses/{}"))

    @property
    def file(self) -> Path:
        """The office's file."""
        return self.folder / "rooms.db"

    @property
    def told(self) -> Path:
        """The folder of what residents read of rooms."""
        return Path(self.of("/var/lib/rooms-told", "/var/lib/rooms-houses-told/{}"))

    @property
    def scratch(self) -> Path:
        """The folder in memory for copies of the moment."""
        return Path(self.of("/run/rooms/copies", "/run/rooms-houses/{}/copies"))

    @property
    def socket(self) -> Path:
        """The keeper's socket."""
        return Path(self.of("/run/rooms-keeper.sock", "/run/rooms-keeper-{}.sock"))

    @property
    def jail(self) -> Path:
        """The folder that HAProxy sees once it runs: in it are the sockets of both servers of pages."""
        return Path(self.of("/var/lib/haproxy", "/var/lib/rooms-houses-proxy/{}"))

    @property
    def settings(self) -> Path:
        """The folder of what an administrator writes."""
        return Path(self.of("/etc/rooms", "/etc/rooms/houses/{}"))

    @property
    def mail(self) -> Path:
        """The settings of mail."""
        return self.settings / "mail.conf"

    @property
    def proxy(self) -> Path:
        """HAProxy's configuration."""
        return Path(self.of("/etc/haproxy/haproxy.cfg", "/etc/rooms/houses/{}/haproxy.cfg"))

    @property
    def certificate(self) -> Path:
        """The certificate, with its key."""
        return Path(self.of("/etc/haproxy/rooms.pem", "/etc/rooms/houses/{}/rooms.pem"))

    @property
    def backups(self) -> Path:
        """The folder of the machine's backups."""
        return Path(self.of("/var/backups/rooms", "/var/backups/rooms-houses/{}"))

    @property
    def account(self) -> str:
        """The keeper's account."""
        return self.of("rooms", "rooms-keeper-{}")

    @property
    def clerks(self) -> str:
        """The group of the clerks' command, and of the office's page."""
        return self.of("rooms-office", "rooms-office-{}")

    @property
    def page_account(self) -> str:
        """The account of the office's page, which may say for whom it acts."""
        return self.of("rooms-page", "rooms-page-{}")

    @property
    def proxy_account(self) -> str:
        """HAProxy's account."""
        return self.of("haproxy", "rooms-proxy-{}")

    @property
    def keeper_units(self) -> tuple[str, str]:
        """The units of the keeper."""
        return self.unit("rooms-keeper.socket"), self.unit("rooms-keeper.service")

    @property
    def proxy_unit(self) -> str:
        """The unit of HAProxy."""
        return self.of("haproxy.service", "rooms-proxy@{}.service")

    def unit(self, plain: str) -> str:
        """The unit of this office that stands for one of the plain office."""
        name, dot, kind = plain.rpartition(".")
        return self.of(plain, f"{name}@{{}}{dot}{kind}")

    def command(self, words: str) -> str:
        """A command of this office, as somebody types it: its name, and more words behind it."""
        name, space, rest = words.partition(" ")
        return self.of(words, f"{name} {OPTION} {{}}") + (f"{space}{rest}" if self.house else "")


def here() -> Place:
    """The office of the environment: that of its house, or the plain one."""
    return Place(checked(os.environ.get(VARIABLE, "")))


def chosen(words: Sequence[str]) -> tuple[Place, list[str]]:
    """The office that a command is for, by its option or else by the environment, and the words without the option."""
    left, found = list(words), os.environ.get(VARIABLE, "")
    if left and left[0].startswith(f"{OPTION}="):
        found = left.pop(0).partition("=")[2]
    elif left and left[0] == OPTION:
        found, left = "".join(left[1:2]), left[2:]
    else:
        return here(), left
    if not found:
        raise NoHouse(f"{OPTION} needs the name of a house")
    os.environ[VARIABLE] = checked(found)
    return here(), left


def of_command(name: str) -> tuple[Place, list[str]]:
    """The same of the words of this process. A name that is none ends it as words do that are not understood."""
    try:
        return chosen(sys.argv[1:])
    except NoHouse as why:
        print(f"{name}: {why}", file=sys.stderr)
        sys.exit(2)
