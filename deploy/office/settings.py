"""Where the keeper finds things, and its limits. The units use the defaults; the trial sets the variables of the
environment."""

import errno
import os
import shutil
from dataclasses import dataclass
from pathlib import Path

from house_places import PLAIN_PORT, NoHouse, Place, here
from languages import _


class Fault(Exception):
    """The keeper cannot do what was asked for. The text says why, and what the clerk can do."""

    unknown = False  # whether nobody knows if it was done all the same


class NotKnown(Fault):
    """Something went wrong, and nobody knows whether what was asked for was done."""

    unknown = True


class Refused(Fault):
    """The program, or the keeper in its place, has refused a line. `answer` is what the program says: its text, and its status."""

    def __init__(self, why: str, answer: tuple[str, int]) -> None:
        super().__init__(why)
        self.answer = answer


def cause_of(fault: Exception) -> object:
    """Why something that has a fault of its own could not be written. What the fault says elsewhere is that nothing was changed."""
    cause = fault if isinstance(fault, OSError) else fault.__context__
    return cause.strerror if isinstance(cause, OSError) else fault


def unwritten(what: str, fault: OSError) -> Fault:
    """The fault of something that could not be written, before anything was changed. What that is, is translated here."""
    values = {"what": _(what), "reason": fault.strerror}
    if fault.errno in (errno.ENOSPC, errno.EDQUOT):
        return Fault(_("{what} could not be written ({reason}). Nothing was changed. The disk is full: make room.", **values))
    return Fault(_("{what} could not be written ({reason}). Nothing was changed.", **values))


@dataclass(frozen=True)
class Settings:  # pylint: disable=too-many-instance-attributes  # each is a setting
    """The keeper's paths, accounts and limits."""

    file: Path                # the office's file
    program: str              # the program `rooms`
    port: int                 # the port of `rooms serve` on 127.0.0.1, below those that any account may have
    socket: Path              # the keeper's socket, if systemd does not open it
    scratch: Path             # a folder in memory for copies: they have everybody's key
    speakers: frozenset[str]  # accounts that may say for whom they act; every other account acts for itself
    line_seconds: float       # the longest time for the program and one line; a bundle has some more for each further line
    turn_seconds: float       # the longest time that a change waits for its turn
    connections: int = 1_000_000  # `rooms serve` ends after so many, and is started again
    stop_seconds: float = 5   # after so long a stop the server is started, even if more changes wait
    kept_backups: int = 30    # the copies that were asked for, as those of each night
    kept_before: int = 20     # the copies that were taken before lines, for each kind of line
    kept_days: int = 400      # for so many days at most, unless the office has set another number
    told: Path = Place().told  # the folder of what residents read of rooms, which is public
    mail: Path = Place().mail  # the settings of mail; without this file there is none
    account_socket: Path | None = None  # for the keys of accounts (accounts.py), if systemd does not open it
    place: Place = Place()  # of which house the office is, if it is of one

    @property
    def journal(self) -> Path:
        """The journal of the changes."""
        return self.file.with_name("journal")

    @property
    def until(self) -> Path:
        """The date until which lists are taken."""
        return self.file.with_name("until")

    @property
    def figures(self) -> Path:
        """The figures of published rounds."""
        return self.file.with_name("figures")

    @property
    def backups(self) -> Path:
        """The folder of the kept copies."""
        return self.file.with_name("backups")

    @property
    def languages(self) -> Path:
        """The languages of clerks and of residents."""
        return self.file.with_name("languages")

    @property
    def accounts(self) -> Path:
        """Whose the college's accounts are."""
        return self.file.with_name("accounts")

    @property
    def mail_book(self) -> Path:
        """The file of mail addresses, and of what was sent."""
        return self.file.with_name("mail.db")


def from_environment() -> Settings:
    """The settings, with the defaults of an installed office, the plain one or that of a house."""
    variables = os.environ
    try:
        place = here()
    except NoHouse as why:
        raise Fault(str(why)) from why
    found = shutil.which("rooms", path="/usr/local/bin:/usr/bin") or "/usr/bin/rooms"
    return Settings(
        file=Path(variables.get("ROOMS_FILE", place.file)),
        program=variables.get("ROOMS_PROGRAM", found),
        port=int(variables.get("ROOMS_PORT", PLAIN_PORT)),
        socket=Path(variables.get("ROOMS_SOCKET", place.socket)),
        scratch=Path(variables.get("ROOMS_SCRATCH", place.scratch)),
        speakers=frozenset(variables.get("ROOMS_SPEAKERS", place.page_account).split()),
        line_seconds=float(variables.get("ROOMS_LINE_SECONDS", "15")),
        turn_seconds=float(variables.get("ROOMS_TURN_SECONDS", "30")),
        told=Path(variables.get("ROOMS_TOLD", place.told)),
        mail=Path(variables.get("ROOMS_MAIL", place.mail)),
        account_socket=Path(path) if (path := variables.get("ROOMS_ACCOUNT_SOCKET")) else None,
        place=place,
    )
