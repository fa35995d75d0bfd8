"""The houses of a machine: a folder in /etc/rooms/houses for each, with a file `house` that has its host and its port."""

import re
from pathlib import Path
from typing import NamedTuple

from house_places import PLAIN, PORTS, NoHouse, Place, checked
from settings import Fault

FOLDER = Path("/etc/rooms/houses")
FACTS = "house"
LABEL = re.compile(r"[a-z0-9]([a-z0-9-]{0,61}[a-z0-9])?")
LONGEST_HOST = 253


class House(NamedTuple):
    """A house: its name, the host under which its pages are, and the port of its residents' server; the plain office has none."""

    name: str
    host: str
    port: int = 0

    @property
    def is_plain(self) -> bool:
        """Whether it is the office without a house, which is behind the router too."""
        return self.name == PLAIN

    @property
    def place(self) -> Place:
        """Where its office has its things."""
        return Place("" if self.is_plain else self.name)

    def text(self) -> str:
        """The file that says so."""
        return f"host {self.host}\n" + ("" if self.is_plain else f"port {self.port}\n")


def read(folder: Path) -> House:
    """The house of a folder."""
    try:
        facts = dict(line.split(" ", 1) for line in (folder / FACTS).read_text(encoding="ascii").splitlines())
        house = House(folder.name, facts["host"], int(facts.get("port", "0")))
    except (ValueError, KeyError) as why:
        raise Fault(f"{folder / FACTS} is damaged: it has lines as `host north.example.org` and `port {PORTS[0]}`") from why
    if checked_host(house.host) != house.host or (house.port not in PORTS and not house.is_plain):
        raise Fault(f"{folder / FACTS} is damaged: it has the host {house.host!r} and the port {house.port}")
    return house


def all_in(folder: Path) -> list[House]:
    """All houses, by name. A folder of another name, as of a house that was removed, is none."""
    found = []
    for one in sorted(folder.iterdir()) if folder.is_dir() else []:
        try:
            is_house = one.name == PLAIN or bool(checked(one.name))
        except NoHouse:
            is_house = False
        if is_house and (one / FACTS).is_file():
            found.append(read(one))
    return found


def look_for(place: Place, folder: Path) -> None:
    """Refuses a house that this machine does not have. Its settings have this folder."""
    if place.house and not (folder / FACTS).is_file():
        raise Fault(f"there is no house {place.house}. See them all: rooms-house list")


def checked_host(host: str) -> str:
    """The name of a host in small letters; what is none is refused."""
    small = host.lower().removesuffix(".")
    labels = small.split(".")
    if len(small) > LONGEST_HOST or len(labels) < 2 or not all(map(LABEL.fullmatch, labels)) or labels[-1].isdigit():
        raise Fault(f"{host!r} is no name of a host that a browser looks up, as north.example.org")
    return small


def new_house(name: str, host: str, houses: list[House]) -> House:
    """A house of this name and host beside these houses, with a port that none of them has."""
    try:
        name = PLAIN if name == PLAIN else checked(name)
    except NoHouse as why:
        raise Fault(str(why)) from why
    if not name:
        raise Fault("a house needs a name")
    host = checked_host(host)
    for one in houses:
        if one.name == name:
            raise Fault(f"the name {name} is taken: there is a house {name}, for {one.host}")
        if one.host == host:
            raise Fault(f"the host {host} is taken: it is that of {one.name}")
    if name == PLAIN:
        return House(name, host)
    free = [port for port in PORTS if port not in {one.port for one in houses}]
    if not free:
        raise Fault(f"there are {len(PORTS)} houses, and the ports {PORTS[0]} to {PORTS[-1]} are all taken")
    return House(name, host, free[0])
