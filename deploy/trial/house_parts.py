"""What houses go by, without an office: their units, their settings and their ports. houses.py runs it."""

import itertools
import os
import re
import subprocess
import sys
import tempfile
from pathlib import Path
from unittest import mock

from stand import DEPLOY, OFFICE, PYTHON, check

sys.path.append(str(OFFICE))

# pylint: disable=wrong-import-position,wrong-import-order  # they are in the folder of the line above
from house_list import House, new_house
from house_places import PORTS, Place
from settings import Fault, from_environment

# What units have, and the place that it has to be. `%i` stands for the house.
FACTS = [
    ("rooms-keeper@.service", "User", lambda place: place.account),
    ("rooms-keeper@.service", "WorkingDirectory", lambda place: str(place.folder)),
    ("rooms-keeper@.service", "StateDirectory", lambda place: str(place.folder.relative_to("/var/lib"))),
    ("rooms-keeper@.service", "RuntimeDirectory", lambda place: str(place.scratch.parent.relative_to("/run"))),
    ("rooms-keeper@.service", "ReadWritePaths", lambda place: f"-{place.told}"),
    ("rooms-keeper@.service", "ExecStartPre",
     lambda place: f"+/usr/bin/install -d -o {place.account} -g {place.account} -m 755 {place.told}"),
    ("rooms-keeper@.service", "Requires", lambda place: place.keeper_units[0]),
    ("rooms-keeper@.socket", "ListenStream", lambda place: str(place.socket)),
    ("rooms-keeper@.socket", "SocketUser", lambda place: place.account),
    ("rooms-keeper@.socket", "SocketGroup", lambda place: place.clerks),
    ("rooms-page@.service", "User", lambda place: place.page_account),
    ("rooms-page@.service", "SupplementaryGroups", lambda place: place.clerks),
    ("rooms-page@.service", "InaccessiblePaths", lambda _: "-/var/lib/rooms -/var/lib/rooms-houses"),
    ("rooms-told@.service", "InaccessiblePaths", lambda _: "-/var/lib/rooms -/var/lib/rooms-houses"),
    ("rooms-backup@.service", "InaccessiblePaths", lambda _: "-/var/lib/rooms -/var/lib/rooms-houses"),
    ("rooms-page@.socket", "ListenStream", lambda place: str(place.jail / "rooms-page.sock")),
    ("rooms-page@.socket", "SocketGroup", lambda place: place.proxy_account),
    ("rooms-told@.socket", "ListenStream", lambda place: str(place.jail / "rooms-told.sock")),
    ("rooms-told@.socket", "SocketGroup", lambda place: place.proxy_account),
    ("rooms-backup@.service", "OnSuccess", lambda place: place.unit("rooms-full-backup.service")),
    ("rooms-backup@.service", "Group", lambda place: place.clerks),
    ("rooms-full-backup@.service", "ReadWritePaths", lambda place: f"-{place.backups}"),
]
OF_PLAIN = re.compile(r"^(?!#).*(/var/lib/rooms(?![\w-])(?!$| )|/var/lib/rooms-told(?!-)|/run/rooms(?![\w-])|/var/lib/haproxy|"
                      r"(User|Group|Groups|SocketUser)=(rooms|rooms-\w+|haproxy)$|:290\b|rooms-\w+\.(service|socket))", re.M)


def units():
    """The units of a house: each has its own places, and nothing of the plain office is left in them."""
    with tempfile.TemporaryDirectory(prefix="rooms-trial-") as folder:
        subprocess.run([PYTHON, DEPLOY / "package/house-units", DEPLOY, folder], check=True)
        texts = {one.name: one.read_text(encoding="utf-8") for one in Path(folder).iterdir()}
    place = Place("north")
    for unit, key, wanted in FACTS:
        found = [line.partition("=")[2].replace("%i", "north") for line in texts[unit].splitlines() if line.startswith(f"{key}=")]
        check(f"{unit}: {key} is the house's", found == [wanted(place)], found)
    for name, text in sorted(texts.items()):
        left = [line[0] for line in OF_PLAIN.findall(text)]
        check(f"{name} has nothing of the plain office", not left, left)
        plain = (DEPLOY / name.replace("@", "")).read_text(encoding="utf-8")
        check(f"{name} names its house", name.endswith(".service") == ("\nEnvironment=ROOMS_HOUSE=%i\n" in text))
        rules = [len(re.findall(r"^[A-Z]\w+=", one, re.M)) for one in (plain, text)]
        lost = rules[0] - rules[1] + text.count("\nEnvironment=ROOMS_HOUSE=%i\n")
        check(f"{name} has each of its rules", lost == (1 if name == "rooms-keeper@.service" else 0), rules)


def too_many():
    """There is a port for each of 15 houses, and a port that is free again is given again."""
    houses: list[House] = []
    for number in range(len(PORTS)):
        houses.append(new_house(f"house-{number}", f"house-{number}.example.org", houses))
    check("each house has a port of its own", {one.port for one in houses} == set(PORTS), houses)
    try:
        new_house("last", "last.example.org", houses)
        check("no more than there are ports", False)
    except Fault as why:
        check("no more than there are ports", "all taken" in str(why), why)
    gone = houses.pop(3)
    check("a port that is free again is given again", new_house("last", "last.example.org", houses).port == gone.port)


def settings():
    """The keeper's settings by the name of the house alone: no path, socket or account is that of another office."""
    found = {}
    for house in ("", "north", "south"):
        with mock.patch.dict(os.environ, {"ROOMS_HOUSE": house} if house else {}, clear=True):
            one = from_environment()
        found[house] = [one.file, one.journal, one.until, one.figures, one.backups, one.mail_book, one.socket, one.scratch,
                        one.told, one.mail, one.speakers]
        check(f"the places of {house or 'the plain office'} are its own", len(set(map(str, found[house]))) == len(found[house]))
    for first, second in itertools.combinations(found, 2):
        same = [one for one in zip(found[first], found[second]) if one[0] == one[1]]
        check(f"and none is that of {second}", not same, same)


def house_parts():
    """Tries them all."""
    units()
    too_many()
    settings()
