"""Times for people: in the zone of this machine, which is the office's, with the zone's name, and in the form of the language
that is spoken.

The journal has times with their zone, and the names of copies are times in UTC.
"""

import datetime
import re
from collections.abc import Iterator

from languages import N_, _

COPY = "%Y%m%dT%H%M%SZ"
LOCAL = re.compile(r"(\d{4})-(\d\d)-(\d\d)[T ](\d\d):(\d\d)")
# A time or a day, as the journal has it and as the name of a copy.
WRITTEN = re.compile(r"\b\d{4}-\d\d-\d\d(?:[T ]\d\d:\d\d(?::\d\d)?)?(?:[+-]\d\d:\d\d)?|\b\d{8}T\d{6}Z(?:-\d\d)?")
FORMS = {"year": "%Y", "month": "%m", "day": "%d", "hour": "%H", "minute": "%M", "second": "%S", "zone": "%Z"}
# Zones that have another name in some languages.
ZONES = (N_("UTC"), N_("GMT"), N_("BST"), N_("WET"), N_("WEST"), N_("CET"), N_("CEST"), N_("EET"), N_("EEST"))


# --- as files have them

def noted(moment: datetime.datetime) -> str:
    """A moment as the journal has it: to the second, with the zone."""
    return moment.astimezone().isoformat(timespec="seconds")


def now() -> str:
    """The time now as the journal has it."""
    return noted(datetime.datetime.now())


def as_name() -> str:
    """The time now as the name of a copy."""
    return datetime.datetime.now(datetime.timezone.utc).strftime(COPY)


def names() -> Iterator[str]:
    """The same, and then with numbers behind it, for where several are made in one second."""
    first = as_name()
    yield first
    yield from (f"{first}-{number:02}" for number in range(2, 100))


def made_at(copy: str) -> datetime.datetime:
    """When a copy was made, by its name."""
    return datetime.datetime.strptime(copy[:16], COPY).replace(tzinfo=datetime.timezone.utc)


def without(text: str) -> str:
    """A text without its times. Parts of one may be somebody's identifier: 2026-12-01 has 12."""
    return WRITTEN.sub(" ", text)


# --- as people read them

def shown(moment: datetime.datetime) -> str:
    """A moment, to the second."""
    return _("{year}-{month}-{day} {hour}:{minute}:{second} {zone}", **parts_of(moment))


def in_words(moment: datetime.datetime) -> str:
    """A moment within a sentence: something is done on it."""
    return _("{year}-{month}-{day} at {hour}:{minute}:{second} {zone}", **parts_of(moment))


def to_the_minute(moment: datetime.datetime) -> str:
    """A moment, to the minute."""
    return _("{year}-{month}-{day} {hour}:{minute} {zone}", **parts_of(moment))


def parts_of(moment: datetime.datetime) -> dict[str, str]:
    """The parts of a time in the office's zone."""
    here = moment.astimezone()
    found = {name: f"{here:{form}}" for name, form in FORMS.items()}
    return {**found, "zone": _(found["zone"])}


def of_entry(at: object) -> str:
    """The time of an entry of the journal. What is no time stays as it is."""
    try:
        return shown(datetime.datetime.fromisoformat(str(at)))
    except ValueError:
        return str(at)


def of_date(written: str, zone: str) -> str:
    """A date that a clerk has set, as it was written, with its zone. What is no date stays as it is."""
    found = LOCAL.match(written)
    if not found:
        return f"{written} ({zone})"
    year, month, day, hour, minute = found.groups()
    return _("{year}-{month}-{day}, {hour}:{minute} ({zone})", year=year, month=month, day=day, hour=hour, minute=minute, zone=zone)


def of_day(written: str) -> str:
    """A day alone. What is no day stays as it is."""
    try:
        day = datetime.date.fromisoformat(written)
    except ValueError:
        return written
    return _("{year}-{month}-{day}", year=f"{day:%Y}", month=f"{day:%m}", day=f"{day:%d}")


def moment_of(copy: str) -> datetime.datetime | None:
    """When a copy was made, by its name; nothing if that is no copy's."""
    try:
        return made_at(copy)
    except ValueError:
        return None


def of_copy(name: str) -> str:
    """When a copy was made, by its name, which stays as it is if it is no copy's. Of several in one second it has the number."""
    moment, number = moment_of(name), name.partition("-")[2].lstrip("0")
    return f"{shown(moment)}{f' ({number})' if number else ''}" if moment else name
