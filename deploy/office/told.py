"""What residents read of rooms, and the office's notice and contact. It is public, and nothing of it is in the office's file.

It is in a folder of its own, which every account of the machine may read: rooms-told serves it to anybody who asks
(told_server.py). `told.json.gz` has the texts, and says which pictures a room has. The name of a picture's file is the
hash of its bytes. The texts are replaced as a whole, so who reads them gets the old ones or the new ones.
"""

import base64
import binascii
import contextlib
import gzip
import hashlib
import json
import re
import threading
import zlib
from collections.abc import Callable, Iterable, Iterator
from pathlib import Path
from typing import Any

from job import Job
from journal import Journal
from languages import N_, _, in_english
from lines import CODE, name_shows_a_key
from placing import replace_file
from settings import Fault, unwritten
from told_files import FILE, PICTURE

Value = dict[str, Any]

PART = ".part"
LANGUAGE = re.compile(r"[a-z]{2,3}(-[A-Za-z0-9]{1,8})?")
JPEG = b"\xff\xd8\xff"
# An answer up to this size fits into a buffer of HAProxy (`tune.bufsize` in haproxy.cfg), so no slow reader holds the server.
LONGEST = 120_000
# The fields of a description with their longest texts, in signs.
FIELDS = {"house": 40, "floor": 20, "size": 20, "rent": 40, "text": 300}
UNTIL = "until"    # the date until which lists are taken (dates.py)
GONE = "gone"      # the pictures that went with the last change: a keeper that was killed then has not deleted them
AMOUNT = "amount"  # the rent as a number, by which residents look for rooms
LONGEST_NOTICE, LONGEST_CONTACT, LONGEST_CAPTION = 600, 200, 80
MOST_ROOMS, MOST_PICTURES, MOST_OF_ROOM = 2_000, 2_000, 4
CHANGED = N_("What residents read has changed since you opened the page. Nothing was changed: look again.")
KEY = N_("This text has a word that may be a key, and anybody can read it. Nothing was changed: take the word out.")


def nothing() -> Value:
    """What residents read before a clerk has written anything."""
    return {"notice": {}, "contact": "", "rooms": {}, "pictures": {}}


def mark_of(part: Any) -> str:
    """What changes with a part of what residents read. A form carries it."""
    return hashlib.blake2b(json.dumps(part, sort_keys=True).encode(), digest_size=8).hexdigest()


def marks_of(told: Value) -> dict[str, str]:
    """The mark of what each form changes."""
    return {"words": mark_of([told["notice"], told["contact"]]), "rooms": mark_of(told["rooms"])}


# --- what may be there

def as_text(value: Any, what: str, longest: int) -> str:
    """A text of the office's, which may not be too long, and has no key."""
    if not isinstance(value, str):
        raise Fault(f"not understood: {in_english(what)} is no text")
    if len(value) > longest:
        raise Fault(_("{what} has more than {longest} signs. Nothing was changed: shorten it.", what=what, longest=longest))
    if name_shows_a_key(value):
        raise Fault(_(KEY))
    return value


def as_notice(value: Any) -> dict[str, str]:
    """The notice in each language in which there is one."""
    if not isinstance(value, dict) or not all(isinstance(name, str) and LANGUAGE.fullmatch(name) for name in value):
        raise Fault("not understood: the notice is no text by language")
    texts = {name: as_text(text, _("the notice"), LONGEST_NOTICE) for name, text in value.items()}
    return {name: text for name, text in texts.items() if text}


def as_code(value: Any) -> str:
    """The code of a room."""
    if not isinstance(value, str) or not CODE.fullmatch(value):
        raise Fault("not understood: a room code has up to eight capital letters, digits and hyphens")
    return value


def as_description(value: Any) -> dict[str, Any]:
    """What is known of one room."""
    if not isinstance(value, dict) or not value or not set(value) <= {*FIELDS, AMOUNT}:
        raise Fault("not understood: a description has other fields")
    amount = value.get(AMOUNT, 0)
    if isinstance(amount, bool) or not isinstance(amount, (int, float)) or not 0 <= amount < 10_000_000:
        raise Fault("not understood: the rent is no amount")
    texts = {name: as_text(value[name], _("the field {name}", name=name), longest)
             for name, longest in FIELDS.items() if name in value}
    return {**texts, **({AMOUNT: amount} if AMOUNT in value else {})}


def as_rooms(value: Any) -> dict[str, Value]:
    """The descriptions by room."""
    if not isinstance(value, dict) or len(value) > MOST_ROOMS:
        raise Fault(f"not understood: no descriptions of up to {MOST_ROOMS:,} rooms")
    return {as_code(code): as_description(one) for code, one in value.items()}


def is_picture(value: Any) -> bool:
    """Whether this names a picture."""
    return (isinstance(value, dict) and isinstance(value.get("file"), str) and bool(PICTURE.fullmatch(value["file"]))
            and isinstance(value.get("shows"), str))


def as_told(value: Any) -> Value:
    """What the file has, if it is as this program writes it."""
    if not isinstance(value, dict):
        raise Fault("not understood: no object")
    pictures = value.get("pictures", {})
    if not isinstance(pictures, dict) or not all(
            isinstance(found, list) and found and all(map(is_picture, found)) for found in pictures.values()):
        raise Fault("not understood: no pictures by room")
    contact = as_text(value.get("contact", ""), _("the contact"), LONGEST_CONTACT)
    return {**value, "notice": as_notice(value.get("notice", {})), "contact": contact,
            "rooms": as_rooms(value.get("rooms", {})), "pictures": {as_code(code): one for code, one in pictures.items()}}


def files_in(told: Value) -> set[str]:
    """The files of all pictures."""
    return {picture["file"] for pictures in told["pictures"].values() for picture in pictures}


def picture_of(body: str) -> bytes:
    """The bytes of a picture, as the office's page has made it."""
    try:
        data = base64.b64decode(body, validate=True)
    except binascii.Error as fault:
        raise Fault("not understood: the picture is not in base 64") from fault
    if not data.startswith(JPEG) or len(data) > LONGEST:
        raise Fault(f"not understood: a picture is a JPEG of up to {LONGEST:,} bytes")
    return data


class Told:
    """The folder of what residents read."""

    def __init__(self, folder: Path, journal: Journal) -> None:
        self.folder, self.journal, self.lock = folder, journal, threading.Lock()

    def read(self) -> Value:
        """What residents read now."""
        try:
            packed = (self.folder / FILE).read_bytes()
        except FileNotFoundError:
            return nothing()
        try:
            return as_told(json.loads(gzip.decompress(packed)))
        except (OSError, EOFError, ValueError, RecursionError, zlib.error, Fault) as fault:
            raise Fault(_("what residents read of rooms is damaged. Call the administrator: {path} is to be put back from a copy, "
                          "or to be deleted. Nothing was changed.", path=self.folder / FILE)) from fault

    def write(self, told: Value) -> None:
        """Replaces the texts."""
        packed = gzip.compress(json.dumps(told, ensure_ascii=False, sort_keys=True).encode(), mtime=0)
        if len(packed) > LONGEST:
            raise Fault(_("the descriptions are too long: packed they have {bytes:,} bytes, and may have {most:,}. Nothing was "
                          "changed: shorten the texts.", bytes=len(packed), most=LONGEST))
        self.put(FILE, packed)

    def put(self, name: str, data: bytes) -> None:
        """Puts a file into the folder, where everybody may read it."""
        try:
            replace_file(self.folder / name, data, mode=0o644, part=self.folder / PART)
        except FileNotFoundError as fault:
            raise Fault(_("there is no folder {folder}. Nothing was changed: the administrator has to make it (deploy/README.md, "
                          "\"By hand\").", folder=self.folder)) from fault
        except OSError as fault:
            raise unwritten(_("what residents read"), fault) from fault

    @contextlib.contextmanager
    def change(self, who: str, line: str, part: str = "", saw: str | None = None) -> Iterator[Value]:
        """What residents read, to be changed in the block and then written. The journal has that it was changed. With
        `saw` nothing is changed if somebody else has changed this part since."""
        with self.lock:
            told = self.read()
            had = files_in(told) | set(told.get(GONE, ()))
            if saw is not None and saw != marks_of(told)[part]:
                raise Fault(_(CHANGED))
            yield told
            gone = sorted(had - files_in(told))
            with self.journal.change(who, line):
                self.write({**{name: value for name, value in told.items() if name != GONE}, **({GONE: gone} if gone else {})})
            with contextlib.suppress(OSError):
                self.sweep(files_in(told), had)

    def changed_at(self) -> int:
        """When the texts were last written, in nanoseconds; 0 if there are none."""
        with contextlib.suppress(OSError):
            return (self.folder / FILE).stat().st_mtime_ns
        return 0

    def set_until(self, until: Value | None) -> None:
        """Has residents read until when lists are taken, or nothing of it."""
        with self.lock:
            told = self.read()
            if told.get(UNTIL) == until:
                return
            self.write({**{name: value for name, value in told.items() if name != UNTIL}, **({UNTIL: until} if until else {})})

    def sweep(self, used: set[str], had: Iterable[str] = ()) -> None:
        """Deletes the pictures that no room has. If no room has one, nor had one before, the texts were taken away or are new, and
        may be put back: then all pictures stay."""
        if not used and not had:
            return
        for one in self.folder.iterdir():
            if PICTURE.fullmatch(one.name) and one.name not in used:
                one.unlink()

    def clear(self) -> None:
        """Puts away what a killed keeper left. Whatever is wrong there, the office goes on."""
        with contextlib.suppress(Exception):
            (self.folder / PART).unlink(missing_ok=True)
            told = self.read()
            self.sweep(files_in(told), told.get(GONE, ()))

    # --- what can be asked

    def requests(self) -> dict[str, Callable[[Job], Job]]:
        """The requests, by their names."""
        return {"told": self.show, "tell-words": self.tell_words, "tell-rooms": self.tell_rooms,
                "add-picture": self.add_picture, "drop-picture": self.drop_picture}

    def show(self, _job: Job) -> Job:
        """What residents read, and the marks of its parts."""
        told = self.read()
        return {"told": told, "marks": marks_of(told)}

    def tell_words(self, job: Job) -> Job:
        """The notice and the contact."""
        notice, contact = as_notice(job["notice"]), as_text(job["contact"], _("the contact"), LONGEST_CONTACT)
        with self.change(job["who"], "notice and contact for residents", "words", job.get("saw")) as told:
            told.update(notice=notice, contact=contact)
        return {}

    def tell_rooms(self, job: Job) -> Job:
        """The descriptions of all rooms. Those that were there go."""
        rooms = as_rooms(job["rooms"])
        with self.change(job["who"], f"descriptions of {len(rooms)} rooms", "rooms", job.get("saw")) as told:
            told["rooms"] = rooms
        return {}

    def add_picture(self, job: Job) -> Job:
        """One more picture of a room. The same picture a second time changes nothing."""
        room, data = as_code(job["room"]), picture_of(job["body"])
        shows = as_text(job["shows"], _("the text of a picture"), LONGEST_CAPTION)
        name = hashlib.sha256(data).hexdigest()[:32] + ".jpg"
        with self.change(job["who"], f"a picture of {room}") as told:
            pictures = told["pictures"].setdefault(room, [])
            others = [one for one in pictures if one["file"] != name]
            if len(others) >= MOST_OF_ROOM:
                raise Fault(_("{room} has {most} pictures already: take one of them away first.", room=room, most=MOST_OF_ROOM))
            if sum(map(len, told["pictures"].values())) >= MOST_PICTURES:
                raise Fault(_("there are {most:,} pictures already: take some away first.", most=MOST_PICTURES))
            self.put(name, data)
            if len(others) < len(pictures):
                next(one for one in pictures if one["file"] == name)["shows"] = shows
            else:
                pictures.append({"file": name, "shows": shows})
        return {"file": name}

    def drop_picture(self, job: Job) -> Job:
        """Takes a picture of a room away."""
        room, name = as_code(job["room"]), job["file"]
        with self.change(job["who"], f"a picture of {room} taken away") as told:
            left = [one for one in told["pictures"].get(room, []) if one["file"] != name]
            if len(left) == len(told["pictures"].get(room, [])):
                raise Fault(_(CHANGED))
            told["pictures"][room] = left
            if not left:
                del told["pictures"][room]
        return {}
