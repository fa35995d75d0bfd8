"""A file takes the office's place. After a kill at each point it is the one office or the other, and a line by hand
that is accepted at any point, before the kill or after it, is in the office. Nor does a picture that was taken away stay.

No program is needed. This run alone: /usr/bin/python3 deploy/trial/replacing.py
"""

import base64
import contextlib
import fcntl
import os
import shutil
import sqlite3
import sys
import time
from pathlib import Path
from typing import IO
from unittest import mock

from parts import an_office, rooms_of
from stand import check

# pylint: disable=wrong-import-position,wrong-import-order  # parts.py has added the folder of the keeper
import placing
from journal import Journal
from placing import LOCK, Place
from settings import Fault
from told import JPEG, Told
from told_files import FILE

STAYS = {"rooms.db", "rooms.db-wal", "rooms.db-shm", "scratch"}


class Cut(BaseException):
    """Stands for a kill: nothing catches it."""


def write_by_hand(file):
    """A line by hand, as the program carries it out. Whether it is accepted."""
    with open(file, "r+b") as held:
        seen, named = os.fstat(held.fileno()), os.stat(file)
        if not os.path.samestat(seen, named) or seen.st_nlink != 1:
            return False
        try:
            fcntl.fcntl(held, fcntl.F_OFD_SETLK, LOCK)
        except BlockingIOError:
            return False
    with contextlib.closing(sqlite3.connect(file, isolation_level=None)) as database:
        database.execute("INSERT OR IGNORE INTO room VALUES ('HAND')")
    return True


def step_by_step(calls, hand):
    """Each call that changes the disk may be the last: these many are made. Before each one, `hand` is called."""
    made = [0]

    def counted(real):
        def call(*words, **more):
            hand()
            made[0] += 1
            if made[0] > calls:
                raise Cut()
            return real(*words, **more)

        return call

    return [
        mock.patch("placing.shutil.copyfile", counted(shutil.copyfile)),
        mock.patch("placing.to_disk", counted(lambda *_: None)),
        mock.patch("placing.os.link", counted(os.link)),
        mock.patch.object(Path, "rename", counted(Path.rename)),
        mock.patch.object(Path, "unlink", counted(Path.unlink)),
    ]


def make_new(settings):
    """The office that is to come."""
    new = settings.scratch / "new.db"
    with contextlib.closing(sqlite3.connect(new, isolation_level=None)) as database:
        database.execute("CREATE TABLE room(code TEXT PRIMARY KEY NOT NULL) STRICT")
        database.execute("INSERT INTO room VALUES ('NEW')")
    return new


def put_and_cut(settings, calls):
    """Puts a new office in place, up to a cut. Whether a line by hand was accepted, and whether there was a cut."""
    place, during, cut = Place(settings.file), [], False
    new = make_new(settings)
    with contextlib.ExitStack() as stack:
        for patch in step_by_step(calls, lambda: during.append(write_by_hand(settings.file))):
            stack.enter_context(patch)
        try:
            with place.held() as held:
                place.put(new, held)
        except Cut:
            cut = True
    return write_by_hand(settings.file) or any(during), cut


def cut_off():
    """A kill at each point."""
    seen, calls, cut = set(), 0, True
    while cut:
        with an_office() as settings:
            accepted, cut = put_and_cut(settings, calls)
            Place(settings.file).finish()
            found = tuple(rooms_of(settings.file))
            seen.add(found)
            left = {one.name for one in settings.file.parent.iterdir()} - STAYS
            how = f"cut off after {calls} calls" if cut else "not cut off"
            check(
                f"{how}: {' '.join(found)}; a line by hand was {'accepted' if accepted else 'refused'}",
                set(found) - {"HAND"} in ({"OLD"}, {"NEW"}) and ("HAND" in found) == accepted and not left,
                (found, left),
            )
        calls += 1
    wanted = {("HAND", "OLD"), ("OLD",), ("NEW",), ("HAND", "NEW")}
    check("all cases were seen", seen == wanted and calls > 8, (seen, calls))


def opened_before():
    """A program that has opened the old file, and not yet locked it: the new file waits for that, and not for long."""
    with an_office() as settings, mock.patch("placing.PATIENCE", 0.3):
        place, new = Place(settings.file), make_new(settings)
        with open(settings.file, "r+b"), place.held() as held:
            try:
                place.put(new, held)
                check("no file comes into the place of one that is open", False)
            except Fault as fault:
                check("no file comes into the place of one that is open", fault.args[0] == placing.IN_USE, fault)
        left = {one.name for one in settings.file.parent.iterdir()} - STAYS
        check("the office is as it was", rooms_of(settings.file) == ["OLD"] and not left, left)
        with place.held() as held:
            place.put(new, held)
        check("and the file comes once that is closed", rooms_of(settings.file) == ["NEW"])


def locked_by_others():
    """While another program has the lock, the keeper waits, and not for long."""
    with an_office() as settings, mock.patch("placing.PATIENCE", 0.3), open(settings.file, "r+b") as other:
        fcntl.fcntl(other, fcntl.F_OFD_SETLK, LOCK)
        began = time.monotonic()
        try:
            with Place(settings.file).held():
                check("a file that another program has locked is not held", False)
        except Fault as fault:
            took = time.monotonic() - began
            waited = fault.args[0] == placing.IN_USE and took < 3
            check("a file that another program has locked is not held", waited, fault)


def opened_late():
    """A program that opens the old file behind the look at it, as sqlite3 may: it never gets the lock."""
    with an_office() as settings:
        place, new = Place(settings.file), make_new(settings)
        with contextlib.ExitStack() as stack:
            late: list[IO[bytes]] = []
            look = place.has_alone

            def look_and_open(held):
                alone = look(held)
                if not late:
                    late.append(stack.enter_context(open(settings.file, "r+b")))
                return alone

            with mock.patch.object(place, "has_alone", look_and_open), place.held() as held:
                place.put(new, held)
            check("the new file is there", rooms_of(settings.file) == ["NEW"])
            for _ in range(2):
                try:
                    fcntl.fcntl(late[0], fcntl.F_OFD_SETLK, LOCK)
                    check("who opened the old file late gets no lock", False)
                except BlockingIOError:
                    check("who opened the old file late gets no lock", len(place.replaced) == 1)
                with place.held():
                    pass
        with place.held():
            pass
        check("once that is closed the old file is let go", not place.replaced)


def dropped_picture():
    """A clerk takes the only picture of all away, and the keeper is killed before its file is deleted. The next one deletes it; but
    pictures whose texts were taken away stay."""
    body = base64.b64encode(JPEG + b"a picture").decode()
    with an_office() as settings:
        folder = settings.file.with_name("told")
        folder.mkdir()
        told = Told(folder, Journal(settings.journal))
        job = {"who": "anna", "room": "A-1", "body": body, "shows": ""}
        picture = folder / told.add_picture(job)["file"]
        with contextlib.suppress(Cut), mock.patch.object(told, "sweep", side_effect=Cut):
            told.drop_picture({**job, "file": picture.name})
        check("residents read nothing of a picture that was taken away", not told.read()["pictures"])
        told.clear()
        check("and a keeper that starts after a kill deletes it", not picture.exists())
        told.add_picture(job)
        (folder / FILE).unlink()
        told.clear()
        check("without texts, which may be put back, it stays", picture.exists())


def try_replacing():
    """All of it."""
    os.umask(0o077)
    dropped_picture()
    cut_off()
    opened_before()
    locked_by_others()
    opened_late()


if __name__ == "__main__":
    if len(sys.argv) != 1:
        sys.exit("usage: /usr/bin/python3 deploy/trial/replacing.py")
    try_replacing()
