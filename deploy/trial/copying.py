"""Copies while the server runs: residents hand in lists while the keeper's copies are taken, and each copy has to
be an office of one moment.

Each resident hands in one list, turned round by some places. So a list in a copy that is none of these is torn.
This run alone:

    /usr/bin/python3 deploy/trial/copying.py PROGRAM [SECONDS]
"""

import contextlib
import json
import random
import socket
import sqlite3
import statistics
import sys
import tempfile
import threading
import time

from beside import copies_of
from stand import Stand, check, key_of

SECONDS = 20
WRITERS = 3
ROOMS = [f"R-{number}" for number in range(60)]
PEOPLE = [f"P{number:03d}" for number in range(300)]
LENGTH = 30


def turned(place):
    """The list of all residents, beginning at a place."""
    return [ROOMS[(place + step) % len(ROOMS)] for step in range(LENGTH)]


class Writers:
    """Residents who hand in lists, one after the other, straight to the server."""

    def __init__(self, port):
        self.port, self.sent, self.over = port, 0, threading.Event()
        self.threads = [threading.Thread(target=self.write, args=(number,)) for number in range(WRITERS)]

    def __enter__(self):
        for thread in self.threads:
            thread.start()
        return self

    def __exit__(self, *_):
        self.over.set()
        for thread in self.threads:
            thread.join()

    def write(self, number):
        """One writer."""
        drawn = random.Random(number)
        while not self.over.is_set():
            body = json.dumps(turned(drawn.randrange(len(ROOMS)))).encode()
            head = (
                f"PUT /me/choices HTTP/1.1\r\nHost: a\r\nRoom-Key: {key_of(drawn.choice(PEOPLE))}\r\n"
                f"Content-Length: {len(body)}\r\n\r\n"
            ).encode()
            with contextlib.suppress(OSError), socket.create_connection(("127.0.0.1", self.port), 30) as connection:
                connection.sendall(head + body)
                self.sent += b" 200 " in connection.recv(4096)


def is_torn(copy):
    """Whether a copy is no office of one moment."""
    with contextlib.closing(sqlite3.connect(copy)) as database:
        if database.execute("PRAGMA integrity_check").fetchall() != [("ok",)]:
            return True
        if database.execute("PRAGMA foreign_key_check").fetchall():
            return True
        lists: dict[str, list[str]] = {}
        for person, room in database.execute("SELECT person, room FROM choice ORDER BY person, place"):
            lists.setdefault(person, []).append(room)
    return any(found != turned(ROOMS.index(found[0])) for found in lists.values())


def try_copying(program, length=SECONDS):
    """Takes copies for so many seconds. The office is in memory, where the server writes the most meanwhile."""
    with tempfile.TemporaryDirectory(dir="/dev/shm") as data, Stand(program, data=data) as stand:
        stand.fill(ROOMS, PEOPLE)
        stand.tell("open")
        stand.start()
        copies, heads, torn = copies_of(stand), set(), 0
        times: list[float] = []

        def are_enough():
            return len(times) > length and writers.sent > 10 * length

        with Writers(stand.server_port) as writers:
            end = time.monotonic() + length
            # A busy machine may take longer for as many.
            while time.monotonic() < end or not are_enough() and time.monotonic() < end + 60:
                began = time.monotonic()
                with copies.copied() as copy:  # ends the trial where no copy can be had
                    times.append(time.monotonic() - began)
                    heads.add(copy.with_name(copy.name + "-wal").read_bytes()[:32])
                    torn += is_torn(copy)
        check(
            f"{len(times)} copies during {writers.sent} lists that were handed in: none is torn",
            torn == 0 and are_enough(),
            (torn, len(times), writers.sent),
        )
        print(
            f"      the log was begun anew {len(heads) - 1} times; a copy took "
            f"{1000 * statistics.median(times):.1f} ms, "
            f"at most {1000 * max(times):.0f} ms"
        )


if __name__ == "__main__":
    if not 2 <= len(sys.argv) <= 3:
        sys.exit("usage: /usr/bin/python3 deploy/trial/copying.py PROGRAM [SECONDS]")
    try_copying(sys.argv[1], *map(int, sys.argv[2:]))
