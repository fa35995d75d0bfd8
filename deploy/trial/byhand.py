"""Lines by hand beside the keeper: `rooms do --db` over the keeper's own file, while the keeper carries out bundles in it, corrects
a name, and blanks a list, which writes the file anew, also if the keeper is killed.

If another program has the file, the program answers `unavailable`. What it accepts has to be in the office afterwards,
and so has what the keeper accepts; and the file has to be whole. This run alone, also over standin.py: /usr/bin/python3
deploy/trial/byhand.py PROGRAM [BUNDLES]
"""

import contextlib
import random
import sqlite3
import subprocess
import sys
import threading
import time

from kills import KNOWN, killed
from stand import Stand, check

BUNDLES = 20
HANDS = ((1, 0.02), (6, 0.0))  # how many lines at a time, and the pause after each, in seconds


class Hands:
    """People who write lines by hand, each one line after the other."""

    def __init__(self, stand, count, pause):
        self.stand, self.pause, self.over = stand, pause, threading.Event()
        self.tried = [0] * count
        self.accepted: list[list[str]] = [[] for _ in range(count)]
        self.threads = [threading.Thread(target=self.write, args=(number,)) for number in range(count)]

    def __enter__(self):
        for thread in self.threads:
            thread.start()
        return self

    def __exit__(self, *_):
        self.over.set()
        for thread in self.threads:
            thread.join()

    def write(self, number):
        """One of them."""
        while not self.over.wait(self.pause):
            code = f"H{number}-{self.tried[number]}"
            words = [self.stand.program, "do", "--db", self.stand.file, "room", code]
            said = subprocess.run(words, capture_output=True, text=True, check=False).stdout
            self.tried[number] += 1
            if said == "ok\n":
                self.accepted[number].append(code)


BLANKING = {"ask": "blank", "label": "rooms-1"}
BLANKED = {"blanked": "rooms-1"}  # and nothing is left to be done
LISTED = "room\nL-1\nL-2\n"


def bring_list(stand):
    """Has a list come in before the keeper starts."""
    stand.folder.joinpath("list").write_text(LISTED, encoding="utf-8")
    words = [stand.program, "import", "--db", stand.file, "rooms", "rooms-1", stand.folder / "list"]
    said = subprocess.run(words, capture_output=True, text=True, check=False).stdout
    check("a list comes in", said == "added 2\n" and is_in_file(stand), said)


def is_in_file(stand):
    """Whether the office's own files have the bytes of the list."""
    return any(LISTED.encode() in one.read_bytes() for one in stand.data.glob("rooms.db*"))


def correction(number):
    """Another name for somebody, as the keeper is asked for it."""
    return {"ask": "correct", "person": "P1", "name": f"Pia {number}"}


def bundles(stand, count):
    """Has the keeper carry out bundles of two rooms, and blank a list or correct a name after each. Gives the rooms of those that
    it accepted, and how many times it has written the file anew."""
    accepted, written = [], 0
    for number in range(count):
        codes = [f"K{number}-1", f"K{number}-2"]
        if stand.ask(ask="do", lines=[f"room {code}" for code in codes]).get("done"):
            accepted += codes
        written += stand.ask(**correction(number) if number % 2 else BLANKING) == BLANKED
    return accepted, written


def bundles_and_kills(stand, count):
    """The same, but the keeper is killed at some moment of each change after the first ones, and started again. The first say how
    long a change takes: with a slow program a fixed time would be over before any was answered."""
    began = time.monotonic()
    accepted, written = bundles(stand, 1)
    longest, drawn = 2 * (time.monotonic() - began), random.Random(count)
    for number in range(1, count):
        codes = [f"K{number}-1", f"K{number}-2"]
        if number % 2:
            written += killed(stand, BLANKING if number % 4 == 1 else correction(number), longest * drawn.random()) == BLANKED
            continue
        answer = killed(stand, {"ask": "do", "lines": [f"room {code}" for code in codes]}, longest * drawn.random())
        accepted += codes if answer.get("done") else []
        longest = max(0.2, longest * (0.9 if answer else 1.2))  # about half of them are answered
    return accepted, written


def rooms_on_record(stand):
    """The rooms of the office, or nothing if its file is damaged."""
    with contextlib.suppress(sqlite3.DatabaseError), contextlib.closing(sqlite3.connect(stand.file)) as database:
        if database.execute("PRAGMA integrity_check").fetchall() == [("ok",)]:
            return {code for code, in database.execute("SELECT code FROM room")}
    return None


def try_hands(program, count, pause, many, clerk=bundles):
    """So many lines at a time by hand, beside so many bundles."""
    # All at a time share the machine with the keeper's own lines: a slow program needs longer than elsewhere.
    with Stand(program, ROOMS_LINE_SECONDS="120") as stand:
        stand.fill([], ["P1"])
        bring_list(stand)
        stand.start()
        began = time.monotonic()
        with Hands(stand, count, pause) as hands:
            bundled, written = clerk(stand, many)
        took = time.monotonic() - began
        answer = stand.ask(**BLANKING)
        stand.stop_keeper()
        found = rooms_on_record(stand)
        accepted = [code for codes in hands.accepted for code in codes]
        lost = [len(set(codes) - (found or set())) for codes in (accepted, bundled)]
        what = (
            f"{count} at a time by hand, {1000 * pause:.0f} ms after each, beside {many} "
            f"{clerk.__name__.replace('_', ' ')} in {took:.0f} s: "
            f"{sum(hands.tried)} tried, {len(accepted)} accepted, {lost[0]} lost; "
            f"{len(bundled) // 2} bundles accepted, {lost[1]} of their rooms lost; {written} times the file was written anew"
        )
        check(what, accepted and bundled and written and lost == [0, 0], lost)
        check("nothing of the blanked list is left in the file", answer == BLANKED and not is_in_file(stand), answer)
        look_at(stand, found)


def look_at(stand, found):
    """The office's file afterwards, with these rooms."""
    left = [one.name for one in stand.data.iterdir() if one.name not in KNOWN]
    check("the file is whole, and none is left over", found and "idle" in stand.tell("round") and not left, left)
    check("and a name was corrected meanwhile", "  Pia " in stand.tell("people"), stand.tell("people"))


def try_byhand(program, many=BUNDLES):
    """One with a pause, and several without; and beside a keeper that is killed."""
    for count, pause in HANDS:
        try_hands(program, count, pause, many)
    # With long pauses: after each kill the server has to find the file free, and tries less and less often.
    try_hands(program, 2, 0.3, many, bundles_and_kills)


if __name__ == "__main__":
    if not 2 <= len(sys.argv) <= 3:
        sys.exit("usage: /usr/bin/python3 deploy/trial/byhand.py PROGRAM [BUNDLES]")
    try_byhand(sys.argv[1], *map(int, sys.argv[2:]))
