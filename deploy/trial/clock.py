"""The machine's clock was set back by an hour, so the file's time is an hour ahead: the office works as before.

This run alone, also over standin.py: /usr/bin/python3 deploy/trial/clock.py PROGRAM
"""

import os
import sys
import time

from stand import Stand, check

HOUR = 3600


def set_back(stand):
    """Gives the file and its log the times that they have after the clock was set back."""
    ahead = time.time() + HOUR
    for one in stand.data.glob("rooms.db*"):
        os.utime(one, (ahead, ahead))


def try_clock(program):
    """What a clerk does in that hour."""
    with Stand(program) as stand:
        stand.start()
        stand.office("room T1")
        name = stand.script("rooms-office", "backup").strip()
        for words, given in (
            (("view",), ""),
            (("do", "rooms"), ""),
            (("do", "room", "T2"), ""),
            (("export", "people"), ""),
            (("backup",), ""),
            (("lines",), "room T3\nroom T4\n"),
            (("back", name), ""),
        ):
            set_back(stand)
            told = stand.command(*words, given=given)
            check(f"with a clock set back `rooms-office {' '.join(words)}` works", told[0] == 0, told)
        check("and the copy is the office", "T2" not in stand.office("rooms"))


if __name__ == "__main__":
    if len(sys.argv) != 2:
        sys.exit("usage: /usr/bin/python3 deploy/trial/clock.py PROGRAM")
    try_clock(sys.argv[1])
