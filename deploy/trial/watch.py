"""`rooms-office watch` and `view`: what an administrator sees of a server, a disk and copies that are not well.

This run alone, also over standin.py: /usr/bin/python3 deploy/trial/watch.py PROGRAM
"""

import os
import signal
import sys
import time

from office_requests import Page
from stand import Stand, check, until

DAY = 24 * 3600


def watched(stand, *words):
    """One line, which has to have these words: an alarm, or none if there are no words."""
    told = stand.command("watch")
    right = told[0] == bool(words) and told[1].count("\n") == 1 and not told[2]
    check(
        f"watch says: {told[1].strip()}",
        right and told[1].startswith("alarm: " if words else "well: ") and all(word in told[1] for word in words),
        told,
    )


def copies(stand):
    """No copy, one of now, one of the day before yesterday, and one of the day after tomorrow. A copy before a line is not
    what the timer asks for."""
    watched(stand, "there is no copy")
    name = stand.script("rooms-office", "backup").strip()
    watched(stand)
    for days, alarm in ((-2, "48 hours old"), (2, "has a time to come")):
        set_to = time.time() + days * DAY
        os.utime(stand.data / "backups" / name, (set_to, set_to))
        watched(stand, alarm)
        before = stand.ask(ask="do", lines=[f"room L{days + 2}", f"room M{days + 2}"])["copy"]
        check("a copy is taken before lines", before > name, before)
        watched(stand, alarm)
    stand.script("rooms-office", "backup")
    watched(stand)


def disk(stand):
    """A disk that takes no writes. A folder in the place of the small file stands for it, since root may write."""
    probe = stand.data / "rooms.db.watch"
    probe.mkdir()
    watched(stand, "takes no writes")
    probe.rmdir()
    watched(stand)
    check("no file is left over", not probe.exists())


def server(stand):
    """A server that stands still, one that ended by itself and runs again, and one that cannot start."""
    os.kill(stand.server(), signal.SIGSTOP)
    watched(stand, "does not answer")
    os.kill(stand.server(), signal.SIGCONT)
    watched(stand)
    check("view says nothing of ends", "ended by itself" not in stand.script("rooms-office", "view"))
    gone = stand.server()
    stand.kill()
    until(lambda: stand.server() not in (None, gone), 20, "another server")
    stand.until_listening(stand.server_port)
    watched(stand, "ended by itself with status -15", "(so far 1)")
    said = stand.script("rooms-office", "view")
    stand.start_page()
    stand.start_proxy()
    text = Page(stand).get("/office/")[2]
    check("and so does the overview of the page", "has ended by itself (so far 1, last on" in text, text)
    check("view says that it runs, and that it ended", "server running\nserver ended by itself: 1, last at " in said, said)


FAILING = """#!/bin/sh
if [ "$1" = serve ]; then echo begun >>{begun}; exit 3; fi
exec {program} "$@"
"""


def pauses(program):
    """A server that fails at each start is started again and again, with longer and longer pauses."""
    with Stand(program) as stand:
        begun, failing = stand.folder / "begun", stand.folder / "failing"
        failing.write_text(FAILING.format(begun=begun, program=stand.program), encoding="utf-8")
        failing.chmod(0o755)
        stand.environment["ROOMS_PROGRAM"] = str(failing)
        stand.start_keeper()
        time.sleep(8)
        count = len(begun.read_text(encoding="utf-8").split())
        check(f"a server that fails at once is started {count} times in eight seconds", 3 <= count <= 7)
        watched(stand, "does not answer", "with status 3")
        check("view says that it does not run", "server not running\n" in stand.script("rooms-office", "view"))


def try_watch(program):
    """All of it."""
    pauses(program)
    with Stand(program) as stand:
        stand.start()
        copies(stand)
        disk(stand)
        server(stand)
        stand.stop_keeper()
        watched(stand, "the keeper does not run")


if __name__ == "__main__":
    if len(sys.argv) != 2:
        sys.exit("usage: /usr/bin/python3 deploy/trial/watch.py PROGRAM")
    try_watch(sys.argv[1])
