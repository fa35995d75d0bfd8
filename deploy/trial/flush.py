"""A flush of the server's fails once: the list that came is answered 503, and a moment later all lists are taken again,
by a server that was started anew. What was answered before is on record, and the watch says what happened.

It needs strace, and the right to trace the server. This run alone: /usr/bin/python3 deploy/trial/flush.py PROGRAM
"""

import contextlib
import http.client
import shutil
import subprocess
import sys
import time

from stand import Stand, check, fail, key_of, until

ROOMS = ["H1", "H2", "H3"]
PEOPLE = ["T1", "T2"]
SECONDS = 20  # until lists are taken again


@contextlib.contextmanager
def failing_flush(process):
    """The next flush of a process fails, as if the disk had failed."""
    words = ["strace", "-f", "-p", str(process), "-e", "trace=fdatasync,fsync"]
    words += ["-e", "inject=fdatasync,fsync:error=EIO:when=1"]
    with subprocess.Popen(words, stderr=subprocess.PIPE, text=True) as tracer:
        assert tracer.stderr
        said = tracer.stderr.readline()
        if "attached" not in said:
            fail(f"strace could not attach to the server: {said}")
        try:
            yield
        finally:
            tracer.terminate()


def hand_in(stand, person, room):
    """A resident hands in a list, straight to the server; gives the status, or 0 if no server answers."""
    try:
        with contextlib.closing(http.client.HTTPConnection("127.0.0.1", stand.server_port, timeout=10)) as connection:
            connection.request("PUT", "/me/choices", f'["{room}"]', {"Room-Key": key_of(person)})
            return connection.getresponse().status
    except (OSError, http.client.HTTPException):
        return 0


def try_flush(program):
    """One failed flush."""
    if not shutil.which("strace"):
        fail("there is no strace: apt-get install strace")
    with Stand(program) as stand:
        stand.fill(ROOMS, PEOPLE)
        stand.tell("open")
        stand.start()
        stand.script("rooms-office", "backup")
        check("a list is taken", hand_in(stand, "T1", "H1") == 200)
        server = stand.server()
        with failing_flush(server):
            check("a list whose flush fails is answered 503", hand_in(stand, "T2", "H2") == 503)
        began = time.monotonic()
        until(lambda: hand_in(stand, "T2", "H3") == 200, SECONDS, "a list that is taken after a failed flush")
        check(f"lists are taken again after {time.monotonic() - began:.1f} s", stand.server() != server)
        check("all that was answered is on record", stand.recorded() == {"T1": ["H1"], "T2": ["H3"]}, stand.recorded())
        told = stand.command("watch")
        check("the watch says that the server ended", told[0] == 1 and "with status 3" in told[1], told)
        said = stand.script("rooms-office", "view")
        check("and so does view", "server running\nserver ended by itself: 1, last at " in said, said)
        check("and the keeper's log", "rooms serve has ended with status 3" in stand.log("keeper"), stand.log("keeper"))


if __name__ == "__main__":
    if len(sys.argv) != 2:
        sys.exit("usage: /usr/bin/python3 deploy/trial/flush.py PROGRAM")
    try_flush(sys.argv[1])
