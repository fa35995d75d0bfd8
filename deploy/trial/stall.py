"""The proxy's queue: residents ask one after the other, and the office does nothing.

With more than one thread, HAProxy may put a request into the queue of a server that has become free a moment ago.
Nothing takes it out again, and later requests queue behind it, each for `timeout queue`. It takes a thread that
loses the processor after it has found the server busy, and before it has queued the request. This is rare, and less so
if all threads share one processor with a busy program: so they do here. To see it happen, name the number of threads
that HAProxy is to have:

    /usr/bin/python3 deploy/trial/stall.py PROGRAM 4
"""

import contextlib
import os
import socket
import subprocess
import sys
import time
from pathlib import Path

from residents import Residents
from stand import Stand, check, key_of

# With two there is often no third request that the server ends later, and that would wake the one in the queue.
RESIDENTS = 2
REQUESTS = 30_000
SECONDS = 90
# A request has the server for some milliseconds at most.
STALLED = 8
BUSY = f"import time\nend = time.monotonic() + {SECONDS + 2 * STALLED}\nwhile time.monotonic() < end: pass"


def control_socket(stand):
    """Where the proxy reports its state."""
    return stand.folder / "control"


def seen_by_proxy(stand):
    """What waits for the server, and what the server has, as the proxy says."""
    with socket.socket(socket.AF_UNIX) as control:
        control.settimeout(5)
        control.connect(str(control_socket(stand)))
        control.sendall(b"show stat\n")
        head, *lines = control.makefile(encoding="ascii").read().split("\n")
    rows = [dict(zip(head.split(","), line.split(","))) for line in lines]
    rooms = {row["svname"]: row for row in rows if row.get("# pxname") == "rooms"}
    return f"{rooms['BACKEND']['qcur']} requests wait in the queue, and the server has {rooms['one']['scur']}"


def threads_of(process):
    """The threads of a process."""
    return [int(thread.name) for thread in Path(f"/proc/{process.pid}/task").iterdir()]


@contextlib.contextmanager
def sharing_a_processor(process):
    """Gives all threads of a process one processor, and a busy program next to them, which has an end of its own."""
    one = {min(os.sched_getaffinity(0))}
    for thread in threads_of(process):
        os.sched_setaffinity(thread, one)
    with subprocess.Popen([sys.executable, "-c", BUSY]) as busy:
        os.sched_setaffinity(busy.pid, one)
        try:
            yield
        finally:
            busy.kill()


def find_stall(stand, residents):
    """Waits for the answers. If none has come for too long, it returns what the proxy says, and else nothing."""
    count, began = 0, time.monotonic()
    last = began
    while count < REQUESTS and time.monotonic() < began + SECONDS:
        time.sleep(0.1)
        if len(residents.answers) > count:
            count, last = len(residents.answers), time.monotonic()
        elif time.monotonic() > last + STALLED:
            return seen_by_proxy(stand)
    return ""


def try_stall(program, threads=1):
    """Tries the proxy's file as it is, or with another number of threads."""
    with Stand(program) as stand:
        for line in ("room H1", f"person T1 {key_of('T1')} Tim Tan", "home T1 H1", "open"):
            stand.tell(line)
        stand.start()
        stand.start_proxy(("\nglobal\n", f"\nglobal\n    stats socket {control_socket(stand)}\n"),
                          ("(portal) gt 1500\n", "(portal) gt 10000000\n"), ("(addresses) gt 5000\n", "(addresses) gt 10000000\n"),
                          ("    nbthread 1\n", f"    nbthread {threads}\n"))
        check(f"threads of the proxy: {threads}", len(threads_of(stand.proxy)) == threads, threads_of(stand.proxy))
        with sharing_a_processor(stand.proxy), Residents(stand, ["T1"], RESIDENTS, 0.0005, 2 * STALLED) as residents:
            stalled = find_stall(stand, residents)
        answers = residents.answers
        slowest = max(one.took for one in answers)
        print(f"      {RESIDENTS} residents had {len(answers)} answers, the slowest after {slowest:.2f} seconds")
        check("the proxy keeps nobody in the queue of a free server", not stalled, stalled)
        check("each request has its answer", {one.status for one in answers} == {200}, {one.status for one in answers})


if __name__ == "__main__":
    if not 2 <= len(sys.argv) <= 3:
        sys.exit("usage: /usr/bin/python3 deploy/trial/stall.py PROGRAM [THREADS]")
    try_stall(sys.argv[1], *map(int, sys.argv[2:]))
