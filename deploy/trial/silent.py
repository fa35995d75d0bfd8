"""Silent connections to the keeper's socket, as any account of the group may open them: they hold up nobody else, and
their own account for three seconds.

Root can try it with a second account. This run alone, also over standin.py: /usr/bin/python3 deploy/trial/silent.py
PROGRAM
"""

import contextlib
import os
import socket
import subprocess
import sys
import time

from stand import PYTHON, Stand, check

SILENT = 16  # at a time
OTHER = 65534  # nobody
CONNECT = """
import socket, sys, time
doors = [socket.socket(socket.AF_UNIX) for _ in range(int(sys.argv[2]))]
for door in doors:
    door.connect(sys.argv[1])
print("ready", flush=True)
time.sleep(60)
"""


def timed(stand, **job):
    """An answer of the keeper, and how long it took."""
    began = time.monotonic()
    answer = stand.ask(**job)
    return answer, time.monotonic() - began


def of_one_account(stand):
    """A clerk's own silent connections hold up the clerk for a moment."""
    with contextlib.ExitStack() as doors:
        for _ in range(SILENT):
            doors.enter_context(socket.socket(socket.AF_UNIX)).connect(stand.environment["ROOMS_SOCKET"])
        answer, took = timed(stand, ask="journal")
        told = "try again" in answer.get("fault", "")
        check(f"beside {SILENT} silent connections their own account is told so", told, answer)
        check(f"after {took:.2f} s", took < 2)
        began = time.monotonic()
        while "journal" not in stand.ask(ask="journal"):
            time.sleep(0.1)
        took = time.monotonic() - began
        check(f"and is answered again after {took:.1f} s", took < 8)


def of_another_account(stand):
    """Another account's silent connections hold up nobody."""
    stand.folder.chmod(0o711)
    os.chmod(stand.environment["ROOMS_SOCKET"], 0o666)
    words = [PYTHON, "-c", CONNECT, stand.environment["ROOMS_SOCKET"], str(SILENT)]
    with subprocess.Popen(words, user=OTHER, group=OTHER, extra_groups=[], stdout=subprocess.PIPE, cwd="/") as silent:
        assert silent.stdout
        silent.stdout.readline()
        times = []
        for _ in range(20):
            answer, took = timed(stand, ask="journal")
            times.append(took if "journal" in answer else 60)
        silent.kill()
    check(f"beside {SILENT} silent connections of another account: {max(times):.2f} s at most", max(times) < 2)


def try_silent(program):
    """Both."""
    with Stand(program) as stand:
        stand.start()
        if os.geteuid() == 0:
            of_another_account(stand)
        of_one_account(stand)


if __name__ == "__main__":
    if len(sys.argv) != 2:
        sys.exit("usage: /usr/bin/python3 deploy/trial/silent.py PROGRAM")
    try_silent(sys.argv[1])
