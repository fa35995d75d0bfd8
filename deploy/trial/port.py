"""The server's port while the server is stopped: another account of the machine tries to take it, and to get what the
proxy sends there.

The keeper runs under an account of its own here, with the one capability of its unit. Only root can try this. This run
alone: /usr/bin/python3 deploy/trial/port.py PROGRAM
"""

import contextlib
import os
import random
import shutil
import socket
import subprocess
import sys
import threading

from residents import answers_of
from stand import OFFICE, PYTHON, Stand, check, fail, free_ports, key_of

# Accounts that nobody has, for the keeper and for the thief.
KEEPER, THIEF = 64_998, 64_999
LINES = 3
BARE = ["--clear-groups", "--no-new-privs"]
# As AmbientCapabilities= and CapabilityBoundingSet= of rooms-keeper.service.
BIND = ["--inh-caps", "-all,+net_bind_service", "--ambient-caps", "+net_bind_service", "--bounding-set",
        "-all,+net_bind_service"]
# Tries a thousand times a second, and prints what it was sent.
SQUAT = """
import socket, sys, time
while True:
    try:
        with socket.socket() as door:
            door.setsockopt(socket.SOL_SOCKET, socket.SO_REUSEADDR, 1)
            door.bind(("127.0.0.1", int(sys.argv[1])))
            door.listen()
            door.settimeout(2)
            with door.accept()[0] as taken:
                print("taken", taken.recv(4096), flush=True)
    except OSError:
        time.sleep(0.001)
"""


def low_port():
    """A port below those that any account may have. Also below those that programs of root take by chance."""
    for port in random.sample(range(200, 500), 300):
        with contextlib.suppress(OSError), socket.socket() as probe:
            probe.bind(("127.0.0.1", port))
            return port
    return fail("no port from 200 to 499 is free")


class Confined(Stand):
    """An office whose keeper has an account of its own."""

    def __init__(self, program, port):
        super().__init__(program, ROOMS_PORT=str(port), ROOMS_LINE_SECONDS="60", ROOMS_TURN_SECONDS="90")
        self.server_port = port
        self.place = self.folder / "office"

    def start_keeper(self):
        """The keeper and the program, at a place that its account can read."""
        shutil.copytree(OFFICE, self.place, ignore=shutil.ignore_patterns("__pycache__"))
        shutil.copy(self.program, self.place / "program")
        self.environment["ROOMS_PROGRAM"] = str(self.place / "program")
        for place in (self.folder, self.data, *self.data.iterdir(), self.scratch):
            os.chown(place, KEEPER, KEEPER)
        self.keeper = self.launch("keeper", "setpriv", "--reuid", str(KEEPER), "--regid", str(KEEPER), *BARE, *BIND,
                                  PYTHON, str(self.place / "keeper.py"))
        self.wait_for_keeper()


def resident(stand, over):
    """Asks again and again through the proxy, with a key."""
    with contextlib.suppress(OSError):
        for _ in answers_of(stand, ["T1"], 60):
            if over.wait(0.01):
                return


def thefts(program, port):
    """What a thief is sent at this port while the office carries out lines."""
    with Confined(program, port) as stand:
        stand.tell("room H1")
        stand.tell(f"person T1 {key_of('T1')} Tim Tan")
        stand.start()
        stand.start_proxy()
        over = threading.Event()
        asking = threading.Thread(target=resident, args=(stand, over))
        asking.start()
        words = ["setpriv", "--reuid", str(THIEF), "--regid", str(THIEF), *BARE, PYTHON, "-c", SQUAT, str(port)]
        with subprocess.Popen(words, stdout=subprocess.PIPE, text=True) as thief:
            try:
                for number in range(LINES):
                    answer = stand.ask(ask="do", lines=[f"room T{number}"])
                    check(f"the office carries out line {number + 1}", "answers" in answer or "done" in answer, answer)
                    over.wait(1)
            finally:
                over.set()
                thief.kill()
            taken = thief.communicate()[0]
        asking.join()
    return taken.count("taken"), key_of("T1") in taken


def try_port(program):
    """A port that any account may have, as a control, and one below 1024."""
    if os.geteuid() != 0:
        print("      the server's port was not tried: only root can")
        return
    taken, key = thefts(program, free_ports(1)[0])
    check("a port above 1023 is taken, with a resident's key: the trial can see it", taken > 0 and key, taken)
    print(f"      {taken} connections were taken in {LINES} lines")
    taken, _ = thefts(program, low_port())
    check("a port below 1024 is taken by nobody", taken == 0, taken)


if __name__ == "__main__":
    if len(sys.argv) != 2:
        sys.exit("usage: /usr/bin/python3 deploy/trial/port.py PROGRAM")
    try_port(sys.argv[1])
