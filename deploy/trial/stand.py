"""What the trial works on: an office in a folder of its own, the keeper, HAProxy with the file of this repository,
and the office's page if it is there.

Ports, paths, certificate and clerks are the trial's own. Whatever was started has ended when the `with` block does.
"""

import contextlib
import json
import os
import random
import shutil
import signal
import socket
import sqlite3
import ssl
import subprocess
import sys
import tempfile
import time
from collections.abc import Callable
from pathlib import Path
from typing import Any, NoReturn, cast

HERE = Path(__file__).resolve().parent
DEPLOY = HERE.parent
OFFICE = DEPLOY / "office"
PAGE = OFFICE / "page" / "page.py"
HOST = "rooms.example.org"
CONNECTIONS = 1_000_000
# The clerks of the trial, and their passwords.
CLERKS = {"anna": "correct horse battery", "bert": "another long phrase"}
PYTHON = "/usr/bin/python3"

sys.path.append(str(DEPLOY / "demo"))
# pylint: disable-next=wrong-import-position  # it is in the folder of the line above
import ports

free_ports = ports.free_ports

# A trial that is ended from outside ends what it has started, too.
signal.signal(signal.SIGTERM, lambda *_: sys.exit("trial: ended from outside"))


def fail(what: object) -> NoReturn:
    """Ends the trial, loudly."""
    sys.exit(f"trial: {what}")


def check(what: str, holds: object, more: object = "") -> None:
    """Says what was seen, or ends the trial."""
    if not holds:
        fail(f"not so: {what}: {more!r}")
    print(f"ok    {what}", flush=True)


def until(holds: Callable[..., object], seconds: float, what: str) -> None:
    """Waits until something holds."""
    end = time.monotonic() + seconds
    while not holds():
        if time.monotonic() > end:
            fail(f"waited {seconds} seconds in vain: {what}")
        time.sleep(0.02)


def key_of(person: str) -> str:
    """The key of a person in the trial's offices: `key`, zeros up to 16 signs, and the identifier."""
    return "key" + person.lower().rjust(13, "0")


def unchecked():
    """A TLS context that takes the trial's own certificate."""
    context = ssl.SSLContext(ssl.PROTOCOL_TLS_CLIENT)  # the default one reads all authorities of the system each time
    context.check_hostname = False
    context.verify_mode = ssl.CERT_NONE
    return context


def has_ipv6():
    """Whether this machine has an address of its own in IPv6."""
    with contextlib.suppress(OSError), socket.socket(socket.AF_INET6) as probe:
        probe.bind(("::1", 0))
        return True
    return False


def command_of(process):
    """The command line of a process, or nothing once it is gone."""
    with contextlib.suppress(OSError):
        return Path(f"/proc/{process}/cmdline").read_bytes().decode("utf-8", "replace").split("\0")
    return []


class Stand:  # pylint: disable=too-many-instance-attributes,too-many-public-methods  # all that a trial starts
    """An office, its keeper with the server, the office's page, and the proxy before them."""

    def __init__(self, program, connections=CONNECTIONS, data=None, **settings):
        self.program, self.connections = str(Path(program).resolve()), connections
        self.folder = Path(tempfile.mkdtemp(prefix="rooms-trial-"))
        self.data = Path(data) if data else self.folder / "data"
        self.file = self.data / "rooms.db"
        # pylint: disable-next=unbalanced-tuple-unpacking
        self.server_port, self.plain_port, self.port, self.challenge_port = free_ports(4)
        self.scratch = Path(tempfile.mkdtemp(prefix="rooms-trial-", dir="/dev/shm"))
        self.keeper = self.page = self.told = self.proxy = cast(Any, None)
        self.portal = DEPLOY / "portal"
        self.environment = {
            **os.environ,
            "PYTHONDONTWRITEBYTECODE": "1",
            "ROOMS_FILE": str(self.file),
            "ROOMS_PROGRAM": self.program,
            "ROOMS_PORT": str(self.server_port),
            "ROOMS_SOCKET": str(self.folder / "keeper.sock"),
            "ROOMS_PAGE_SOCKET": str(self.folder / "proxy" / "page.sock"),
            "ROOMS_TOLD": str(self.folder / "told"),
            "ROOMS_TOLD_SOCKET": str(self.folder / "proxy" / "told.sock"),
            "ROOMS_SCRATCH": str(self.scratch / "copies"),
            "ROOMS_SPEAKERS": "root",
            "ROOMS_MAIL": str(self.folder / "mail.conf"),
            # Long enough for a busy machine.
            "ROOMS_LINE_SECONDS": "60",
            "ROOMS_TURN_SECONDS": "120",
            **settings,
        }

    def __enter__(self):
        try:
            self.data.mkdir(exist_ok=True)
            (self.folder / "proxy").mkdir()
            (self.folder / "told").mkdir()
            subprocess.run([self.program, "new", "--db", self.file], check=True, stdout=subprocess.DEVNULL)
        except BaseException:
            self.__exit__()
            raise
        return self

    def __exit__(self, *_):
        for process in (self.proxy, self.page, self.told, self.keeper):
            if process:
                self.end(process)
        shutil.rmtree(self.folder)
        shutil.rmtree(self.scratch)

    @staticmethod
    def end(process):
        """Ends what was started, and waits for its end."""
        process.terminate()
        try:
            process.wait(20)
        except subprocess.TimeoutExpired:
            process.kill()
            process.wait()

    def launch(self, name, *words):
        """Starts something that writes into a log of its own."""
        with open(self.folder / f"{name}.log", "a", encoding="utf-8") as log:
            return subprocess.Popen(words, stdout=log, stderr=log, stdin=subprocess.DEVNULL, env=self.environment)

    def log(self, name):
        """What it wrote down."""
        return (self.folder / f"{name}.log").read_text(encoding="utf-8")

    # --- the keeper and the server

    def start(self):
        """Starts the keeper, which starts the server, and waits for both."""
        self.start_keeper()
        self.until_listening(self.server_port)

    def start_keeper(self):
        """Starts the keeper, and waits until it answers."""
        self.keeper = self.launch("keeper", PYTHON, str(OFFICE / "keeper.py"))
        self.wait_for_keeper()

    def wait_for_keeper(self):
        """Waits until the keeper answers."""
        until(self.keeper_answers, 30, "the keeper")

    def keeper_answers(self):
        """Whether the keeper is there."""
        with contextlib.suppress(OSError, ValueError):
            return "journal" in self.ask(ask="journal", last=1)
        return False

    def stop_keeper(self):
        """Ends the keeper, and the server with it."""
        self.end(self.keeper)
        self.keeper = None

    def kill_keeper(self):
        """Ends the keeper at once, wherever it is. The system ends the server with it."""
        self.keeper.kill()
        self.keeper.wait()
        self.keeper = None

    def server(self):
        """The process of the server, or nothing where none runs."""
        children = Path(f"/proc/{self.keeper.pid}/task/{self.keeper.pid}/children").read_text(encoding="ascii").split()
        return next((int(child) for child in children if "serve" in command_of(child)), None)

    def kill(self):
        """Ends the server; the keeper starts it again."""
        with contextlib.suppress(ProcessLookupError, TypeError):
            os.kill(self.server(), signal.SIGTERM)

    def until_listening(self, port):
        """Waits for a port. This takes one connection of it."""
        def listens():
            with contextlib.suppress(OSError), socket.create_connection(("127.0.0.1", port), 1):
                return True
            return False
        until(listens, 30, f"port {port}")

    def ask(self, **job):
        """Asks the keeper."""
        with socket.socket(socket.AF_UNIX) as door:
            door.settimeout(150)
            door.connect(self.environment["ROOMS_SOCKET"])
            with contextlib.suppress(BrokenPipeError):  # the keeper has said why it takes no more requests
                door.sendall(json.dumps(job).encode() + b"\n")
            return json.loads(door.makefile().readline())

    # --- the office's page

    def start_page(self):
        """Starts the office's page, where it is there. Whether it is."""
        if PAGE.exists():
            self.page = self.launch("page", PYTHON, str(PAGE))
            until(Path(self.environment["ROOMS_PAGE_SOCKET"]).exists, 30, "the office's page")
        return PAGE.exists()

    def start_told(self):
        """Starts the server of what residents read of rooms."""
        self.told = self.launch("told", PYTHON, str(OFFICE / "told_server.py"))
        until(Path(self.environment["ROOMS_TOLD_SOCKET"]).exists, 30, "the server of what residents read of rooms")

    # --- the proxy

    def start_proxy(self, *changes):
        """Starts HAProxy over the repository's file, with the trial's ports and paths, and further changes: an old text
        and a new. The addresses are this machine's own, so nothing is reached from outside."""
        self.make_certificate()
        text = self.proxy_file()
        for old, new in [*self.proxy_changes(), *changes]:
            if text.count(old) != 1:
                fail(f"haproxy.cfg has {text.count(old)} times {old!r}")
            text = text.replace(old, new)
        text = self.with_portal(text)
        settings = self.folder / "haproxy.cfg"
        settings.write_text(text, encoding="utf-8")
        subprocess.run(["haproxy", "-q", "-c", "-f", settings], check=True)
        self.proxy = self.launch("proxy", "haproxy", "-db", "-f", str(settings))
        self.until_proxied()

    def proxy_changes(self):
        """What the trial has in place of the file's ports, paths and clerks."""
        return [
            ("    log /dev/log local0 ", "    log stdout format raw local0 "),
            ("    chroot /var/lib/haproxy\n    user haproxy\n    group haproxy\n", self.chroot()),
            ("bind :::80 v4v6\n", f"bind 127.0.0.1:{self.plain_port}\n"),
            ("bind :::443 v4v6 ", f"bind {self.addresses()} "),
            ("/etc/haproxy/rooms.pem", str(self.folder / "rooms.pem")),
            ("127.0.0.1:290 ", f"127.0.0.1:{self.server_port} "),
            ("127.0.0.1:291 ", f"127.0.0.1:{self.challenge_port} "),
            ("unix@/rooms-page.sock", f"unix@{'/page.sock' if self.chroot() else self.environment['ROOMS_PAGE_SOCKET']}"),
            ("unix@/rooms-told.sock", f"unix@{'/told.sock' if self.chroot() else self.environment['ROOMS_TOLD_SOCKET']}"),
            ("    # user anna password $6$..\n", self.userlist()),
        ]

    def until_proxied(self):
        """Waits until HAProxy takes connections."""
        self.until_listening(self.port)

    def with_portal(self, text):
        """The proxy's file with the folder of the residents' page, which also has what clerks read if their page is away."""
        return text.replace("/srv/rooms/portal", str(self.portal))

    def proxy_file(self):
        """The repository's file."""
        return (DEPLOY / "haproxy.cfg").read_text(encoding="utf-8")

    def chroot(self):
        """The folder that the proxy sees once it has started: only root can have it so."""
        return f"    chroot {self.folder / 'proxy'}\n" if os.geteuid() == 0 else ""

    def addresses(self):
        """This machine's own addresses. That of IPv4 comes as a part of IPv6, as it does by `bind :::443 v4v6`."""
        if has_ipv6():
            return f"ipv6@::ffff:127.0.0.1:{self.port},::1:{self.port} v4v6"
        return f"127.0.0.1:{self.port}"

    @staticmethod
    def userlist():
        """The clerks, as haproxy.cfg has them."""
        hashed = {name: subprocess.run(["openssl", "passwd", "-6", "-stdin"], input=password, text=True, check=True,
                                       capture_output=True).stdout.strip() for name, password in CLERKS.items()}
        return "".join(f"    user {name} password {one}\n" for name, one in hashed.items())

    def make_certificate(self, *kind):
        """A certificate of the trial's own, with its key of this kind, which is an elliptic curve if none is given."""
        key, certificate = self.folder / "key.pem", self.folder / "certificate.pem"
        subprocess.run(
            ["openssl", "req", "-x509", "-newkey", *(kind or ("ec", "-pkeyopt", "ec_paramgen_curve:prime256v1")), "-nodes",
             "-days", "2", "-subj", f"/CN={HOST}", "-addext", f"subjectAltName=DNS:{HOST}", "-keyout", key,
             "-out", certificate], check=True, stderr=subprocess.DEVNULL)
        (self.folder / "rooms.pem").write_text(certificate.read_text() + key.read_text())

    def proxy_log(self):
        """What the proxy wrote down."""
        return self.log("proxy")

    # --- the office

    def fill(self, rooms, people):
        """Adds rooms and people, by SQLite itself: thousands of lines would take minutes."""
        with contextlib.closing(sqlite3.connect(self.file)) as database:
            database.executemany("INSERT INTO room VALUES (?, 0)", [(room,) for room in rooms])
            database.executemany("INSERT INTO person VALUES (?, ?, ?, NULL, 0)",
                                 [(person, f"Person {person}", key_of(person)) for person in people])
            database.commit()

    def fill_homes(self, homes):
        """Gives each of these people a home."""
        with contextlib.closing(sqlite3.connect(self.file)) as database:
            database.executemany("UPDATE person SET home = ? WHERE id = ?", [(room, person) for person, room in homes.items()])
            database.commit()

    def fill_lists(self, people, rooms, count):
        """Gives each person a list of so many rooms, drawn by chance."""
        with contextlib.closing(sqlite3.connect(self.file)) as database:
            database.executemany("INSERT INTO choice VALUES (?, ?, ?)",
                                 [(person, place, room) for person in people
                                  for place, room in enumerate(random.sample(rooms, count))])
            database.commit()

    def recorded(self):
        """The lists that are on record, by person."""
        return self.ask(ask="view")["choices"]

    def tell(self, line):
        """A line to the file, while no server holds it."""
        words = [self.program, "do", "--db", self.file, *line.split()]
        done = subprocess.run(words, capture_output=True, text=True, check=False)
        if done.returncode != 0:
            fail(f"{line}: {done.stdout}{done.stderr}")
        return done.stdout

    def command(self, *words, given=""):
        """Runs the clerk's command, and returns its status, its output, and its standard error."""
        done = subprocess.run([PYTHON, OFFICE / "rooms-office", *words], env=self.environment, input=given.encode(),
                              capture_output=True, check=False)
        return done.returncode, done.stdout.decode(), done.stderr.decode()

    def script(self, name, *words, given=""):
        """Runs the clerk's command, which has to be accepted, and gives what it printed."""
        if name != "rooms-office":
            fail(f"there is no script {name}")
        status, printed, beside = self.command(*words, given=given)
        if status != 0:
            fail(f"{name} {words}: {status} {printed}{beside}")
        return printed

    def office(self, line):
        """A line of the office, by the clerk's command."""
        return self.script("rooms-office", "do", *line.split())
