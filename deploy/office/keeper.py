"""rooms-keeper: owns the office's file, keeps `rooms serve` running, and carries out the office's lines between two
servings.

It listens on a Unix socket; keeper_requests.py lists what can be asked. What only reads is done on a copy of the file, so
residents notice nothing. What changes the office is tried on a copy first, and a refusal is answered from there.
What would be accepted waits for its turn; then the server is stopped, the line is carried out, and the server is
started again (worker.py). Before a line that cannot be taken back the office is copied (backups.py). Each change is
in the journal before it begins and after it has ended (journal.py).

A request is one line of JSON on a connection of its own, and so is its answer. Everybody who may open the socket may
act for the office. A second socket, which is there only where residents sign in by the college's accounts, gives keys
and nothing else (accounts.py).
"""

import collections
import contextlib
import json
import os
import pwd
import signal
import socket
import socketserver
import sqlite3
import struct
import sys
import threading
import time
from pathlib import Path
from typing import Any, Protocol

from accounts import KeyRequests
from house_places import here
from journal import masked
from languages import ENGLISH, _, speak
from keeper_requests import Requests
from meanings import failed
from office import Office
from register import people_in
from settings import Fault, Refused, Settings, from_environment
from worker import Worker

LONGEST_REQUEST = 1 << 20  # bytes: a list of 262,145 bytes in base 64, or thousands of lines
ANSWERING = 16             # requests that are answered at a time; others wait for their turn
OPEN, ALL_OPEN = 12, 64    # connections of one account, and of all, at a time; further ones are asked to try again
REQUEST_SECONDS = 3.0      # within which a request has to be here, from its connection on
ANSWER_SECONDS = 20.0      # within which an answer has to be taken
LAST_WORDS = 2.0           # seconds for the answers that are on their way when the keeper ends
DAMAGED = (sqlite3.SQLITE_CORRUPT, sqlite3.SQLITE_NOTADB)
OFFICE, ACCOUNTS = "office", "accounts"  # the sockets; the second is so named by FileDescriptorName= of its unit


class Answers(Protocol):  # pylint: disable=too-few-public-methods  # it is what a server needs
    """What can be asked by a socket."""

    def answer(self, job: dict[str, Any]) -> dict[str, Any]:
        """The answer to a request."""


def user_of(connection: socket.socket) -> int:
    """The account at the other end, by its number."""
    return int(struct.unpack("3i", connection.getsockopt(socket.SOL_SOCKET, socket.SO_PEERCRED, 12))[1])


def account_of(connection: socket.socket) -> str:
    """The account at the other end."""
    user = user_of(connection)
    try:
        return pwd.getpwuid(user).pw_name
    except KeyError:
        return str(user)


def send(connection: socket.socket, answer: dict[str, Any]) -> None:
    """Sends an answer, if somebody still waits for it."""
    connection.settimeout(ANSWER_SECONDS)
    with contextlib.suppress(OSError):
        connection.sendall(json.dumps(answer).encode() + b"\n")


def fault_of(why: Exception) -> str:
    """What a fault of the system or of SQLite's says. The mail has its own file, and a copy that is damaged is named before: so a
    file that SQLite cannot read is the office's."""
    if getattr(why, "sqlite_errorcode", sqlite3.SQLITE_OK) & 0xff in DAMAGED:
        return _("the office's file is damaged ({why}). Call the administrator, who puts a copy back: {command}", why=why,
                 command=here().command("rooms-office back NAME"))
    return failed(why, False)


class RequestHandler(socketserver.StreamRequestHandler):
    """One request, on its connection."""

    server: "KeeperServer"

    def handle(self) -> None:
        """Reads the request and answers it."""
        try:
            request = self.request_line()
            with self.server.answering:
                answer = self.answer(request)
        except Fault as why:
            answer = {"fault": str(why), **({"unknown": True} if why.unknown else {}),
                      **({"refused": why.answer} if isinstance(why, Refused) else {})}
        except FileNotFoundError as why:
            answer = {"fault": _("there is no file {path}", path=why.filename)}
        except (OSError, sqlite3.Error) as why:
            answer = {"fault": fault_of(why)}
        except (ValueError, TypeError, RecursionError) as why:
            answer = {"fault": f"not understood: {type(why).__name__}"}
        send(self.connection, answer)

    def request_line(self) -> bytes:
        """The bytes of the request. A connection that is silent, or slow, is given up."""
        end, parts = time.monotonic() + REQUEST_SECONDS, [b""]
        while parts[-1][-1:] != b"\n" and sum(map(len, parts)) < LONGEST_REQUEST:
            self.connection.settimeout(max(0.001, end - time.monotonic()))
            try:
                parts.append(self.connection.recv(LONGEST_REQUEST))
            except TimeoutError as late:
                raise Fault(f"not understood: the request was not here within {REQUEST_SECONDS:g} seconds") from late
            if not parts[-1]:
                break
        return b"".join(parts)[:LONGEST_REQUEST]

    def answer(self, request: bytes) -> dict[str, Any]:
        """The answer to the request, with the name of its sender."""
        job = json.loads(request.partition(b"\n")[0])
        if not isinstance(job, dict):
            raise Fault("not understood: a request is an object")
        speak(str(job.get("speaks", ENGLISH)))
        who = account_of(self.connection)
        if who in self.server.speakers and isinstance(job.get("who"), str):
            who = masked("".join(sign for sign in job["who"] if sign.isprintable())[:60])
        return self.server.requests.answer({**job, "who": who})


class KeeperServer(socketserver.ThreadingUnixStreamServer):
    """The socket, and a thread for each request."""

    daemon_threads = True
    request_queue_size = 50

    def __init__(self, settings: Settings, requests: Answers, path: Path, number: int | None) -> None:
        self.speakers, self.requests, self.answering = settings.speakers, requests, threading.BoundedSemaphore(ANSWERING)
        self.open: collections.Counter[int] = collections.Counter()  # connections by account
        self.counting = threading.Lock()
        super().__init__(str(path), RequestHandler, bind_and_activate=False)
        if number is not None:
            self.socket.close()
            self.socket = socket.socket(fileno=number)
        else:
            path.unlink(missing_ok=True)
            self.server_bind()
            self.server_activate()

    def process_request(self, request: Any, client_address: Any) -> None:
        """Begins a thread, if its account has not too many. So no account keeps another one from the keeper."""
        user = user_of(request)
        with self.counting:
            self.open[user] += 1
            full = self.open[user] > OPEN or self.open.total() > ALL_OPEN
        if full:
            send(request, {"fault": "too many requests are open at a time. Nothing was done: try again."})
            self.shutdown_request(request)
        else:
            super().process_request(request, client_address)

    def shutdown_request(self, request: Any) -> None:
        """Ends a connection."""
        with self.counting:
            self.open[user_of(request)] -= 1
        super().shutdown_request(request)

    def wait_for_answers(self) -> None:
        """Takes no more requests, and waits for the answers that are on their way, for a moment."""
        self.shutdown()
        end = time.monotonic() + LAST_WORDS
        while self.open.total() and time.monotonic() < end:
            time.sleep(0.01)


def handed_over() -> dict[str, int]:
    """The numbers of the sockets that systemd hands over: that of rooms-keeper.socket, and that for accounts if it is there."""
    if os.environ.get("LISTEN_PID") != str(os.getpid()):
        return {}
    names = os.environ.get("LISTEN_FDNAMES", "").split(":")
    return {name if name == ACCOUNTS else OFFICE: number for number, name in enumerate(names, 3)}


def servers_of(office: Office, requests: Requests) -> list[KeeperServer]:
    """The servers of the office, and of signed_in.py where residents sign in by the college's accounts."""
    settings, numbers = office.settings, handed_over()
    servers = [KeeperServer(settings, requests, settings.socket, numbers.get(OFFICE))]
    if settings.account_socket or ACCOUNTS in numbers:
        keys = KeyRequests(requests.accounts, office.copies)
        servers.append(KeeperServer(settings, keys, settings.account_socket or Path(), numbers.get(ACCOUNTS)))
    return servers


def main() -> int:
    """Keeps the office until a signal ends it."""
    os.umask(0o077)
    office = Office(from_environment())
    office.clear()
    worker = Worker(office)
    requests = Requests(office, worker)
    if why := requests.beside.finish(lambda: people_in(worker.view.rows())):
        print(why, flush=True)
    requests.post.start()
    servers = servers_of(office, requests)
    for server in servers:
        threading.Thread(target=server.serve_forever, daemon=True).start()
    requests.dates.start()
    for number in (signal.SIGTERM, signal.SIGINT):
        signal.signal(number, lambda *_ignored: worker.end())
    print("rooms-keeper: ready", flush=True)
    worker.keep()
    requests.post.stop()
    for server in servers:
        server.wait_for_answers()
    requests.journal.write_late()
    return 0


if __name__ == "__main__":
    sys.exit(main())
