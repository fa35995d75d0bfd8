"""Passwords that are guessed: whom that locks out, what the time of an answer tells, and what residents notice of it.

A stub replaces the office's page. This run alone: /usr/bin/python3 deploy/trial/guessing.py PROGRAM
"""

import base64
import collections
import contextlib
import http.client
import itertools
import multiprocessing
import socket
import statistics
import subprocess
import sys
import threading
import time

from signing import Page, Stub
from stand import CLERKS, HOST, Stand, check, unchecked

CONTEXT = unchecked()
# A clerk whom nobody names in `names_clerk`: that list is only for the time of an answer.
NEWCOMER, WORD = "carl", "a third long phrase"
PASSWORDS = {**CLERKS, NEWCOMER: WORD}
WRONG = 20  # in ten minutes, from an address, at a name
OF_ADDRESS, OF_ALL, WINDOW = 10, 30, 10  # passwords in so many seconds
GUESSERS, SECONDS = 16, 8


class Caller:
    """Asks over one connection from an address of this machine, and signs in by each request."""

    def __init__(self, stand, source):
        self.stand, self.source = stand, source
        self.connection = http.client.HTTPSConnection(HOST, timeout=60)
        self.connect()

    def connect(self):
        """Makes the connection, also again after the proxy has closed it."""
        plain = socket.create_connection(("127.0.0.1", self.stand.port), 60, (self.source, 0))
        self.connection.sock = CONTEXT.wrap_socket(plain, server_hostname=HOST)

    def answer_to(self, path, fields):
        """Sends a request, and reads the whole answer."""
        if self.connection.sock is None:
            self.connect()
        self.connection.request("GET", path, headers=fields)
        answer = self.connection.getresponse()
        answer.read()
        return answer

    def ask(self, path="/office/", clerk=None, password=None, **fields):
        """The status of the answer, and after how many seconds a clerk who has to wait may try again."""
        if clerk:
            word = f"{clerk}:{PASSWORDS.get(clerk) if password is None else password}"
            fields["Authorization"] = "Basic " + base64.b64encode(word.encode()).decode()
        try:
            answer = self.answer_to(path, fields)
        except ConnectionError:  # the proxy closes a connection that was idle for some seconds
            self.connection.close()
            self.connect()
            answer = self.answer_to(path, fields)
        return answer.status, int(answer.headers.get("Retry-After", 0))


def wait_for_window():
    """Until no password of the last seconds counts: the proxy lets those of the window before fade."""
    time.sleep(2 * WINDOW)


def one_pair(stand):
    """Guesses at a name from an address lock out nobody else there, and this clerk nowhere else."""
    campus = Caller(stand, "127.0.0.9")
    told = []
    for number in range(WRONG + 3):
        time.sleep(1.2 * WINDOW / OF_ADDRESS)
        told.append(campus.ask(clerk="bert", password=f"guess {number}"))
    check(
        f"after {WRONG} wrong passwords for a clerk, an address has to wait for ten minutes",
        told[:WRONG] == [(401, 0)] * WRONG and told[-1] == (429, 600),
        told,
    )
    check("also with the right one", campus.ask(clerk="bert") == (429, 600))
    check("another clerk at this address is let in", campus.ask(clerk="anna")[0] == 200)
    check("and residents there go on", campus.ask("/")[0] == 200)
    check("this clerk is let in elsewhere", Caller(stand, "127.0.0.10").ask(clerk="bert")[0] == 200)
    check("and then goes on at that address, too", campus.ask(clerk="bert")[0] == 200)
    told = [campus.ask(clerk="anna", password=f"guess {number}")[0] for number in range(OF_ADDRESS + 5)]
    check(
        f"an address may try {OF_ADDRESS} passwords in {WINDOW} seconds",
        told[0] == 401 and told.count(401) <= OF_ADDRESS and told[-1] == 429,
        told,
    )
    check("a clerk who is signed in there notices nothing", campus.ask(clerk="anna")[0] == 200)


def malformed(stand):
    """What is no name with a password costs no look at a password, and makes nobody another clerk."""
    caller = Caller(stand, "127.0.0.11")
    right = "Basic " + base64.b64encode(f"bert:{CLERKS['bert']}".encode()).decode()
    wrong = "Basic " + base64.b64encode(b"anna:no").decode()
    for first, second in ((wrong, right), (right, wrong)):
        connection = caller.connection
        connection.putrequest("GET", "/office/")
        connection.putheader("Authorization", first)
        connection.putheader("Authorization", second)
        connection.endheaders()
        answer = connection.getresponse()
        answer.read()
        check("two names at once are refused", answer.status == 400, answer.status)
    check("a password of 400 signs is refused", caller.ask(clerk="anna", password="x" * 400)[0] == 400)
    for word in ("Basic", "Basic ?", "Bearer x", "Basic " + base64.b64encode(b"anna").decode()):
        told = caller.ask(Authorization=word)[0]
        check(f"{word!r} signs nobody in", told == 401, told)


def times(stand):
    """A wrong password takes as long for a name that nobody has as for a clerk's."""
    took = collections.defaultdict(list)
    sources = (f"127.0.4.{number}" for number in itertools.count(1))
    for _ in range(2):
        wait_for_window()
        for source in itertools.islice(sources, 4):
            caller = Caller(stand, source)
            caller.ask("/")
            for name in ("anna", "nobody-here", "bert", "zoe", "anna", "nobody"):
                began = time.perf_counter()
                status, _ = caller.ask(clerk=name, password="guess")
                took[name in CLERKS].append((time.perf_counter() - began) * 1000)
                check_quietly(status == 401, (name, status))
    # The shortest: a busy machine makes answers longer, and none shorter.
    known, unknown = min(took[True]), min(took[False])
    print(f"      a wrong password for a clerk takes {known:.1f} ms, for nobody {unknown:.1f} ms (the shortest of "
          f"{len(took[True])} and {len(took[False])})")
    check("a name that nobody has takes as long as a clerk's", 0.6 < unknown / known < 1.7, took)


def check_quietly(holds, more):
    """Ends the trial where something is not so."""
    if not holds:
        check("a wrong password is answered 401", False, more)


def guess_on(stand, number, over, statuses):
    """Guesses at a clerk's password until it is over, from one address after another, in a process of its own."""
    told: collections.Counter[int] = collections.Counter()
    for turn in itertools.count():
        with contextlib.suppress(OSError):
            caller = Caller(stand, f"127.{10 + turn % 200}.{number}.1")
            for guess in range(WRONG):
                if over.is_set():
                    statuses.put(told)
                    return
                told[caller.ask(clerk="anna", password=f"guess {guess}")[0]] += 1
            caller.connection.close()


@contextlib.contextmanager
def guessers(stand, told):
    """So many guess meanwhile. Afterwards `told` has what they were answered."""
    own = multiprocessing.get_context("fork")
    over, statuses = own.Event(), own.Queue()
    processes = [own.Process(target=guess_on, args=(stand, number, over, statuses)) for number in range(GUESSERS)]
    for process in processes:
        process.start()
    try:
        yield
    finally:
        over.set()
        for process in processes:
            told.update(statuses.get(timeout=60))
            process.join()


def many_addresses(stand):
    """Guesses from addresses that change: residents notice nothing, and clerks where clerks work are let in."""
    campus, resident = Caller(stand, "127.0.0.9"), Caller(stand, "127.0.0.12")
    check("a clerk works at an address", [campus.ask(clerk="anna")[0] for _ in range(2)] == [200, 200])
    told: collections.Counter[int] = collections.Counter()
    waits, began = [], time.monotonic()
    with guessers(stand, told):
        while time.monotonic() < began + SECONDS:
            asked = time.monotonic()
            resident.ask("/")
            waits.append(time.monotonic() - asked)
            time.sleep(0.05)
        newcomer = campus.ask(clerk=NEWCOMER)[0]
        elsewhere = Caller(stand, "127.0.0.13").ask(clerk="anna")[0]
    took = time.monotonic() - began
    print(f"      {GUESSERS} guessers in {took:.0f} seconds: {dict(told)}; a resident waited "
          f"{statistics.median(waits) * 1000:.0f} ms, and {max(waits):.2f} s at most")
    allowed = OF_ALL * (1 + took / WINDOW)
    check(f"{OF_ALL} of their passwords are looked at in {WINDOW} seconds", told[401] <= allowed < told[429], told)
    check("residents notice nothing", statistics.median(waits) < 0.5, waits)
    check("a clerk signs in where another one works", newcomer == 200, newcomer)
    check("and one who is signed in goes on everywhere", elsewhere == 200, elsewhere)


def try_guessing(program):
    """Guesses, from one address and from many."""
    with Stand(program) as stand:
        hashed = subprocess.run(["openssl", "passwd", "-6", "-stdin"], input=WORD, text=True, check=True,
                                stdout=subprocess.PIPE).stdout.strip()
        stand.start_proxy(("userlist office\n", f"userlist office\n    user {NEWCOMER} password {hashed}\n"))
        page = Page(stand.environment["ROOMS_PAGE_SOCKET"], Stub)
        threading.Thread(target=page.serve_forever, daemon=True).start()
        malformed(stand)
        one_pair(stand)
        times(stand)
        wait_for_window()
        many_addresses(stand)
        page.shutdown()
        page.server_close()
        check("no password is in the log", not any(word in stand.proxy_log() for word in (*PASSWORDS.values(), "guess", "Basic")))


if __name__ == "__main__":
    if len(sys.argv) != 2:
        sys.exit("usage: /usr/bin/python3 deploy/trial/guessing.py PROGRAM")
    try_guessing(sys.argv[1])
