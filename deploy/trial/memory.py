"""What strangers can take of the proxy without a key: its memory, its connections, and its log.

This run alone: /usr/bin/python3 deploy/trial/memory.py PROGRAM
"""

import collections
import contextlib
import socket
import sys
import time
from collections.abc import Callable, Iterator
from pathlib import Path
from typing import NamedTuple

from http2 import DATA, MAX_STREAMS, Http2, frame
from limits import first_line
from stand import HOST, Stand, check, key_of, unchecked

# What one address tries: so many connections, each with so many requests at once.
CONNECTIONS, STREAMS = 390, 100
ALLOWED = 10      # requests of one connection at a time
MEGABYTES = 120   # of the proxy, at most: the pages say `some 100`; without its limits it takes 900 and more here
LINES = 2000      # of its log, for one attack of ten seconds
LIST = ("PUT", "/me/choices", ("room-key", key_of("T1")), ("content-length", "6"))


def megabytes(process, what="VmRSS"):
    """The memory of a process, in megabytes: now, or at most so far (VmHWM)."""
    lines = Path(f"/proc/{process.pid}/status").read_text(encoding="ascii").splitlines()
    return next(int(line.split()[1]) for line in lines if line.startswith(what)) // 1024


def bodies(connection):
    """Lists of which only the first byte comes."""
    for _ in range(STREAMS):
        stream, head = connection.head(*LIST, ends=False)
        yield head + frame(DATA, 0, stream, b"[")


def heads(connection):
    """The same with heads of 14,000 bytes."""
    for _ in range(STREAMS):
        stream, head = connection.head(*LIST, ("x-long", "x" * 14_000), ends=False)
        yield head + frame(DATA, 0, stream, b"[")


def readers(connection):
    """Requests for a part of the page, whose answer nobody reads."""
    for _ in range(STREAMS):
        yield connection.head("GET", "/texts.js")[1]


def unmeasured(connection):
    """As many requests as are allowed at a time, which do not say how long their lists are."""
    for _ in range(ALLOWED):
        yield connection.head(*LIST[:3], ends=False)[1]


def too_long(connection):
    """For each of these a list of 110,000 bytes."""
    for stream in range(1, connection.next, 2):
        yield from (frame(DATA, 0, stream, b" " * 11_000) for _ in range(10))


class Attack(NamedTuple):
    """What an address sends over each of its connections, and what it sends later, when the rest is there."""

    what: str
    requests: Callable[[Http2], Iterator[bytes]]
    later: Callable[[Http2], Iterator[bytes]] | None = None
    connections: int = CONNECTIONS
    window: int = 65_535


ATTACKS = (
    Attack("bodies that do not come", bodies),
    Attack("long heads", heads),
    Attack("answers that nobody reads", readers, window=0),
    # No more connections than that all requests are below the limit on their rate.
    Attack("lists that are too long", unmeasured, later=too_long, connections=140),
)


def send(connection, parts):
    """Sends all parts at once, as far as the proxy takes them."""
    with contextlib.suppress(OSError):
        connection.tls.settimeout(5)
        connection.tls.sendall(b"".join(parts))


def sent(stand, attack):
    """The connections of an attack, of as many as an address gets."""
    held = []
    for _ in range(attack.connections):
        with contextlib.suppress(OSError):
            held.append(Http2(stand, "127.0.0.2", attack.window))
            send(held[-1], attack.requests(held[-1]))
    if attack.later:
        time.sleep(0.3)
        for connection in held:
            send(connection, attack.later(connection))
    return held


def take_memory(program, attack):
    """One attack on a fresh proxy, which has its memory of the attack alone."""
    what = attack.what
    with Stand(program) as stand:
        stand.start_proxy()
        before = megabytes(stand.proxy)
        held = sent(stand, attack)
        time.sleep(6)
        peak, lines = megabytes(stand.proxy, "VmHWM"), stand.proxy_log().count("\n")
        statuses: collections.Counter[int] = collections.Counter()
        for connection in held:
            connection.take(0.01)
            statuses.update(connection.statuses.values())
        print(f"      {what}, {len(held)} connections: {before} MB before, {peak} at most; {lines} lines of log; "
              f"answers: {dict(statuses)}")
        check(f"{what}: the proxy takes at most {MEGABYTES} MB", peak <= MEGABYTES, peak)
        check("and its log has few lines of it", lines <= LINES, lines)
        check(f"each has {ALLOWED} requests at a time", held[-1].settings.get(MAX_STREAMS) == ALLOWED, held[-1].settings)
        if attack.later:
            check("they are answered 413, before they are all here", statuses[413] > statuses[408], statuses)
        for connection in held:
            connection.tls.close()


def silent(stand, source, count):
    """Connections of an address that say nothing."""
    held = []
    for _ in range(count):
        with contextlib.suppress(OSError):
            held.append(socket.create_connection(("127.0.0.1", stand.port), 5, (source, 0)))
    return held


def fill(stand):
    """Three addresses ask for as many connections as they like: a resident from a fourth is served at once."""
    held = [one for number in range(2, 5) for one in silent(stand, f"127.0.0.{number}", 399)]
    waits = []
    for _ in range(5):
        began = time.monotonic()
        plain = socket.create_connection(("127.0.0.1", stand.port), 60, ("127.0.0.5", 0))
        with unchecked().wrap_socket(plain, server_hostname=HOST) as resident:
            resident.sendall(f"GET / HTTP/1.1\r\nHost: {HOST}\r\n\r\n".encode())
            told = first_line(resident)
        waits.append(time.monotonic() - began)
        check_quietly(told.endswith("200 OK"), told)
    print(f"      3 addresses with 399 silent connections each: a resident waits {max(waits):.2f} s at most")
    check("a resident from a fourth address is served at once", max(waits) < 2, waits)
    for one in held:
        one.close()


def check_quietly(holds, more):
    """Ends the trial where the resident is not served."""
    if not holds:
        check("the resident has the page", False, more)


def try_memory(program):
    """Tries each."""
    for attack in ATTACKS:
        take_memory(program, attack)
    with Stand(program) as stand:
        stand.start_proxy()
        fill(stand)


if __name__ == "__main__":
    if len(sys.argv) != 2:
        sys.exit("usage: /usr/bin/python3 deploy/trial/memory.py PROGRAM")
    try_memory(sys.argv[1])
