"""The proxy's limits on time, size, rate and connections, and what it writes down.

This run alone: /usr/bin/python3 deploy/trial/limits.py PROGRAM
"""

import contextlib
import http.client
import socket
import subprocess
import sys
import tempfile
import time
from pathlib import Path

from http2 import Http2
from stand import DEPLOY, HOST, Stand, check, key_of, unchecked, until

FIELDS = f"Host: {HOST}\r\nRoom-Key: {key_of('T1')}\r\n"
# So many requests are allowed in so many seconds. The proxy lets those of the ten seconds before fade, so that
# it takes more to be over the rate for certain.
LIMIT = 1500
MORE = 700
WINDOW = 10
# So many connections one address may have.
OPEN = 250


def connected(stand, source="127.0.0.1"):
    """A TLS connection to the proxy, from an address of this machine."""
    plain = socket.create_connection(("127.0.0.1", stand.port), 60, (source, 0))
    return unchecked().wrap_socket(plain, server_hostname=HOST)


def first_line(connection):
    """The status line of the answer, or nothing."""
    with contextlib.suppress(OSError):
        return connection.recv(200).split(b"\r\n")[0].decode()
    return ""


def slow_ones(stand):
    """Heads and bodies that do not come hold nobody up, and are dropped."""
    held = []
    for text in (
        "GET /me HTTP/1.1\r\nHost: rooms",
        f"PUT /me/choices HTTP/1.1\r\n{FIELDS}Content-Length: 6\r\n\r\n[\"",
    ):
        for _ in range(20):
            connection = connected(stand)
            connection.sendall(text.encode())
            held.append(connection)
    began = time.monotonic()
    with connected(stand) as other:
        other.sendall(f"GET /me HTTP/1.1\r\n{FIELDS}\r\n".encode())
        check(
            "40 slow residents hold nobody up",
            first_line(other) == "HTTP/1.1 200 OK" and time.monotonic() - began < 8,
        )
    slow = first_line(held[0]), first_line(held[-1])
    check("they are dropped after five seconds", time.monotonic() - began < 25 and "200" not in "".join(slow), slow)
    for connection in held:
        connection.close()


def sizes(stand):
    """Bodies that are too long, and paths that are none."""
    for length, wanted in ((1024, "HTTP/1.1 400"), (1025, "HTTP/1.1 413")):
        with connected(stand) as connection:
            body = b"x" * length
            connection.sendall(
                f"PUT /me/choices HTTP/1.1\r\n{FIELDS}Content-Length: {length}\r\n\r\n".encode() + body
            )
            told = first_line(connection)
            check(f"a body of {length} bytes is answered {wanted[-3:]}", told.startswith(wanted), told)
    for length, wanted in ((2, "HTTP/1.1 200"), (1025, "HTTP/1.1 413")):
        with connected(stand) as connection:
            body = b"[" + b" " * (length - 2) + b"]"
            chunks = b"1\r\n[\r\n%x\r\n%s\r\n0\r\n\r\n" % (length - 1, body[1:])
            connection.sendall(f"PUT /me/choices HTTP/1.1\r\n{FIELDS}Transfer-Encoding: chunked\r\n\r\n".encode() + chunks)
            told = first_line(connection)
            check(f"{length} bytes in chunks are answered {wanted[-3:]}", told.startswith(wanted), told)
        with Http2(stand) as connection:
            stream = connection.ask("PUT", "/me/choices", ("room-key", key_of("T1")), body=body)
            connection.take(20, until=stream)
            told = connection.statuses.get(stream)
            check(f"{length} bytes without their length over HTTP/2, too", told == int(wanted[-3:]), told)
    with connected(stand) as connection:
        connection.sendall(f"GET /me HTTP/1.1\r\n{FIELDS}X-Long: {'x' * 8192}\r\n\r\n".encode())
        check("a head of more than 8,192 bytes is answered 431", " 431 " in first_line(connection))
    with connected(stand) as connection:
        connection.sendall(f"GET /other HTTP/1.1\r\n{FIELDS}\r\n".encode())
        check("no other path comes to the server", first_line(connection) == "HTTP/1.1 404 Not Found")


class Connection(http.client.HTTPConnection):
    """A connection to the proxy, which names its host in TLS, also where it has to be made again."""

    def __init__(self, stand):
        super().__init__(HOST)
        self.stand = stand

    def connect(self):
        self.sock = connected(self.stand)


def rate(stand):
    """More than the limit in ten seconds from one address are answered 429. A slow machine does not get so far."""
    statuses = []
    connection = Connection(stand)
    began = time.monotonic()
    for _ in range(LIMIT + MORE):
        connection.request("GET", "/me", headers={"Host": HOST, "Room-Key": key_of("T1")})
        answer = connection.getresponse()
        answer.read()
        statuses.append(answer.status)
    took = time.monotonic() - began
    connection.close()
    check("the first have their answers", set(statuses[:1000]) == {200}, set(statuses[:1000]))
    over = statuses.count(429)
    print(f"      {over} of {len(statuses)} requests, sent in {took:.1f} seconds, were over the rate")
    if took < WINDOW:
        check("and those over the rate are answered 429", over > 0, set(statuses))


def connections(stand):
    """One address may not take all connections of the proxy."""
    held, closed = [], 0
    for _ in range(OPEN + 50):
        try:
            plain = socket.create_connection(("127.0.0.1", stand.port), 60, ("127.0.0.9", 0))
        except ConnectionResetError:
            # The proxy may close a connection before the system has told that it is there.
            closed += 1
            continue
        plain.setblocking(False)
        held.append(plain)
    end = time.monotonic() + 8
    while closed < 50 and time.monotonic() < end:
        time.sleep(0.5)
        for plain in [one for one in held if is_closed(one)]:
            held.remove(plain)
            plain.close()
            closed += 1
    check(f"of {OPEN + 50} silent connections from one address the last 50 are closed", closed == 50, closed)
    began = time.monotonic()
    with connected(stand) as other:
        other.sendall(f"GET /me HTTP/1.1\r\n{FIELDS}\r\n".encode())
        check(
            "another address is served meanwhile",
            first_line(other).endswith("200 OK") and time.monotonic() - began < 8,
        )
    for plain in held:
        plain.close()


def is_closed(plain):
    """Whether the other side has closed a silent connection."""
    try:
        return plain.recv(1) == b""
    except BlockingIOError:
        return False
    except ConnectionError:
        return True


def key_in_address(stand):
    """What comes after `?` is not logged: some people write their key there."""
    with connected(stand) as connection:
        connection.sendall(f"GET /me?key={key_of('T1')} HTTP/1.1\r\nHost: {HOST}\r\n\r\n".encode())
        check("a key in the address is none", first_line(connection) == "HTTP/1.1 403 Forbidden")
    until(lambda: '"GET /me HTTP/1.1"' in stand.proxy_log(), 10, "the line in the proxy's log")
    check(
        "and the log has the path alone", '"GET /me HTTP/1.1"' in stand.proxy_log() and "?" not in stand.proxy_log()
    )


def nobody(stand):
    """What a watch asks: a key of nobody is answered 403, through proxy, server and file."""
    for started, wanted in ((True, "403"), (False, "503")):
        with connected(stand, "127.0.0.5") as connection:
            connection.sendall(f"GET /me HTTP/1.1\r\nHost: {HOST}\r\nRoom-Key: 0000000000000000\r\n\r\n".encode())
            told = first_line(connection)
            check(
                f"a key of nobody is answered {wanted} where the server {'runs' if started else 'does not run'}",
                wanted in told,
                told,
            )
        if started:
            stand.stop_keeper()


def beside(stand):
    """What the program says to a line while the server holds the file."""
    line = [stand.program, "do", "--db", stand.file, "rooms"]
    return subprocess.run(line, capture_output=True, text=True, check=False).stdout


def as_it_is():
    """HAProxy takes the repository's file as it is, but for the certificate and the folder of the page."""
    with tempfile.TemporaryDirectory() as folder:
        key, certificate = Path(folder) / "key.pem", Path(folder) / "certificate.pem"
        subprocess.run(
            [
                "openssl",
                "req",
                "-x509",
                "-newkey",
                "ec",
                "-pkeyopt",
                "ec_paramgen_curve:prime256v1",
                "-nodes",
                "-subj",
                "/CN=trial",
                "-keyout",
                key,
                "-out",
                certificate,
            ],
            check=True,
            stderr=subprocess.DEVNULL,
        )
        (Path(folder) / "rooms.pem").write_text(certificate.read_text() + key.read_text())
        text = (DEPLOY / "haproxy.cfg").read_text(encoding="utf-8")
        text = text.replace("/etc/haproxy/rooms.pem", f"{folder}/rooms.pem").replace(
            "/srv/rooms/portal", str(DEPLOY / "portal")
        )
        (Path(folder) / "haproxy.cfg").write_text(text, encoding="utf-8")
        done = subprocess.run(
            ["haproxy", "-c", "-q", "-f", f"{folder}/haproxy.cfg"], capture_output=True, text=True, check=False
        )
        check(
            "HAProxy takes the file as it is, without a warning",
            done.returncode == 0 and not done.stderr + done.stdout,
            done.stderr + done.stdout,
        )


def try_limits(program):
    """Tries each limit."""
    as_it_is()
    with Stand(program) as stand:
        for line in ("room H1", f"person T1 {key_of('T1')} Tim Tan", "home T1 H1", "open"):
            stand.tell(line)
        stand.start()
        stand.start_proxy()
        check("while the server runs the program's line is unavailable", "unavailable" in beside(stand))
        slow_ones(stand)
        sizes(stand)
        connections(stand)
        key_in_address(stand)
        rate(stand)
        nobody(stand)
        check("no log of the proxy has a key", "key0" not in stand.proxy_log())


if __name__ == "__main__":
    if len(sys.argv) != 2:
        sys.exit("usage: /usr/bin/python3 deploy/trial/limits.py PROGRAM")
    try_limits(sys.argv[1])
