#!/usr/bin/python3
"""rooms-account: hands requests of residents on who are signed in by the college's own account, with the key of each.

Apache is in front of it, has signed the resident in (deploy/sign-in/README.md), and names the account in the field
Room-Account; nobody else can open this program's socket. The program asks the keeper for the key of the account's person
and sends the request with this key to HAProxy, where it waits for its turn like any other. No field of the request but
the length of a list goes on, and no key comes back.

A browser sends the cookie of a signed-in resident with requests of other sites, too. So each request has the field
Room-Sign-In, which another site's page cannot send.
"""

import base64
import binascii
import http.client
import json
import os
import socket
from collections.abc import Callable, Iterable
from typing import Any

import asking
from languages import _, accepted, first_of, speaking
from serving import serve

PLACE = os.environ.get("ROOMS_SIGNED_IN_SOCKET", "/run/rooms-account.sock")
KEEPER = os.environ.get("ROOMS_ACCOUNT_SOCKET", "/run/rooms-keys.sock")
PROXY = os.environ.get("ROOMS_TURN_SOCKET", "/run/haproxy/rooms-account.sock")
# The requests of docs/residents.md.
REQUESTS = {"/account/me": ("GET", "/me"), "/account/rooms": ("GET", "/rooms"),
            "/account/me/choices": ("PUT", "/me/choices"), "/account/me/withdraw": ("POST", "/me/withdraw")}
# Where Apache lets nobody through who is not signed in, and where a resident therefore goes to sign in.
SIGN_IN = "/account/in"
SIGNED_IN = "/?account"
LONGEST_BODY = 1024
KEEPER_SECONDS = 30.0
PROXY_SECONDS = 85.0  # the longest wait in HAProxy's queue, and the server's time

Answer = tuple[int, bytes, str]


class Through(http.client.HTTPConnection):
    """A connection over a Unix socket."""

    def __init__(self, path: str) -> None:
        super().__init__("rooms", timeout=PROXY_SECONDS)
        self.path = path

    def connect(self) -> None:
        """Opens the socket."""
        self.sock = socket.socket(socket.AF_UNIX)
        self.sock.settimeout(self.timeout)
        self.sock.connect(self.path)


def error(status: int, name: str) -> Answer:
    """An answer as `rooms serve` gives it."""
    return status, json.dumps({"error": name}).encode(), "application/json"


def account_in(field: str) -> str:
    """The account that Apache names, or nobody."""
    try:
        return base64.b64decode(field, validate=True).decode()
    except (binascii.Error, UnicodeDecodeError):
        return ""


def key_of(account: str) -> str:
    """The key of an account's person; nothing if nobody has the account."""
    return str(asking.answer_to({"ask": "key", "account": account}, KEEPER, KEEPER_SECONDS)["key"])


def sent(method: str, path: str, body: bytes | None, key: str) -> Answer:
    """What the server answers to a request with this key."""
    connection = Through(PROXY)
    try:
        connection.request(method, path, body, {"Room-Key": key})
        answer = connection.getresponse()
        return answer.status, answer.read(), answer.getheader("Content-Type", "application/json")
    except (OSError, http.client.HTTPException):
        # Nobody knows whether the request was carried out. The residents' page says so where the answer is no JSON.
        return 502, f"{_('no answer came')}\n".encode(), "text/plain; charset=utf-8"
    finally:
        connection.close()


def answer_to(environ: dict[str, Any]) -> Answer:
    """The answer to a request of somebody who is signed in."""
    method, path = environ["REQUEST_METHOD"], environ["PATH_INFO"]
    if path not in REQUESTS:
        return error(404, "NotFound")
    if method != REQUESTS[path][0]:
        return error(405, "MethodNotAllowed")
    if environ.get("HTTP_ROOM_SIGN_IN") != "account":
        return error(403, "OtherSite")
    account = account_in(environ.get("HTTP_ROOM_ACCOUNT", ""))
    try:
        key = key_of(account) if account else ""
    except (OSError, ValueError, KeyError, TypeError):
        return error(503, "Unavailable")
    if not key:
        return error(403, "NoPerson")
    body = environ["wsgi.input"].read(LONGEST_BODY + 1) if method == "PUT" else None
    return sent(*REQUESTS[path], body, key)


def app(environ: dict[str, Any], start_response: Callable[..., Any]) -> Iterable[bytes]:
    """The WSGI application."""
    if environ["PATH_INFO"] == SIGN_IN:
        start_response("303 See Other", [("Location", SIGNED_IN), ("Content-Length", "0")])
        return [b""]
    with speaking(first_of(accepted(environ.get("HTTP_ACCEPT_LANGUAGE", "")))):
        status, body, kind = answer_to(environ)
    reason = http.client.responses.get(status, "Unknown")
    start_response(f"{status} {reason}", [("Content-Type", kind), ("Content-Length", str(len(body)))])
    return [body]


def main() -> None:
    """Serves until it is ended."""
    os.umask(0o077)
    # A thread waits for each request that waits for its turn. The keeper takes twelve requests of an account at a time.
    serve(app, PLACE, threads=10, max_request_body_size=LONGEST_BODY + 1)


if __name__ == "__main__":
    main()
