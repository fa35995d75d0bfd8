#!/usr/bin/python3
"""rooms-told: serves what residents read of rooms to HAProxy. It has an account of its own, which may read this folder and
nothing of the office, and it never writes.

It listens on the socket that systemd hands over (rooms-told.socket), or on that of ROOMS_TOLD_SOCKET. HAProxy lets only
these paths through, and says itself of what kind each answer is.
"""

import os
import re
from collections.abc import Callable, Iterable
from pathlib import Path
from typing import Any

from house_places import here
from serving import serve
from told_files import FILE, PICTURE

FOLDER = Path(os.environ.get("ROOMS_TOLD", here().told))
PLACE = os.environ.get("ROOMS_TOLD_SOCKET", str(here().jail / "rooms-told.sock"))
TEXTS = "/told/told.json"
PICTURES = re.compile(rf"/told/({PICTURE.pattern})")
LONGEST = 130_000  # bytes of an answer; the keeper writes shorter files
NONE = b"{}"       # as long as no clerk has written anything


def content(name: str) -> bytes | None:
    """A file of the folder, or nothing. No link leads out of the folder."""
    try:
        held = os.open(FOLDER / name, os.O_RDONLY | os.O_NOFOLLOW | os.O_CLOEXEC)
    except OSError:
        return None
    with open(held, "rb") as opened:
        data = opened.read(LONGEST + 1)
    return data if len(data) <= LONGEST else None


def answer(path: str) -> tuple[str, list[tuple[str, str]], bytes]:
    """The status, the fields and the body of an answer."""
    if path == TEXTS:
        packed = content(FILE)
        fields = [("Content-Type", "application/json"), *([("Content-Encoding", "gzip")] if packed else [])]
        return "200 OK", fields, packed or NONE
    if (found := PICTURES.fullmatch(path)) and (data := content(found[1])) is not None:
        return "200 OK", [("Content-Type", "image/jpeg")], data
    return "404 Not Found", [("Content-Type", "text/plain")], b"no such page"


def app(environ: dict[str, Any], start_response: Callable[..., Any]) -> Iterable[bytes]:
    """The WSGI application."""
    status, fields, body = answer(environ.get("PATH_INFO", ""))
    start_response(status, [*fields, ("Content-Length", str(len(body)))])
    return [body]


def main() -> None:
    """Serves the folder until it is ended."""
    serve(app, PLACE, threads=2, max_request_body_size=1024)


if __name__ == "__main__":
    main()
