"""How the servers of pages listen: on the socket that systemd hands over, or on one of their own."""

import os
import socket
from pathlib import Path
from typing import Any

import waitress


def serve(application: Any, place: str, **options: Any) -> None:
    """Serves a WSGI application until it is ended."""
    options = {"clear_untrusted_proxy_headers": True, "ident": None, **options}
    if "LISTEN_FDS" in os.environ:
        waitress.serve(application, sockets=[socket.socket(fileno=3)], **options)
    else:
        Path(place).unlink(missing_ok=True)
        waitress.serve(application, unix_socket=place, **options)
