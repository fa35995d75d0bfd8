"""Asks the keeper over one of its sockets: a line of JSON on a connection of its own, and a line back."""

import contextlib
import enum
import json
import socket
from typing import Any


class Kind(enum.Enum):
    """What an answer of the keeper is."""

    ENDED = "none, since the keeper ended meanwhile"
    FORMER = "people would come under identifiers that were somebody else's"
    UNSURE = "a fault, and nobody knows whether it was done all the same"
    REFUSED = "a fault, since the program has refused a line"
    FAULT = "another fault"
    DONE = "what was asked for"


def kind_of(answer: Any) -> Kind:
    """What an answer of the keeper is."""
    if not isinstance(answer, dict):
        return Kind.ENDED
    if "former" in answer:
        return Kind.FORMER
    if "fault" not in answer:
        return Kind.DONE
    return Kind.UNSURE if answer.get("unknown") else Kind.REFUSED if "refused" in answer else Kind.FAULT


def answer_to(request: dict[str, Any], path: str, seconds: float) -> Any:
    """The keeper's answer; None if it ended meanwhile. A keeper that is not there, or too slow, raises OSError, and an answer
    that is cut off ValueError."""
    with socket.socket(socket.AF_UNIX) as connection:
        connection.settimeout(seconds)
        connection.connect(path)
        with contextlib.suppress(BrokenPipeError, ConnectionResetError):  # the keeper has said why it takes no more
            connection.sendall(json.dumps(request).encode() + b"\n")
        with connection.makefile("rb") as answer:
            return json.loads(answer.readline() or b"null")
