"""A request to the keeper, as its sender wrote it: its parts, each looked at before anything is done."""

import base64
import binascii
from typing import Any

from lines import IDENTIFIER
from seen import PARTS, Saw
from settings import Fault

Job = dict[str, Any]


def text(job: Job, name: str) -> str:
    """A field that has to be a text."""
    value = job[name]
    if not isinstance(value, str):
        raise Fault(f"not understood: {name} is no text")
    return value


def identifier_in(job: Job) -> str:
    """The identifier of a person, who may be in the register or not."""
    person = text(job, "person")
    if not IDENTIFIER.fullmatch(person):
        raise Fault("not understood: an identifier has up to twelve capital letters and digits")
    return person


def seen_in(job: Job) -> str | None:
    """In which state the sender saw the office, if the request says so."""
    return text(job, "seen") if job.get("seen") is not None else None


def saw_in(job: Job) -> Saw | None:
    """What the sender saw of people, if the request says so."""
    if job.get("saw") is None:
        return None
    part, people, mark = job["saw"]
    if part not in PARTS or not are_texts(people) or not isinstance(mark, str):
        raise Fault("not understood: saw is no part of what is on record of people")
    return Saw(part, people, mark)


def is_other(was: Any, now: list[str]) -> bool:
    """Whether the sender says what something was, of one person or of each, and it is something else by now."""
    return was is not None and now != (was if isinstance(was, list) else [was])


def are_texts(value: Any) -> bool:
    """Whether this is a list of texts."""
    return isinstance(value, list) and all(isinstance(one, str) for one in value)


def lines_of(job: Job) -> list[str]:
    """The lines of a request."""
    lines = job["lines"]
    if not lines or not are_texts(lines):
        raise Fault("not understood: lines are no list of texts")
    return list(lines)


def again_in(job: Job) -> set[str]:
    """The identifiers of which the sender says that they are those of the same people as before."""
    again = job.get("again") or []
    if not are_texts(again):
        raise Fault("not understood: again is no list of identifiers")
    return set(again)


def body_of(job: Job) -> bytes:
    """The bytes of a list."""
    try:
        return base64.b64decode(text(job, "body"), validate=True)
    except binascii.Error as fault:
        raise Fault("not understood: the body is not in base 64") from fault
