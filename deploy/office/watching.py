"""Whether the office works, as far as the keeper can see: for a monitor that asks again and again (`rooms-office
watch`)."""

import contextlib
import http.client
import time
from typing import Any

from beside_register import BesideRegister
from disk import fault_of_disk
from office import Office
from placing import beside
from worker import Worker

NOBODY = "0" * 16           # a key that nobody has: the server refuses it, and so has read the office
ANSWER_SECONDS = 10.0       # so long the server may be away for a change
OLDEST_COPY = 26 * 3600     # seconds: there is a copy each night
CLOCK_STEP = 60             # seconds by which a clock may be set back unnoticed
SHOWN = 3600                # seconds for which a server that ended by itself is a fault


def fault_of_server(port: int) -> str:
    """What is wrong with the server, if anything."""
    end = time.monotonic() + ANSWER_SECONDS
    while True:
        left = end - time.monotonic()
        connection = http.client.HTTPConnection("127.0.0.1", port, timeout=max(0.1, left))
        try:
            with contextlib.closing(connection):
                connection.request("GET", "/me", headers={"Room-Key": NOBODY})
                status = connection.getresponse().status
            return "" if status == http.HTTPStatus.FORBIDDEN else f"the server answers {status} to a key of nobody"
        except (OSError, http.client.HTTPException) as why:
            if left < 0:
                return f"the server does not answer ({why})"
            time.sleep(0.2)


def fault_of_copies(age: float | None) -> str:
    """What is wrong with the newest copy that was asked for, if anything. Copies before lines say nothing of the timer that
    asks for one each night."""
    if age is None:
        return "there is no copy of the office that was asked for"
    if age < -CLOCK_STEP:
        return "the newest copy has a time to come, so its age is not known: was the clock set back?"
    return f"the newest copy is {age / 3600:.0f} hours old" if age > OLDEST_COPY else ""


def fault_of_past(ended: dict[str, Any] | None) -> str:
    """Whether the server has ended by itself within the last hour: it runs again, but something may be wrong."""
    if ended is None or ended["status"] == 0 or ended["ago"] > SHOWN:
        return ""
    return f"the server ended by itself with status {ended['status']} at {ended['at']} (so far {ended['times']})"


def fault_of_anew(failed: bool) -> str:
    """What is wrong with the office's file, if it could not be written anew."""
    return "what was erased may still be in the office's file, which could not be written anew" if failed else ""


def fault_of_leaving(failed: set[str]) -> str:
    """What is wrong beside the register, if something of people who are out of it could not be erased. It names nobody."""
    return "what is kept beside the register of people who are out of it could not be erased" if failed else ""


def watch(office: Office, worker: Worker, register: BesideRegister) -> dict[str, Any]:
    """What is wrong, and the age in seconds of the newest copy that was asked for."""
    age = office.backups.age()
    found = [fault_of_server(office.settings.port), fault_of_disk(beside(office.settings.file, ".watch")), fault_of_copies(age),
             fault_of_past(worker.ended()), fault_of_anew(worker.anew.failed), fault_of_leaving(register.failed)]
    return {"faults": [fault for fault in found if fault], "age": max(0.0, age or 0.0)}
