"""What the journal says itself of each change: its two entries made one, which lines were carried out, which copy was kept before,
and to which copy the office went back."""

import enum
import re
from typing import Any

import times
from journal import EARLIER, NOT_KNOWN
from lines import ACCEPTED, NOT_TAKEN

WENT_BACK = re.compile(r"back (\S+?)(?:,|$)")

Entry = dict[str, Any]


class Outcome(enum.Enum):
    """What came of a change."""

    DONE = "done"
    NOT_DONE = "not done"
    UNKNOWN = "nobody knows"


DONE, NOT_DONE, UNKNOWN = Outcome.DONE, Outcome.NOT_DONE, Outcome.UNKNOWN


def merged(journal: list[Entry]) -> list[Entry]:
    """The journal with one entry for each change. The keeper writes two, before the change and after it. What is left of an entry
    that was cut off has no time: it has that of the entry before."""
    rows: dict[str, Entry] = {}
    at = ""
    for number, entry in enumerate(journal):
        at = entry.get("at", at)
        if at:
            row = rows.setdefault(str(entry.get("n", f"entry {number}")), {"at": at})
            row.update({name: value for name, value in entry.items() if name != "at"})
    return list(rows.values())


def lines_of(entry: Entry) -> list[str]:
    """The lines that the keeper carried out, or may have carried out; none of what somebody has noted."""
    return [] if said_of(entry) is NOT_DONE else str(entry.get("line", "")).split("; ")


def said_of(entry: Entry) -> Outcome:
    """What an entry says of its change. A way back that ended by a fault was not made: the copy was not yet in its place."""
    status = entry.get("status")
    if "n" not in entry or status in NOT_TAKEN or entry.get("taken") is False:
        return NOT_DONE
    if status == ACCEPTED:
        return DONE
    failed = "answer" in entry and entry["answer"] not in (NOT_KNOWN, EARLIER)
    return NOT_DONE if failed and WENT_BACK.match(str(entry.get("line", ""))) else UNKNOWN


def kept_at(entry: Entry) -> str:
    """The copy that was kept just before a change, or that somebody asked for; nothing if there is none."""
    return str(entry.get("copy") or (entry.get("answer", "") if entry.get("line") == "backup" else ""))


def copy_in(line: str) -> str:
    """To which copy the office goes back by a line; nothing if it is no way back."""
    found = WENT_BACK.match(line)
    return found[1] if found and times.moment_of(found[1]) else ""


def went_back_to(entry: Entry) -> str:
    """To which copy the office went back by a change, or may have done so when the keeper was ended; nothing if it did not."""
    return copy_in(str(entry.get("line", ""))) if "answer" in entry and said_of(entry) is not NOT_DONE else ""
