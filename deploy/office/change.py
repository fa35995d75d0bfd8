"""A change of the office that somebody waits for: what is asked for, and what comes of it."""

import threading
from collections.abc import Callable
from dataclasses import dataclass, field
from pathlib import Path
from typing import Any

from copies import State
from journal import spoken_of
from languages import _, spoken
from program import Answer, is_refused
from seen import Saw
from settings import Fault, NotKnown

CarryOut = Callable[[Path], list[Answer]]
Register = Callable[[set[str], set[str]], None]


@dataclass
class Change:  # pylint: disable=too-many-instance-attributes  # what is asked for, and what comes of it
    """A change of the office that somebody waits for."""

    who: str
    line: str                                   # as the journal has it
    carry_out: CarryOut                         # on a copy, or on the office's file
    whole: bool = False                         # on a copy, which then replaces the file: a way back
    plan: Callable[[Path], list[str]] | None = None  # gives its lines by a copy of the office, once its turn has come
    kind: str = ""                              # the kind of the copy that is kept before, or none; lines may need none
    before: str = ""                            # what the reason of this copy says that it was kept before
    damaged: bool = False                       # even if the office is damaged
    register: Register | None = None            # learns who comes into the register and who leaves, before they do
    erases: bool = False                        # nothing of what it overwrites may stay in the office's file
    before_put: Callable[[], None] | None = None  # done just before the copy takes the office's place, when nothing is in the way
    lines: list[str] = field(default_factory=list)  # that it carries out one after the other
    speak: Callable[[list[str]], str] = field(default=spoken_of)  # some of these lines, as the journal has them
    come: set[str] = field(default_factory=set)  # who comes into the register by it; some may be there
    gone: set[str] = field(default_factory=set)  # who is out of the register after it
    seen: str | None = None                     # the state in which its sender saw the round
    saw: Saw | None = None                      # what its sender saw of people
    why_not: Callable[[], str] | None = None    # why it is not made although all this is as it was, or nothing
    language: str = field(default_factory=spoken)  # of its sender
    tried: State | None = None                  # of the file, when a copy of it has taken the change
    copy: str | None = None                     # the name of the copy that was kept before; empty once that is deleted again
    answers: list[Answer] = field(default_factory=list)
    reached: bool = False                       # whether it came as far as the office's file: before that nothing takes effect
    untouched: bool = False                     # whether it has ended, and the office has taken nothing of it
    made: int = 0                               # how many of its lines are in effect
    left: str = ""                              # what of it is left to be done, and why; nothing if all is done
    took: int = 0                               # milliseconds
    fault: str = ""
    unknown: bool = False                       # whether nobody knows, with this fault, if it was made
    wanted: threading.Lock = field(default_factory=threading.Lock)  # taken to make the change, or to give it up
    done: threading.Event = field(default_factory=threading.Event)

    @property
    def why(self) -> str:
        """Why the copy is kept. The office's page reads it (reasons.py)."""
        return f"before {self.before}, by {self.who}"

    @property
    def unkept(self) -> dict[str, str]:
        """What of it is left to be done, for its sender; nothing if all is done."""
        return {"unkept": self.left} if self.left else {}

    def told(self) -> dict[str, Any]:
        """The answer to its sender."""
        return {"answers": self.answers, "done": not is_refused(self.answers), "made": self.made, "took": self.took,
                "copy": self.copy, **self.unkept}

    def end(self, fault: str) -> None:
        """Ends a change that is not made."""
        self.fault = fault
        self.done.set()


def besides(why: object, left: str, unknown: bool) -> Fault:
    """The fault of a change of which something else is left to be done, too."""
    return (NotKnown if unknown else Fault)(_("{why} Besides: {left}", why=why, left=left) if left else why)
