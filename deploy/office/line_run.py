"""One run of `rooms lines`: the program opens a file once, and answers one line after the other. Keys and names go to its
standard input, so they are on no command line.

The answer to a command is one line. That to a query may have any number of lines: it ends where the answer to a `round` begins
that is sent behind it.
"""

import contextlib
import re
import subprocess
import tempfile
import threading
from pathlib import Path

from lines import ACCEPTED, NOT_UNDERSTOOD, READS, REFUSED, UNAVAILABLE, verb_of

TABLES = READS - {"round", "whatif"}  # the queries whose answers may have several lines, or none
OF_ROUND = re.compile(r"round \d+ [a-z]+ people \d+ .*\n")


class Ended(Exception):
    """The program has ended before it answered a line. Nobody knows whether this line took effect."""


def status_of(text: str) -> int:
    """The status of an answer. No row of a table begins like a refusal."""
    first = text.partition("\n")[0]
    if first.startswith("refused "):
        return REFUSED
    return {"not understood": NOT_UNDERSTOOD, "unavailable": UNAVAILABLE}.get(first, ACCEPTED)


def is_skipped(line: str) -> bool:
    """Whether the program answers nothing to a line: it has no words, or is a comment."""
    return line.startswith("#") or not line.removesuffix("\r").strip(" ")


class LineRun:
    """The program, while it answers lines. After so many seconds it is ended."""

    def __init__(self, words: list[str], seconds: float, scratch: Path) -> None:
        # pylint: disable=consider-using-with  # `close` ends both
        self.beside = tempfile.TemporaryFile(dir=scratch)
        self.process = subprocess.Popen(words, stdin=subprocess.PIPE, stdout=subprocess.PIPE, stderr=self.beside)
        self.seconds, self.said, self.is_late, self.handed = seconds, "", False, 0
        self.timer = threading.Timer(seconds, self.end_late)
        self.timer.daemon = True
        self.timer.start()

    def end_late(self) -> None:
        """Ends the program, since its time is over."""
        self.is_late = True
        self.process.kill()

    def ask(self, line: str) -> str:
        """The answer to a line that is not skipped."""
        many = verb_of(line) in TABLES
        self.hand_over(f"{line}\nround\n" if many else f"{line}\n")
        parts = [self.next_line()]
        if not many or status_of(parts[0]) != ACCEPTED:
            return parts[0]
        while not OF_ROUND.fullmatch(parts[-1]):
            parts.append(self.next_line())
        return "".join(parts[:-1])

    def hand_over(self, text: str) -> None:
        """Writes to the program. One that has ended has said why on its output."""
        assert self.process.stdin
        self.handed += 1
        with contextlib.suppress(BrokenPipeError):
            self.process.stdin.write(text.encode("utf-8", "surrogateescape"))
            self.process.stdin.flush()

    def next_line(self) -> str:
        """The next line of the output."""
        assert self.process.stdout
        line = self.process.stdout.readline().decode("utf-8", "replace")
        if not line.endswith("\n"):
            raise Ended
        return line

    def close(self) -> None:
        """Ends the input, and waits for the end of the program and of all that writes in its place. `said` has then what it
        said beside its answers."""
        if self.beside.closed:
            return
        assert self.process.stdin and self.process.stdout
        with contextlib.suppress(BrokenPipeError):
            self.process.stdin.close()
        self.process.stdout.read()
        self.process.stdout.close()
        self.process.wait()
        self.timer.cancel()
        self.beside.seek(0)
        self.said = self.beside.read().decode("utf-8", "replace")
        self.beside.close()
